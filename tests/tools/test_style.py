"""Shows that all Python here has the form that black, flake8 and mypy ask for by pyproject.toml and
.flake8, and that the files that texts name are there."""
from __future__ import annotations

import ast
import os
import re
import shutil
import subprocess
import unittest

from tests.support.programs import ROOT

FOLDERS = ('tools', 'dev', 'tests', 'bench', 'examples')
PYTHON = '#!/usr/bin/env python3\n'
MOST_LINES = 50  # of a function
MOST_OF_A_FILE = 400
NAMED = re.compile(r'(?<![\w./-])(?:tools|dev|tests|bench|examples)/[\w/.-]*\w(?![\w/*<{-]|\.\*)')
PATH = re.compile(r'^[ \t]*sys\.path\b', re.M)
MODULE = re.compile(r'(?<![\w./*-])\w+\.py\b')


def text_of(path: str) -> str:
    with open(path, encoding='utf-8', errors='replace') as file:
        return file.read()


def files() -> list[str]:
    """All files in Python: those that end so, and programs whose names have no ending."""
    found = []
    for folder in FOLDERS:
        for at, _, names in os.walk(os.path.join(ROOT, folder)):
            paths = [os.path.join(at, name) for name in sorted(names)]
            found += [
                path
                for path in paths
                if path.endswith('.py')
                or ('.' not in os.path.basename(path) and text_of(path).startswith(PYTHON))
            ]
    return found


def docstrings(path: str) -> list[str]:
    """The texts at the head of a file, of its classes and of its functions."""
    kinds = (ast.Module, ast.ClassDef, ast.FunctionDef, ast.AsyncFunctionDef)
    nodes = [node for node in ast.walk(ast.parse(text_of(path))) if isinstance(node, kinds)]
    return [ast.get_docstring(node) or '' for node in nodes]


class Form(unittest.TestCase):
    def check(self, *line: str) -> None:
        """The command ends with 0; it is skipped where it is not installed."""
        if not shutil.which(line[0]):
            self.skipTest(f'{line[0]} is not here')
        done = subprocess.run(
            [*line, *files()], cwd=ROOT, capture_output=True, text=True, timeout=600, check=False
        )
        self.assertEqual(done.returncode, 0, done.stdout + done.stderr)

    def test_black(self) -> None:
        self.check('black', '--check', '--quiet', '--workers', '1')

    def test_flake8(self) -> None:
        self.check('flake8', '--jobs', '1')

    def test_mypy(self) -> None:
        """Types are right as `mypy --strict` has it, but for what pyproject.toml names. (A program
        may have the name of one in another folder.)"""
        if not shutil.which('mypy'):
            self.skipTest('mypy is not here')
        for folder in FOLDERS:
            with self.subTest(folder):
                top = os.path.join(ROOT, folder) + os.sep
                paths = [path for path in files() if path.startswith(top)]
                done = subprocess.run(
                    ['mypy', *paths], cwd=ROOT, capture_output=True, text=True, timeout=3600
                )
                self.assertEqual(done.returncode, 0, done.stdout + done.stderr)

    def test_functions_are_short(self) -> None:
        """No function has more than 50 lines."""
        found = set()
        for path in files():
            for node in ast.walk(ast.parse(text_of(path))):
                if isinstance(node, (ast.FunctionDef, ast.AsyncFunctionDef)):
                    if (node.end_lineno or 0) - node.lineno >= MOST_LINES:
                        found.add(f'{os.path.relpath(path, ROOT)}: {node.name}')
        self.assertEqual(found, set())

    def test_files_are_short(self) -> None:
        """No file has more than 400 lines."""
        counts = {os.path.relpath(path, ROOT): text_of(path).count('\n') for path in files()}
        long = {path: count for path, count in counts.items() if count > MOST_OF_A_FILE}
        self.assertEqual(long, {})

    def test_no_test_module_takes_from_another(self) -> None:
        """What tests share is in `tests/support`."""
        for path in files():
            if os.path.relpath(path, ROOT).startswith('tests'):
                taken = re.findall(r'^ *(?:from|import) (?:\S+\.)?test_\w+', text_of(path), re.M)
                self.assertEqual(taken, [], path)

    def test_programs_alone_say_where_packages_are(self) -> None:
        """One line of a program of `bench` or `examples`, which people start from a checkout, and
        of tests/run.py sets `sys.path`; nothing else does."""
        for path in files():
            name, text = os.path.relpath(path, ROOT), text_of(path)
            starts = text.startswith(PYTHON) or '__main__' in text or f'python3 {name}' in text
            is_one = starts and name.startswith(('bench/', 'examples/', 'tests/run.py'))
            self.assertLessEqual(len(PATH.findall(text)), int(is_one), name)


class Names(unittest.TestCase):
    def test_files_that_are_named(self) -> None:
        """Each file of a folder of programs or tests that a page or a text in Python names is
        there, and so is each module that one names alone."""
        texts = {path: docstrings(path) for path in files()}
        pages = [os.path.join(ROOT, name) for name in os.listdir(ROOT) if name.endswith('.md')]
        docs = os.path.join(ROOT, 'docs')
        pages += [os.path.join(docs, name) for name in os.listdir(docs) if name.endswith('.md')]
        texts.update({path: [text_of(path)] for path in pages})
        modules = {os.path.basename(path) for path in texts}
        seen, missing = 0, []
        for path, all_of_it in texts.items():
            for text in all_of_it:
                for name in NAMED.findall(text):
                    seen += 1
                    if not os.path.exists(os.path.join(ROOT, name)):
                        missing.append((os.path.relpath(path, ROOT), name))
                missing += [
                    (os.path.relpath(path, ROOT), name)
                    for name in MODULE.findall(text)
                    if name not in modules
                ]
        self.assertGreater(seen, 100)
        self.assertEqual(missing, [])


if __name__ == '__main__':
    unittest.main()
