"""Shows that docs/SECURITY.md names the attacks of `tests/attacks` as they are, and is short enough
to be read."""

from __future__ import annotations

import ast
import os
import re
import unittest

from tests.support.programs import ROOT

ATTACKS = os.path.join(ROOT, 'tests', 'attacks')
MOST = 1020  # words


def page() -> str:
    """The page."""
    with open(os.path.join(ROOT, 'docs', 'SECURITY.md'), encoding='utf-8') as file:
        return file.read()


def named() -> dict[str, set[str]]:
    """The classes that the page names, by their modules."""
    text = page().split('\n## How it is tested\n')[1].split('\n## ')[0]
    found: dict[str, set[str]] = {}
    module = ''
    for name in re.findall('`([A-Za-z0-9_]+)`', text):
        if name[0].islower():
            module = name
        else:
            found.setdefault(module, set()).add(name)
    return found


def tested(module: str) -> set[str]:
    """The classes of a module that have tests."""
    with open(os.path.join(ATTACKS, f'{module}.py'), encoding='utf-8') as file:
        tree = ast.parse(file.read())
    return {
        one.name
        for one in tree.body
        if isinstance(one, ast.ClassDef)
        and any(isinstance(part, ast.FunctionDef) and part.name[:5] == 'test_' for part in one.body)
    }


class Page(unittest.TestCase):
    def test_attacks(self) -> None:
        """Each attack is on the page, and each that the page names is there."""
        modules = {name[:-3] for name in os.listdir(ATTACKS) if name.endswith('.py')}
        modules -= {'__init__', 'test_attacks'}
        names = named()
        self.assertIn('way_in', modules)
        self.assertLessEqual(modules, set(names))
        for module in sorted(modules):
            self.assertEqual(names[module], tested(module), module)

    def test_each_is_carried_out(self) -> None:
        """`test_attacks` has each class of each module."""
        with open(os.path.join(ATTACKS, 'test_attacks.py'), encoding='utf-8') as file:
            tree = ast.parse(file.read())
        listed = {
            (one.module.split('.')[-1], name.name)
            for one in tree.body
            if isinstance(one, ast.ImportFrom) and one.module
            for name in one.names
        }
        modules = {name[:-3] for name in os.listdir(ATTACKS) if name.endswith('.py')}
        modules -= {'__init__', 'test_attacks'}
        self.assertEqual(listed, {(name, one) for name in modules for one in tested(name)})

    def test_words(self) -> None:
        self.assertLessEqual(len(page().split()), MOST)


if __name__ == '__main__':
    unittest.main()
