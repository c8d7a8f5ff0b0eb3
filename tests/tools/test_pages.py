"""Shows that the links of README.md, CHANGELOG.md, CONTRIBUTING.md and docs/ lead somewhere, that
these pages are no longer than a reader has time for, that the parts of tools/nulvrader are as their
table says, and that the release is the same wherever it stands."""
import ast
import glob
import json
import os
import re
import runpy
import unittest

import nulvrader
from tests.support.programs import ROOT

# The most words of a page that has fewer or more than the others may have, and of all pages.
MOST = {
    'README.md': 1300,
    'PERFORMANCE.md': 1530,
    'GATE.md': 900,
    'HTTP.md': 3700,
    'DECISIONS.md': 4300,
    'MODEL.md': 5000,
    'OPERATE.md': 7700,
    'BOARD.md': 830,
    'BOARD_API.md': 1340,
    'SECURITY.md': 900,
    'TWO_MACHINES.md': 1500,
}
MOST_OF_A_PAGE, MOST_OF_ALL = 3500, 43100
PACKAGE = os.path.join(ROOT, 'tools', 'nulvrader')


def pages() -> dict[str, str]:
    """The text of each page by its path."""
    paths = [os.path.join(ROOT, name) for name in ('README.md', 'CHANGELOG.md', 'CONTRIBUTING.md')]
    found = {}
    for path in paths + sorted(glob.glob(os.path.join(ROOT, 'docs', '*.md'))):
        with open(path) as file:
            found[os.path.relpath(path, ROOT)] = file.read()
    return found


PAGES = pages()


def without_code(text: str) -> str:
    return re.sub(r'^ *```.*?^ *```$', '', text, flags=re.S | re.M)


def headings(text: str) -> list[str]:
    return re.findall(r'^#+ (.*)$', without_code(text), re.M)


def anchor(heading: str) -> str:
    """The anchor of a heading as code hosts make it: small letters, no punctuation, a hyphen for
    each blank."""
    return re.sub(r'[^\w\- ]', '', heading.lower()).replace(' ', '-')


def taken(path: str) -> set[str]:
    """The parts of tools/nulvrader that a module there imports."""
    deep = os.path.relpath(path, PACKAGE).count(os.sep)
    found = set()
    with open(path, encoding='utf-8') as file:
        for node in ast.walk(ast.parse(file.read())):
            if isinstance(node, ast.ImportFrom) and node.level == deep + 1:
                names = [node.module] if node.module else [one.name for one in node.names]
                found |= {name.partition('.')[0] for name in names}
    return found - {'__version__'}


class Parts(unittest.TestCase):
    def test_each_imports_those_above_it(self) -> None:
        """The table of docs/ARCHITECTURE.md has each part of tools/nulvrader, and a part imports
        only itself and those above it."""
        table = PAGES['docs/ARCHITECTURE.md'].partition('| Part |')[2].partition('\n\n')[0]
        rows = re.findall(r'^\| (\w[\w, ]*) \|', table, re.M)
        parts = [part for row in rows for part in row.split(', ')]
        names = [name for name in os.listdir(PACKAGE) if not name.startswith('__')]
        self.assertEqual(sorted(parts), sorted(name.removesuffix('.py') for name in names))
        paths = glob.glob(os.path.join(PACKAGE, '**', '*.py'), recursive=True)
        self.assertGreater(len(paths), 100)
        for path in paths:
            part = os.path.relpath(path, PACKAGE).split(os.sep)[0].removesuffix('.py')
            above = set(parts[: parts.index(part) + 1]) if part in parts else set()
            self.assertLessEqual(taken(path), above, path)


class Links(unittest.TestCase):
    def test_links(self) -> None:
        """Each relative link leads to a file, and its anchor to a heading of it."""
        seen, broken = 0, []
        for page, text in PAGES.items():
            for target in re.findall(r'\]\(([^)\s]+)\)', without_code(text)):
                if re.match(r'\w+:', target):
                    continue
                seen += 1
                name, _, mark = target.partition('#')
                path = os.path.normpath(os.path.join(os.path.dirname(page), name)) if name else page
                if not os.path.exists(os.path.join(ROOT, path)):
                    broken.append((page, target))
                elif mark and mark not in [anchor(one) for one in headings(PAGES[path])]:
                    broken.append((page, target))
        self.assertGreater(seen, 20)
        self.assertEqual(broken, [])

    def test_pages_that_are_named(self) -> None:
        """A page that a text names as docs/NAME.md is there, in all files that people read."""
        seen, broken = 0, []
        for folder in (
            '.',
            'docs',
            'tools',
            'tools/nulvrader/*',
            'dev',
            'examples',
            'examples/*',
            'bench',
            'tests',
            'tests/*',
            'crates/*/src',
        ):
            for path in glob.glob(os.path.join(ROOT, folder, '*')):
                if not os.path.isfile(path) or path.endswith(('.png', '.pyc')):
                    continue
                with open(path, errors='replace') as file:
                    for name in re.findall(r'\bdocs/[A-Z]+\.md', file.read()):
                        seen += 1
                        if not os.path.exists(os.path.join(ROOT, name)) and name != 'docs/NAME.md':
                            broken.append((os.path.relpath(path, ROOT), name))
        self.assertGreater(seen, 50)
        self.assertEqual(broken, [])

    def test_sections_that_are_named(self) -> None:
        """Where a page names a section of another one, as (docs/OPERATE.md, *Sizing*), that has a
        heading that begins so."""
        seen, broken = 0, []
        for page, text in PAGES.items():
            for name, title in re.findall(
                r'\b((?:docs/)?[A-Z]+\.md)\)?,? \(?\*([^*]+)\*', ' '.join(text.split())
            ):
                seen += 1
                if not any(one.startswith(title) for one in headings(PAGES.get(name, ''))):
                    broken.append((page, name, title))
        self.assertGreater(seen, 3)
        self.assertEqual(broken, [])


class Crates(unittest.TestCase):
    def test_crates_that_are_named(self) -> None:
        """Each crate that a page names is one of crates.txt, and docs/ARCHITECTURE.md names each of
        these."""
        with open(os.path.join(ROOT, 'crates.txt')) as file:
            crates = {line.split(':')[0] for line in file if line.startswith('agv_')}
        named = {page: set(re.findall(r'\bagv_[a-z_]+', text)) for page, text in PAGES.items()}
        self.assertEqual(
            {page: names - crates for page, names in named.items() if names - crates}, {}
        )
        self.assertEqual(crates - named[os.path.join('docs', 'ARCHITECTURE.md')], set())


class Words(unittest.TestCase):
    def test_words(self) -> None:
        """No page has more words than a reader has time for, nor have all together."""
        counts = {page: len(text.split()) for page, text in PAGES.items()}
        most = {page: MOST.get(os.path.basename(page), MOST_OF_A_PAGE) for page in counts}
        self.assertEqual({page: count for page, count in counts.items() if count > most[page]}, {})
        self.assertLessEqual(sum(counts.values()), MOST_OF_ALL)


class Figures(unittest.TestCase):
    def test_the_rows(self) -> None:
        """The tables of calls in docs/PERFORMANCE.md have the rows that `bench/figures` prints, in
        their order."""
        figures = runpy.run_path(os.path.join(ROOT, 'bench', 'figures'))
        for head, wanted in (
            ('Call, in microseconds', figures['CALLS']),
            ('Call, in instructions', figures['GROWTH']),
        ):
            table = (
                PAGES['docs/PERFORMANCE.md']
                .split(f'| {head} |')[1]
                .split('\n\n')[0]
                .splitlines()[2:]
            )
            self.assertEqual([row.split(' | ')[0][2:] for row in table], list(wanted))


class Release(unittest.TestCase):
    def test_the_version(self) -> None:
        """The newest release of CHANGELOG.md is the version of docs/openapi.json, and of the
        program's help, in its source and its copy."""
        with open(os.path.join(ROOT, 'docs', 'openapi.json')) as file:
            version = json.load(file)['info']['version']
        releases = re.findall(r'^## (\S+)', PAGES['CHANGELOG.md'], re.M)
        self.assertRegex(version, r'^\d+\.\d+\.\d+$')
        self.assertEqual((releases[0], nulvrader.__version__), (version, version))
        for path in (('docs', 'help', 'desk.txt'), ('crates', 'agv_app_line', 'src', 'line.rt')):
            with open(os.path.join(ROOT, *path)) as file:
                self.assertEqual(
                    re.findall(r'\bNulvrader (\d\S*), the control desk', file.read()),
                    [version],
                    path,
                )


if __name__ == '__main__':
    unittest.main()
