"""Shows which words the script `desk` hands on to the program, and which are its own."""
from __future__ import annotations

import os
import re
import subprocess
import unittest

import nulvrader
from tests.support.desks import DESK
from tests.support.desk_tree import REPLAY, Tree
from tests.support.programs import ROOT

# What the program refuses, and what it takes.
WRONG = [
    ['replay', '--db', 'memory'],
    ['replay', '--at', '5'],
    ['replay', '--db', 'memory', '--at', 'x'],
    ['replay', '--db', 'memory', '--at', ''],
    ['replay', '--db', 'memory', '--at='],
    ['replay', '--db', 'memory', '--at=-5'],
    ['replay', '--db', 'memory', '--at', '-5'],
    ['replay', '--db', 'memory', '--at', '++5'],
    ['replay', '--db', 'memory', '--at', '5 '],
    ['replay', '--db', 'memory', '--at', '4102444800000'],
    ['replay', '--db', '--at', '5'],
    ['replay', '--db', '--foo', '5'],
    ['replay', '--db', 'memory', '--at', '5', 'foo'],
    ['replay', '--db', 'memory', '--at', '5', '-x'],
    ['replay', '--db', 'memory', '--at', '5', '--at', '6'],
    ['replay', '', '--at', '5'],
    ['serve', '--db', 'f', '--port', '99999', '--connections', '1'],
    ['serve', '--connections', '0'],
    ['serve', '--db', 'f', '--port', '-1', '--connections', '5'],
    ['serve', '--db', 'f', '--port', '0', '--connections', '4294967296'],
    ['report', '--db', 'f', 'foo'],
    ['report', 'stock'],
    ['report', '--db', 'f'],
    ['report', '--db', 'f', 'stock', 'holds'],
    ['report', '--db=f', 'stock', '--db=g'],
    ['migrate'],
    ['migrate', 'x'],
    ['migrate', '--db'],
    ['frob'],
    ['--frob'],
]
TAKEN = [
    list(REPLAY),
    ['replay', '--at=+5', '--db=memory'],
    ['replay', '--db', 'memory', '--at', '007'],
    ['replay', '--db', 'memory', '--at', '5', '--'],
    ['replay', '--db', 'memory', '--at', '4102444799999'],
    ['serve', '--db', 'no/f', '--port', '65535', '--connections', '0'],
    ['migrate', '--db', '-'],
    ['report', 'holds', '--db', 'no/f'],
]


class Arguments(Tree):
    def look(self, words: list[str]) -> tuple[int, str]:
        done = subprocess.run(
            [os.path.join(ROOT, 'dev', 'desk-arguments'), *words], capture_output=True, text=True
        )
        return done.returncode, done.stdout

    def test_wrong_ones_are_told_before_anything_is_built(self) -> None:
        for words in WRONG:
            with self.subTest(words=words):
                status, out, said = self.run_desk(*words)
                self.assertEqual((status, out), (2, ''))
                self.assertEqual(said, self.look(words)[1])
        for words in (
            ['serve', '--db', 'new.db', '--port', '99999'],
            ['--unproved', *WRONG[0]],
            ['--prove', *WRONG[0]],
        ):
            self.assertRegex(self.run_desk(*words)[2], r'\Aerror: ')
        self.assertEqual((self.calls(), os.listdir(self.work)), ([], []))

    def run_program(self, words: list[str]) -> subprocess.CompletedProcess[str]:
        return subprocess.run(
            [DESK, *words],
            capture_output=True,
            text=True,
            cwd=self.work,
            stdin=subprocess.DEVNULL,
        )

    @unittest.skipUnless(os.path.exists(DESK), 'there is no program')
    def test_they_are_told_as_the_program_does(self) -> None:
        for words in WRONG:
            with self.subTest(words=words):
                done = self.run_program(words)
                self.assertEqual((done.returncode, done.stdout), (2, ''))
                if '' not in words:
                    self.assertEqual(self.look(words), (2, done.stderr))
        for words in TAKEN:
            with self.subTest(words=words):
                done = self.run_program(words)
                self.assertIn(done.returncode, (0, 1))
                self.assertEqual(self.look(words), (0, ''))

    def test_the_version(self) -> None:
        version = re.match('Nulvrader ([0-9.]+),', self.read('docs/help/desk.txt'))
        assert version
        self.assertEqual(self.run_desk('--version'), (0, f'Nulvrader {version[1]}\n', ''))
        self.assertEqual((nulvrader.__version__, self.calls()), (version[1], []))


if __name__ == '__main__':
    unittest.main()
