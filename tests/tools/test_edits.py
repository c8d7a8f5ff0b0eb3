"""Shows that each edit which makes a body wrong can be applied, and that `dev/try-edits` tries
those that the gate leaves out, over a stand-in for `rt` that refuses as it is told."""
import glob
import os
import shutil
import subprocess
import tempfile
import unittest

from tests.support.programs import ROOT

TRY = os.path.join(ROOT, 'dev', 'try-edits')

# It says which edits it finds in the copy that it is in, and refuses each as the file `how` beside
# it has it.
RT = """#!/bin/sh
echo "rt: $*"
for edit in crates/*/must-fail/*; do
    crate=${edit#crates/}
    echo "rt: must-fail ${crate%%/*}/${edit##*/}: $(cat "${0%/*}/how")"
done
[ -e crates/agv_one/src/lib.rt ] && [ -e crates.txt ] && [ -e HANDLES ] &&
    ! [ -e crates/agv_one/out ] || echo 'rt: another copy than it should be'
"""
REFUSED = 'refused, as it must be: src/x.rt:1:1: error: no proof'


def read(path: str) -> str:
    with open(path) as file:
        return file.read()


def find_edits(pattern: str) -> dict[tuple[str, str], str]:
    """The paths below the repository that fit the pattern, by crate and name."""
    found = sorted(glob.glob(os.path.join(ROOT, pattern)))
    return {
        (path.replace('/must-fail/', '/').split('/')[-2], os.path.basename(path)): path
        for path in found
    }


class Edits(unittest.TestCase):
    def test_each_can_be_applied(self) -> None:
        """Each text to be replaced stands exactly once in its file, as the pairs before it have
        left it: those of the gate, which passes over one that can't be applied, and the others. No
        edit is one of both."""
        gate, others = find_edits('crates/*/must-fail/*'), find_edits('bench/edits/*/*')
        self.assertTrue(gate)
        self.assertTrue(others)
        for (crate, name), path in [*gate.items(), *others.items()]:
            with self.subTest(edit=f'{crate}/{name}'):
                self.assertTrue(name.endswith('.edit'))
                self.apply(crate, read(path))
        self.assertEqual(gate.keys() & others.keys(), set())

    def test_the_gate_has_few(self) -> None:
        """No more than docs/GATE.md says."""
        self.assertIn('at most 45 in all', read(os.path.join(ROOT, 'docs', 'GATE.md')))
        self.assertLessEqual(len(find_edits('crates/*/must-fail/*')), 45)

    def apply(self, crate: str, edit: str) -> None:
        texts: dict[str, str] = {}
        path = old = ''
        pairs = 0
        for line in edit.splitlines():
            word, _, rest = line.partition(': ')
            if word == 'file':
                path = rest
                texts.setdefault(path, read(os.path.join(ROOT, 'crates', crate, path)))
            elif word == 'old':
                old = rest
                self.assertEqual(texts[path].count(old), 1, old)
            elif word == 'new':
                texts[path] = texts[path].replace(old, rest)
                self.assertNotEqual(old, rest)
                pairs += 1
        self.assertTrue(pairs)


class TryEdits(unittest.TestCase):
    def setUp(self) -> None:
        folder = tempfile.TemporaryDirectory()
        self.addCleanup(folder.cleanup)
        self.top, self.bin = (os.path.join(folder.name, name) for name in ('top', 'bin'))
        for path in (
            'crates.txt',
            'HANDLES',
            'crates/agv_one/src/lib.rt',
            'crates/agv_one/out/old',
            'crates/agv_one/must-fail/kept.edit',
            'crates/agv_two/src/lib.rt',
            'bench/edits/agv_one/first.edit',
            'bench/edits/agv_one/second.edit',
            'bench/edits/agv_two/third.edit',
        ):
            self.write(os.path.join(self.top, path), 'text')
        os.mkdir(os.path.join(self.top, 'dev'))
        shutil.copy(TRY, os.path.join(self.top, 'dev'))
        self.write(os.path.join(self.bin, 'rt'), RT)
        os.chmod(os.path.join(self.bin, 'rt'), 0o755)

    def write(self, path: str, text: str) -> None:
        os.makedirs(os.path.dirname(path), exist_ok=True)
        with open(path, 'w') as file:
            file.write(text)

    def run_try(self, *names: str, how: str = REFUSED) -> tuple[int, list[str], str]:
        """The status, the lines and what is told besides, where `rt` says so of each edit."""
        self.write(os.path.join(self.bin, 'how'), how)
        env = {**os.environ, 'PATH': self.bin + os.pathsep + os.environ['PATH']}
        done = subprocess.run(
            [os.path.join(self.top, 'dev', 'try-edits'), *names],
            env=env,
            text=True,
            capture_output=True,
        )
        return done.returncode, done.stdout.splitlines(), done.stderr

    def test_it_tries_those_that_are_named(self) -> None:
        first, second, third = (
            f'rt: must-fail {name}.edit: {REFUSED}'
            for name in ('agv_one/first', 'agv_one/second', 'agv_two/third')
        )
        for names, crates, told in (
            (['first'], 'agv_one', [first]),
            (['agv_one/second'], 'agv_one', [second]),
            (['agv_one'], 'agv_one', [first, second]),
            (['second', 'agv_one'], 'agv_one', [first, second]),
            (['third', 'first'], 'agv_one agv_two', [first, third]),
        ):
            with self.subTest(names=names):
                count = len(told)
                self.assertEqual(
                    self.run_try(*names),
                    (0, ['rt: must-fail ' + crates, *told, f'{count} of {count} refused'], ''),
                )

    def test_what_is_not_refused_at_a_goal_fails(self) -> None:
        for how in (
            'NOT REFUSED: the crate is still proved with this edit',
            'BAD EDIT: it did not reach the prover',
            'refused, as it must be (only because a proof file names what the edit took away)',
            'refused, as it must be (only by a limit of the prover, which gave no verdict)',
        ):
            status, lines, _ = self.run_try('agv_one', how=how)
            self.assertEqual((status, lines[-1]), (1, '0 of 2 refused'))

    def test_with_no_name_it_lists_them(self) -> None:
        self.assertEqual(
            self.run_try(), (0, ['agv_one/first', 'agv_one/second', 'agv_two/third'], '')
        )

    def test_a_name_of_none_is_told(self) -> None:
        for name in ('fourth', 'agv_three', 'agv_two/first', 'kept'):
            status, lines, said = self.run_try('first', name)
            self.assertEqual((status, lines, said.count('\n')), (2, [], 1))
            self.assertIn(name, said)


if __name__ == '__main__':
    unittest.main()
