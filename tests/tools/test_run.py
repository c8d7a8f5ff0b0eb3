"""Shows what `tests/run.py` says of little modules whose tests pass, fail, fail once, are skipped
or end their process."""
from __future__ import annotations

import os
import shutil
import subprocess
import sys
import tempfile
import unittest

from tests.support.programs import ROOT

HEAD = 'import os, signal, unittest\n'
GOOD = (
    HEAD
    + '''
class Good(unittest.TestCase):
    def test_one(self):
        print('one is run')
    def test_two(self):
        for number in range(3):
            with self.subTest(number=number):
                self.assertLess(number, 3)
'''
)
BAD = (
    HEAD
    + '''
class Bad(unittest.TestCase):
    def test_good(self):
        pass
    def test_wrong(self):
        self.assertEqual(1, 2)
    def test_wrong_in_parts(self):
        for number in range(3):
            with self.subTest(number=number):
                self.assertEqual(number, 3)
'''
)
ONCE = (
    HEAD
    + '''
class Once(unittest.TestCase):
    def test_fails_once(self):
        if not os.path.exists(%r):
            open(%r, 'w').close()
            self.fail('the first time')
    def test_other(self):
        pass
'''
)
ODD = (
    HEAD
    + '''
@unittest.skip('nothing is here')
class Nothing(unittest.TestCase):
    def test_a(self):
        pass
    def test_b(self):
        pass
class Lacking(unittest.TestCase):
    @classmethod
    def setUpClass(cls):
        raise unittest.SkipTest('no broker is here')
    def test_c(self):
        pass
class Part(unittest.TestCase):
    def test_d(self):
        self.skipTest('nothing is here')
    def test_e(self):
        pass
'''
)
KILLED = (
    HEAD
    + '''
class Killed(unittest.TestCase):
    def test_a(self):
        pass
    def test_b(self):
        os.kill(os.getpid(), signal.SIGKILL)
    def test_c(self):
        os._exit(0)
    def test_d(self):
        pass
'''
)
NO_CLASS = (
    HEAD
    + '''
class Wrong(unittest.TestCase):
    @classmethod
    def setUpClass(cls):
        raise ValueError('no class')
    def test_a(self):
        pass
    def test_b(self):
        pass
'''
)


class Runs(unittest.TestCase):
    """Each test has a folder with the modules that it writes."""

    def setUp(self) -> None:
        folder = tempfile.TemporaryDirectory()
        self.addCleanup(folder.cleanup)
        self.top = folder.name
        for name in ('one', 'other'):
            os.makedirs(os.path.join(self.top, 'tests', name))
        shutil.copy(os.path.join(ROOT, 'tests', 'run.py'), os.path.join(self.top, 'tests'))

    def write(self, name: str, text: str) -> None:
        with open(os.path.join(self.top, 'tests', f'{name}.py'), 'w', encoding='utf-8') as file:
            file.write(text)

    def run_tests(self, *words: str) -> tuple[int, list[str]]:
        """The status, and the lines that are printed."""
        line = [sys.executable, os.path.join(self.top, 'tests', 'run.py'), *words]
        done = subprocess.run(line, capture_output=True, text=True, timeout=600, check=False)
        return done.returncode, done.stdout.splitlines()

    def check(self, status: int, last: list[str], *words: str) -> list[str]:
        """The status and the last lines are these. Returns all lines."""
        found, lines = self.run_tests(*words)
        self.assertEqual((found, lines[-len(last) :]), (status, last), '\n'.join(lines))
        return lines

    def test_all_pass(self) -> None:
        self.write('one/test_good', GOOD)
        self.write('other/test_more', GOOD.replace('Good', 'More'))
        for words in ((), ('--jobs', '3')):
            lines = self.check(0, ['0 skipped', '4 passed, 0 failed'], *words)
            self.assertEqual(sum(line.endswith('one is run') for line in lines), 2)

    def test_names(self) -> None:
        """A module, a class and a test are named without the folder of the module."""
        self.write('one/test_good', GOOD)
        self.write('other/test_bad', BAD)
        names = {
            'test_good': 2,
            'test_good.Good': 2,
            'test_good.Good.test_one': 1,
            'one.test_good': 2,
        }
        for name, count in names.items():
            self.check(0, ['0 skipped', f'{count} passed, 0 failed'], name)
        self.check(
            0,
            ['0 skipped', '3 passed, 0 failed'],
            'test_good',
            'test_bad.Bad.test_good',
            '--jobs',
            '2',
        )

    def test_one_fails_always(self) -> None:
        """A test that fails in several parts has failed once."""
        self.write('one/test_bad', BAD)
        self.write('one/test_good', GOOD)
        names = ['failed: test_bad.Bad.test_wrong', 'failed: test_bad.Bad.test_wrong_in_parts']
        for words in ((), ('--jobs', '2')):
            lines = self.check(1, [*names, '0 skipped', '3 passed, 2 failed'], *words)
            self.assertEqual(lines.count('== again: test_bad.Bad.test_wrong'), 1)

    def test_one_fails_once(self) -> None:
        for words in ((), ('--jobs', '2')):
            mark = os.path.join(self.top, f'mark{len(words)}')
            self.write('one/test_once', ONCE % (mark, mark))
            again = 'passed when run again: test_once.Once.test_fails_once'
            self.check(0, [again, '0 skipped', '2 passed, 0 failed'], *words)

    def test_some_are_skipped(self) -> None:
        """Each is counted, and those of a class that is skipped as a whole."""
        self.write('one/test_odd', ODD)
        last = ['4 skipped (3: nothing is here; 1: no broker is here)', '1 passed, 0 failed']
        for words in ((), ('--jobs', '2')):
            lines = self.check(0, last, *words)
            self.assertIn('skipped: test_odd.Lacking.test_c: no broker is here', lines)

    def test_none_passes(self) -> None:
        self.write('one/test_odd', ODD)
        last = ['3 skipped (2: nothing is here; 1: no broker is here)', '0 passed, 0 failed']
        self.check(1, last, 'test_odd.Nothing', 'test_odd.Lacking')

    def test_a_process_that_ends(self) -> None:
        """By a signal, or by itself: what ended it has failed, and the tests behind it are run."""
        self.write('one/test_killed', KILLED)
        self.write('one/test_good', GOOD)
        failed = ['failed: test_killed.Killed.test_b', 'failed: test_killed.Killed.test_c']
        for words in ((), ('--jobs', '2')):
            lines = self.check(1, [*failed, '0 skipped', '4 passed, 2 failed'], *words)
            self.assertEqual(
                lines.count('test_killed.Killed.test_b ended its process, with the status -9'), 2
            )
            self.assertEqual(
                lines.count('test_killed.Killed.test_c ended its process, with the status 0'), 2
            )

    def test_a_class_that_cannot_begin(self) -> None:
        self.write('one/test_wrong', NO_CLASS)
        failed = [f'failed: test_wrong.Wrong.test_{name}' for name in 'ab']
        self.check(1, [*failed, '0 skipped', '0 passed, 2 failed'])

    def test_a_module_that_cannot_be_loaded(self) -> None:
        self.write('one/test_none', 'import nothing_of_this_name\n')
        self.write('one/test_good', GOOD)
        self.write('one/test_ends', 'import os\nos._exit(7)\n')
        failed = ['failed: test_ends', 'failed: test_none', '0 skipped', '2 passed, 2 failed']
        lines = self.check(1, failed)
        self.assertIn("ModuleNotFoundError: No module named 'nothing_of_this_name'", lines)
        self.check(
            1, ['failed: test_good.None', '0 skipped', '0 passed, 1 failed'], 'test_good.None'
        )


if __name__ == '__main__':
    unittest.main()
