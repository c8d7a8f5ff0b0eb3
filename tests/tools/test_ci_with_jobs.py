"""Shows in which order dev/ci-with-jobs runs the tasks of `rt ci`, with how many jobs, and with
which kit."""
import os
import re
import shutil
import subprocess
import sys
import tempfile
import threading
import unittest
import uuid
from typing import Any

from tests.support.programs import ROOT, module

PROGRAM = os.path.join(ROOT, 'dev', 'ci-with-jobs')
GB = 10**9

# A kit's `rt`: it says which kit it is, and where it runs as it is; its main gives what its tasks
# gave, and what the compilers did, of which each waits for the other to begin. (It is read as a
# module, too.)
RT = """#!%s
import sys
import threading

BACKENDS = {'llvm': threading.Event(), 'rattle': threading.Event()}


class Crate:
    name = 'a'

    def compile_by(self, backend, words, to):
        BACKENDS[backend].set()
        return backend, all(it.wait(60) for it in BACKENDS.values()), words, to


def processors():
    return 4


def free():
    return 100e9


def in_lanes(tasks):
    raise SystemExit('these are the lanes of the kit')


def main(words):
    tasks = (('a', 'proof', 5), ('a', 'tests', 0))
    call = lambda given, jobs: jobs
    given = in_lanes({(name, kind): ([], lines, 1, call) for name, kind, lines in tasks})
    print(words, dict(sorted(given.items())))
    for backend in BACKENDS:
        print(*Crate().compile_by(backend, ['words'], 'to'))
    return 3


if __name__ == '__main__':
    print('%s logic' if sys.argv[1:] == ['version'] else 'as it is: %%s' %% sys.argv[1:])
"""

CI = module('ci-with-jobs', 'dev')


class Tasks(unittest.TestCase):
    """A task waits until those that are to run beside it have begun, and gives how many jobs it
    has."""

    def run_tasks(
        self,
        waits: dict[str, list[str]],
        beside: dict[str, list[str]] = {},
        cores: int = 4,
        memory: float = 100 * GB,
        lines: dict[str, int] = {},
    ) -> tuple[dict[str, int], int]:
        """What the tasks gave, and how many ran at a time at most."""
        begun = {it: threading.Event() for it in waits}
        lock, at_work, most = threading.Lock(), set(), []
        self.order: list[str] = []

        def call(name: str) -> Any:
            def work(given: dict[str, int], jobs: int) -> int:
                with lock:
                    self.assertLessEqual({*waits[name]}, {*given}, name)
                    at_work.add(name)
                    most.append(len(at_work))
                    self.order.append(name)
                begun[name].set()
                for it in beside.get(name, []):
                    self.assertTrue(begun[it].wait(60), f'{it} did not begin beside {name}')
                with lock:
                    at_work.remove(name)
                return jobs

            return work

        return CI.run_tasks(
            cores, memory, {it: (waits[it], lines.get(it, 1), 0, call(it)) for it in waits}
        ), max(most)

    def test_each_begins_once_those_below_it_have_ended(self) -> None:
        given, _ = self.run_tasks(
            {'top': ['left', 'right'], 'left': ['low'], 'right': ['low'], 'low': []},
            {'left': ['right'], 'right': ['left']},
        )
        self.assertEqual(given, dict.fromkeys(('top', 'left', 'right', 'low'), 4))

    def test_the_longest_chain_begins_first(self) -> None:
        waits: dict[str, list[str]] = {'short': [], 'long': [], 'low': [], 'high': ['low']}
        self.run_tasks(waits, {}, 4, 1 * GB, {'short': 1, 'long': 4, 'low': 2, 'high': 3})
        self.assertEqual(self.order, ['low', 'long', 'high', 'short'])

    def test_jobs_are_shared(self) -> None:
        """Three for a core at most, four for a task, and as many as memory holds; one task at a
        time runs in however little."""
        names = ['a', 'b', 'c', 'd']
        together = {it: [one for one in names[:3]] for it in names[:3]}
        for cores, memory, wanted, most in (
            (4, 100 * GB, [4, 4, 4, 4], 3),
            (4, 18 * GB, [4, 4, 4, 4], 3),
            (8, 100 * GB, [4, 4, 4, 4], 4),
            (2, 100 * GB, [2, 2, 2, 2], 3),
        ):
            with self.subTest(cores=cores, memory=memory):
                given, at_once = self.run_tasks({it: [] for it in names}, together, cores, memory)
                self.assertEqual([given[it] for it in names], wanted)
                self.assertLessEqual(at_once, most)
        self.assertEqual(
            self.run_tasks({it: [] for it in 'ab'}, {}, 4, 6 * GB), ({'a': 4, 'b': 4}, 1)
        )
        self.assertEqual(
            self.run_tasks({it: [] for it in 'ab'}, {}, 4, 1 * GB), ({'a': 1, 'b': 1}, 1)
        )
        self.assertEqual(
            self.run_tasks({it: [] for it in 'ab'}, {'a': ['b'], 'b': ['a']}, 4, 9 * GB),
            ({'a': 4, 'b': 1}, 2),
        )

    def test_what_proves_nothing_takes_nothing(self) -> None:
        """It begins beside a task that has all the memory."""
        given, _ = self.run_tasks(
            {'proof': [], 'tests': []},
            {'proof': ['tests'], 'tests': ['proof']},
            4,
            3 * GB,
            {'tests': 0},
        )
        self.assertEqual(given['proof'], 1)

    def test_compilers_run_anew_for_each_program(self) -> None:
        """What one gave is given once, to the call for it, and a fault of it is handed on. One that
        failed is run again with the other."""
        calls: list[tuple[str, str]] = []
        status = {'llvm': 0}

        class Crate:
            name = 'a'

            def compile_by(self, backend: str, words: list[str], to: str) -> int:
                calls.append((backend, to))
                if to == 'no room':
                    raise OSError(to)
                return status.get(backend, int(to))

        compile_by = CI.side_by_side(Crate.compile_by, ['llvm', 'rattle'], lambda: True)
        for to in '1', '2':
            self.assertEqual(compile_by(Crate(), 'llvm', [], to), 0)
            self.assertEqual(compile_by(Crate(), 'rattle', [], to), int(to))
        status['llvm'] = -9
        self.assertEqual(compile_by(Crate(), 'llvm', [], '3'), -9)
        status['llvm'] = 0
        self.assertEqual(compile_by(Crate(), 'llvm', [], '4'), 0)
        self.assertEqual(compile_by(Crate(), 'rattle', [], '4'), 4)
        self.assertEqual(
            sorted(calls), sorted((it, to) for to in '1234' for it in ('llvm', 'rattle'))
        )
        with self.assertRaisesRegex(OSError, 'no room'):
            compile_by(Crate(), 'llvm', [], 'no room')

    def test_compilers_run_one_after_the_other_in_little_memory(self) -> None:
        calls: list[str] = []

        class Crate:
            name = 'a'

            def compile_by(self, backend: str) -> int:
                calls.append(backend)
                return len(calls)

        compile_by = CI.side_by_side(
            lambda crate, backend, words, to: crate.compile_by(backend),
            ['llvm', 'rattle'],
            lambda: False,
        )
        self.assertEqual([compile_by(Crate(), it, [], 'to') for it in ('llvm', 'rattle')], [1, 2])
        self.assertEqual(calls, ['llvm', 'rattle'])

    def test_a_fault_of_a_task_is_handed_on(self) -> None:
        def fails(given: dict[str, int], jobs: int) -> int:
            raise OSError('no room')

        with self.assertRaisesRegex(OSError, 'no room'):
            CI.run_tasks(4, GB, {'a': ([], 1, 0, fails)})
        self.assertEqual(CI.run_tasks(4, GB, {}), {})


class Kits(unittest.TestCase):
    def run_with(self, kit: str, *crates: str, **more: str) -> tuple[int, str]:
        with tempfile.TemporaryDirectory() as folder:
            rt = os.path.join(folder, 'rt')
            with open(rt, 'w') as file:
                file.write(RT % (sys.executable, kit))
            os.chmod(rt, 0o755)
            env = {'PATH': f'{folder}:{os.environ["PATH"]}', **more}
            done = subprocess.run([PROGRAM, *crates], env=env, capture_output=True, text=True)
            self.assertEqual(os.listdir(folder), ['rt'])
            self.said = done.stderr
            return done.returncode, done.stdout

    def test_the_kit_whose_function_is_replaced(self) -> None:
        given = (
            "{('a', 'proof'): 4, ('a', 'tests'): 1}\nllvm True ['words'] to\nrattle True ['words']"
            " to\n"
        )
        self.assertEqual(self.run_with(CI.KIT), (3, "['ci'] " + given))
        self.assertEqual(
            self.run_with(CI.KIT, 'agv_a', 'agv_b'), (3, "['ci', 'agv_a', 'agv_b'] " + given)
        )

    def test_others_run_as_they_are(self) -> None:
        kits: tuple[tuple[str, dict[str, str]], ...] = (
            ('rattle-kit-13b', {}),
            ('another', {}),
            (CI.KIT, {'RT_JOBS': '2'}),
        )
        for kit, more in kits:
            self.assertEqual(self.run_with(kit, **more), (0, "as it is: ['ci']\n"))
            self.assertEqual(
                self.run_with(kit, 'agv_a', **more), (0, "as it is: ['ci', 'agv_a']\n")
            )
            self.assertEqual(
                'the kit is another: `rt ci` runs as it is' in self.said, kit != CI.KIT
            )


PROGRAM_SOURCE = """//! Says a word, %s.
#![tactic(auto)]

use std::io;

fn main(rt: HostRuntime) -> io::Result<()> {
    println!(rt; "a word")
}
"""


class ThisKit(unittest.TestCase):
    def test_a_program_is_proved_and_built_by_both_compilers(self) -> None:
        if (
            'RT_JOBS' in os.environ
            or not shutil.which('rt')
            or CI.KIT
            not in subprocess.run(['rt', 'version'], stdout=subprocess.PIPE, text=True).stdout
        ):
            self.skipTest('the kit is another')
        with tempfile.TemporaryDirectory() as folder:
            crate = os.path.join(folder, 'crates', 'agv_word')
            os.makedirs(os.path.join(crate, 'src'))
            os.mkdir(os.path.join(folder, '.git'))
            # (a source that no earlier run has proved)
            for path, text in (
                ('crates.txt', 'agv_word:\n'),
                ('HANDLES', 'Handles allowed: none.\n'),
                ('crates/agv_word/stdout', 'a word\n'),
                ('crates/agv_word/src/main.rt', PROGRAM_SOURCE % uuid.uuid4()),
            ):
                with open(os.path.join(folder, path), 'w') as file:
                    file.write(text)
            done = subprocess.run(
                [PROGRAM], cwd=folder, stdout=subprocess.PIPE, stderr=subprocess.STDOUT, text=True
            )
            self.assertEqual(done.returncode, 0, done.stdout)
            for wanted in (
                'linked .* files=out/agv_word.o,',
                'linked .* files=out/agv_word.by-rattle.o,',
                'rt: agv_word ran, and wrote',
                "rt: agv_word ran \\(built by Rattle's own compiler\\), and wrote",
                '1 passed, 0 failed$',
            ):
                self.assertRegex(done.stdout, re.compile('^' + wanted, re.M))
            for name in 'agv_word', 'agv_word.by-rattle':
                self.assertEqual(
                    subprocess.run(
                        [os.path.join(crate, 'out', name)], stdout=subprocess.PIPE
                    ).stdout,
                    b'a word\n',
                )


if __name__ == '__main__':
    unittest.main()
