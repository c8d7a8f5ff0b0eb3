"""Runs the tests over the built program, which the variable DESK names: all, or those named here.

    DESK=build/desk python3 tests/run.py [--jobs N] [test_ask test_readme.Session ..]

Each module of tests runs in a process of its own: one after the other, or N side by side, where the
output of each is printed when it has ended. A test that fails, or that ended its process, is run
once more at the end, alone: if it passes then, it counts as passed, and a line `passed when run
again: NAME` says so. The last line is `N passed, M failed`; the one before says how many tests were
skipped, and how many of them for each reason."""
from __future__ import annotations

import argparse
import collections
import concurrent.futures
import contextlib
import glob
import json
import os
import signal
import subprocess
import sys
import tempfile
import unittest
from collections.abc import Iterator
from dataclasses import dataclass, field
from typing import Any

ROOT = os.path.dirname(os.path.dirname(os.path.abspath(__file__)))
PASSED, FAILED, SKIPPED = 'passed', 'failed', 'skipped'


def module_files() -> dict[str, str]:
    """The modules of tests, each by its last name with its whole one."""
    paths = sorted(glob.glob(os.path.join(ROOT, 'tests', '*', 'test_*.py')))
    return {
        os.path.basename(path)[:-3]: os.path.relpath(path, ROOT)[:-3].replace(os.sep, '.')
        for path in paths
    }


def full_name(name: str) -> str:
    """The whole name of a module, a class or a test, from one without the folder of its module."""
    first, _, rest = name.partition('.')
    if first == 'tests':
        return name
    if first in (modules := module_files()):
        return f'{modules[first]}.{rest}' if rest else modules[first]
    return f'tests.{name}'


def short_name(name: str) -> str:
    """The name of a test as `full_name` takes it."""
    _, folder, *rest = name.split('.')
    return '.'.join(rest if rest and rest[0].startswith('test_') else [folder, *rest])


def tests_in(suite: unittest.TestSuite) -> Iterator[unittest.TestCase]:
    for one in suite:
        if isinstance(one, unittest.TestSuite):
            yield from tests_in(one)
        else:
            yield one


class NotLoaded(unittest.TestCase):
    """Stands for a name whose tests can't be loaded."""

    def __init__(self, name: str, errors: list[str]) -> None:
        super().__init__()
        self.name, self.errors = name, errors

    def id(self) -> str:
        return self.name

    def __str__(self) -> str:
        return self.name

    def runTest(self) -> None:
        self.fail('\n'.join(self.errors))


class Noted(unittest.TextTestResult):
    """Prints how each test ends, and writes it to a file at once: a test may end the process."""

    file: Any

    def write(self, kind: str, test: Any, why: str = '') -> None:
        test = getattr(test, 'test_case', test)
        print(json.dumps([kind, test.id(), why]), file=self.file, flush=True)

    def startTest(self, test: unittest.TestCase) -> None:
        self.write('begun', test)
        super().startTest(test)

    def addSuccess(self, test: unittest.TestCase) -> None:
        self.write(PASSED, test)
        super().addSuccess(test)

    def addExpectedFailure(self, test: unittest.TestCase, err: Any) -> None:
        self.write(PASSED, test)
        super().addExpectedFailure(test, err)

    def addSkip(self, test: unittest.TestCase, reason: str) -> None:
        self.write(SKIPPED, test, reason)
        super().addSkip(test, reason)

    def addFailure(self, test: unittest.TestCase, err: Any) -> None:
        self.write(FAILED, test)
        super().addFailure(test, err)

    def addError(self, test: unittest.TestCase, err: Any) -> None:
        self.write(FAILED, test)
        super().addError(test, err)

    def addSubTest(self, test: unittest.TestCase, subtest: unittest.TestCase, err: Any) -> None:
        if err is not None:
            self.write(FAILED, test)
        super().addSubTest(test, subtest, err)

    def addUnexpectedSuccess(self, test: unittest.TestCase) -> None:
        self.write(FAILED, test)
        super().addUnexpectedSuccess(test)


def run_here(names: list[str], notes: str) -> None:
    """Runs the tests of these names in this process, and notes in a file how each ends."""
    suite = unittest.TestSuite()
    for name in names:
        loader = unittest.TestLoader()
        loaded = loader.loadTestsFromName(name)
        suite.addTest(NotLoaded(name, list(map(str, loader.errors))) if loader.errors else loaded)
    with open(notes, 'w', encoding='utf-8') as file:
        for test in tests_in(suite):
            print(json.dumps(['there', test.id(), '']), file=file, flush=True)
        Noted.file = file
        unittest.TextTestRunner(stream=sys.stdout, verbosity=2, resultclass=Noted).run(suite)
        print(json.dumps(['ended', '', '']), file=file, flush=True)


@dataclass
class Run:
    """How the tests of one process ended, None for one that has not; and why some were skipped."""

    ends: dict[str, str | None] = field(default_factory=dict)
    whys: dict[str, str] = field(default_factory=dict)
    begun: str | None = None
    whole: bool = False

    def read(self, notes: str) -> Run:
        with open(notes, encoding='utf-8') as file:
            for line in file:
                with contextlib.suppress(
                    ValueError
                ):  # (a process that is ended may leave a part of a line)
                    self.take(*json.loads(line))
        return self

    def take(self, kind: str, test: str, why: str) -> None:
        if kind == 'ended':
            self.whole = True
        elif kind == 'there':
            self.ends[test] = None
        elif kind == 'begun':
            self.begun = test
        elif test in self.ends:
            if self.ends[test] != FAILED and not (self.ends[test] == SKIPPED and kind == PASSED):
                self.ends[test] = kind
            self.whys.update({test: why} if kind == SKIPPED else {})
        elif kind == SKIPPED:  # by what stands before the tests of a class or of a module
            for one in self.of_group(test):
                self.ends[one], self.whys[one] = SKIPPED, why
        else:
            self.ends.update({one: FAILED for one in self.of_group(test) if self.ends[one] is None})

    def of_group(self, test: str) -> list[str]:
        """The tests of `setUpClass (NAME)` and the like."""
        name = test.partition('(')[2].rstrip(')')
        return [one for one in self.ends if one.startswith(name + '.')]

    def left(self) -> list[str]:
        """The tests that have not begun since one before has ended the process."""
        return (
            []
            if self.whole
            else [one for one, end in self.ends.items() if end is None and one != self.begun]
        )


class Processes:
    """Runs tests in processes of their own, and ends these where it is ended itself."""

    def __init__(self) -> None:
        self.running: set[subprocess.Popen[bytes]] = set()
        self.stopped = False

    def run(self, names: list[str], out: Any = None) -> Run:
        """Runs the tests of these names; where one ends the process, the rest in another one."""
        if self.stopped:
            return Run()
        with tempfile.TemporaryDirectory() as folder:
            notes = os.path.join(folder, 'notes')
            line = [sys.executable, os.path.abspath(__file__), '--notes', notes, *names]
            process = subprocess.Popen(line, stdout=out, stderr=subprocess.STDOUT if out else None)
            self.running.add(process)
            status = process.wait()
            self.running.discard(process)
            run = Run().read(notes) if os.path.exists(notes) else Run()
        if run.whole or self.stopped:
            return run
        if not run.ends:
            run.ends = {name: FAILED for name in names}
        if run.begun is not None:
            run.ends[run.begun] = FAILED
        text = (
            f'\n{short_name(run.begun or names[0])} ended its process, with the status {status}\n'
        )
        if out:
            out.write(text.encode())
            out.flush()
        else:
            print(text, end='', flush=True)
        if run.begun is not None and (left := run.left()):
            more = self.run(left, out)
            run.ends.update(more.ends)
            run.whys.update(more.whys)
        return run

    def run_captured(self, names: list[str]) -> tuple[Run, str]:
        with tempfile.TemporaryFile() as out:
            run = self.run(names, out)
            out.seek(0)
            return run, out.read().decode(errors='replace')

    def stop(self) -> None:
        self.stopped = True
        for process in list(self.running):
            process.terminate()


def modules_of(names: list[str]) -> list[list[str]]:
    """The names that run in a process each: of all modules, or of those that are named."""
    if not names:
        return [[name] for name in module_files().values()]
    groups: dict[str, list[str]] = {}
    for name in map(full_name, names):
        groups.setdefault('.'.join(name.split('.')[:3]), []).append(name)
    return list(groups.values())


def run_all(processes: Processes, groups: list[list[str]], jobs: int) -> Run:
    """Runs these groups of tests, so many at a time."""
    all_of_them = Run()
    if jobs <= 1:
        for names in groups:
            run = processes.run(names)
            all_of_them.ends.update(run.ends)
            all_of_them.whys.update(run.whys)
        return all_of_them
    with concurrent.futures.ThreadPoolExecutor(jobs) as pool:
        runs = {pool.submit(processes.run_captured, names): names for names in groups}
        try:
            for ended in concurrent.futures.as_completed(runs):
                run, text = ended.result()
                print(f'== {" ".join(map(short_name, runs[ended]))}\n{text}', flush=True)
                all_of_them.ends.update(run.ends)
                all_of_them.whys.update(run.whys)
        except BaseException:
            processes.stop()
            raise
    return all_of_them


def run_again(processes: Processes, run: Run) -> list[str]:
    """Runs each test that has failed once more, alone, and returns those that passed then."""
    passed = []
    for name in [name for name, end in run.ends.items() if end not in (PASSED, SKIPPED)]:
        print(f'== again: {short_name(name)}', flush=True)
        again = processes.run([name])
        ends = set(again.ends.values())
        if ends <= {PASSED, SKIPPED}:
            del run.ends[name]
            run.ends.update(again.ends)
            run.whys.update(again.whys)
            passed.append(name)
    return passed


def sum_up(run: Run, again: list[str]) -> int:
    """Prints how the tests ended, and returns the status of that."""
    counts = collections.Counter(
        end if end in (PASSED, SKIPPED) else FAILED for end in run.ends.values()
    )
    for name, why in run.whys.items():
        if run.ends.get(name) == SKIPPED:
            print(f'skipped: {short_name(name)}: {why}')
    for name, end in run.ends.items():
        if end not in (PASSED, SKIPPED):
            print(f'failed: {short_name(name)}')
    for name in again:
        print(f'passed when run again: {short_name(name)}')
    whys = collections.Counter(run.whys[name] for name, end in run.ends.items() if end == SKIPPED)
    told = '; '.join(f'{count}: {why}' for why, count in whys.most_common())
    print(f'{counts[SKIPPED]} skipped{f" ({told})" if told else ""}')
    print(f'{counts[PASSED]} passed, {counts[FAILED]} failed')
    return int(counts[FAILED] != 0 or counts[PASSED] == 0)


def main() -> int:
    line = argparse.ArgumentParser(
        description=__doc__, formatter_class=argparse.RawDescriptionHelpFormatter
    )
    line.add_argument(
        '--jobs', type=int, default=1, metavar='N', help='how many modules run side by side'
    )
    line.add_argument('--notes', help=argparse.SUPPRESS)
    line.add_argument(
        'names',
        metavar='NAME',
        nargs='*',
        help='a module without its folder, or a class or a test of it',
    )
    given = line.parse_args()
    sys.path[:1] = [ROOT, *(os.path.join(ROOT, name) for name in ('tools', 'examples', 'bench'))]
    sys.dont_write_bytecode = True
    if given.notes:
        run_here(given.names, given.notes)
        return 0
    processes = Processes()
    signal.signal(signal.SIGTERM, lambda number, _: sys.exit(128 + number))
    try:
        run = run_all(processes, modules_of(given.names), given.jobs)
        again = run_again(processes, run)
    finally:
        processes.stop()
    return sum_up(run, again)


if __name__ == '__main__':
    sys.exit(main())
