"""Shows that no failure of the disk is passed over: the call at which it comes is answered by
the fault of the store, which ends the program, and the file has each answered call, and the
failed one whole or not at all.

The calls of the disk fail from the n-th on, or at the n-th alone, or read and write in small
parts. A move to the second schema leaves the file as before or moved whole, and a report is
told whole or not at all."""
import collections
import errno
import os
import sqlite3
import unittest
from typing import Any

from tests.support import system_calls, tracing
from tests.support.fault_files import ALL, sample
from tests.support.faults import STORAGE, Move, check_kept, moves, scripts
from tests.support.desks import AT, DESK, run
from tests.support.fault_test import FULL, LACKS, FaultTest

CALLS = [
    'openat',
    'fstat',
    'newfstatat',
    'statx',
    'read',
    'pread64',
    'preadv',
    'write',
    'pwrite64',
    'pwritev',
    'ftruncate',
    'fallocate',
    'fsync',
    'fdatasync',
    'fcntl',
    'fadvise64',
    'lseek',
    'fchmod',
    'fchown',
    'readlinkat',
    'unlink',
    'unlinkat',
]
ROOM = {'openat', 'write', 'pwrite64', 'pwritev', 'ftruncate', 'fallocate', 'fsync', 'fdatasync'}
SYNCS = {'fsync', 'fdatasync'}


def works(number: int, call: Any) -> None:
    """What each call is told on a disk that works."""


def fails(n: int, error: Any, once: Any) -> Any:
    """What each call is told where the n-th fails, by itself or with all behind it."""
    return lambda number, call: (
        system_calls.Fails(error) if number == n or number > n and not once else None
    )


@unittest.skipIf(LACKS is not None, LACKS or '')
class FailingDisk(FaultTest):
    def serve(self, script: Any, kinds: Any, told: Any) -> Any:
        """The program serves the script; what each of its calls on the file of these kinds is told,
        by its number."""
        script.start(self.db)
        return self.run_on(self.words, script.input, kinds, told)

    def run_on(self, words: Any, stdin: bytes, kinds: Any, told: Any) -> tuple[Any, Any]:
        seen = []

        def on_call(call: Any) -> Any:
            if call.name not in kinds:
                return None
            path = call.path
            if not path.startswith(self.db) and path != os.path.dirname(self.db):
                return None
            seen.append(call.name)
            return told(len(seen), call)

        return tracing.run(words, CALLS, on_call, stdin), seen

    def check(self, kinds: Any, error: Any, once: Any, most: int) -> None:
        """A failure at each call; or at so many of the opening, and at twice as many behind it.
        None is passed over."""
        met = {'not opened': 0, 'refused': 0}
        for name in [*scripts(), FULL]:
            script = self.played(name)
            script.start(self.db)
            ended, opened = self.run_on(self.words, b'', kinds, works)
            self.assertEqual((ended.status, ended.out, ended.said), (0, b'', b''))
            opening = len(opened)
            ended, seen = self.serve(script, kinds, works)
            self.assertEqual((ended.status, ended.out, ended.said), (0, script.out, b''))
            behind = 2 * most if name != FULL else most
            for calls, some in (
                (range(1, opening + 1), most),
                (range(opening + 1, len(seen) + 1), behind),
            ):
                self.assertNotEqual(len(calls), 0, name)
                for n in sample(calls, some):
                    with self.subTest(name, n=n, call=seen[n - 1], error=error, once=once):
                        ended, _ = self.serve(script, kinds, fails(n, error, once))
                        self.assertEqual((ended.status, ended.said), (1, b'fault: Storage\n'))
                        front = ended.out
                        if n > opening:
                            self.assertTrue(front.endswith(STORAGE), front)
                            front = front[: -len(STORAGE)]
                        answered = script.whole(front)
                        self.assertEqual(front, b''.join(script.answers[:answered]))
                        check_kept(self, script, self.db, answered)
                        met['refused' if n > opening else 'not opened'] += 1
        if ALL:
            print(f'errno {error}, {"once" if once else "from then on"}: {met}')
        self.assertGreater(min(met.values()), 10)

    def test_each_call_fails_from_one_on(self) -> None:
        self.check(set(CALLS), errno.EIO, False, 4)

    def test_one_call_fails(self) -> None:
        self.check(set(CALLS), errno.EIO, True, 3)

    def test_one_sync_fails(self) -> None:
        """Nothing is answered that it was to keep, though the disk works again behind it."""
        self.check(SYNCS, errno.EIO, True, 2)

    def test_no_room_from_one_write_on(self) -> None:
        self.check(ROOM, errno.ENOSPC, False, 3)

    def test_a_call_of_a_move_fails(self) -> None:
        """By itself, or with all behind it, or for want of room: it is told, and the file isn't
        told to be moved."""
        faults = [
            (CALLS, errno.EIO, False),
            (CALLS, errno.EIO, True),
            (SYNCS, errno.EIO, True),
            (ROOM, errno.ENOSPC, False),
        ]
        met: Any = collections.Counter()
        for name, move in moves().items():
            words = [*Move.WORDS, self.db]
            for kinds, error, once in faults:
                move.start(self.db)
                ended, seen = self.run_on(words, b'', kinds, works)
                self.assertEqual((ended.status, ended.out, ended.said), (0, b'migrated\n', b''))
                for n in sample(range(1, len(seen) + 1), 3):
                    with self.subTest(name, n=n, call=seen[n - 1], error=error, once=once):
                        move.start(self.db)
                        ended, _ = self.run_on(words, b'', kinds, fails(n, error, once))
                        self.assertEqual(
                            (ended.status, ended.out, ended.said), (1, b'', b'fault: Storage\n')
                        )
                        met[move.check(self, self.db, False)] += 1
        if ALL:
            counts = [f'refused, {when}: {count}' for when, count in sorted(met.items())]
            print('a call of a move that failed: ' + ', '.join(counts))
        self.assertGreater(met['before'], 20)

    def large(self) -> Any:
        """The file has more pages than a desk keeps in memory, so that a report reads some of them
        again behind the opening. It gives the report of it."""
        self.assertEqual(run('replay', '--db', self.db, '--at', AT), (0, b'', b''))
        loads = [f'L{number:031d}' for number in range(20_000)]
        base = sqlite3.connect(self.db, isolation_level=None)
        base.executescript('PRAGMA journal_mode = DELETE; PRAGMA page_size = 1024; VACUUM; BEGIN')
        base.executemany("INSERT INTO load VALUES (?, 'checking', NULL, NULL, NULL)", zip(loads))
        base.execute('COMMIT')
        base.close()
        lines = [f'checking: {len(loads)}\n', *(f'  {load}\n' for load in loads), 'left: 0\n']
        whole = ''.join(lines).encode()
        self.assertEqual(run('report', '--db', self.db, 'stock'), (0, whole, b''))
        return whole

    def test_a_call_of_a_report_fails(self) -> None:
        """Behind the opening: it is told, and nothing is written. On a disk that works again the
        report is whole."""
        whole = self.large()
        words = [DESK, 'report', '--db', self.db, 'stock']
        _, opened = self.run_on(
            [DESK, 'serve', '--db', self.db, '--port', '0', '--connections', '0'], b'', CALLS, works
        )
        ended, seen = self.run_on(words, b'', CALLS, works)
        self.assertEqual((ended.status, ended.out, ended.said), (0, whole, b''))
        self.assertTrue(seen[: len(opened)] == opened)
        self.assertGreater(len(seen), len(opened) + 10)
        tried = sample(range(len(opened) + 1, len(seen) + 1), 2)
        for n in tried:
            for once in (True, False):
                with self.subTest(n=n, call=seen[n - 1], once=once):
                    ended, _ = self.run_on(words, b'', CALLS, fails(n, errno.EIO, once))
                    self.assertEqual(
                        (ended.status, ended.out, ended.said), (1, b'', b'fault: Storage\n')
                    )
        self.assertEqual(run(*words[1:]), (0, whole, b''))
        if ALL:
            print(f'{len(tried)} calls of a report that failed, behind its opening')

    def test_small_writes(self) -> None:
        """What a write has left is written by the next."""
        for name in scripts():
            script = self.played(name)
            for size in (1000, 4095) if not ALL else (64, 511, 512, 1000, 4095, 70_000):
                with self.subTest(name, size=size):
                    ended, seen = self.serve(
                        script, {'write', 'pwrite64'}, lambda number, call: system_calls.Short(size)
                    )
                    self.assertEqual((ended.status, ended.out, ended.said), (0, script.out, b''))
                    self.assertGreater(len(seen), 2 * len(script.requests))
                    check_kept(self, script, self.db, len(script.requests))

    def test_parts_that_are_none(self) -> None:
        """A write of the file that takes nothing is a fault, and so is a read that gives nothing or
        less than there is."""
        met = 0
        for name in scripts():
            script = self.played(name)
            parts = {'pread64', 'pwrite64'}
            _, seen = self.serve(script, parts, works)
            for n in sample(range(1, len(seen) + 1), 7):
                for told in (system_calls.Gives(0), system_calls.Short(7)):
                    if isinstance(told, system_calls.Short) and seen[n - 1] == 'pwrite64':
                        continue
                    with self.subTest(name, n=n, call=seen[n - 1], told=vars(told)):
                        ended, _ = self.serve(
                            script, parts, lambda number, call: told if number == n else None
                        )
                        self.assertEqual((ended.status, ended.said), (1, b'fault: Storage\n'))
                        front = (
                            ended.out[: -len(STORAGE)] if ended.out.endswith(STORAGE) else ended.out
                        )
                        answered = script.whole(front)
                        self.assertEqual(front, b''.join(script.answers[:answered]))
                        check_kept(self, script, self.db, answered)
                        met += 1
        if ALL:
            print(f'{met} reads and writes that took nothing, or too little')
        self.assertGreater(met, 20)


if __name__ == '__main__':
    unittest.main()
