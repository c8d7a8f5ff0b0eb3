"""Shows that, wherever the program is ended before a write or the power fails, the file has
each call that was answered, the one that was being served whole or not at all, and that the
rest of the script leads to the same rows.

What was synced stays, and of what was not any part may be lost. So it is amid a move to the
second schema: the file is as before or moved whole."""
import collections
import os
import random
import unittest
from typing import Any

from tests.support import tracing
from tests.support.fault_files import ALL, put, sample
from tests.support.faults import Move, check_kept, moves, scripts
from tests.support.fault_test import FULL, FaultTest, LACKS

WRITES = [
    'openat',
    'write',
    'writev',
    'pwrite64',
    'pwritev',
    'pwritev2',
    'ftruncate',
    'truncate',
    'fallocate',
    'fsync',
    'fdatasync',
    'unlink',
    'unlinkat',
    'rename',
    'renameat',
    'renameat2',
    'copy_file_range',
    'sync_file_range',
]
# Open flags of Linux on x86-64.
O_CREAT, O_TRUNC = 0o100, 0o1000
CUTS = 20 if not ALL else 1000  # in each script
VARIANTS = 1 if not ALL else 12


def changes_file(call: Any, db: str) -> Any:
    """Whether the call may change one of the files of the database, or syncs them or their
    folder."""
    path = call.path
    if call.name == 'openat':
        return path.startswith(db) and call.words[2] & (O_CREAT | O_TRUNC) != 0
    return path.startswith(db) or path == os.path.dirname(db)


@unittest.skipIf(LACKS is not None, LACKS or '')
class Stops(FaultTest):
    def stop(self, start: Any, words: Any, k: int, stdin: bytes = b'') -> tuple[Any, Any]:
        """The program is ended before its k-th write. It gives how it ended, and the writes."""
        start(self.db)
        at = []

        def on_call(call: Any) -> Any:
            if not changes_file(call, self.db):
                return None
            at.append((call.name, call.path))
            return tracing.STOP if len(at) == k else None

        return tracing.run(words, WRITES, on_call, stdin), at

    def test_a_stop_at_each_write(self) -> None:
        for name in [*scripts(), FULL]:
            script = self.played(name)
            ended, writes = self.stop(script.start, self.words, 0, script.input)
            self.assertEqual((ended.status, ended.out, ended.said), (0, script.out, b''))
            self.assertGreater(len(writes), len(script.requests), name)
            if name == FULL:
                # the log goes to the database, page by page
                self.assertGreater(writes.count(('pwrite64', self.db)), 20)
            met = {'before': 0, 'after': 0, 'new': 0}
            tried = sample(range(1, len(writes) + 1), 24)
            for k in tried:
                with self.subTest(name, k=k, call=writes[k - 1][0]):
                    ended, told = self.stop(script.start, self.words, k, script.input)
                    self.assertEqual((ended.status, len(told)), (-9, k))
                    answered = script.whole(ended.out)
                    self.assertEqual(ended.out, b''.join(script.answers[:answered]))
                    kept = check_kept(self, script, self.db, answered)
                    met['new' if kept < 0 else 'after' if kept > answered else 'before'] += 1
            self.assertEqual(sum(met.values()), len(tried))
            self.assertEqual(
                {end for end in met if not met[end]},
                {'new'} if name == FULL else set(),
                (name, met),
            )
            if ALL:
                print(f'{name}: ended before each of {len(writes)} writes: {met}')

    def test_a_stop_at_each_write_of_a_move(self) -> None:
        for name, move in moves().items():
            words = [*Move.WORDS, self.db]
            ended, writes = self.stop(move.start, words, 0)
            self.assertEqual((ended.status, ended.out, ended.said), (0, b'migrated\n', b''))
            self.assertEqual(move.check(self, self.db, True), 'after')
            met: Any = collections.Counter()
            tried = sample(range(1, len(writes) + 1), 8)
            for k in tried:
                with self.subTest(name, k=k, call=writes[k - 1]):
                    ended, told = self.stop(move.start, words, k)
                    self.assertEqual((ended.status, len(told), ended.said), (-9, k, b''))
                    self.assertIn(ended.out, (b'', b'migrated\n'))
                    met[move.check(self, self.db, ended.out != b'')] += 1
            self.assertEqual(sum(met.values()), len(tried))
            self.assertEqual(set(met), {'before', 'after'}, name)
            if ALL:
                print(f'a move, {name}: ended before each of {len(writes)} writes: {dict(met)}')


class Recorded:
    """What a run does to its files and to its output, in order: the name of a file with the change,
    or how many bytes were answered."""

    def __init__(self, words: Any, db: str, stdin: bytes = b'') -> None:
        self.events: list[Any] = []
        self.db = db

        def on_call(call: Any) -> None:
            if call.name in ('write', 'writev') and call.file == 1:
                self.events.append(('answer', None, call.size))
            elif changes_file(call, db):
                self.note(call)

        self.ended = tracing.run(words, WRITES, on_call, stdin)

    def note(self, call: Any) -> None:
        path = call.path
        if call.name == 'openat':
            if not os.path.exists(path):
                self.events.append(('make', path, None))
        elif call.name == 'pwrite64':
            self.events.append(('write', path, (call.words[3], call.data)))
        elif call.name == 'ftruncate':
            self.events.append(('size', path, call.words[1]))
        elif call.name in ('fsync', 'fdatasync'):
            self.events.append(('sync', path, None))
        else:
            raise AssertionError(f'no simulation of {call!r}')


def changed(data: Any, kind: str, what: Any) -> Any:
    """The bytes of a file after one change."""
    if kind == 'size':
        return data[:what] + bytes(max(0, what - len(data)))
    at, more = what
    data = data + bytes(max(0, at - len(data)))
    return data[:at] + more + data[at + len(more) :]


class Disk:
    """What of the files is on the disk for sure, and which changes may be lost."""

    def __init__(self, db: str, files: Any) -> None:
        self.folder = os.path.dirname(db)
        self.pending: list[Any] = []
        self.files = {db + end: data for end, data in files.items()}
        self.made = set(self.files)

    def do(self, event: Any) -> None:
        kind, path, what = event
        if kind == 'make':
            self.files[path] = b''
        elif kind in ('write', 'size'):
            self.pending.append(event)
        elif kind == 'sync' and path == self.folder:
            self.made = set(self.files)
        elif kind == 'sync':
            for one, of, what in self.pending:
                if of == path:
                    self.files[of] = changed(self.files[of], one, what)
            self.pending = [event for event in self.pending if event[1] != path]

    def left(self, chance: random.Random, keep: Any) -> Any:
        """Files that a power cut may leave: each change that isn't synced is kept by this chance,
        else lost, or kept in part."""
        files = dict(self.files)
        for kind, path, what in self.pending:
            if chance.random() < keep:
                files[path] = changed(files[path], kind, what)
            elif kind == 'write' and chance.random() < 0.5:
                at, data = what
                for start in range(-at % 512 - 512, len(data), 512):
                    part = data[max(start, 0) : start + 512]
                    if part and chance.random() < 0.5:
                        files[path] = changed(files[path], kind, (at + max(start, 0), part))
        for path in sorted(set(files) - self.made):
            if chance.random() >= keep:
                del files[path]
        return files

    def doubtful(self) -> Any:
        return len(self.pending) + len(set(self.files) - self.made)


@unittest.skipIf(LACKS is not None, LACKS or '')
class PowerCuts(FaultTest):
    def cut(self, name: str, recorded: Any, files: Any, check: Any) -> tuple[int, int]:
        """The power fails at moments at which something isn't synced; `check` sees what is left,
        and is told how many bytes were answered. It gives at how many moments something isn't
        synced, and at how many of them the power failed.
        """
        disk, cuts, answered = Disk(self.db, files), [], 0
        for number, event in enumerate(recorded.events):
            if disk.doubtful():
                cuts.append(number)
            disk.do(event)
        if disk.doubtful():
            cuts.append(len(recorded.events))
        # The record is whole: with all its changes the files are as the program left them.
        for path, data in disk.left(random.Random(0), 1).items():
            with open(path, 'rb') as file:
                self.assertEqual(file.read(), data, path)
        chosen, lost = set(sample(cuts, CUTS)), 0
        disk = Disk(self.db, files)
        for number, event in enumerate(recorded.events + [('end', None, None)]):
            if number in chosen:
                for turn in range(VARIANTS):
                    chance = random.Random(f'{name} {number} {turn}')
                    with self.subTest(name, cut=number, turn=turn):
                        left = disk.left(chance, chance.choice((0, 0.3, 0.7, 1)))
                        put(self.db, {path[len(self.db) :]: data for path, data in left.items()})
                        check(answered)
                        lost += 1
            disk.do(event)
            if event[0] == 'answer':
                answered += event[2]
        self.assertEqual(lost, len(chosen) * VARIANTS)
        return len(cuts), len(chosen)

    def test_writes_that_are_lost(self) -> None:
        for name in [*scripts(), FULL]:
            script = self.played(name)
            script.start(self.db)
            recorded = Recorded(self.words, self.db, script.input)
            self.assertEqual((recorded.ended.status, recorded.ended.out), (0, script.out))
            cuts, chosen = self.cut(
                name,
                recorded,
                script.files,
                lambda answered: check_kept(
                    self, script, self.db, script.whole(script.out[:answered])
                ),
            )
            self.assertGreater(cuts, len(script.requests))
            if ALL:
                print(f'{name}: {chosen} power cuts, each left in {VARIANTS} ways')

    def test_writes_of_a_move_that_are_lost(self) -> None:
        for name, move in moves().items():
            move.start(self.db)
            recorded = Recorded([*Move.WORDS, self.db], self.db)
            self.assertEqual((recorded.ended.status, recorded.ended.out), (0, b'migrated\n'))
            met: Any = collections.Counter()

            def check(answered: Any) -> None:
                met[move.check(self, self.db, answered > 0)] += 1

            _, chosen = self.cut(name, recorded, move.files, check)
            self.assertEqual(set(met), {'before', 'after'}, name)
            if ALL:
                print(
                    f'a move, {name}: {chosen} power cuts, each left in {VARIANTS} ways:'
                    f' {dict(met)}'
                )


if __name__ == '__main__':
    unittest.main()
