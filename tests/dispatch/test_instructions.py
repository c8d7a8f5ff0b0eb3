"""Shows that what people say to the dispatcher is read from its file as it was written, whoever
harms the file and whatever fails."""
from __future__ import annotations

import errno
import os
import random
import signal
import subprocess
import sys
import tempfile
import threading
import unittest
from collections.abc import Callable
from unittest import mock

from tests.support.programs import TOOLS, until

from nulvrader.common import instructions_file
from nulvrader.common.instructions import (
    HEADER,
    OLD_HEADER,
    Instructions,
    NoInstructions,
    Urgency,
    read,
)
from nulvrader.common.instructions_file import Followed, changing, read_file

DUE = 1_798_122_600  # 2026-12-24T14:30:00Z
FULL = Instructions(
    {'J1': Urgency(DUE, 2), 'J2': Urgency(None, 9, 'T7', 3), 'J3': Urgency(0)},
    frozenset({'N7'}),
    frozenset({'N1-N2'}),
)


class Text(unittest.TestCase):
    def test_what_it_is(self) -> None:
        self.assertEqual(
            FULL.text(),
            f'{HEADER}\njob,J1,2026-12-24T14:30:00Z,2,,\njob,J2,,9,T7,3\n'
            'job,J3,1970-01-01T00:00:00Z,,,\nnode,N7,,,,\nedge,N1-N2,,,,\n',
        )
        self.assertEqual(read(FULL.text()), FULL)
        self.assertEqual(read(HEADER), Instructions())

    def test_what_is_none(self) -> None:
        for line, told in (
            ('job,J1', 'is not kind,name'),
            ('job,,,', 'is not kind,name'),
            ('job,J 1,,', 'is not kind,name'),
            ('job,J1,,,', 'is not kind,name'),
            ('', 'is not kind,name'),
            ('zone,Z,,', 'is no job, node or edge'),
            ('node,N7,,1', 'is no job, node or edge'),
            ('edge,E1,2026-12-24T14:30:00Z,', 'is no job, node or edge'),
            ('job,J1,,10', 'is no priority'),
            ('job,J1,,-1', 'is no priority'),
            ('job,J1,,\u0661', 'is no priority'),
            ('job,J1,14:30,', 'is no moment'),
            ('job,J1,1969-12-31T23:59:59Z,', 'is no moment'),
            ('job,J1,2026-02-30T14:30:00Z,', 'is no moment'),
            ('job,J1,2026-12-24T14:30:00+,', 'is no moment'),
            ('job,J0,,', 'is no job, node or edge'),
        ):
            for header, more in ((HEADER, ',,'), (OLD_HEADER, '')):
                text = f'{header}\njob,J0,,1{more}\n{line}{more}\n'
                wrong = self.assertRaisesRegex(NoInstructions, f'^line 3: .*({told})')
                with self.subTest(line, header=header), wrong:
                    read(text)
        for text in ('', 'job,J1,,1\n', f'\ufeff{HEADER}\n'):
            with self.subTest(text), self.assertRaisesRegex(NoInstructions, '^line 1: the header'):
                read(text)

    def test_any_text(self) -> None:
        """Texts that are changed at random are read, or are none, and what is read is written as
        it was."""
        chance, texts = random.Random(7), 0
        for _ in range(3000):
            text = list(FULL.text())
            for _ in range(chance.randint(1, 3)):
                at = chance.randrange(len(text))
                text[at] = chance.choice([chr(chance.randrange(0x300)), '', ',', '\n', '0'])
            try:
                found = read(''.join(text))
            except NoInstructions:
                continue
            self.assertEqual(read(found.text()), found)
            texts += 1
        self.assertGreater(texts, 100)


class InAFolder(unittest.TestCase):
    def setUp(self) -> None:
        self.folder = tempfile.TemporaryDirectory()
        self.addCleanup(self.folder.cleanup)
        self.path = os.path.join(self.folder.name, 'instructions.csv')

    def put(self, text: str) -> None:
        with open(self.path, 'w', encoding='utf-8') as file:
            file.write(text)

    def write(self, changed: Instructions) -> None:
        with changing(self.path) as (_, write):
            write(changed)


class File(InAFolder):
    def test_what_is_written(self) -> None:
        """Nobody else may write it, and all may read it."""
        self.assertEqual(read_file(self.path), Instructions())
        before = os.umask(0o077)
        self.addCleanup(os.umask, before)
        for text in (FULL, Instructions(), FULL):
            self.write(text)
            self.assertEqual(read_file(self.path), text)
        self.assertEqual(os.stat(self.path).st_mode & 0o777, 0o644)
        self.assertEqual(os.listdir(self.folder.name), ['instructions.csv'])

    def test_one_at_a_time(self) -> None:
        """Forty threads close a node each: all are closed."""

        def close(number: int) -> None:
            with changing(self.path) as (before, write):
                write(Instructions({}, before.nodes | {f'N{number}'}))

        threads = [threading.Thread(target=close, args=(number,)) for number in range(40)]
        for thread in threads:
            thread.start()
        for thread in threads:
            thread.join()
        self.assertEqual(read_file(self.path).nodes, {f'N{number}' for number in range(40)})

    def test_one_that_does_not_end(self) -> None:
        """A command that hangs holds the others up for a while."""
        with mock.patch.object(instructions_file, 'PATIENCE', 0.2):
            with changing(self.path):
                with self.assertRaisesRegex(OSError, 'another command writes there'):
                    self.write(FULL)
        self.write(FULL)

    def test_a_fault_while_it_is_written(self) -> None:
        """Where any call fails, as on a full disk, the old file stays, and nothing beside it."""
        self.write(FULL)
        for call in ('open', 'fchmod', 'fsync', 'rename'):
            fault = OSError(errno.ENOSPC, 'No space left on device')
            real = os.open

            def only_new(path: object, *words: object, **more: object) -> int:
                if str(path).endswith('.new'):
                    raise fault
                return real(path, *words, **more)  # type: ignore[arg-type]

            fails = mock.Mock(side_effect=only_new if call == 'open' else fault)
            with mock.patch.object(os, call, fails), self.subTest(call):
                with self.assertRaisesRegex(OSError, 'No space'):
                    self.write(Instructions())
            self.assertEqual(read_file(self.path), FULL)
            self.assertEqual(os.listdir(self.folder.name), ['instructions.csv'])

    def test_a_full_disk(self) -> None:
        """The limit of a process stands for it: a file of more bytes can't be written."""
        self.write(FULL)
        program = (
            'import resource, signal, sys\n'
            'from nulvrader.common.instructions import Instructions\n'
            'from nulvrader.common.instructions_file import changing\n'
            'signal.signal(signal.SIGXFSZ, signal.SIG_IGN)\n'
            'resource.setrlimit(resource.RLIMIT_FSIZE, (1000, 1000))\n'
            f'with changing({self.path!r}) as (before, write):\n'
            '    write(Instructions({}, frozenset(f"N{n}" for n in range(1000))))\n'
        )
        done = subprocess.run(
            [sys.executable, '-c', program], cwd=TOOLS, capture_output=True, text=True
        )
        self.assertIn('File too large', done.stderr)
        self.assertEqual(read_file(self.path), FULL)
        self.assertEqual(os.listdir(self.folder.name), ['instructions.csv'])

    def test_a_kill_at_any_moment(self) -> None:
        """A process that writes one text and another in turn is killed while it does: each time one
        of both is there, and the next one writes as if nothing had been."""
        texts = FULL, Instructions({f'J{n}': Urgency(DUE, 1) for n in range(2000)})
        program = (
            'import sys\n'
            'from nulvrader.common.instructions import read\n'
            'from nulvrader.common.instructions_file import changing\n'
            'texts = [read(text) for text in sys.argv[1:]]\n'
            'print("begun", flush=True)\n'
            'while True:\n'
            '    for text in texts:\n'
            f'        with changing({self.path!r}) as (before, write):\n'
            '            write(text)\n'
        )
        chance = random.Random(5)
        for _ in range(12):
            words = [sys.executable, '-c', program, *(text.text() for text in texts)]
            with subprocess.Popen(words, cwd=TOOLS, stdout=subprocess.PIPE) as process:
                assert process.stdout is not None
                process.stdout.readline()
                begun = os.stat(self.folder.name).st_mtime_ns
                until(lambda: os.stat(self.folder.name).st_mtime_ns != begun, 'it writes')
                for _ in range(chance.randrange(2000)):
                    os.getpid()
                process.send_signal(signal.SIGKILL)
                process.wait()
            self.assertIn(read_file(self.path), texts)
            self.write(FULL)
            self.assertEqual(os.listdir(self.folder.name), ['instructions.csv'])

    def test_hostile_files(self) -> None:
        """Something else in its place is told, and nobody waits for it or reads on for ever; a link
        in the place of what is written is not followed."""
        other = os.path.join(self.folder.name, 'other')
        kinds: tuple[tuple[Callable[[], object], str], ...] = (
            (lambda: os.mkfifo(self.path), 'is a FIFO'),
            (lambda: os.mkdir(self.path), 'is a folder'),
            (lambda: os.symlink('/dev/zero', self.path), 'is a device'),
            (lambda: os.symlink(self.path, self.path), 'Too many levels'),
            (lambda: self.put('x' * 2_000_000), 'more than 1048576 bytes'),
            (lambda: self.put('\x00' * 100), 'the header is not'),
        )
        for make, told in kinds:
            make()
            with self.subTest(told), self.assertRaisesRegex(NoInstructions, told):
                read_file(self.path)
            with self.subTest(told), self.assertRaises((NoInstructions, OSError)):
                self.write(FULL)
            os.rmdir(self.path) if os.path.isdir(self.path) else os.unlink(self.path)
        os.symlink(other, f'{self.path}.new')
        self.write(FULL)
        self.assertFalse(os.path.exists(other))
        with open(self.path, 'wb') as file:
            file.write(b'\xff\xfe')
        with self.assertRaisesRegex(NoInstructions, 'it is no text'):
            read_file(self.path)

    def test_one_that_is_followed(self) -> None:
        """It is read again where it has changed; one that can't be read is a fault until it can,
        and so is one that is gone."""
        followed = Followed(self.path)
        self.assertEqual(followed.now(), Instructions())
        self.write(FULL)
        self.assertEqual(followed.now(), FULL)
        with mock.patch.object(instructions_file, 'read_file', side_effect=AssertionError):
            self.assertEqual(followed.now(), FULL)
        self.put('no')
        for _ in range(2):
            with self.assertRaisesRegex(NoInstructions, 'the header'):
                followed.now()
        os.unlink(self.path)
        with self.assertRaisesRegex(NoInstructions, 'the file is gone'):
            followed.now()
        self.write(Instructions())
        self.assertEqual(followed.now(), Instructions())
        fault = NoInstructions('an error of the disk')
        self.write(FULL)
        with mock.patch.object(instructions_file, 'read_file', side_effect=fault):
            self.assertRaises(NoInstructions, followed.now)
        self.assertEqual(followed.now(), FULL)


if __name__ == '__main__':
    unittest.main()
