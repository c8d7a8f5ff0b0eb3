"""A desk's file that is attacked, and programs run over it with limits of memory and time."""
from __future__ import annotations

import contextlib
import dataclasses
import os
import resource
import shutil
import socket
import sqlite3
import subprocess
import sys
import tempfile
from collections.abc import Iterator
from typing import IO

from tests.support.filled_file import FilledFile
from tests.support.records import checkpoint
from tests.support.hostile_tables import LONG, SHORT
from tests.support.programs import PATIENCE, ROOT, TOOLS, until

DESK = os.path.abspath(os.environ.get('DESK', os.path.join(ROOT, 'build', 'desk')))
AT = '1700000000000'
MEMORY = 300_000_000  # bytes that a program may take for a small file
CPU = 60  # seconds of a processor that a program may take for a small file
ROWS = os.path.join(ROOT, 'examples', 'map.http')
SECRET = 'root:x:0:0:root:/root:/bin/sh\n'


@dataclasses.dataclass(frozen=True)
class Ended:
    """How a program has ended."""

    status: int
    out: str
    said: str
    memory: int

    @property
    def text(self) -> str:
        return self.out + self.said


def limits() -> None:
    """A program that goes on computing is ended by the system."""
    resource.setrlimit(resource.RLIMIT_CPU, (CPU, CPU))


def started(
    name: str,
    *words: str,
    stdin: int | IO[bytes] = subprocess.DEVNULL,
    python: str = sys.executable,
) -> 'subprocess.Popen[bytes]':
    line = [python, os.path.join(TOOLS, name), *words]
    out, said = tempfile.TemporaryFile(), tempfile.TemporaryFile()
    process = subprocess.Popen(line, stdin=stdin, stdout=out, stderr=said, preexec_fn=limits)
    process.stdout, process.stderr = out, said
    return process


def ended(process: 'subprocess.Popen[bytes]') -> Ended:
    """How a program ends by itself. One that hangs is killed, and has failed. It may have to wait
    for its seconds of a processor."""
    found: list[tuple[int, int, resource.struct_rusage]] = []

    def has_ended() -> bool:
        found[:] = [os.wait4(process.pid, os.WNOHANG)]
        return found[0][0] != 0

    try:
        until(has_ended, f'the end of {process.args!r}', 5 * PATIENCE)
    except AssertionError:
        process.kill()
        raise
    process.returncode = os.waitstatus_to_exitcode(found[0][1])
    texts = []
    for stream in (process.stdout, process.stderr):
        assert stream is not None
        stream.seek(0)
        texts.append(stream.read().decode())
        stream.close()
    return Ended(process.returncode, texts[0], texts[1], found[0][2].ru_maxrss * 1024)


def ran(name: str, *words: str, stdin: int | IO[bytes] = subprocess.DEVNULL) -> Ended:
    return ended(started(name, *words, stdin=stdin))


class Attack(FilledFile):
    """Each test has a folder, in which `db` may be made: a file with three vehicles at work."""

    above: tempfile.TemporaryDirectory[str]
    filled: str

    @classmethod
    def setUpClass(cls) -> None:
        super().setUpClass()
        with open(ROWS, 'rb') as file:
            line = [DESK, 'replay', '--db', cls.filled, '--at', AT]
            subprocess.run(line, stdin=file, stdout=subprocess.DEVNULL, check=True)
        checkpoint(cls.filled)

    def setUp(self) -> None:
        super().setUp()
        self.db = self.path('warehouse.db')
        self.victim = self.path('victim')
        self.write('victim', SECRET)
        self.write('count.csv', 'station,load\n')

    def path(self, *names: str) -> str:
        return os.path.join(self.folder, *names)

    def write(self, name: str, text: str) -> None:
        with open(self.path(name), 'w', encoding='utf-8') as file:
            file.write(text)

    def read(self, path: str) -> bytes:
        with open(path, 'rb') as file:
            return file.read()

    def fill(self, statements: str = '') -> None:
        """Makes the file, and writes into it. A rule that is quickly computed is then exchanged for
        one that is not."""
        for end in ('-wal', '-shm', '-journal'):
            self.clear(self.db + end)
        shutil.copyfile(self.filled, self.db)
        with contextlib.closing(sqlite3.connect(self.db)) as base:
            base.executescript(statements)
            base.execute('PRAGMA writable_schema = ON')
            base.execute(
                'UPDATE sqlite_master SET sql = replace(sql, ?, ?) WHERE sql LIKE ?',
                (SHORT, LONG, f'%{SHORT}%'),
            )
            base.commit()

    def clear(self, path: str) -> None:
        """Removes what is there."""
        if os.path.isdir(path) and not os.path.islink(path):
            os.rmdir(path)
        elif os.path.lexists(path):
            os.remove(path)

    def readers(self) -> Iterator[tuple[str, ...]]:
        """Each program that reads the file of a desk, with its words."""
        yield 'map', '--db', self.db
        yield 'check-count', self.path('count.csv'), '--db', self.db
        yield 'new-file', '--from', self.db, '--desk', '127.0.0.1:1'
        yield 'backup', '--db', self.db, '--to', self.path('copies'), '--program', DESK
        yield 'why', '--db', self.db

    def check_sentence(
        self, told: Ended, what: object, statuses: tuple[int, ...] = (1, 2, 3)
    ) -> None:
        """A program has ended by itself with a sentence, and takes little memory."""
        self.assertIn(told.status, statuses, (what, told.text))
        self.assertNotIn('Traceback', told.said, what)
        self.assertTrue(told.text.endswith('\n'), what)
        self.check_shown(told, what)
        self.assertLess(told.memory, MEMORY, what)

    def check_shown(self, told: Ended, what: object) -> None:
        """What is printed has no character by which a terminal does something else than print
        it."""
        odd = [sign for sign in told.text if sign != '\n' and not sign.isprintable()]
        self.assertEqual(odd, [], what)

    def check_readers(self, what: object, part: str = '') -> None:
        """Each program ends with a sentence, and has this part in it."""
        for words in self.readers():
            told = ran(*words)
            self.check_sentence(told, (what, words[0]))
            self.assertIn(part, told.text, (what, words[0]))

    def put(self, kind: str, path: str) -> None:
        """Puts something at a path that is no regular file."""
        if kind == 'a FIFO':
            os.mkfifo(path)
        elif kind == 'a socket':
            with socket.socket(socket.AF_UNIX) as one:
                one.bind(path)
        elif kind == 'a folder':
            os.mkdir(path)
        elif kind == 'a device':
            os.symlink('/dev/zero', path)
        elif kind == 'a link to a FIFO':
            if not os.path.exists(self.path('fifo')):
                os.mkfifo(self.path('fifo'))
            os.symlink(self.path('fifo'), path)
