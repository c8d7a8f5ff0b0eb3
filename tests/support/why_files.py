"""What the tests of `tools/why` have in common: a file with a row of each kind, and what is told of
it, by which nothing changes."""
import contextlib
import functools
import os
import pwd
import shutil
import sqlite3
import subprocess
import sys
import unittest
from typing import Any

from tests.support.programs import TOOLS
from tests.support.filled_file import FilledFile
from tests.support.records import FOLDER, checkpoint
from tests.support.damages import FILLED, asked
from tests.support.desks import AT, DESK, run

from nulvrader.file import reasons
from nulvrader.file.machine import User

ME = User.of_this_program()
OTHER = 'nobody'


def told(path: str, port: int | None = None, user: Any = ME) -> Any:
    return reasons.find_reasons(path, port, user, 10**9)


class WhyTest(FilledFile):
    """Each test has a folder of its own, in which a file with a row of each kind may be made."""

    log: str
    place = FOLDER
    script = FILLED

    @classmethod
    def setUpClass(cls) -> None:
        super().setUpClass()
        os.chmod(cls.above.name, 0o755)
        status, _, said = run('replay', '--db', cls.filled, '--at', AT, stdin=asked(cls.script))
        assert (status, said) == (0, b''), said
        cls.log = cls.filled + '-wal'
        shutil.copyfile(cls.filled, cls.filled + '.before')
        shutil.copyfile(cls.log, cls.log + '.before')
        checkpoint(cls.filled)

    def setUp(self) -> None:
        super().setUp()
        os.chmod(self.folder, 0o755)
        self.db = os.path.join(self.folder, 'warehouse.db')

    def fill(self, *statements: Any, log: bool = False) -> None:
        """The file with a row of each kind, as it is left when the desk is stopped, and what is
        written into it then."""
        for end in ('', '-wal', '-shm'):
            if os.path.exists(self.db + end):
                os.remove(self.db + end)
        shutil.copyfile(self.filled + '.before' * log, self.db)
        if log:
            shutil.copyfile(self.log + '.before', self.db + '-wal')
        if statements:
            self.write(*statements)

    def write(self, *statements: str) -> None:
        with contextlib.closing(sqlite3.connect(self.db)) as base:
            for statement in statements:
                base.executescript(statement)

    def state(self) -> Any:
        """All that lies in the folder: names, bytes, rights and times of the last change."""
        found = {}
        for at, _, names in os.walk(self.folder):
            for name in names:
                path = os.path.join(at, name)
                status = os.stat(path)
                with contextlib.suppress(PermissionError), open(path, 'rb') as file:
                    found[path] = file.read(), status.st_mode, status.st_uid, status.st_mtime_ns
        return found

    def look(self, *words: str, user: str | None = None, expected: int = 1) -> Any:
        """What `tools/why` says of the file, which stays as it is, as does all beside it."""
        before = self.state()
        line = [python_of(user), os.path.join(TOOLS, 'why'), '--db', self.db, *words]
        done = subprocess.run(line, capture_output=True, text=True, timeout=600, **as_user(user))
        self.assertEqual((done.returncode, done.stderr), (expected, ''), done.stdout)
        self.assertEqual(self.state(), before)
        return done.stdout

    def check_fault(
        self, fault: str, *parts: Any, words: Any = (), user: str | None = None, port: str = '0'
    ) -> None:
        """The program ends with this fault, and `tools/why` tells each of these parts."""
        line = [DESK, 'serve', '--db', self.db, '--port', port, '--connections', '0']
        done = subprocess.run(line, capture_output=True, text=True, timeout=600, **as_user(user))
        self.assertEqual((done.returncode, done.stdout, done.stderr), (1, '', f'fault: {fault}\n'))
        said = self.look(*words, user=user)
        for part in (*parts, f'`fault: {fault}`'):
            self.assertIn(part, said)


def as_user(name: Any) -> Any:
    if name is None:
        return {}
    found = pwd.getpwnam(name)
    return {'user': found.pw_uid, 'group': found.pw_gid, 'extra_groups': []}


@functools.lru_cache(None)
def python_of(user: Any) -> Any:
    """A Python that the user may run."""
    for python in (sys.executable, '/usr/bin/python3'):
        with contextlib.suppress(OSError):
            if subprocess.run([python, '-c', ''], **as_user(user)).returncode == 0:
                return python
    raise unittest.SkipTest(f'the user {user} may run no Python here')


def another_user() -> Any:
    """Somebody whose rights can be taken away: root may do all."""
    return OTHER if os.geteuid() == 0 else None
