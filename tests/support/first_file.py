"""A file of the first schema that another SQLite has written, and what the program makes of it."""
from __future__ import annotations

import contextlib
import os
import shutil
import sqlite3
import tempfile
import unittest
from collections.abc import Iterator
from typing import Any

from nulvrader.file.tables import SECOND, TABLES
from tests.support.desks import AT, run
from tests.support.first_schema import FIRST, HEADER, committed
from tests.support.records import FOLDER, broken, copied, rows_of
from tests.support.script_calls import answers_of, bytes_of

# The open trips of a file of the second schema as the first has them, where each vehicle carries
# one load.
OLD_TRIPS = '''
SELECT order_id, j.manufacturer, j.serial, p.job, j.start, j.first, j.base, j.sent, j.confirmed,
  j.seen, p.place_at, d.place_at, p.status, d.status
FROM journey j JOIN act p USING (order_id) JOIN act d USING (order_id)
  WHERE p.kind = 'pick' AND d.kind = 'drop'
'''
FILES = ('', '-wal')


class FirstFile(unittest.TestCase):
    """Writes a file of the first schema by another SQLite, and has the program move it."""

    def setUp(self) -> None:
        self.folder = tempfile.TemporaryDirectory(dir=FOLDER)
        self.db = os.path.join(self.folder.name, 'first.db')

    def tearDown(self) -> None:
        self.folder.cleanup()

    def write(self, *texts: Any) -> None:
        """Has these statements carried out by another SQLite, in a file of the first schema if
        there is none yet."""
        first = [] if os.path.exists(self.db) else [FIRST]
        base = sqlite3.connect(self.db)
        for text in ('PRAGMA synchronous = OFF', *first, *texts):
            base.executescript(text)
        base.close()

    @contextlib.contextmanager
    def other(self, log: bool = True) -> Iterator[Any]:
        """Another SQLite over a copy of the file, and of the log beside it: the files stay as they
        are."""
        with tempfile.TemporaryDirectory(dir=FOLDER) as folder:
            copy = copied(self.db, folder)
            if not log and os.path.exists(copy + '-wal'):
                os.remove(copy + '-wal')
            with contextlib.closing(sqlite3.connect(copy)) as base:
                yield base

    def dump(self, log: bool = True) -> Any:
        """All that is in the database, as statements."""
        with self.other(log) as base:
            return list(base.iterdump())[1:-1]

    def put_in_log(self, inside: int = 0, commits: int = 0) -> None:
        """Writes the file anew, with all but the first statements `inside` in the log alone, and so
        many commits more behind them: both files are copied while a connection is open that never
        copies its log, and so are as a desk leaves them.
        """
        statements = self.dump()
        with tempfile.TemporaryDirectory(dir=FOLDER) as folder:
            made = os.path.join(folder, 'made.db')
            with contextlib.closing(sqlite3.connect(made, isolation_level=None)) as base:
                for pragma in ('journal_mode = WAL', 'wal_autocheckpoint = 0', 'synchronous = OFF'):
                    base.execute('PRAGMA ' + pragma)
                for number, statement in enumerate(statements):
                    if 0 < number == inside:
                        base.execute('PRAGMA wal_checkpoint')
                    base.execute(statement)
                for number in range(commits, 0, -1):
                    base.execute(f'UPDATE meta SET schema = {number}')
                for end in FILES:
                    shutil.copyfile(made + end, self.db + end)
        self.assertEqual((self.dump(log=False) == [], self.dump()), (inside == 0, statements))
        self.assertNotEqual(self.dump(log=False), statements)

    def bytes(self) -> Any:
        found = {}
        for end in FILES:
            if os.path.exists(self.db + end):
                with open(self.db + end, 'rb') as file:
                    found[end] = file.read()
        return found

    def rows(self) -> Any:
        """The rows of the first schema."""
        with self.other() as base:
            return {
                table: sorted(base.execute('SELECT * FROM ' + table), key=repr)
                for table in TABLES
                if table not in SECOND
            }

    def moved(self) -> Any:
        """The file is moved: what the old tables had is there still but for `trip` and `meta`, and
        breaks no rule."""
        before = self.rows()
        self.assertEqual(run('migrate', '--db', self.db), (0, b'migrated\n', b''))
        rows = rows_of(self.db)
        self.assertEqual(broken(rows), [])
        after = self.rows()
        for table in before:
            if table not in ('meta', 'trip'):
                self.assertEqual(after[table], before[table], table)
        self.assertEqual((rows['meta'], rows['trip']), ([(1, 2)], []))
        return {table: rows[table] for table in SECOND}

    def refused(self) -> None:
        """The file is damaged to `migrate`, and stays the same to the byte. So does the log beside
        it, but for a byte behind its frames, the ninth, which tells that they end; where there is
        none, one is made that has no frames and ends with this byte.
        """
        before, statements = self.bytes(), self.dump()
        self.assertEqual(run('migrate', '--db', self.db), (1, b'', b'fault: Damaged\n'))
        after = self.bytes()
        self.assertEqual(after[''], before[''])
        old, new = before.get('-wal', b''), after['-wal']
        front = committed(old)
        if front:
            end = len(front) + 8
            self.assertEqual(new[:end], old[:end].ljust(end, b'\0'))
            self.assertNotEqual(new[end], front[16])
            self.assertEqual(new[end + 1 :], old[end + 1 :])
        else:
            self.assertEqual(len(new), HEADER + 9)
        self.assertEqual(self.dump(), statements)
        self.assertEqual(sorted(os.listdir(self.folder.name)), ['first.db', 'first.db-wal'])

    def check(self, *lines: Any) -> None:
        """Requests with the answers that are wanted, to a program over the file."""
        status, out, said = run(
            'replay', '--db', self.db, '--at', AT, stdin=b''.join(map(bytes_of, lines))
        )
        self.assertEqual((status, said), (0, b''))
        self.assertEqual(answers_of(out), [line[2:] for line in lines])
