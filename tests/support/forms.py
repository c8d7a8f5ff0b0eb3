"""Tables in other forms than the desk makes them, and what is made of them."""
import contextlib
import os
import sqlite3
import tempfile
import unittest
from typing import Any

from nulvrader.file.tables import KEYS, SECOND, TABLES, columns_of
from tests.support.records import FOLDER
from tests.support.desks import AT, HOLDS, STOCK, TRANSPORT, run
from tests.support.why_files import told


def typed(table: str, *rules: str, end: str = 'STRICT', **columns: Any) -> str:
    """The text of a table: its columns, but that those of these names are written so, its rules,
    and what stands behind them."""
    parts = [
        f'{column.name} {"INTEGER" if column.is_number else "TEXT"}'
        f'{"" if column.may_be_null else " NOT NULL"}'
        for column in columns_of(table)
    ]
    parts = [
        part.split()[0] + ' ' + columns.pop(part.split()[0]) if part.split()[0] in columns else part
        for part in parts
    ]
    assert not columns, columns
    return f'CREATE TABLE {table} ({", ".join([*parts, *rules])}) {end};'


def plain(table: str) -> Any:
    """As the desk has it."""
    primary, *others = (key.replace(' ', ', ') for key in KEYS[table])
    return typed(
        table,
        f'PRIMARY KEY ({primary})',
        *(f'UNIQUE ({other})' for other in others),
        **{'id': 'INT'} if table == 'meta' else {},
    )


class FormsTest(unittest.TestCase):
    def setUp(self) -> None:
        self.folder = tempfile.TemporaryDirectory(dir=FOLDER)
        self.addCleanup(self.folder.cleanup)
        self.db = os.path.join(self.folder.name, 'typed.db')

    def remove(self) -> None:
        for end in ('', '-wal', '-shm'):
            with contextlib.suppress(FileNotFoundError):
                os.remove(self.db + end)

    def execute(self, *statements: str) -> None:
        """Has another SQLite carry these out."""
        with contextlib.closing(sqlite3.connect(self.db)) as base:
            base.executescript(''.join(statements))

    def write(self, number: int, text: str, rows: str = '', before: str = '') -> None:
        """Has the tables of the schema of that number, and one of them by this text, made by
        another SQLite in a new file."""
        self.remove()
        name = text.split()[2].strip("'")
        tables = [table for table in TABLES if number == 2 or table not in SECOND]
        self.assertIn(name, tables)
        made = [text if table == name else plain(table) for table in tables]
        self.execute(before, *made, rows, f'INSERT INTO meta VALUES (1, {number});')

    def replay(self, stdin: bytes = b'') -> Any:
        return run('replay', '--db', self.db, '--at', AT, stdin=stdin)

    def bytes_of_file(self) -> Any:
        with open(self.db, 'rb') as file:
            return file.read()

    def check_refused(self, *words: str) -> None:
        """The program ends with `fault: Damaged`, the file stays as it is, and a reason is told."""
        before = self.bytes_of_file()
        self.assertEqual(run(*words), (1, b'', b'fault: Damaged\n'))
        self.assertEqual(self.bytes_of_file(), before)
        self.assertTrue(
            any('`fault: Damaged`' in reason for reason in told(self.db).reasons),
            told(self.db).reasons,
        )

    def check_transport(self) -> None:
        """A whole transport is served in a file without a layout, and told by the next start."""
        with open(TRANSPORT, 'rb') as file:
            status, out, said = self.replay(file.read())
        self.assertEqual((status, said), (0, b''))
        self.assertNotIn(b'HTTP/1.1 5', out)
        self.assertEqual(run('report', '--db', self.db, 'stock'), (0, STOCK, b''))
        self.assertEqual(run('report', '--db', self.db, 'holds'), (0, HOLDS, b''))
