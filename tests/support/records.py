"""The rows of a desk's file, as another SQLite reads them, which of the rules in
`tools/nulvrader/file/rules.py` they break, and what a desk that has these rows is to answer to each
GET, by the model of the rules in `tests/model`."""
import contextlib
import os
import shutil
import sqlite3
import sys
import tempfile
from collections.abc import Iterable
from typing import Any

from nulvrader.file.rows import Rows
from nulvrader.file.tables import TABLES, columns
from nulvrader.file.rules import broken_rules
from tests.model.desk import Model, compact

# Where files lie in memory, if there is such a folder: a sync costs nothing there.
FOLDER = '/dev/shm' if os.access('/dev/shm', os.W_OK | os.X_OK) else None


def copied(db: str, folder: str) -> str:
    """A copy of the file, with its log where it has one: what reads it changes nothing of the
    file."""
    copy = os.path.join(folder, 'copy.db')
    for end in ('', '-wal', '-shm'):
        if os.path.exists(copy + end):
            os.remove(copy + end)
    for end in ('', '-wal'):
        if os.path.exists(db + end):
            shutil.copyfile(db + end, copy + end)
    return copy


def rows_of(db: str, check: bool = True) -> Any:
    """All rows by table, each table sorted; none where the file has no table. The file is left as
    it is."""
    with tempfile.TemporaryDirectory(dir=os.path.dirname(db)) as folder:
        base = sqlite3.connect(copied(db, folder))
        try:
            if check and base.execute('PRAGMA integrity_check').fetchall() != [('ok',)]:
                raise AssertionError(base.execute('PRAGMA integrity_check').fetchall())
            tables = {
                name
                for name, in base.execute("SELECT name FROM sqlite_master WHERE type = 'table'")
            }
            if not tables:
                return None
            if tables != set(TABLES):
                raise AssertionError(tables)
            found = {}
            for table in TABLES:
                rows = base.execute(
                    f'SELECT {", ".join(columns(table))} FROM {table} NOT INDEXED'
                ).fetchall()
                found[table] = sorted(
                    rows, key=lambda row: [(value is not None, str(value)) for value in row]
                )
            return found
        finally:
            base.close()


def named(rows: Any) -> Rows:
    """The rows with their columns as members."""
    made: dict[str, Any] = {table: list(map(of._make, rows[table])) for table, of in TABLES.items()}
    return Rows(**made)


def breaches(rows: Any) -> list[Any]:
    """All breaches of the rules."""
    return [found for one in broken_rules(rows, sys.maxsize) for found in one.first]


def broken(rows: Any) -> list[str]:
    """The rules that these rows break, as texts; an empty list where they are a lawful world's."""
    return [f'{found.rule.name}: {found}' for found in breaches(named(rows))]


def answers_of_rows(rows: Any, targets: Iterable[str]) -> list[tuple[int, bytes]]:
    """The status and the body by which a desk that has these rows of a lawful world answers each
    `GET`."""
    model, found = Model.of_rows(rows), []
    for target in targets:
        status, told, _, _ = model.answer('GET', target)
        found.append(
            (
                status,
                b'' if told is None else told.encode() if isinstance(told, str) else compact(told),
            )
        )
    return found


def export_of_rows(rows: Any) -> str:
    """The export of all loads."""
    return answers_of_rows(rows, ['/export/loads'])[0][1].decode()


def checkpoint(db: str) -> None:
    """Has SQLite move what the log of a file has into the file, and empty the log."""
    with contextlib.closing(sqlite3.connect(db)) as base:
        base.execute('PRAGMA wal_checkpoint(TRUNCATE)')
