"""The bytes and the rows of a file that has met a fault, and samples of the faults that are
tried."""
from __future__ import annotations

import hashlib
import os
import sqlite3
import tempfile
from collections.abc import Iterable
from typing import Any

from nulvrader.file.tables import columns
from tests.support.records import copied

ALL = os.environ.get('FAULTS') == 'all'
PART, PARTS = map(int, os.environ.get('FAULTS_PART', '0/1').split('/'))


def without_clock(rows: dict[str, Any]) -> dict[str, Any]:
    """The rows with no moments of messages, which are the clock's."""
    places = {columns('vehicle').index(name) for name in ('order_at', 'instant_at')}
    return {
        **rows,
        'vehicle': [
            tuple(value > 0 if at in places else value for at, value in enumerate(row))
            for row in rows['vehicle']
        ],
    }


def files_of(db: str) -> dict[str, bytes]:
    """The bytes of the file, and of the log beside it, as far as they are there."""
    found = {}
    for end in ('', '-wal'):
        if os.path.exists(db + end):
            with open(db + end, 'rb') as file:
                found[end] = file.read()
    return found


def digest_of(db: str) -> tuple[tuple[str, bytes], ...]:
    return tuple((end, hashlib.sha1(data).digest()) for end, data in files_of(db).items())


def tables_of(db: str) -> dict[str, list[Any]]:
    """The rows of each table of a file that is sound, whatever tables it has, as another SQLite
    reads them; the file is left as it is."""
    with tempfile.TemporaryDirectory(dir=os.path.dirname(db)) as folder:
        base = sqlite3.connect(copied(db, folder))
        try:
            if base.execute('PRAGMA integrity_check').fetchall() != [('ok',)]:
                raise AssertionError(base.execute('PRAGMA integrity_check').fetchall())
            names = [
                name
                for name, in base.execute("SELECT name FROM sqlite_master WHERE type = 'table'")
            ]
            return {
                name: sorted(base.execute(f'SELECT * FROM {name} NOT INDEXED'), key=repr)
                for name in names
            }
        finally:
            base.close()


def remove(db: str) -> None:
    for end in ('', '-wal', '-shm', '-journal'):
        if os.path.exists(db + end):
            os.remove(db + end)


def put(db: str, files: dict[str, bytes]) -> None:
    """These files are there, and no others of this database."""
    remove(db)
    for end, data in files.items():
        with open(db + end, 'wb') as file:
            file.write(data)


def sample(numbers: Iterable[int], most: int) -> list[int]:
    """All of these, or so many spread over them."""
    numbers = list(numbers)
    if ALL:
        return numbers[PART::PARTS]
    if len(numbers) <= most:
        return numbers
    return [numbers[at * (len(numbers) - 1) // (most - 1)] for at in range(most)]
