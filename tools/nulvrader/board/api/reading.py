"""Reads `board.db` beside the one who writes it. Only what is committed is seen, and a reading is
of one moment."""
from __future__ import annotations

import contextlib
import os
import sqlite3
import threading
import urllib.parse
from collections.abc import Iterator, Sequence
from typing import Any

PATIENCE = 5.0  # seconds for somebody who has the file to himself
Row = dict[str, Any]


class Reading:
    """Reads the file. Each thread has a connection of its own, which can't write."""

    def __init__(self, path: str) -> None:
        self.path = path
        self._own = threading.local()

    def _base(self) -> sqlite3.Connection:
        base: sqlite3.Connection | None = getattr(self._own, 'base', None)
        if base is None:
            name = urllib.parse.quote(os.path.abspath(self.path))
            base = sqlite3.connect(
                f'file:{name}?mode=ro', uri=True, timeout=PATIENCE, isolation_level=None
            )
            base.row_factory = sqlite3.Row
            self._own.base = base
        return base

    @contextlib.contextmanager
    def moment(self) -> Iterator[Reading]:
        """Has all that is read in a block be of one moment."""
        base = self._base()
        base.execute('BEGIN')
        try:
            yield self
        finally:
            with contextlib.suppress(sqlite3.Error):
                base.execute('COMMIT')

    def rows(self, question: str, values: Sequence[Any] = ()) -> list[Row]:
        """Returns the rows that the file answers, by the names of their columns."""
        return [dict(row) for row in self._base().execute(question, values)]

    def row(self, question: str, values: Sequence[Any] = ()) -> Row | None:
        """Returns the first row, or None."""
        found = self._base().execute(question, values).fetchone()
        return None if found is None else dict(found)

    def number(self, question: str, values: Sequence[Any] = ()) -> int:
        """Returns the one number that is answered, 0 where there is none."""
        (found,) = self._base().execute(question, values).fetchone()
        return int(found or 0)

    def meta(self, name: str) -> str | None:
        """Returns a value of the table `meta`, or None."""
        row = self.row('SELECT value FROM meta WHERE name = ?', (name,))
        return None if row is None else str(row['value'])

    def has_table(self, name: str) -> bool:
        """Whether the file has a table."""
        question = "SELECT count(*) FROM sqlite_master WHERE type = 'table' AND name = ?"
        return self.number(question, (name,)) > 0

    def version(self) -> int:
        """Returns a number that differs once somebody else has committed."""
        return self.number('PRAGMA data_version')

    def sync(self) -> None:
        """Waits until all that is committed is on the disk. SQLite itself does so only at
        checkpoints."""
        with contextlib.suppress(FileNotFoundError):
            file = os.open(f'{self.path}-wal', os.O_RDONLY | os.O_CLOEXEC)
            try:
                os.fdatasync(file)
            finally:
                os.close(file)
