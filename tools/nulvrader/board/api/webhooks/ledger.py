"""Keeps how far each receiver is, in a file of its own: the number of the last event that it has
taken, and the message on its way, which is the same to the byte whenever it is sent again."""
from __future__ import annotations

import sqlite3
import threading
from dataclasses import dataclass
from typing import Any

from ....common.text import shown
from .delivery import Delivery

SCHEMA = """CREATE TABLE IF NOT EXISTS hooks (name TEXT NOT NULL PRIMARY KEY, record TEXT NOT NULL,
  after INT NOT NULL, message TEXT, body BLOB, next INT) STRICT"""
WAIT = 2.0  # seconds for another program that has the file


class NoLedger(Exception):
    """The file can't be had. Its `str()` says why."""


@dataclass(frozen=True)
class Position:
    """How far a receiver is: the record, the event from which to go on, and the message on its way,
    None where there is none."""

    record: str
    after: int
    delivery: Delivery | None


class Ledger:
    """The open file, which no other program may use meanwhile. Threads may use it at the same
    time."""

    def __init__(self, path: str) -> None:
        self._lock = threading.Lock()
        try:
            self._base = sqlite3.connect(
                path, timeout=WAIT, isolation_level=None, check_same_thread=False
            )
            self._base.execute('PRAGMA locking_mode = EXCLUSIVE')
            self._base.execute('PRAGMA synchronous = FULL')
            self._base.execute('BEGIN EXCLUSIVE')
            self._base.execute(SCHEMA)
            self._base.execute('COMMIT')
        except sqlite3.Error as fault:
            raise NoLedger(f'{shown(path)}: {fault}') from fault

    def close(self) -> None:
        """Closes the file."""
        with self._lock:
            self._base.close()

    def position(self, name: str) -> Position | None:
        """Returns how far a receiver is, None where it is new."""
        question = 'SELECT record, after, message, body, next FROM hooks WHERE name = ?'
        with self._lock:
            row = self._base.execute(question, (name,)).fetchone()
        if row is None:
            return None
        record, after, message, body, follows = row
        on_way = None if message is None else Delivery(message, bytes(body), follows)
        return Position(record, after, on_way)

    def put(self, name: str, position: Position) -> None:
        """Keeps how far a receiver is: it is on the disk then."""
        on_way: tuple[Any, ...] = (None, None, None)
        if position.delivery is not None:
            on_way = position.delivery.id, position.delivery.body, position.delivery.after
        with self._lock:
            self._base.execute(
                'INSERT OR REPLACE INTO hooks VALUES (?, ?, ?, ?, ?, ?)',
                (name, position.record, position.after, *on_way),
            )
