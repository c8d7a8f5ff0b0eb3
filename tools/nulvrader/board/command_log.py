"""The commands of `board.db`: each stands there before it is sent to the desk, and its outcome
behind it."""
from __future__ import annotations

import contextlib
import json
import sqlite3
import threading
from collections.abc import Callable, Mapping
from dataclasses import dataclass

from .events import Cause, Event, ToldEvent, told
from .record import INSERT_EVENT, NoRecord, event_row, opened, text_of

WAIT = 5.0  # seconds for another program that writes to the file


@dataclass(frozen=True)
class Command:
    """A command that stands in the file: the number of its row, who gave it, its name, and its
    values."""

    number: int
    who: str
    name: str
    values: Mapping[str, str]


@dataclass(frozen=True)
class Outcome:
    """What came of a command: whether it was done, None where that is not known, and the answer.
    `event` is its entry of what happened, at a moment in milliseconds since
    1970."""

    done: bool | None
    answer: str
    at: int
    event: Event


class CommandLog:
    """Writes commands by a connection of its own, so that each is on the disk at once. Threads may
    use it at the same time. `told` takes each entry that was written, as pages have it."""

    def __init__(self, path: str, told: Callable[[ToldEvent], None] = lambda entry: None):
        self.told = told
        self._lock = threading.Lock()
        self._late: list[tuple[int, Outcome]] = []  # outcomes that could not be written
        try:
            self._base = opened(path, WAIT)
            self._base.execute('PRAGMA synchronous = FULL')
        except sqlite3.Error as fault:
            raise NoRecord(str(fault)) from fault

    def close(self) -> None:
        """Closes the file."""
        with self._lock, contextlib.suppress(sqlite3.Error):
            self._write_late()
            self._base.close()

    def asked(self, at: int, who: str, command: str, said: Mapping[str, str]) -> int:
        """Writes that a command is about to be sent. The number of its row; `NoRecord` where that
        can't be written."""
        row = 'INSERT INTO commands (at, who, command, said) VALUES (?, ?, ?, ?)'
        with self._lock:
            try:
                self._write_late()
                number = self._base.execute(
                    row, (text_of(at), who, command, json.dumps(dict(said)))
                ).lastrowid
            except sqlite3.Error as fault:
                raise NoRecord(str(fault)) from fault
        assert number is not None
        return number

    def answered(self, number: int, outcome: Outcome) -> None:
        """Writes the outcome of a command, and tells of its entry; `NoRecord` where that can't be
        written, which is tried again with the next command."""
        with self._lock:
            self._late.append((number, outcome))
            try:
                self._write_late()
            except sqlite3.Error as fault:
                raise NoRecord(str(fault)) from fault

    def tell(self, event: Event, at: int) -> None:
        """Writes an entry of something that a person has done here; `NoRecord` where that can't be
        written."""
        with self._lock:
            try:
                self._write_late()
                number = self._base.execute(INSERT_EVENT, event_row(at, event)).lastrowid
            except sqlite3.Error as fault:
                raise NoRecord(str(fault)) from fault
        self.told(told(number or 0, at, event))

    def take(self, number: int, who: str | None, at: int) -> Event | None:
        """Writes who has taken an open alarm on, None where nobody has any more. Its entry; None
        where no such alarm is open. `NoRecord` where that can't be written."""
        question = 'SELECT key, kind, level, vehicle, load, job, station, more FROM alarms'
        with self._lock:
            try:
                rows = self._base.execute(
                    f'{question} WHERE n = ? AND ended IS NULL', (number,)
                ).fetchall()
                moment = None if who is None else text_of(at)
                change = 'UPDATE alarms SET taken_by = ?, taken_at = ? WHERE n = ?'
                self._base.execute(change, (who, moment, number))
            except sqlite3.Error as fault:
                raise NoRecord(str(fault)) from fault
        for key, kind, level, vehicle, load, job, station, more in rows:
            about = {'vehicle': vehicle, 'load': load, 'job': job, 'station': station}
            values = {**json.loads(more), 'alarm': kind, 'key': key, 'level': level}
            what = 'alarm.left' if who is None else 'alarm.taken'
            cause = Cause('person', who)
            return Event('alarm', what, cause, about, after=who, more=values)
        return None

    def _write_late(self) -> None:
        while self._late:
            number, outcome = self._late[0]
            done = None if outcome.done is None else int(outcome.done)
            self._base.execute('BEGIN IMMEDIATE')
            try:
                self._base.execute(
                    'UPDATE commands SET done = ?, answer = ? WHERE n = ?',
                    (done, outcome.answer, number),
                )
                row = event_row(outcome.at, outcome.event)
                entry = self._base.execute(INSERT_EVENT, row).lastrowid
                self._base.execute('COMMIT')
            finally:
                if self._base.in_transaction:
                    self._base.execute('ROLLBACK')
            del self._late[0]
            self.told(told(entry or 0, outcome.at, outcome.event))

    def left(self) -> list[Command]:
        """Returns the commands of an earlier run whose outcome is not known."""
        with self._lock:
            try:
                rows = self._base.execute(
                    'SELECT n, who, command, said FROM commands WHERE answer IS NULL ORDER BY n'
                )
                return [
                    Command(number, who, name, json.loads(said)) for number, who, name, said in rows
                ]
            except sqlite3.Error as fault:
                raise NoRecord(str(fault)) from fault
