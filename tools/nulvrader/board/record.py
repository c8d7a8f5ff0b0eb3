"""`board.db`: what the board saw, for anyone who asks SQLite: tables of how things are, and of each
change with its time.

A time is a text in UTC, `2026-11-28T06:15:00.123Z`, the moment at which the board saw it. SQLite's
date functions read it. The file is in WAL mode, so that it may be read at any time, and each
transaction is there whole or not at all."""
from __future__ import annotations

import contextlib
import datetime
import json
import sqlite3
import threading
import time
from collections.abc import Mapping, Sequence
from typing import Any, Protocol

from ..common.text import shown
from .events import ABOUT, Event, ToldEvent, cut, json_of, told_event, values_cut
from .record_tables import MOST, MOVES, OLD, PORTION, SCHEMA, VERSION, WordsColumns
from .shown_rows import VehicleColumns

# The columns of an entry, without its number, and with it.
COLUMNS = (
    *('at', 'kind', 'what', 'words', 'cause', 'who', 'call', 'command'),
    *ABOUT,
    *('before', 'after', 'more'),
)
EVENT = ('n', *COLUMNS)
INSERT_EVENT = f'INSERT INTO events ({", ".join(COLUMNS)}) VALUES ({", ".join("?" * len(COLUMNS))})'


LOG = 64 * 2**20  # bytes of SQLite's log, once it is begun anew


class NoRecord(Exception):
    """The file can't be had. Its `str()` says why."""


def text_of(at: int) -> str:
    """Returns a moment, in milliseconds since 1970, as the tables have it."""
    moment = datetime.datetime.fromtimestamp(at // 1000, datetime.timezone.utc)
    return f'{moment.strftime("%Y-%m-%dT%H:%M:%S")}.{at % 1000:03d}Z'


def moment_of(text: str) -> int:
    """Returns the milliseconds since 1970 of a time of the tables."""
    moment = datetime.datetime.strptime(text, '%Y-%m-%dT%H:%M:%S.%fZ').replace(
        tzinfo=datetime.timezone.utc
    )
    return round(moment.timestamp() * 1000)


def event_row(at: int, event: Event) -> list[Any]:
    """Returns the values of an entry by `COLUMNS`."""
    event = event.cut()
    cause = event.cause
    row: list[Any] = [text_of(at), event.kind, event.what, cut(event.words())]
    row += [cause.of, cause.who, cause.call, cause.command]
    row += [event.about.get(name) for name in ABOUT]
    return [*row, event.before, event.after, json_of(event.more) if event.more else None]


def entry_of(row: Sequence[Any]) -> ToldEvent:
    """Returns an entry as the page has it, of a row by `EVENT`."""
    found = dict(zip(EVENT, row))
    found['at'], found['text'] = moment_of(found['at']), found.pop('words')
    if found['more'] is not None:
        found['more'] = json.loads(found['more'])
    return told_event(found)


def opened(path: str, wait: float = 10.0) -> sqlite3.Connection:
    """Returns a connection to the file, for several threads, one at a time. `wait` is for how many
    seconds it waits for another program that writes."""
    return sqlite3.connect(path, timeout=wait, isolation_level=None, check_same_thread=False)


class RecordedAlarm(Protocol):
    """An alarm, as the record takes it."""

    @property
    def key(self) -> str:
        """Its name, as long as it lasts."""

    @property
    def kind(self) -> str:
        """What it is."""

    @property
    def level(self) -> str:
        """How grave it is."""

    @property
    def values(self) -> Mapping[str, object]:
        """What its sentences are made of."""

    def about(self) -> Mapping[str, str | None]:
        """Returns the things that it is about."""

    def words(self) -> str:
        """Returns what is so."""

    def todo(self) -> str:
        """Returns what to do."""


class Record:
    """The open file. What is put stands in it after `commit`. Threads may use it at the same
    time."""

    def __init__(self, path: str):
        self.path = path
        self._lock = threading.RLock()
        try:
            self._base = opened(path)
            self._base.execute('PRAGMA journal_mode = WAL')
            self._base.execute('PRAGMA synchronous = NORMAL')
            self._base.execute(f'PRAGMA journal_size_limit = {LOG}')
            version = self._made()
        except sqlite3.Error as fault:
            raise NoRecord(f'{shown(path)}: {fault}') from fault
        if version != str(VERSION):
            words = (
                f'it has tables of version {shown(str(version))}, and this board writes {VERSION}'
            )
            raise NoRecord(f'{shown(path)}: {words}')

    def _made(self) -> str | None:
        """Makes the tables, or moves those of an earlier version. The version that the file has."""
        base = self._base
        base.execute('BEGIN IMMEDIATE')
        first, *rest = SCHEMA.split(';\n')
        base.execute(first)
        for target, move in MOVES.items():
            if self.meta('version') == str(int(target) - 1):
                for statement in move.split(';\n'):
                    base.execute(statement)
        version = self.meta('version')
        if version in (None, str(VERSION)):
            for statement in rest:
                base.execute(statement)
            base.execute('INSERT OR IGNORE INTO meta VALUES (?, ?)', ('version', str(VERSION)))
        base.execute('COMMIT')
        return self.meta('version')

    def close(self) -> None:
        """Closes the file. What was put and not committed is not in it."""
        if self._lock.acquire(
            timeout=0.5
        ):  # else somebody waits for the file, and the program ends without
            try:
                self.roll_back()
                self._base.close()
            finally:
                self._lock.release()

    def _put(self, statement: str, values: Sequence[object] = ()) -> None:
        with self._lock:
            self._begin()
            self._base.execute(statement, values)

    def _begin(self) -> None:
        if not self._base.in_transaction:
            self._base.execute('BEGIN IMMEDIATE')

    def commit(self) -> None:
        """Writes what was put so far to the file, all of it or nothing."""
        with self._lock:
            if self._base.in_transaction:
                self._base.execute('COMMIT')

    def roll_back(self) -> None:
        """Drops what was put since the last `commit`."""
        with self._lock, contextlib.suppress(sqlite3.Error):
            if self._base.in_transaction:
                self._base.execute('ROLLBACK')

    def check_writing(self) -> None:
        """Raises `sqlite3.Error` where nothing can be written."""
        with self._lock:
            self.set_meta('written', text_of(time.time_ns() // 1_000_000))
            self.commit()

    def rows(self, question: str, values: Sequence[Any] = ()) -> list[tuple[Any, ...]]:
        """Returns what the file answers."""
        with self._lock:
            return self._base.execute(question, values).fetchall()

    def meta(self, name: str) -> str | None:
        """Returns a value of the table `meta`, or None."""
        for (value,) in self.rows('SELECT value FROM meta WHERE name = ?', (name,)):
            return str(value)
        return None

    def set_meta(self, name: str, value: str) -> None:
        """Puts a value into the table `meta`."""
        self._put('INSERT OR REPLACE INTO meta VALUES (?, ?)', (name, value))

    def has_look(self, kind: str) -> bool:
        """Whether a kind of things was ever looked at, even if there was none of it."""
        return self.meta(f'first look at {kind}') is not None

    def note_look(self, kind: str, at: int) -> None:
        """Notes in the table `meta` when a kind of things was first looked at, for `has_look`."""
        self.set_meta(f'first look at {kind}', text_of(at))

    def _row(self, table: str, values: Mapping[str, object]) -> None:
        columns = ', '.join(values)
        marks = ', '.join('?' * len(values))
        self._put(
            f'INSERT OR REPLACE INTO {table} ({columns}) VALUES ({marks})',
            list(values.values()),
        )

    def station(self, name: str, node: str, capacity: int, taken: int, reserved: int) -> None:
        """Puts how a station is."""
        row = {
            'station': name,
            'node': node,
            'capacity': capacity,
            'taken': taken,
            'reserved': reserved,
        }
        self._row('stations', row)

    def load(self, name: str, place: str, since: int | None) -> None:
        """Puts where a load is; `since` is None where it was there when the board first looked."""
        self._row(
            'loads',
            {'load': name, 'place': place, 'since': None if since is None else text_of(since)},
        )

    def load_move(self, at: int, load: str, before: str | None, after: str) -> None:
        """Puts a move of a load; `before` is None where it was not known."""
        self._row(
            'load_moves', {'at': text_of(at), 'load': load, 'from_place': before, 'to_place': after}
        )

    def vehicle(self, at: int, name: str, values: VehicleColumns, heard: int | None) -> None:
        """Puts how a vehicle came to be at this moment: its row, and the change."""
        row = {key: value for key, value in values.items() if key != 'capacity'}
        self._row('vehicle_states', {'at': text_of(at), 'vehicle': name, **row})
        told = {'heard': None if heard is None else text_of(heard), 'since': text_of(at)}
        self._row('vehicles', {'vehicle': name, **values, **told})

    def heard(self, name: str, at: int) -> None:
        """Puts that a new state of a vehicle was seen."""
        self._put('UPDATE vehicles SET heard = ? WHERE vehicle = ?', (text_of(at), name))

    def hold(self, at: int, kind: str, name: str, vehicle: str | None) -> None:
        """Puts who holds a node or an edge; None for nobody."""
        self._row(
            'hold_changes', {'at': text_of(at), 'kind': kind, 'name': name, 'vehicle': vehicle}
        )
        if vehicle is None:
            self._put('DELETE FROM holds WHERE kind = ? AND name = ?', (kind, name))
        else:
            self._row(
                'holds', {'kind': kind, 'name': name, 'vehicle': vehicle, 'since': text_of(at)}
            )

    def job(self, values: Mapping[str, str | None]) -> None:
        """Puts how a job is, by the columns of `jobs`."""
        self._row('jobs', values)

    def end_waits(self, at: int) -> None:
        """Marks each wait that is still open as ended at this moment, in the table `waits` alone.
        It is called at a start: whoever still waits then is seen again, and gets a new row."""
        self._put('UPDATE waits SET ended = max(began, ?) WHERE ended IS NULL', (text_of(at),))

    def wait(
        self, at: int, vehicle: str, thing: tuple[str, str] | None, holder: str | None
    ) -> None:
        """Puts for which thing of another one a vehicle waits, None for nothing any more; a wait
        before it is over."""
        self._put(
            'UPDATE waits SET ended = ? WHERE vehicle = ? AND ended IS NULL', (text_of(at), vehicle)
        )
        if thing is not None:
            row = {
                'vehicle': vehicle,
                'kind': thing[0],
                'name': thing[1],
                'holder': holder,
                'began': text_of(at),
            }
            self._row('waits', row)

    def desk(self, at: int, fault: str | None) -> None:
        """Puts that the desk answers from now on, or why it doesn't."""
        self._row('desk_times', {'at': text_of(at), 'answers': int(fault is None), 'fault': fault})

    def use(self, at: int, vehicle: str, state: str) -> None:
        """Puts what a vehicle does from now on."""
        self._row('vehicle_uses', {'at': text_of(at), 'vehicle': vehicle, 'state': state})

    def event(self, at: int, event: Event) -> int:
        """Puts what happened, and returns the number of its entry, which no other entry ever
        has."""
        with self._lock:
            self._put(INSERT_EVENT, event_row(at, event))
            return int(self.rows('SELECT last_insert_rowid()')[0][0])

    def last_events(self, count: int) -> list[ToldEvent]:
        """Returns the last entries, the newest last, as the page has them."""
        question = f'SELECT {", ".join(EVENT)} FROM events ORDER BY n DESC LIMIT ?'
        return [entry_of(row) for row in self.rows(question, (count,))][::-1]

    def words(self, at: int, vehicle: str, values: WordsColumns) -> None:
        """Puts what a vehicle says of itself, by the columns of `vehicle_words`."""
        self._row('vehicle_words', {'vehicle': vehicle, 'at': text_of(at), **values})

    def battery(self, at: int, vehicle: str, charge: float | None, charging: bool | None) -> None:
        """Puts how the battery of a vehicle has come to be."""
        row = {'at': text_of(at), 'vehicle': vehicle, 'charge': charge}
        self._row(
            'vehicle_batteries', {**row, 'charging': None if charging is None else int(charging)}
        )

    def alarm(self, found: RecordedAlarm, began: int) -> int:
        """Puts what needs a person, and since when. Returns the number of its row."""
        about = {name: found.about().get(name) for name in ('vehicle', 'load', 'job', 'station')}
        row: dict[str, object] = {
            'key': found.key,
            'kind': found.kind,
            'level': found.level,
            **about,
        }
        row |= {'words': cut(found.words()), 'todo': cut(found.todo()), 'began': text_of(began)}
        with self._lock:
            self._row('alarms', {**row, 'more': json_of(values_cut(found.values))})
            return int(self.rows('SELECT last_insert_rowid()')[0][0])

    def change_alarm(self, number: int, found: RecordedAlarm) -> None:
        """Puts what an alarm says now."""
        row = found.kind, found.level, cut(found.words()), cut(found.todo())
        names = 'kind = ?, level = ?, words = ?, todo = ?, more = ?'
        more = json_of(values_cut(found.values))
        self._put(f'UPDATE alarms SET {names} WHERE n = ?', (*row, more, number))

    def end_alarm(self, number: int, at: int) -> None:
        """Puts that an alarm is over."""
        self._put('UPDATE alarms SET ended = ? WHERE n = ?', (text_of(at), number))

    def layout(self) -> tuple[str, dict[str, tuple[float, float]]] | None:
        """Returns the layout as a file, and where its nodes are drawn; None where none is kept."""
        layout = self.meta('layout')
        rows = self.rows('SELECT node, x, y FROM drawing')
        return None if layout is None else (layout, {node: (x, y) for node, x, y in rows})

    def keep_layout(self, layout: str, places: Mapping[str, tuple[float, float]]) -> None:
        """Keeps the layout, and where its nodes are drawn."""
        self._put('DELETE FROM drawing')
        for node, (x, y) in places.items():
            self._row('drawing', {'node': node, 'x': x, 'y': y})
        self.set_meta('layout', layout)

    def remove_old(self, before: int) -> bool:
        """Removes a portion of what is older than a moment, and of what is more than is kept.
        Whether there may be more of it."""
        is_more = False
        with self._lock:
            for table, rows in OLD.items():
                if table in MOST:
                    rows = f'{rows} OR n <= (SELECT max(n) FROM {table}) - {MOST[table]}'
                found = f'SELECT rowid FROM {table} WHERE {rows} LIMIT {PORTION}'
                self._begin()
                done = self._base.execute(
                    f'DELETE FROM {table} WHERE rowid IN ({found})', {'before': text_of(before)}
                )
                is_more = is_more or done.rowcount == PORTION
            self.commit()
        return is_more
