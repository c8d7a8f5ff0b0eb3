"""The entries of the record that a page or a file asks for: searched, filtered, page by page, over
a connection of its own, so that nobody who writes waits for it."""
from __future__ import annotations

import contextlib
import csv
import io
import re
import sqlite3
import threading
import time
from collections.abc import Iterator, Mapping, Sequence
from typing import Any, TypedDict

from .events import ToldEvent
from .messages import Line
from .record import EVENT, entry_of, opened, text_of

PAGE, FILE = 200, 50_000  # rows of a page and of a file, at most
SECONDS = 5.0  # for which one question may last
STEPS = 10_000  # of SQLite from one look at the time to the next
LONG = 100  # characters of what is looked for
EQUAL = ('vehicle', 'load', 'job', 'station', 'kind', 'cause', 'who')
THING = ('vehicle', 'load', 'job', 'order_name', 'station', 'node')
TIME = re.compile(r'[0-9]{4}-[0-9]{2}-[0-9]{2}(T[0-9]{2}:[0-9]{2}(:[0-9]{2}(\.[0-9]{1,3})?)?Z?)?')
ENDS = r';\t\n\v\f\r\x1c-\x1e\x85\u2028\u2029'  # what may end a cell within a text
# How a cell begins that a table of numbers would compute.
FORMULA = re.compile(f'(?:[^\\S{ENDS}]|")*[=+@\\t\\r＝＋－＠-]')
FORMULAS = re.compile(f'[{ENDS}](?={FORMULA.pattern})')


class BadQuestion(ValueError):
    """What is asked for is none of the filters, or a value of one is wrong. `line` is the sentence
    of it, and `str()` the same in English."""

    def __init__(self, name: str):
        self.line = Line(f'record.{name}')
        super().__init__(self.line.words())


def conditions(asked: Mapping[str, str]) -> tuple[list[str], list[Any]]:
    """Returns what the rows have to be, in SQL, and its values. `thing` is the name of anything
    that an entry is about, `text` a part of its sentence, `from` and `to` are times in UTC, or
    milliseconds since 1970, and `before` is the number of an entry."""
    rows: list[str] = []
    values: list[Any] = []
    for name in EQUAL:
        if asked.get(name):
            rows.append(f'{name} = ?')
            values.append(asked[name][:LONG])
    if asked.get('thing'):
        thing = asked['thing'][:LONG]
        ends = [f'{name} = ?' for name in (*THING, 'before', 'after')]
        rows.append(f'({" OR ".join(ends)} OR before = ? OR after = ?)')
        values += [thing] * len(ends) + [f'station {thing}'] * 2
    if asked.get('text'):
        rows.append('instr(lower(words), lower(?)) > 0')
        values.append(asked['text'][:LONG])
    for name, sign in (('from', '>='), ('to', '<')):
        if asked.get(name):
            rows.append(f'at {sign} ?')
            values.append(time_of(asked[name]))
    if asked.get('before'):
        if not re.fullmatch('[0-9]{1,18}', asked['before']):
            raise BadQuestion('before')
        rows.append('n < ?')
        values.append(int(asked['before']))
    return rows, values


def time_of(text: str) -> str:
    """Returns a time as the record has it."""
    if re.fullmatch('[0-9]{1,15}', text) and int(text) < 4_102_444_800_000:
        return text_of(int(text))
    if TIME.fullmatch(text):
        return text.rstrip('Z')
    raise BadQuestion('time')


class Turns:
    """Lets one question be answered at a time, and a pause follow that is as long. While there is
    always one that reads, SQLite never begins its log anew, which would fill the disk."""

    def __init__(self) -> None:
        self._lock, self._due = threading.Lock(), 0.0

    @contextlib.contextmanager
    def one(self) -> Iterator[None]:
        """Waits for a turn, and has it for a block."""
        with self._lock:
            time.sleep(max(0.0, self._due - time.monotonic()))
            begun = time.monotonic()
            try:
                yield
            finally:
                now = time.monotonic()
                self._due = now + (now - begun)


TURNS = Turns()


@contextlib.contextmanager
def reading(path: str) -> Iterator[sqlite3.Connection]:
    """Gives a block a connection that only reads, and on which no question lasts longer than it
    may."""
    with TURNS.one(), _reading(path) as base:
        yield base


@contextlib.contextmanager
def _reading(path: str) -> Iterator[sqlite3.Connection]:
    base = opened(path)
    try:
        base.execute('PRAGMA query_only = 1')
        ends = time.monotonic() + SECONDS
        base.set_progress_handler(lambda: int(time.monotonic() > ends), STEPS)
        yield base
    except sqlite3.OperationalError as fault:
        if getattr(fault, 'sqlite_errorcode', None) == sqlite3.SQLITE_INTERRUPT:
            raise BadQuestion('long') from None
        raise
    finally:
        base.close()


def found(path: str, asked: Mapping[str, str], most: int) -> list[tuple[Any, ...]]:
    """Returns the newest rows that are asked for, by `EVENT`, the newest first."""
    rows, values = conditions(asked)
    where = f' WHERE {" AND ".join(rows)}' if rows else ''
    question = f'SELECT {", ".join(EVENT)} FROM events{where} ORDER BY n DESC LIMIT ?'
    with reading(path) as base:
        return base.execute(question, (*values, most)).fetchall()


class EntriesPage(TypedDict):
    """A page of entries, the newest first; `older` says that there are more before them."""

    events: list[ToldEvent]
    older: bool


def page_of(path: str, asked: Mapping[str, str]) -> EntriesPage:
    """Returns the page of entries that are asked for."""
    rows = found(path, asked, PAGE + 1)
    return {'events': [entry_of(row) for row in rows[:PAGE]], 'older': len(rows) > PAGE}


def csv_of(path: str, asked: Mapping[str, str]) -> bytes:
    """Returns the entries as CSV, the newest first, at most `FILE`: those before them are asked for
    by `before`. What another program would compute is a text there."""
    data = io.BytesIO()
    with io.TextIOWrapper(data, 'utf-8', newline='') as file:
        writer = csv.writer(file)
        writer.writerow(EVENT)
        writer.writerows(map(plain, found(path, asked, FILE)))
        file.flush()
        return data.getvalue()


def plain(row: Sequence[Any]) -> list[Any]:
    """Returns the values of a row. An apostrophe stands before what would be a formula at the
    beginning of a text, or behind `;`, a tab or the end of a line."""
    return [_plain(value) if isinstance(value, str) else value for value in row]


def _plain(text: str) -> str:
    if ';' in text or not text.isprintable():  # else it is one cell, and soon done
        text = FORMULAS.sub(r"\g<0>'", text)
    return f"'{text}" if FORMULA.match(text) else text
