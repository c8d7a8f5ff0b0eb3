"""The events of the record, in the order of their numbers. A number is given once, and never goes
back, so a program that keeps the last one that it took misses none, and takes none twice."""
from __future__ import annotations

import json
from dataclasses import dataclass
from typing import Any

from .reading import Reading, Row

MOST = 1000  # events at once
MOST_BYTES = 500_000  # of all events of a batch but the first one: a client takes a million
SPAN = 20_000  # numbers that are looked through for a batch: kinds may be rare
GREATEST = 2**53 - 1  # the greatest number that JSON carries everywhere
OTHER_NAMES = {'n': 'id', 'order_name': 'order', 'words': 'text'}  # of columns, as members
AS_JSON = ('more',)  # columns whose text is JSON


class OtherRecord(Exception):
    """Who asks has numbers of another record than this one. Its `str()` is a sentence."""


@dataclass(frozen=True)
class EventQuery:
    """What is asked for: events behind a number, at most so many, of these kinds (None: of all).
    `record` is the one that the number is of, None where that isn't said."""

    after: int = 0
    most: int = 500
    kinds: frozenset[str] | None = None
    record: str | None = None


@dataclass(frozen=True)
class Kept:
    """The events that there are: the record that has them, the first number that is kept and the
    last one that is on the disk, both 0 where there is none."""

    record: str
    first: int
    last: int


@dataclass(frozen=True)
class Batch:
    """Events in a row. `after` is the number from which to go on; `missed` says that some between
    the number that was asked for and the first one are not kept any more, and `more` that there
    are more."""

    kept: Kept
    events: tuple[Row, ...]
    after: int
    missed: bool
    more: bool

    def told(self) -> dict[str, Any]:
        """Returns the JSON object that is answered."""
        return {
            'record': self.kept.record,
            'first': self.kept.first,
            'last': self.kept.last,
            'after': self.after,
            'missed': self.missed,
            'more': self.more,
            'events': list(self.events),
        }


def event_of(row: Row) -> Row:
    """Returns an event as it is told, by its row. What isn't known of it is left out."""
    known = {column: value for column, value in row.items() if value is not None}
    return {
        OTHER_NAMES.get(column, column): json.loads(value) if column in AS_JSON else value
        for column, value in known.items()
    }


def text_of(event: Row) -> str:
    """Returns an event as JSON on one line, of ASCII alone."""
    return json.dumps(event, separators=(',', ':'))


def last_number(reading: Reading) -> int:
    """Returns the last number that was given to an event, which may be removed by now."""
    most = reading.number('SELECT max(n) FROM events')
    if not reading.has_table('sqlite_sequence'):
        return most
    return max(most, reading.number("SELECT max(seq) FROM sqlite_sequence WHERE name = 'events'"))


def kept_in(reading: Reading, last: int) -> Kept:
    """Returns which events there are, of which those up to `last` are on the disk."""
    first = reading.number('SELECT min(n) FROM events')
    return Kept(reading.meta('record') or '', first if first <= last else 0, last)


def read_events(reading: Reading, asked: EventQuery, last: int) -> Batch:
    """Returns the events that are asked for, up to the number `last`. `OtherRecord` where the
    number is of another record."""
    with reading.moment():
        kept = kept_in(reading, last)
        check(asked, kept)
        begin = max(asked.after, (kept.first or last + 1) - 1)
        end = min(begin + SPAN, last)
        question = 'SELECT * FROM events WHERE n > ? AND n <= ? ORDER BY n LIMIT ?'
        values: list[Any] = [begin, end]
        if asked.kinds is not None:
            marks = ', '.join('?' * len(asked.kinds))
            question = question.replace(' ORDER', f' AND kind IN ({marks}) ORDER')
            values += sorted(asked.kinds)
        rows = reading.rows(question, [*values, asked.most + 1])
    events = within(tuple(event_of(row) for row in rows[: asked.most]))
    is_cut = len(rows) > len(events)
    after = events[-1]['id'] if is_cut else max(end, asked.after)
    before = kept.first - 1 if kept.first else kept.last
    return Batch(kept, events, after, 0 < asked.after < before, more=after < last)


def within(events: tuple[Row, ...]) -> tuple[Row, ...]:
    """Returns as many of the first events as have no more than `MOST_BYTES` as JSON, and at least
    one."""
    size = 0
    for place, event in enumerate(events):
        size += len(text_of(event))
        if place and size > MOST_BYTES:
            return events[:place]
    return events


def check(asked: EventQuery, kept: Kept) -> None:
    """Checks that the number that is asked for is one of this record."""
    if asked.record not in (None, kept.record):
        raise OtherRecord(f'This is the record {kept.record}: begin with after=0.')
    if asked.after > kept.last:
        raise OtherRecord(f'No event has the number {asked.after}: the last one is {kept.last}.')
