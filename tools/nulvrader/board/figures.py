"""The figures of a day: jobs an hour, waits by cause and place, what each vehicle did, and the
longest ways. They are read beside whoever writes the record."""
from __future__ import annotations

import contextlib
import re
import sqlite3
import statistics
import time
from collections import Counter, defaultdict
from collections.abc import Callable, Iterator, Mapping
from dataclasses import dataclass, field
from typing import Any

from .entries import reading
from .messages import Line
from .record import moment_of, text_of
from .uses import UNSEEN

HOUR = 3_600_000
LONGEST = 26 * HOUR  # of a day, on which clocks are set back
PLACES, WAYS = 10, 10  # rows
MANY = 1000  # ways, of which the longest are kept
# A time of the record in milliseconds since 1970, as SQLite computes it.
MOMENTS = 'CAST(round((julianday({}) - 2440587.5) * 86400000) AS INTEGER)'
OUTCOMES = ('done', 'stopped', 'cancelled', 'placed', 'failed', 'unseen')
MOMENT = re.compile('[0-9]{1,15}')
LAST = 4_102_444_800_000


class BadDay(ValueError):
    """What is asked for is no day. `line` is the sentence of it, and `str()` says it in English."""

    def __init__(self) -> None:
        self.line = Line('figures.day')
        super().__init__(self.line.words())


@dataclass(frozen=True)
class TimeSpan:
    """From which moment to which, in milliseconds since 1970."""

    begin: int
    end: int

    @property
    def values(self) -> dict[str, str]:
        """Its ends as the record has them; one that is not over ends now."""
        now = time.time_ns() // 1_000_000
        return {'begin': text_of(self.begin), 'end': text_of(max(self.begin, min(self.end, now)))}


@dataclass
class JobFigures:
    """What is counted of the jobs that have ended."""

    hours: list[int]
    outcomes: Counter[str] = field(default_factory=Counter)
    waited: list[float] = field(default_factory=list)
    took: list[float] = field(default_factory=list)
    by_vehicle: Counter[str] = field(default_factory=Counter)
    ways: list[dict[str, Any]] = field(default_factory=list)


def day_of(asked: Mapping[str, str]) -> TimeSpan:
    """Returns the day that is asked for: `begin` and `end`, at most 26 hours later."""
    ends = [asked.get(name, '') for name in ('begin', 'end')]
    if not all(MOMENT.fullmatch(text) and int(text) < LAST for text in ends):
        raise BadDay
    day = TimeSpan(int(ends[0]), int(ends[1]))
    if not day.begin < day.end <= day.begin + LONGEST:
        raise BadDay
    return day


def figures_of(path: str, asked: Mapping[str, str]) -> dict[str, Any]:
    """Returns the figures of a day, read by several questions, each of which has its time."""
    day = day_of(asked)
    with asking(path) as base:
        jobs = jobs_of(base, day)
        question = 'SELECT count(*) FROM jobs WHERE added >= :begin AND added < :end'
        registered = base.execute(question, day.values).fetchone()[0]
    with asking(path) as base:
        uses = uses_of(base, day)
    with asking(path) as base:
        waits = waits_of(base, day)
    return {
        'registered': registered,
        'outcomes': {name: jobs.outcomes[name] for name in OUTCOMES},
        'hours': jobs.hours,
        'waited': middle(jobs.waited),
        'took': middle(jobs.took),
        'places': waits.places(),
        'causes': waits.causes(),
        'vehicles': [
            {'vehicle': name, 'seconds': seconds, 'jobs': jobs.by_vehicle[name]}
            for name, seconds in uses.items()
        ],
        'ways': jobs.ways,
    }


@contextlib.contextmanager
def asking(path: str) -> Iterator[sqlite3.Connection]:
    """A connection that only reads, whose rows have names."""
    with reading(path) as base:
        base.row_factory = sqlite3.Row
        yield base


def middle(seconds: list[float]) -> float | None:
    """Returns the median, None of nothing."""
    return round(statistics.median(seconds), 1) if seconds else None


def jobs_of(base: sqlite3.Connection, day: TimeSpan) -> JobFigures:
    """Returns what is counted of the jobs that have ended in a day."""
    found = JobFigures([0] * -(-(day.end - day.begin) // HOUR))
    times = ', '.join(f'{MOMENTS.format(name)} AS {name}' for name in ('added', 'began', 'ended'))
    question = (
        f'SELECT job, load, origin, target, vehicle, outcome, {times} FROM jobs'
        ' WHERE jobs.ended >= :begin AND jobs.ended < :end AND outcome IS NOT NULL'
    )
    rides: list[dict[str, Any]] = []
    for row in base.execute(question, day.values):
        found.outcomes[row['outcome']] += 1
        added, began, ended = row['added'], row['began'], row['ended']
        if added is not None and began is not None:
            found.waited.append(max(0, began - added) / 1000)
        if row['outcome'] != 'done':
            continue
        found.hours[(ended - day.begin) // HOUR] += 1
        if began is not None:
            rides.append(way_of(row, max(0, ended - began) / 1000))
            found.took.append(rides[-1]['seconds'])
            found.by_vehicle[row['vehicle'] or ''] += 1
        if len(rides) > MANY:
            rides = longest(rides)
    found.ways = longest(rides)
    return found


def way_of(row: sqlite3.Row, seconds: float) -> dict[str, Any]:
    """Returns a way as the page has it."""
    names = ('job', 'load', 'origin', 'target', 'vehicle')
    return {**{name: row[name] for name in names}, 'seconds': seconds}


def longest(ways: list[dict[str, Any]]) -> list[dict[str, Any]]:
    """Returns those that took longest, the longest first."""
    return sorted(ways, key=lambda way: (-way['seconds'], way['job']))[:WAYS]


@dataclass
class WaitFigures:
    """How often and for how many seconds vehicles waited, by place and by what the one did that
    held it."""

    rows: dict[tuple[str, str, str], tuple[int, float]]

    def places(self) -> list[dict[str, Any]]:
        """Returns the nodes and edges for which was waited longest."""
        found = self._by(lambda kind, name, _: (kind, name))
        rows = [{'kind': kind, 'name': name, **row} for (kind, name), row in found.items()]
        return sorted(rows, key=lambda row: (-row['seconds'], row['kind'], row['name']))[:PLACES]

    def causes(self) -> list[dict[str, Any]]:
        """Returns what the others did when waits for them began, the longest waits first."""
        found = self._by(lambda _, __, state: (state,))
        rows = [{'state': state, **row} for (state,), row in found.items()]
        return sorted(rows, key=lambda row: (-row['seconds'], row['state']))

    def _by(self, key: Callable[[str, str, str], tuple[str, ...]]) -> dict[Any, dict[str, Any]]:
        """Returns the sums by a part of the names."""
        found: dict[tuple[str, ...], tuple[int, float]] = {}
        for names, (count, seconds) in self.rows.items():
            before = found.get(key(*names), (0, 0.0))
            found[key(*names)] = before[0] + count, before[1] + seconds
        return {
            name: {'count': count, 'seconds': round(seconds, 1)}
            for name, (count, seconds) in found.items()
        }


def waits_of(base: sqlite3.Connection, day: TimeSpan) -> WaitFigures:
    """Returns the waits that lie in a day, at least in part, each with its seconds in it. None that
    lasts has begun more than a day before."""
    state = (
        'SELECT state FROM vehicle_uses WHERE vehicle = holder AND at <= began'
        ' ORDER BY at DESC, n DESC LIMIT 1'
    )
    seconds = 'julianday(min(coalesce(ended, :end), :end)) - julianday(max(began, :begin))'
    question = (
        f"SELECT kind, name, coalesce(({state}), '{UNSEEN}') AS state, count(*) AS count,"
        f' 86400 * sum({seconds}) AS seconds FROM waits WHERE began < :end AND began >= :before'
        ' AND coalesce(ended, :end) > :begin GROUP BY 1, 2, 3'
    )
    values = {**day.values, 'before': text_of(max(0, day.begin - LONGEST))}
    found = base.execute(question, values)
    return WaitFigures({(row[0], row[1], row[2]): (row['count'], row['seconds']) for row in found})


def uses_of(base: sqlite3.Connection, day: TimeSpan) -> dict[str, dict[str, float]]:
    """Returns by vehicle for how many seconds of a day it was in each state."""
    end = moment_of(day.values['end'])
    before = (
        'SELECT vehicle, (SELECT state FROM vehicle_uses AS u WHERE u.vehicle = v.vehicle'
        ' AND u.at < :begin ORDER BY u.at DESC, u.n DESC LIMIT 1) AS state FROM vehicles AS v'
    )
    now = {row['vehicle']: (day.begin, row['state']) for row in base.execute(before, day.values)}
    found: dict[str, defaultdict[str, float]] = {name: defaultdict(float) for name in sorted(now)}
    question = (
        f'SELECT {MOMENTS.format("at")} AS moment, vehicle, state FROM vehicle_uses'
        ' WHERE at >= :begin AND at < :end ORDER BY at, n'
    )
    for row in base.execute(question, day.values):
        since, state = now.get(row['vehicle'], (day.begin, None))
        at = row['moment']
        found.setdefault(row['vehicle'], defaultdict(float))[state or UNSEEN] += (at - since) / 1000
        now[row['vehicle']] = at, row['state']
    for name, (since, state) in now.items():
        found[name][state or UNSEEN] += max(0, end - since) / 1000
    return {
        name: {key: round(value, 1) for key, value in one.items()} for name, one in found.items()
    }
