"""Follows what the board and its desk do, for metrics and health."""
from __future__ import annotations

import contextlib
import os
import resource
import sqlite3
import time
from collections import Counter as Tally
from collections.abc import Callable
from typing import Any, Protocol

from ..page_state import Shown
from ..record import moment_of
from ..shown_rows import CIRCLES, COUNTS, DESK, FAULT, VEHICLE, WAIT
from ..uses import STATES, state_of
from .feed import Feed
from .health import Facts, Health, reasons_of
from .meters import Counter, Family, Histogram, Labels, gauge, sample
from .reading import Reading
from .watched_desk import DeskMeter

ENDS = ('done', 'stopped', 'cancelled', 'placed', 'failed', 'unseen')
KINDS = tuple('load job order vehicle said wait desk alarm command refused failed'.split())
ALARMS = (
    *(
        'desk',
        'other',
        'clock',
        'disk',
        'astray',
        'silent',
        'unheard',
        'unready',
        'unready.unknown',
    ),
    *('aboard', 'action', 'battery', 'circle', 'shut', 'blocked', 'late', 'full'),
)
TIMES = (5, 15, 30, 60, 120, 300, 600, 1200, 1800, 3600, 7200)
PAGE = 1000  # events that are read at once


class Asks(Protocol):
    """Who asks the desk: `asking` is since when it owes an answer."""

    asking: int | None


def seconds_between(begin: str, end: str) -> float:
    """Returns how many seconds lie between two times of the record."""
    return max(0, moment_of(end) - moment_of(begin)) / 1000


class Watch:
    """What is counted. `asks` is who asks the desk."""

    def __init__(self, path: str, shown: Shown, asks: Asks, meter: DeskMeter) -> None:
        self.path, self.shown, self.asks, self.meter = path, shown, asks, meter
        self.streams: Callable[[], int] = lambda: 0
        self.seen: int | None = None  # the last event that was counted
        self.newest = 0
        self.events = Counter('events_total', 'Events of the record, by kind').known('kind', KINDS)
        text = 'Jobs that have ended, by how'
        self.ended = Counter('jobs_ended_total', text).known('outcome', ENDS)
        self.waited = Histogram(
            'job_wait_seconds', 'How long jobs waited until they were given to a vehicle', TIMES
        )
        self.took = Histogram(
            'job_ride_seconds', 'How long jobs took from there until they were done', TIMES
        )

    def news(self, reading: Reading, last: int) -> None:
        """Counts the events up to a number that are new, not those from before the start."""
        if self.seen is None:
            self.seen = last
            newest = reading.row('SELECT at FROM events WHERE n = ?', (last,))
            self.newest = moment_of(newest['at']) if newest else 0
        question = (
            'SELECT n, at, kind, what, job FROM events WHERE n > ? AND n <= ? ORDER BY n LIMIT ?'
        )
        while rows := reading.rows(question, (self.seen, last, PAGE)):
            for row in rows:
                self.events.add(kind=row['kind'])
                if row['kind'] == 'job' and row['job'] is not None:
                    self._count_job(reading, row['job'], row['what'].split('.')[1])
            self.seen, self.newest = rows[-1]['n'], moment_of(rows[-1]['at'])

    def _count_job(self, reading: Reading, name: str, what: str) -> None:
        """Counts a job by its outcome, and how long it waited and took, where this event has ended
        it. Other events of jobs are passed over, so that each job counts once."""
        row = reading.row('SELECT outcome, added, began, ended FROM jobs WHERE job = ?', (name,))
        if what not in ENDS or row is None or row['outcome'] is None:
            return
        self.ended.add(outcome=row['outcome'])
        if row['added'] is not None and row['began'] is not None:
            self.waited.add(seconds_between(row['added'], row['began']))
        if row['outcome'] == 'done' and row['began'] is not None:
            self.took.add(seconds_between(row['began'], row['ended']))

    def health(self, feed: Feed) -> Health:
        """Returns whether all is well. It reads no file, so it answers whatever the disk does."""
        fault = self.shown.get(FAULT, 'record')
        return reasons_of(
            Facts(
                now=time.time_ns() // 1_000_000,
                desk=self.shown.get(DESK, ''),
                asking=self.asks.asking,
                unwritten=None if fault is None else fault['words'],
                unread=feed.fault,
                looked=time.monotonic() - feed.looked,
                free=self._free(),
                newest=self.newest,
            )
        )

    def _free(self) -> int:
        disk = os.statvfs(os.path.dirname(os.path.abspath(self.path)))
        return disk.f_bavail * disk.f_frsize

    def metrics(self, feed: Feed) -> str:
        """Returns all, in the text form of Prometheus."""
        families = [
            *self._of_desk(),
            *self._of_plant(),
            *self._of_record(feed.reading),
            self.events.family(),
            self.ended.family(),
            self.waited.family(),
            self.took.family(),
            *own_families(),
            gauge('event_streams', 'Programs that follow the events', self.streams()),
            gauge('event_last_id', 'The number of the last event', feed.last or 0),
            gauge('healthy', 'Whether /health answers 200', int(self.health(feed).is_well)),
        ]
        return ''.join(family.text() for family in families)

    def _of_desk(self) -> list[Family]:
        desk = self.shown.get(DESK, '')
        up, other = (False, False) if desk is None else (desk['up'], desk['other'])
        return [
            gauge('desk_up', 'Whether the desk answers', int(up and not other)),
            gauge('desk_other', 'Whether another desk answers than that of board.db', int(other)),
            gauge(
                'desk_last_answer_timestamp_seconds',
                'When the desk last answered, in seconds since 1970',
                self.meter.last,
            ),
            self.meter.requests.family(),
            self.meter.times.family(),
        ]

    def _of_plant(self) -> list[Family]:
        waits = self.shown.all(WAIT)
        stands = {name for name, wait in waits.items() if wait['stands']}
        vehicles = self.shown.all(VEHICLE)
        states = Tally(state_of(value, name in stands) for name, value in vehicles.items())
        counts = self.shown.get(COUNTS, '')
        loads, checking = (0, 0) if counts is None else (counts['loads'], counts['checking'])
        carried = sum(len(value['loads']) for value in vehicles.values())
        places = {'checking': checking, 'vehicle': carried}
        places['station'] = loads - sum(places.values())
        circles = self.shown.get(CIRCLES, '') or []
        return [
            gauge('vehicles', 'Vehicles by state', _labelled('state', STATES, states)),
            gauge('loads', 'Loads by place', _labelled('place', tuple(places), places)),
            gauge('waits', 'Vehicles that stand and wait for another one', len(stands)),
            gauge('wait_circles', 'Circles of vehicles that wait for one another', len(circles)),
        ]

    def _of_record(self, reading: Reading) -> list[Family]:
        """Returns the values that are read from `board.db` and its disk. What can't be read is left
        out, so that the others are still answered."""
        found = []
        with contextlib.suppress(sqlite3.Error), reading.moment():
            question = "SELECT phase, count(*) AS n, min(added) AS at FROM jobs WHERE ended IS NULL"
            rows = {row['phase']: row for row in reading.rows(f'{question} GROUP BY phase')}
            jobs = {phase: row['n'] for phase, row in rows.items()}
            phases = _labelled('phase', ('waiting', 'riding'), jobs)
            found.append(gauge('jobs', 'Live jobs by phase', phases))
            at = rows['waiting']['at'] if 'waiting' in rows else None
            age = 0.0 if at is None else max(0.0, time.time() - moment_of(at) / 1000)
            found.append(
                gauge('job_oldest_wait_seconds', 'How long the oldest waiting job has waited', age)
            )
        with contextlib.suppress(sqlite3.Error):
            found += [alarms_of(reading), batteries_of(reading)]
        sizes: dict[Labels, float] = {}
        for ending in ('', '-wal'):
            with contextlib.suppress(OSError):
                sizes[(('file', f'board.db{ending}'),)] = os.stat(self.path + ending).st_size
        found.append(gauge('board_file_bytes', 'The size of board.db, and of its log', sizes))
        text = 'What is free where board.db is'
        return [*found, gauge('board_disk_free_bytes', text, self._free())]


def alarms_of(reading: Reading) -> Family:
    """Returns how many alarms of each kind stand, and whether somebody has taken them on."""
    rows: dict[Labels, float] = {
        (('kind', kind), ('taken', taken)): 0 for kind in ALARMS for taken in ('no', 'yes')
    }
    question = 'SELECT kind, taken_by IS NOT NULL AS taken, count(*) AS n FROM alarms'
    for row in reading.rows(f'{question} WHERE ended IS NULL GROUP BY 1, 2'):
        rows[(('kind', row['kind']), ('taken', 'yes' if row['taken'] else 'no'))] = row['n']
    return gauge('alarms', 'Alarms that stand, and whether somebody has taken them on', rows)


def batteries_of(reading: Reading) -> Family:
    """Returns the charge of each vehicle that tells it."""
    question = 'SELECT vehicle, battery FROM vehicle_words WHERE battery IS NOT NULL'
    rows = reading.rows(f'{question} ORDER BY vehicle')
    values: dict[Labels, float] = {(('vehicle', row['vehicle']),): row['battery'] for row in rows}
    return gauge('vehicle_battery_percent', 'The charge of a vehicle, as it says', values)


def own_families() -> list[Family]:
    """Returns what the board itself takes."""
    used = resource.getrusage(resource.RUSAGE_SELF)
    taken = sample('board_cpu_seconds_total', (), used.ru_utime + used.ru_stime)
    text = 'Seconds of a processor that the board has taken'
    found = [Family('board_cpu_seconds_total', 'counter', text, (taken,))]
    with contextlib.suppress(OSError), open('/proc/self/statm') as file:
        pages = int(file.read().split()[1])
        memory = pages * resource.getpagesize()
        found.append(gauge('board_memory_bytes', 'The memory of the board', memory))
    return found


def _labelled(label: str, texts: tuple[str, ...], counts: dict[str, int]) -> dict[Any, float]:
    return {((label, text),): counts.get(text, 0) for text in texts}
