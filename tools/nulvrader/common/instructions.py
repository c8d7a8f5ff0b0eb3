"""What people say to the dispatcher besides the desk: when jobs are due, how urgent they are, which
are of one truck, and which nodes and edges are closed. It is a text of rows below
`kind,name,due,priority,truck,place`:

    job,J1,2026-12-01T14:30:00Z,2,T7,3
    node,N7,,,,
    edge,N1-N2,,,,

A text without the last two columns is read, too.
"""
from __future__ import annotations

import datetime
import re
from collections.abc import Container, Mapping
from dataclasses import dataclass, field, replace

from .names import is_name, natural
from .text import shown

HEADER = 'kind,name,due,priority,truck,place'
OLD_HEADER = 'kind,name,due,priority'
MOST_PRIORITY, MOST_PLACE = 9, 999
MOMENT = '%Y-%m-%dT%H:%M:%SZ'
DAY = datetime.timedelta(days=1)


class NoInstructions(Exception):
    """A file that can't be read, or is none of instructions. Its `str()` says why."""


@dataclass(frozen=True)
class Urgency:
    """When a job is due, in seconds since 1970, and its priority, from 0 to 9; and the truck that
    it is for, with its place there: it comes behind the jobs of that truck with smaller places."""

    due: int | None = None
    priority: int = 0
    truck: str | None = None
    place: int = 0


@dataclass(frozen=True)
class Instructions:
    """Of jobs by their names how urgent they are, and the names of what is closed."""

    jobs: Mapping[str, Urgency] = field(default_factory=dict)
    nodes: frozenset[str] = frozenset()
    edges: frozenset[str] = frozenset()

    def with_job(self, job: str, one: Urgency, live: Container[str]) -> Instructions:
        """These, where that is said of a job, and nothing of jobs that do not live."""
        jobs = {name: other for name, other in self.jobs.items() if name in live and name != job}
        return replace(self, jobs=jobs if one == Urgency() else {**jobs, job: one})

    def text(self) -> str:
        """Returns the text that `read` takes."""
        rows = [HEADER]
        for job, one in sorted(self.jobs.items(), key=lambda row: natural(row[0])):
            due = '' if one.due is None else moment_of(one.due).strftime(MOMENT)
            truck = f'{one.truck},{one.place}' if one.truck else ','
            rows.append(f'job,{job},{due},{one.priority or ""},{truck}')
        for kind, names in (('node', self.nodes), ('edge', self.edges)):
            rows += [f'{kind},{name},,,,' for name in sorted(names, key=natural)]
        return '\n'.join(rows) + '\n'


def moment_of(seconds: float) -> datetime.datetime:
    """Returns a moment in UTC."""
    return datetime.datetime.fromtimestamp(seconds, datetime.timezone.utc)


def due_time(text: str) -> int:
    """Reads a moment, in seconds since 1970: `14:30` is the nearest one by the clock of this
    machine, before or after now. A `ValueError` where it is none."""
    now = datetime.datetime.now()
    try:
        if re.fullmatch('[0-9]{1,2}:[0-9]{2}', text):
            hour, _, minute = text.partition(':')
            today = now.replace(hour=int(hour), minute=int(minute), second=0, microsecond=0)
            found = min((today - DAY, today, today + DAY), key=lambda one: abs(one - now))
        elif re.fullmatch(r'[0-9]{4}-[0-9]{2}-[0-9]{2}[ T][0-9:]{5,8}(Z|[+-][0-9:]{4,5})?', text):
            found = datetime.datetime.fromisoformat(text)
        else:
            raise ValueError
        seconds = int(found.timestamp())
        if seconds < 0:
            raise ValueError
        return seconds
    except (ValueError, OverflowError, OSError):
        raise ValueError(f'{shown(text, 40)} is no time such as 14:30') from None


def read(text: str) -> Instructions:
    """Returns what a text says. Any fault in it is a `NoInstructions` with the number of its
    line."""
    lines = text.splitlines()
    if not lines or lines[0] not in (HEADER, OLD_HEADER):
        raise NoInstructions(f'line 1: the header is not {HEADER}')
    jobs: dict[str, Urgency] = {}
    closed: dict[str, set[str]] = {'node': set(), 'edge': set()}
    for number, line in enumerate(lines[1:], 2):
        kind, name, *said = _fields(line, lines[0], number)
        if kind == 'job' and name not in jobs:
            due, priority, truck, place = said
            jobs[name] = Urgency(
                _due(due, number), _priority(priority, number), *_truck(truck, place, number)
            )
        elif kind in closed and name not in closed[kind] and not any(said):
            closed[kind].add(name)
        else:
            raise NoInstructions(f'line {number}: {shown(line, 60)} is no job, node or edge')
    return Instructions(jobs, frozenset(closed['node']), frozenset(closed['edge']))


def _fields(line: str, header: str, number: int) -> list[str]:
    """Returns the fields of a line, as many as `HEADER` has."""
    fields = line.split(',')
    if len(fields) != header.count(',') + 1 or not is_name(fields[1]):
        raise NoInstructions(f'line {number}: {shown(line, 60)} is not {header}')
    return fields + [''] * (HEADER.count(',') - header.count(','))


def _truck(truck: str, place: str, number: int) -> tuple[str | None, int]:
    """Returns the truck of a job and its place there."""
    if not truck and not place:
        return None, 0
    if not is_name(truck) or not re.fullmatch('[1-9][0-9]{0,2}', place):
        raise NoInstructions(
            f'line {number}: {shown(f"{truck},{place}", 60)} is no truck with a place'
            f' from 1 to {MOST_PLACE}'
        )
    return truck, int(place)


def _due(text: str, number: int) -> int | None:
    if not text:
        return None
    try:
        if not re.fullmatch('[0-9TZ:-]{20}', text):
            raise ValueError
        found = datetime.datetime.strptime(text, MOMENT).replace(tzinfo=datetime.timezone.utc)
        if found.timestamp() < 0:
            raise ValueError
        return int(found.timestamp())
    except ValueError:
        raise NoInstructions(
            f'line {number}: {shown(text, 60)} is no moment such as 2026-12-01T14:30:00Z'
        ) from None


def _priority(text: str, number: int) -> int:
    if not re.fullmatch('[0-9]?', text):
        raise NoInstructions(
            f'line {number}: {shown(text, 60)} is no priority from 0 to {MOST_PRIORITY}'
        )
    return int(text or 0)
