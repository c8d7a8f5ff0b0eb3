"""Answers what other programs ask. Each path is a whole pattern: a name in it is one of the desk's,
and has no percent codes."""
from __future__ import annotations

import functools
import os
import re
import secrets
import sqlite3
from collections.abc import Callable
from dataclasses import dataclass
from typing import Any, TypeVar

from ..answers import JSON, Reply, refused, told
from ..record import Record
from ..request import Head
from ..workers import Workers
from . import histories, queries
from .events import EventQuery, Batch, OtherRecord, read_events
from .feed import Feed
from .queries import BadQuery
from .reading import Reading
from .share import Share
from .streams import BATCH, Part, Stream, Streams, part_of
from .watch import Watch

FRONT = '/api/'
EVENTS, STREAM, OPENAPI = '/api/events', '/api/events/stream', '/api/openapi.json'
FIXED = (EVENTS, STREAM, OPENAPI, '/metrics', '/health')  # paths beside `ROUTES`
READERS = 2  # threads
SHARE = 0.25  # of a processor that they take at most
NAME = r'([\w.:-]{1,32})'
DOCUMENT = os.path.join(os.path.dirname(__file__), 'openapi.json')
METRICS = 'text/plain; version=0.0.4; charset=utf-8'
NOT_READ = 'board.db can not be read now: ask again in a moment.'

T = TypeVar('T')
Ask = Callable[[Reading, list[str]], dict[str, Any] | None]


@dataclass(frozen=True)
class Route:
    """What is asked of the record at a path: `what` names it where there is none."""

    path: re.Pattern[str]
    what: str
    ask: Ask


def _route(path: str, what: str, ask: Ask) -> Route:
    return Route(re.compile(path, re.A), what, ask)


ROUTES = (
    _route(f'/api/jobs/{NAME}', 'job', histories.job),
    _route(f'/api/loads/{NAME}', 'load', histories.load),
    _route(f'/api/vehicles/{NAME}/{NAME}', 'vehicle', histories.vehicle),
    _route('/api/alarms', 'alarms', histories.alarms),
)


def name_record(record: Record) -> None:
    """Gives a new file a name, by which another one is known as another one."""
    if record.meta('record') is None:
        record.set_meta('record', secrets.token_hex(8))
        record.commit()


class Api:
    """Answers requests by the record, and by what is watched. Start it by `feed.begin()`."""

    def __init__(self, record: Record, watch: Watch) -> None:
        name_record(record)
        self.reading, self.watch = Reading(record.path), watch
        self.workers, self.share = Workers(READERS), Share(SHARE)
        self.feed = Feed(self.reading, watch.news)
        self.streams = Streams(self.feed, self._part)
        watch.streams = self.streams.count
        with open(DOCUMENT, 'rb') as file:
            self.document = Reply(200, JSON, file.read())

    @staticmethod
    def has(path: str) -> bool:
        """Whether a path is one of these."""
        return path.startswith(FRONT) or path in ('/metrics', '/health')

    async def answer(self, head: Head) -> Reply | Stream:
        """Returns what a request is answered."""
        path, _, query = head.target.partition('?')
        if head.method == 'POST':
            return refused(405, 'What is here is only read.')
        try:
            return await self._answer(path, query, head)
        except BadQuery as wrong:
            return refused(400, str(wrong))
        except OtherRecord as other:
            return refused(409, str(other))
        except sqlite3.Error:
            return refused(503, NOT_READ)

    async def _answer(self, path: str, query: str, head: Head) -> Reply | Stream:
        if path in (EVENTS, STREAM):
            return await self._events(path, query, head)
        queries.values_of(query, ())
        if path == OPENAPI:
            return self.document
        if path == '/metrics':
            text = await self._run(functools.partial(self.watch.metrics, self.feed))
            return Reply(200, METRICS, text.encode())
        if path == '/health':
            health = self.watch.health(self.feed)
            return told(health.told(), 200 if health.is_well else 503)
        for route in ROUTES:
            if found := route.path.fullmatch(path):
                return await self._found(route, list(found.groups()))
        return refused(404, f'There is nothing at {path[:80]}.')

    async def _found(self, route: Route, names: list[str]) -> Reply:
        return await self._run(functools.partial(self._at_once, route, names))

    def _at_once(self, route: Route, names: list[str]) -> Reply:
        with self.reading.moment():
            found = route.ask(self.reading, names)
        if found is None:
            return refused(404, f'The record has no {route.what} {"/".join(names)}.')
        return told(found)

    async def _run(self, work: Callable[[], T]) -> T:
        """Has a thread do something, by its share of the processor."""
        return await self.workers.run(lambda: self.share.run(work))

    async def _events(self, path: str, query: str, head: Head) -> Reply | Stream:
        is_stream = path == STREAM
        last_id = head.headers.get('last-event-id') if is_stream else None
        asked = queries.read_event_query(query, last_id)
        if not is_stream:
            return await self._run(lambda: told(self._batch(asked).told()))
        asked = EventQuery(asked.after, BATCH, asked.kinds, asked.record)
        return Stream(self.streams, asked, await self._part(asked))

    async def _part(self, asked: EventQuery) -> Part:
        return await self._run(lambda: part_of(self._batch(asked)))

    def _batch(self, asked: EventQuery) -> Batch:
        last = self.feed.last
        if last is None:
            raise sqlite3.OperationalError(NOT_READ)
        return read_events(self.reading, asked, last)
