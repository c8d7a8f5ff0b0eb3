"""Asks a board for its events."""
from __future__ import annotations

import json
import re
import threading
from dataclasses import dataclass
from typing import Any

from ....common.text import shown
from ....desk.client import Desk, NoAnswer

RECORD = re.compile('[0-9a-f]{1,64}')


class NoEvents(Exception):
    """The board gives no events now. Its `str()` says why."""


class RecordChanged(NoEvents):
    """The board has another record than the one that is asked for."""


@dataclass(frozen=True)
class Events:
    """Events in a row, of a record: `after` is from where to go on, `last` the last one that there
    is, `missed` says that some before these are not kept any more."""

    record: str
    events: list[dict[str, Any]]
    after: int
    last: int
    missed: bool


class Source:
    """A board at the address of its page, such as `https://desk.example/board`. `user` and
    `password` are those of a reader at the proxy, and `cafile` vouches for its certificate. Threads
    may ask it at the same time."""

    def __init__(self, address: str, **options: Any) -> None:
        self._address, self._options = address, options
        self._own = threading.local()
        self._client()

    def _client(self) -> Desk:
        """Returns what asks the board for this thread. It has the deadline and the limits of a
        client of a desk."""
        client: Desk | None = getattr(self._own, 'client', None)
        if client is None:
            client = self._own.client = Desk(self._address, **self._options)
        return client

    def read(self, record: str, after: int, kinds: tuple[str, ...] | None, most: int) -> Events:
        """Asks the board for at most `most` events behind the number `after`, of all kinds where
        `kinds` is None. Raises `RecordChanged` where the board has another record than `record`,
        which may be '' for any, and `NoEvents` where it doesn't answer with events."""
        target = f'/api/events?after={after}&limit={most}'
        target += f'&kinds={",".join(kinds)}' if kinds is not None else ''
        target += f'&record={record}' if record else ''
        try:
            answer = self._client().ask('GET', target)
        except NoAnswer as fault:
            raise NoEvents(str(fault)) from None
        if answer.status == 409:
            raise RecordChanged('the board has another record')
        if answer.status != 200:
            raise NoEvents(f'the board answers with status {answer.status}')
        return events_of(answer.body)


def events_of(body: bytes) -> Events:
    """Returns what a board answers, or raises `NoEvents` where no board answers so."""
    try:
        told = json.loads(body)
        if not isinstance(told['events'], list):
            raise TypeError('events is no list')
        events = [dict(event) for event in told['events']]
        ids = [event['id'] for event in events]
        found = Events(told['record'], events, told['after'], told['last'], told['missed'])
    except (ValueError, TypeError, KeyError, RecursionError) as fault:
        raise NoEvents(f'what answers is no board: {shown(repr(fault), 100)}') from None
    numbers = [*ids, found.after, found.last]
    if not all(type(one) is int and one >= 0 for one in numbers) or ids != sorted(set(ids)):
        raise NoEvents('what answers is no board: its events are in no order')
    if not isinstance(found.record, str) or not RECORD.fullmatch(found.record):
        raise NoEvents('what answers is no board: it names no record')
    if ids and found.after < ids[-1]:
        raise NoEvents('what answers is no board: its events go back')
    return found
