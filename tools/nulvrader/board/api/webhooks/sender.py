"""Sends events to one receiver, one message after another. The next one goes out once the last was
taken, so they come in order, however often one has to be sent again."""
from __future__ import annotations

import sqlite3
import time
from collections.abc import Callable
from typing import Protocol

from .config import Hook
from .delivery import Delivery, delivery_of, headers_of
from .ledger import Ledger, Position
from .receiver import Result
from .source import Events, NoEvents, RecordChanged

IDLE = 1.0  # seconds until the board is asked again that had nothing new
MOST = 100  # events in a message
LONGEST = 300.0  # seconds from one attempt to the next
TOLD_EVERY = 600.0  # seconds after which a fault that stays is told again

Log = Callable[[str], None]


class Reads(Protocol):
    """What has the events."""

    def read(self, record: str, after: int, kinds: tuple[str, ...] | None, most: int) -> Events:
        """Returns events behind a number."""


class Posts(Protocol):
    """What takes messages."""

    def post(self, body: bytes, headers: dict[str, str]) -> Result:
        """Posts a message, and returns what came of it."""


class Clock:
    """The time of this machine."""

    def time(self) -> float:
        """Returns the seconds since 1970."""
        return time.time()

    def passed(self) -> float:
        """Returns seconds that only grow."""
        return time.monotonic()


def pause_after(failures: int, wanted: int) -> float:
    """Returns how many seconds after so many failures in a row the next attempt comes: twice as
    long each time, or as long as the receiver wants, if that is longer."""
    return max(float(wanted), min(LONGEST, 2.0 ** min(failures - 1, 20)))


class Sender:
    """Sends to a receiver what it has not taken yet."""

    def __init__(
        self, hook: Hook, source: Reads, receiver: Posts, ledger: Ledger, log: Log, clock: Clock
    ) -> None:
        self.hook, self.source, self.receiver = hook, source, receiver
        self.ledger, self.log, self.clock = ledger, log, clock
        self.failures = 0
        self._told: tuple[str, float] | None = None  # the fault that was told last, and when

    def step(self) -> float:
        """Does one thing, and returns the seconds until the next one."""
        try:
            position = self.ledger.position(self.hook.name) or self._begin()
            if position.delivery is None:
                position = self._next(position)
            if position.delivery is None:
                self._works()
                return IDLE
            return self._send(position, position.delivery)
        except NoEvents as fault:
            return self._fails(f'no events: {fault}', 0)
        except sqlite3.Error as fault:
            return self._fails(f'the file of this program: {fault}', 0)

    def _send(self, position: Position, delivery: Delivery) -> float:
        headers = headers_of(delivery, self.hook.secrets, int(self.clock.time()))
        result = self.receiver.post(delivery.body, headers)
        if not result.taken:
            return self._fails(result.why, result.pause)
        self._works()
        self.ledger.put(self.hook.name, Position(position.record, delivery.after, None))
        return 0.0

    def _begin(self) -> Position:
        """Notes and returns where a new receiver begins: it gets what happens from now on."""
        events = self.source.read('', 0, self.hook.kinds, 1)
        position = Position(events.record, events.last, None)
        self.ledger.put(self.hook.name, position)
        return position

    def _next(self, position: Position) -> Position:
        """Returns the position with the next message, if anything is new. The ledger has it before
        it is sent."""
        events = self._read(position)
        if events.events:
            found = delivery_of(events.record, events.events, events.missed, events.after)
            after = position.after if events.record == position.record else 0
            follows = Position(events.record, after, found)
        else:
            follows = Position(events.record, events.after, None)
        if follows != position:
            self.ledger.put(self.hook.name, follows)
        return follows

    def _read(self, position: Position) -> Events:
        kinds = self.hook.kinds
        try:
            return self.source.read(position.record, position.after, kinds, MOST)
        except RecordChanged:
            self.log(f'{self.hook.name}: the board has another record: all of it is sent')
            return self.source.read('', 0, kinds, MOST)

    def _fails(self, why: str, wanted: int) -> float:
        self.failures += 1
        pause = pause_after(self.failures, wanted)
        now = self.clock.passed()
        if self._told is None or self._told[0] != why or now - self._told[1] >= TOLD_EVERY:
            self._told = why, now
            self.log(f'{self.hook.name}: {why}; attempt {self.failures}, again in {pause:g} s')
        return pause

    def _works(self) -> None:
        if self.failures:
            self.log(f'{self.hook.name}: it works again')
        self.failures, self._told = 0, None
