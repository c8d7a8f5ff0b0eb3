"""Keeps what has come from the broker until the gateway takes it. The broker's thread puts messages
in, and the gateway's thread takes them out."""
from __future__ import annotations

import collections
import re
import threading
from dataclasses import dataclass, field

from ..common.names import NAME_RULE
from .log import Tally

FRONT = 'uagv/v2'
NAME = '[A-Za-z0-9_.:-]{1,32}'
LONGEST = 250_000  # bytes of the longest message that is read
EACH = 64  # the most messages of one kind of a vehicle that are kept, in LONGEST bytes
TURN = 2_000_000  # the most bytes that are taken in a turn
STRANGERS = 1_000  # the most queues of vehicles that the desk does not have,
STRANGE = 16_000_000  # and the most bytes in these

NO_NAMES = f'a manufacturer and a serial number are each {NAME_RULE}'
TOO_LONG = f'more than {LONGEST} bytes'
TOO_FAST = 'later ones have come before it was taken'
CROWDED = 'too many vehicles that the desk does not have send messages'
UNKNOWN = 'the desk does not have the vehicle'


@dataclass(frozen=True)
class Message:
    """A message of a vehicle: `kind` is `state` or `connection`."""

    vehicle: str
    kind: str
    data: bytes


@dataclass
class Queue:
    """The messages of one kind of a vehicle, the oldest first, and their bytes."""

    items: collections.deque[bytes] = field(default_factory=collections.deque)
    size: int = 0


Key = tuple[str, str]  # a vehicle and a kind


class Inbox:
    """Keeps the messages of each vehicle in their order, until they are taken.

    Its memory is bounded, whatever comes: a vehicle that the desk has keeps its last EACH messages
    of a kind, in LONGEST bytes. All other names share the room for strangers, so a flood of
    invented ones takes no room from the vehicles of the desk. What is dropped is counted."""

    def __init__(self, tally: Tally, front: str = FRONT) -> None:
        self.tally = tally
        self.topic = re.compile(f'{re.escape(front)}/({NAME}/{NAME})/(state|connection)')
        self.lock = threading.Lock()
        self.known: frozenset[str] = frozenset()  # the vehicles that the desk has
        self.queues: dict[Key, Queue] = {}  # their messages
        self.others: dict[Key, Queue] = {}  # those of strangers,
        self.size = 0  # and their bytes

    def put(self, topic: str, data: bytes) -> None:
        """Adds a message of a topic."""
        parts = self.topic.fullmatch(topic)
        if parts is None:
            return self.tally.count(NO_NAMES, topic)
        if len(data) > LONGEST:
            return self.tally.count(TOO_LONG, topic)
        with self.lock:
            self._add((parts.group(1), parts.group(2)), data)
        return None

    def _add(self, key: Key, data: bytes) -> None:
        """Adds a message to its queue, and drops the oldest ones if there is no room."""
        is_known = key[0] in self.known
        queues = self.queues if is_known else self.others
        if not is_known:
            is_full = key not in queues and len(queues) >= STRANGERS
            if is_full or self.size + len(data) > STRANGE:
                return self.tally.count(CROWDED, key[0])
            self.size += len(data)
        queue = queues.setdefault(key, Queue())
        queue.items.append(data)
        queue.size += len(data)
        while len(queue.items) > EACH or queue.size > LONGEST:
            size = len(queue.items.popleft())
            queue.size -= size
            self.size -= 0 if is_known else size
            self.tally.count(TOO_FAST, key[0])
        return None

    def know(self, vehicles: frozenset[str]) -> None:
        """Sets which vehicles the desk has."""
        with self.lock:
            self.known = vehicles
            both = {**self.queues, **self.others}
            self.queues = {key: queue for key, queue in both.items() if key[0] in vehicles}
            self.others = {key: queue for key, queue in both.items() if key[0] not in vehicles}
            self.size = sum(queue.size for queue in self.others.values())

    def take(self) -> list[Message]:
        """Takes the messages of the desk's vehicles: at most TURN bytes, first of the vehicles that
        have sent least. So a vehicle that sends much delays only itself."""
        taken: dict[Key, Queue] = {}
        with self.lock:
            size = 0
            for key in sorted(self.queues, key=lambda key: self.queues[key].size):
                size += self.queues[key].size
                if taken and size > TURN:
                    break
                taken[key] = self.queues.pop(key)
        return [Message(*key, data) for key, queue in taken.items() for data in queue.items]

    def strangers(self) -> set[str]:
        """Returns the vehicles that the desk does not have, and whose messages are kept."""
        with self.lock:
            return {vehicle for vehicle, _ in self.others}

    def drop(self, strangers: set[str]) -> None:
        """Drops the messages of strangers."""
        with self.lock:
            for key in [key for key in self.others if key[0] in strangers]:
                queue = self.others.pop(key)
                self.size -= queue.size
                self.tally.count(UNKNOWN, key[0], len(queue.items))
