"""What the page shows: values by kind and name, each with the version at which it came to be so. A
page asks for what is newer than what it has."""
from __future__ import annotations

import json
import secrets
import threading
from collections import OrderedDict, deque
from dataclasses import dataclass
from typing import cast

from .events import ToldEvent
from .shown_rows import ShownKind, RowT

EVENTS = 300  # that a page is told at most
KEPT = 32  # texts that were made for pages of different versions
GONE = 10_000  # names that were taken away, of which pages are still told so


def json_of(what: object) -> str:
    """Returns what pages are told, as JSON."""
    return json.dumps(what, separators=(',', ':'))


@dataclass(frozen=True)
class Value:
    """A value, the version at which it came to be so, and how pages are told of it."""

    version: int
    value: object
    text: str

    def of(self, _: ShownKind[RowT]) -> RowT | None:
        """Returns the value, which is of this kind: `put` takes no other one under its name."""
        return cast(RowT | None, self.value)


class Shown:
    """Values by kind and name, as `('vehicle', 'KIT/0001')`. Threads may put and ask at the same
    time. `run` differs from one start of the board to the next, so that a page knows that its
    version is of another run."""

    def __init__(self) -> None:
        self.run = secrets.token_hex(4)
        self._lock = threading.Lock()
        self._version = 0
        self._values: OrderedDict[tuple[str, str], Value] = OrderedDict()  # the newest at the end
        self._events: deque[tuple[int, str]] = deque(
            maxlen=EVENTS
        )  # each with its version, as JSON
        self._made: dict[tuple[bool, int], bytes] = {}  # what pages were told that had this version
        self._made_of = (self.run, 0)
        self._gone: deque[tuple[int, tuple[str, str]]] = deque()
        self._least = 0  # a page with an older version is told all

    def put(self, kind: ShownKind[RowT], name: str, value: RowT | None) -> bool:
        """Puts a value, where it differs from the one that stands. None takes the name away, and
        pages are told so."""
        with self._lock:
            before = self._values.get((kind, name))
            if value == (None if before is None else before.value):
                return False
            self._version += 1
            self._values[kind, name] = Value(self._version, value, json_of([kind, name, value]))
            self._values.move_to_end((kind, name))
            if value is None:
                self._gone.append((self._version, (kind, name)))
                self._forget()
            return True

    def _forget(self) -> None:
        while len(self._gone) > GONE:
            self._least, key = self._gone.popleft()
            value = self._values.get(key)
            if value is not None and value.version == self._least:
                del self._values[key]

    def clear(self) -> None:
        """Takes all values away. Pages are told all anew."""
        with self._lock:
            self.run = secrets.token_hex(4)
            self._values.clear()
            self._gone.clear()

    def event(self, event: ToldEvent) -> None:
        """Adds a line to what happened."""
        with self._lock:
            self._version += 1
            self._events.append((self._version, json_of(event)))

    def get(self, kind: ShownKind[RowT], name: str) -> RowT | None:
        """Returns the value, or None."""
        with self._lock:
            found = self._values.get((kind, name))
            return None if found is None else found.of(kind)

    def all(self, kind: ShownKind[RowT]) -> dict[str, RowT]:
        """Returns all values of a kind, by their names."""
        with self._lock:
            found = [
                (name, value.of(kind)) for (of, name), value in self._values.items() if of == kind
            ]
        return {name: value for name, value in found if value is not None}

    def newer(self, run: str, version: int) -> bytes:
        """Returns what is newer than a version of a run, of another run all that is, as the members
        of an object of JSON. It is made once for all pages that have the same version. `values` has
        kind, name and value of each, `full` says that it is all, and `events` are the newest
        last."""
        with self._lock:
            full = run != self.run or not self._least <= version <= self._version
            least = 0 if full else version
            if self._made_of != (self.run, self._version) or len(self._made) >= KEPT:
                self._made_of, self._made = (self.run, self._version), {}
            made = self._made.get((full, least))
            if made is None:
                made = self._made[full, least] = self._newer(full, least)
            return made

    def _newer(self, full: bool, least: int) -> bytes:
        values = []
        for value in reversed(self._values.values()):
            if value.version <= least:
                break
            if not (full and value.value is None):
                values.append(value.text)
        events = [text for number, text in self._events if number > least]
        front = f'"run":"{self.run}","version":{self._version},"full":{json.dumps(full)}'
        return (f'{front},"values":[{",".join(values)}],"events":[{",".join(events)}]').encode()
