"""Writes the lines of the gateway: each once until it changes, and never more than a person can
read, whatever the vehicles, the broker or the desk send."""
from __future__ import annotations

import contextlib
import sys
import threading
import time
from collections.abc import Callable
from dataclasses import dataclass, field

from ..common.text import shown

LINE = 1000  # characters of the longest line
SPAN = 60.0  # seconds
LINES = 20  # the most lines about one vehicle within SPAN
THINGS = 10_000  # the most things of which the last line is kept
EXAMPLES = 3  # the most names in a line about messages that were dropped

Say = Callable[[str], None]
Clock = Callable[[], float]


def say(line: str) -> None:
    """Writes a line on standard error, in characters that a terminal shows. A log that can't be
    written, as on a full disk, ends no gateway."""
    with contextlib.suppress(OSError):
        print(shown(line, LINE), file=sys.stderr, flush=True)


@dataclass
class Budget:
    """How many lines about an owner were written since a moment, and how many were left out."""

    since: float
    written: int = 0
    left_out: int = 0


class Log:
    """Writes a line about a thing when it differs from the last one about that thing. About all
    things of one owner, such as a vehicle, it writes at most LINES within SPAN seconds."""

    def __init__(self, write: Say, clock: Clock = time.monotonic) -> None:
        self.write, self.clock = write, clock
        self.last: dict[tuple[str, str], str] = {}
        self.budgets: dict[str, Budget] = {}

    def of(self, owner: str, thing: str, line: str | None) -> None:
        """Writes a line about a thing of an owner, if it is a new one. With None it writes nothing,
        and the next line counts as new."""
        key = (owner, thing)
        if line is None:
            self.last.pop(key, None)
        elif self.last.get(key) != line:
            if len(self.last) >= THINGS:
                self.last.clear()
            self.last[key] = line
            self.once(owner, line)

    def once(self, owner: str, line: str) -> None:
        """Writes a line about an owner, unless too many were written."""
        if len(self.budgets) >= THINGS:
            self.budgets.clear()
        now = self.clock()
        budget = self.budgets.setdefault(owner, Budget(now))
        if now >= budget.since + SPAN:
            if budget.left_out:
                self.write(f'{owner}: {budget.left_out} more lines were left out')
            budget = self.budgets[owner] = Budget(now)
        if budget.written < LINES:
            budget.written += 1
            self.write(line)
        else:
            budget.left_out += 1


@dataclass
class Dropped:
    """How many messages were dropped for a reason since the last line about it, and whose they
    were."""

    count: int = 0
    names: list[str] = field(default_factory=list)
    said_at: float | None = None


class Tally:
    """Counts the messages that are dropped, by reason, in any thread. For each reason a line with
    the sum is written at once, and again at most every SPAN seconds."""

    def __init__(self, write: Say, clock: Clock = time.monotonic) -> None:
        self.write, self.clock = write, clock
        self.lock = threading.Lock()
        self.dropped: dict[str, Dropped] = {}

    def count(self, reason: str, name: str, more: int = 1) -> None:
        """Counts messages that were dropped for a reason. `name` says whose they were."""
        with self.lock:
            dropped = self.dropped.setdefault(reason, Dropped())
            dropped.count += more
            if len(dropped.names) < EXAMPLES and shown(name, 80) not in dropped.names:
                dropped.names.append(shown(name, 80))

    def say_due(self) -> None:
        """Writes the sums that are due."""
        now, due = self.clock(), []
        with self.lock:
            for reason, one in self.dropped.items():
                if one.count and (one.said_at is None or now >= one.said_at + SPAN):
                    due.append((reason, one))
            for reason, _ in due:
                self.dropped[reason] = Dropped(said_at=now)
        for reason, one in due:
            messages = 'message was' if one.count == 1 else 'messages were'
            self.write(f'{one.count} {messages} dropped: {reason}: {", ".join(one.names)}')
