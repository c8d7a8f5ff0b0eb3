"""What was answered, and what is to be said of it: what was lost, who wrote beside whom, what was
stale."""
from __future__ import annotations

import json
import threading
import time
from collections.abc import Iterable, Mapping, Sequence
from dataclasses import dataclass, field
from typing import Any

from .desks import Term


@dataclass(frozen=True)
class Answered:
    """An answer of a machine: what was asked, whether it changed something, when it was sent and
    when the answer had come."""

    machine: int
    what: str
    changes: bool
    sent: float
    came: float


@dataclass
class Records:
    """All that was answered, in any thread."""

    answers: list[Answered] = field(default_factory=list)
    loads: list[str] = field(default_factory=list)  # whose registering was answered, in this order
    headers: dict[str, int] = field(default_factory=dict)  # by vehicle, of its last accepted state
    messages: dict[tuple[str, str], tuple[int, bytes]] = field(default_factory=dict)  # the newest
    updates: dict[tuple[str, str], tuple[int, str]] = field(default_factory=dict)  # by order
    stale: list[str] = field(default_factory=list)
    lost: list[str] = field(default_factory=list)
    back: list[str] = field(default_factory=list)  # messages that went back, or changed
    published: int = 0
    lock: threading.Lock = field(default_factory=threading.Lock)

    def note(self, answer: Answered) -> None:
        """Notes an answer."""
        with self.lock:
            self.answers.append(answer)

    def note_load(self, name: str) -> None:
        """Notes that a load was registered."""
        with self.lock:
            self.loads.append(name)

    def last_load(self) -> str | None:
        """Returns the last load whose registering was answered."""
        with self.lock:
            return self.loads[-1] if self.loads else None

    def note_state(self, vehicle: str, header: int) -> None:
        """Notes that a state was accepted."""
        with self.lock:
            self.headers[vehicle] = max(header, self.headers.get(vehicle, -1))

    def newest(self, vehicle: str, topic: str) -> int:
        """Returns the number of the newest message of a vehicle that was seen."""
        with self.lock:
            return self.messages.get((vehicle, topic), (-1, b''))[0]

    def note_message(
        self, machine: int, vehicle: str, topic: str, number: int, body: bytes
    ) -> None:
        """Notes a message that a gateway publishes: its number never gets lower, and one of the
        same number is the same."""
        with self.lock:
            self.published += 1
            last, content = self.messages.get((vehicle, topic), (-1, b''))
            if number < last or number == last and body != content:
                self.back.append(f'm{machine}: {vehicle} {topic} {number} after {last}')
            elif number > last:
                self.messages[vehicle, topic] = number, body

    def note_order(self, vehicle: str, message: Mapping[str, Any]) -> None:
        """Notes what a vehicle is given of an order: its updates never go back, and one that comes
        again has the same nodes and edges."""
        order, update = str(message['orderId']), int(message['orderUpdateId'])
        content = json.dumps([message['nodes'], message['edges']], sort_keys=True)
        with self.lock:
            last, before = self.updates.get((vehicle, order), (-1, content))
            if update < last or update == last and content != before:
                self.back.append(f'{vehicle}: update {update} of {order} after {last}')
            else:
                self.updates[vehicle, order] = update, content


def late(answers: Iterable[Answered], terms: Sequence[Term]) -> list[Answered]:
    """Returns the answers of machines that were asked once another one, which had the desk after
    them, had answered: two desks have answered at once."""
    order = sorted(terms, key=lambda term: term.began)
    of: list[tuple[Answered, int]] = []
    first: dict[int, float] = {}
    for answer in answers:
        own = [
            at
            for at, term in enumerate(order)
            if term.machine == answer.machine and term.began <= answer.came
        ]
        at = own[-1] if own else -1
        of.append((answer, at))
        if at >= 0:
            first[at] = min(first.get(at, answer.came), answer.came)
    return [
        answer
        for answer, at in of
        if any(later > at and came < answer.sent for later, came in first.items())
    ]


@dataclass(frozen=True)
class Judgement:
    """How many answered calls were lost, changes answered by two desks at once, answers stale."""

    lost: int
    writers: int
    stale: int

    @classmethod
    def of(cls, records: Records, terms: Sequence[Term]) -> Judgement:
        """Judges what was recorded."""
        with records.lock:
            beside = late(records.answers, terms)
            writers = sum(1 for one in beside if one.changes)
            stale = len(records.stale) + len(records.back) + len(beside) - writers
            return cls(len(records.lost), writers, stale)

    def __str__(self) -> str:
        return f'lost {self.lost}, two writers {self.writers}, stale {self.stale}'


def asked(machine: Any, what: str, changes: bool, ask: Any) -> tuple[Any, Answered]:
    """Makes a request, and returns its answer with what is noted of it."""
    sent = time.monotonic()
    answer = ask()
    return answer, Answered(machine, what, changes, sent, time.monotonic())
