"""What the parts of the random traffic have in common: a model, streets, chance, and the requests
that more than one of them makes."""
from __future__ import annotations

import collections
import random
from collections.abc import Callable, Iterator, Sequence
from typing import overload

from tests.model.bodies import FINAL
from tests.model.desk import Model
from tests.support import calls
from tests.support.sight import Answer, Sight
from tests.support.streets import Streets

DONE: Answer = (200, {})
Exchange = tuple[calls.Call, Answer]  # a call, and what the model answers to it


class Requests:
    """Requests over a model whose layout is, or is to be, these streets. Each is a pair of the call
    and the answer."""

    def __init__(self, model: Model, streets: Streets, chance: random.Random) -> None:
        self.sight, self.streets, self.chance, self.number = Sight(model), streets, chance, 0
        self.bays = set(streets.bays)
        self.headers: collections.Counter[str] = collections.Counter()
        self.before: dict[str, calls.Call] = {}  # the last state of each vehicle
        # By a vehicle whose order or update was refused, the node or edge that another one holds.
        self.waits: dict[str, tuple[str, str]] = {}
        # How often in a row it was.
        self.turned_down: collections.Counter[str] = collections.Counter()
        self.waiting: list[str] = []  # the jobs that wait
        self.old: dict[str, str] = {}  # the last order, job and reference
        self.here: dict[str, bool] = {}  # the loads that have not left
        self.recent: list[str] = []  # the last loads that came
        self.jobs: list[str] = []  # the last that were added

    def name(self, front: str) -> str:
        self.number += 1
        return f'{front}{self.number}'

    @overload
    def pick(self, known: Sequence[str], other: str = 'none') -> str:
        ...

    @overload
    def pick(self, known: Sequence[str], other: None) -> str | None:
        ...

    def pick(self, known: Sequence[str], other: str | None = 'none') -> str | None:
        """Returns mostly one that is known, and now and then one that is not."""
        return self.chance.choice(known) if known and self.chance.random() < 0.97 else other

    def happens(self, part: float = 0.02) -> bool:
        return self.chance.random() < part

    def asked(self, call: calls.Call, serial: str | None = None) -> Exchange:
        """The call, and the answer of the model."""
        return call, self.sight.answer(call, serial)

    def choose(self, fits: Callable[[str], object]) -> str:
        """A vehicle, mostly one that fits."""
        serials, tries = self.sight.serials, 1 if self.happens(0.1) else 8
        return next(
            filter(fits, (self.chance.choice(serials) for _ in range(tries))),
            self.chance.choice(serials),
        )

    def register(self, serial: str, node: str, capacity: int) -> Exchange:
        call, answer = self.asked(calls.vehicle(serial, node, capacity), serial)
        if answer == DONE:
            self.sight.serials.append(serial)
        return call, answer

    def has_news(self, serial: str) -> bool:
        """Whether the vehicle has something to report."""
        vehicle = self.sight.vehicle(serial)
        if vehicle.trip and (vehicle.confirmed != vehicle.sent or vehicle.seen < vehicle.base):
            return True
        if vehicle.trip and any(
            at <= vehicle.seen and act not in FINAL for at, act in zip(vehicle.at, vehicle.acts)
        ):
            return True
        return vehicle.pending is not None or not vehicle.ready

    def fetch(self, serial: str) -> Exchange:
        """What the vehicle's gateway asks for."""
        return self.asked(
            calls.get_order(serial) if self.happens(0.6) else calls.get_instant(serial)
        )

    def look_for_jobs(self) -> None:
        self.waiting = self.sight.still_waiting(self.waiting)

    def ref(self) -> str:
        """A new reference, or now and then one that was used."""
        if self.happens(0.03) and 'ref' in self.old:
            return self.old['ref']
        self.old['ref'] = self.name('R')
        return self.old['ref']

    def begin(self, vehicles: int) -> Iterator[Exchange]:
        """The layout, and so many vehicles, in bays as long as there are some, for one to four
        loads each."""
        yield self.asked(calls.layout(self.streets.rows()))
        nodes = [
            node
            for part in (self.streets.bays, self.streets.streets)
            for node in self.chance.sample(part, len(part))
        ]
        for number, node in enumerate(nodes[:vehicles], 1):
            yield self.register(f'{number:04d}', node, 1 + number % 4)
