"""What a sketch of a plant keeps of orders and vehicles, and what a run of it has shown."""
from __future__ import annotations

from collections import Counter
from collections.abc import Mapping
from dataclasses import dataclass, field

from nulvrader.common.names import VehicleKey
from nulvrader.desk.client import Desk, Job
from nulvrader.dispatch.dispatcher import Dispatcher
from nulvrader.dispatch.snapshot import Snapshot

Acts = tuple[tuple[str, str], ...]


@dataclass
class Trip:
    """An open order: its way, its acts by the index of their node, the last index that is released
    and the one that the vehicle has reached, as the desk has it."""

    name: str
    way: tuple[str, ...]
    acts: Mapping[int, Acts]
    base: int
    jobs: frozenset[str]
    sent: int = 0
    confirmed: int | None = None
    at: int = 0
    bases: list[int] = field(default_factory=list)  # by update


@dataclass
class Car:
    """A vehicle: what the desk has of it, and what it does. `known` is the last index that it may
    drive to, `place` the one where it is, and `done` how many acts there are behind it."""

    key: VehicleKey
    capacity: int
    node: str
    loads: list[str] = field(default_factory=list)
    trip: Trip | None = None
    header: int = 1
    paused: bool = False
    pending: str | None = None
    known: int = 0
    place: int = 0
    done: int = 0
    busy: bool = False
    waits: float | None = None  # since when it has nothing to do, with an order

    @property
    def name(self) -> str:
        return str(self.key)


@dataclass
class Figures:
    """What a run has shown. Times are in seconds of the plant, but those of turns."""

    done: int = 0
    seconds: float = 0.0
    ordered: float = 0.0
    waited: float = 0.0
    longest: float = 0.0
    oldest: float = 0.0  # how long a job was open at most
    still: float = 0.0  # how long no vehicle moved at most, with jobs
    metres: float = 0.0
    turns: list[float] = field(default_factory=list)
    counts: Counter[str] = field(default_factory=Counter)

    def per_hour(self) -> float:
        return self.done * 3600 / self.seconds

    def line(self) -> str:
        turns = sorted(self.turns) or [0.0]
        return (
            f'{self.per_hour():.0f} jobs/h, waiting {100 * self.waited / (self.ordered or 1):.0f} %'
            f' (longest {self.longest:.0f} s), a job open {self.oldest:.0f} s, still'
            f' {self.still:.0f} s, {self.metres / max(1, self.done):.0f} m a job, turn'
            f' {1000 * sum(turns) / len(turns):.0f} ms (99th'
            f' {1000 * turns[int(0.99 * (len(turns) - 1))]:.0f}, most {1000 * turns[-1]:.0f})'
        )


class Sketched(Desk):
    """A desk that tells all that it has at once."""

    def snapshot(self) -> Snapshot:
        """Returns what the dispatcher is to see."""
        raise NotImplementedError


class OverASketch(Dispatcher):
    """A dispatcher over a sketch."""

    def _look(self) -> Snapshot:
        assert isinstance(self.desk, Sketched)
        return self.desk.snapshot()


def stop_jobs(
    car: Car, live: dict[str, Job], room: dict[str, int], since: dict[str, float]
) -> None:
    """Stops the live jobs of a vehicle's order, whose room is free again."""
    for job in car.trip.jobs if car.trip else ():
        one = live.pop(job, None)
        if one is not None:
            room[one.target] += 1
            del since[job]
