"""The jobs that wait for a vehicle, since when, and how urgent they are."""
from __future__ import annotations

from collections.abc import Iterator, Mapping, Sequence
from dataclasses import dataclass, replace

from ..desk.client import Job
from ..common.instructions import Urgency

AGE = 120.0
"""A job that has waited for so many seconds counts as an edge nearer, and for n times as many as
n * n edges: among new ones the nearest goes first, and none waits for ever."""

STEP = 20
"""A job counts as so many edges nearer by each step of its priority."""

DUE, LEAD = 60, 900.0
"""A job counts as so many edges nearer when it is due. That begins and grows so many seconds
before, and goes on for as many behind it. So in the end age comes before any due time and any
priority: a job that has waited for 45 minutes comes before all that are added then."""


@dataclass(frozen=True)
class Waiting:
    """A job that waits: its load, the stations where that stands and where it leads, and the moment
    in seconds since which it has been seen to wait. `due` is a moment of the same clock. `behind`
    has the live jobs of its truck that come before it, and `pulled` the earliest due time and the
    highest priority of those behind it."""

    job: str
    load: str
    origin: str
    target: str
    since: float = 0.0
    due: float | None = None
    priority: int = 0
    truck: str | None = None
    behind: frozenset[str] = frozenset()
    pulled: tuple[float | None, int] = (None, 0)

    def nearer(self, now: float) -> float:
        """As how many edges nearer it counts: as those of its truck that wait for it do."""
        priority = max(self.priority, self.pulled[1])
        found = (max(0.0, now - self.since) / AGE) ** 2 + STEP * priority
        due = _earlier(self.due, self.pulled[0])
        if due is not None:
            found += DUE * min(2.0, max(0.0, 1 + (now - due) / LEAD))
        return found


class JobBook:
    """The jobs that wait, the most urgent one in front. The desk does not tell since when a job
    waits, so the jobs that are there at a start count as new."""

    def __init__(self) -> None:
        self.waiting: dict[str, Waiting] = {}

    def look(
        self,
        jobs: Mapping[str, Job],
        now: float = 0.0,
        urgent: Mapping[str, Urgency] | None = None,
        wall: float = 0.0,
    ) -> None:
        """Brings the book up to date by the live jobs, at this moment in seconds, and by how urgent
        some are, whose due times are of a clock that has this moment."""
        found = [
            self.waiting.get(job.name) or Waiting(job.name, job.load, job.origin, job.target, now)
            for job in jobs.values()
            if job.phase == 'waiting'
        ]
        said = {name: one for name, one in (urgent or {}).items() if name in jobs}
        found = [_urged(one, said.get(one.job), now - wall) for one in found]
        found = in_their_order(found, said)
        self.waiting = {
            one.job: one for one in sorted(found, key=lambda one: (-one.nearer(now), one.since))
        }

    def forget(self, job: str) -> None:
        """Forgets a job that does not wait any more."""
        self.waiting.pop(job, None)


def _urged(one: Waiting, urgency: Urgency | None, ahead: float) -> Waiting:
    """Returns a job with its due time and its priority, where the book's clock is so much ahead."""
    urgency = urgency or Urgency()
    due = None if urgency.due is None else urgency.due + ahead
    if (one.due, one.priority, one.truck) == (due, urgency.priority, urgency.truck):
        return one
    return replace(one, due=due, priority=urgency.priority, truck=urgency.truck)


def _earlier(one: float | None, other: float | None) -> float | None:
    """Returns the earlier of two moments that may be missing."""
    return min((due for due in (one, other) if due is not None), default=None)


def in_their_order(waiting: Sequence[Waiting], said: Mapping[str, Urgency]) -> list[Waiting]:
    """Returns the jobs, each with those of its truck that come before it: the live ones with the
    next smaller place. `said` has what was said of live jobs."""
    trucks: dict[str, dict[int, set[str]]] = {}
    for job, urgency in said.items():
        if urgency.truck is not None:
            trucks.setdefault(urgency.truck, {}).setdefault(urgency.place, set()).add(job)
    by_name = {one.job: one for one in waiting}
    found: dict[str, Waiting] = {}
    for places in trucks.values():
        found.update(_of_a_truck(places, by_name))
    return [found.get(one.job) or _alone(one) for one in waiting]


def _of_a_truck(
    places: Mapping[int, set[str]], waiting: Mapping[str, Waiting]
) -> Iterator[tuple[str, Waiting]]:
    """Yields the jobs of a truck that wait, by their names. `places` has its live jobs."""
    numbers = sorted(places)
    before = {place: frozenset(places[less]) for less, place in zip(numbers, numbers[1:])}
    pulled: tuple[float | None, int] = (None, 0)
    for place in reversed(numbers):
        row = [waiting[job] for job in places[place] if job in waiting]
        for one in row:
            behind = before.get(place, frozenset())
            yield one.job, replace(one, behind=behind, pulled=pulled)
        due, priority = pulled
        for one in row:
            due, priority = _earlier(due, one.due), max(priority, one.priority)
        pulled = due, priority


def _alone(one: Waiting) -> Waiting:
    """Returns a job of no truck."""
    is_alone = not one.behind and one.pulled == (None, 0)
    return one if is_alone else replace(one, behind=frozenset(), pulled=(None, 0))
