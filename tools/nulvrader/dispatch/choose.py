"""Which vehicle takes which jobs. Pure: it proposes orders, and the dispatcher gives them."""
from __future__ import annotations

from collections.abc import Iterator, Sequence
from dataclasses import dataclass

from ..desk.client import Stop
from .job_book import Waiting
from .snapshot import Seen
from .judge import Judge
from .traffic import Traffic
from .routes import Ways

JOBS = 30
"""So many of the most urgent jobs are tried in a turn, and so many of the others, in each turn the
next ones."""

LOOKS = 8
"""So many pairs of a job and a vehicle get a look in one turn, if it takes one to see whether the
vehicle may be started: those whose last look was longest ago, and of these the nearest."""

KEPT = 20_000
"""Of so many pairs it is kept when they had their last look."""

MORE = 300
"""So many jobs are tried as further ones of an order, from the most urgent on."""


@dataclass(frozen=True)
class Proposal:
    """An order: its vehicle, its stops, the way that it takes by node, and the jobs."""

    vehicle: str
    stops: tuple[Stop, ...]
    way: tuple[str, ...]
    jobs: tuple[Waiting, ...]


@dataclass(frozen=True)
class At:
    """A stop and its node."""

    stop: Stop
    node: str


Try = tuple[Waiting, Seen, tuple[str, ...]]
"""A job, and a vehicle with its way."""


class Chooser:
    """Chooses over one layout. `detour` is how many edges an order may become longer at most by
    each further job that it takes along; it takes none by which it becomes as much longer as that
    job would be alone."""

    def __init__(self, ways: Ways, judge: Judge, detour: int = 0) -> None:
        self.ways, self.judge, self.detour = ways, judge, detour
        self._turn, self._left, self._now = 0, LOOKS, 0.0
        self._looked: dict[
            tuple[str, ...], int
        ] = {}  # the turn of the last look, by where the vehicle stands and where the job leads
        self._put_off: set[str] = set()  # the jobs that were not looked at

    def begin_turn(self, now: float = 0.0) -> None:
        """Begins a turn at a moment, in seconds: so many looks may be made anew in it."""
        self._turn, self._left, self._now = self._turn + 1, LOOKS, now

    def is_put_off(self, one: Waiting) -> bool:
        """Whether others come before this job: it is not one of the most urgent, or a vehicle had
        no look for it yet."""
        return one.job in self._put_off

    def propose(
        self, idle: Sequence[Seen], waiting: Sequence[Waiting], traffic: Traffic
    ) -> Proposal | None:
        """Returns the first order that may be started: for a vehicle that is in the way of others,
        else for a job and a vehicle that is near, where it counts how urgent the job is."""
        free = [one for one in waiting if not one.behind]
        first, others = free[:JOBS], free[JOBS:]
        jobs = [
            *first,
            *(others[(self._turn * JOBS + n) % len(others)] for n in range(min(JOBS, len(others)))),
        ]
        self._put_off = {one.job for one in others}
        blocking = [seen for seen in idle if traffic.in_the_way(seen.name)]
        found = self._first(blocking, jobs, traffic) or self._first(idle, jobs, traffic)
        if found is None:
            return None
        one, seen, way = found
        return self._with_more(
            Proposal(seen.name, _stops(one), way, (one,)), one, seen, waiting, traffic
        )

    def _first(self, idle: Sequence[Seen], jobs: Sequence[Waiting], traffic: Traffic) -> Try | None:
        """Returns the first of these that may be started, as far as looks are left."""
        nearer: list[Try] = []
        plain: list[Try] = []
        for tried in self._tries(idle, jobs):
            told = self.judge.plainly(traffic, tried[1].name, tried[2])
            if told is not False:
                (plain if told else nearer).append(tried)
            if told:
                break
        found = next(
            (tried for tried in [*self._due(nearer), *plain] if self._may_start(tried, traffic)),
            None,
        )
        self._put_off |= {tried[0].job for tried in nearer if _key(tried) not in self._looked}
        return found

    def _due(self, tries: Sequence[Try]) -> list[Try]:
        """Returns those that get a look now, in their order: none of them twice in a turn."""
        last = [(self._looked.get(_key(tried), 0), number) for number, tried in enumerate(tries)]
        due = sorted(one for one in last if one[0] < self._turn)[: self._left]
        return [tries[number] for number in sorted(number for _, number in due)]

    def _may_start(self, tried: Try, traffic: Traffic) -> bool:
        """Whether it may, by a look if there has to be one."""
        before = self.judge.looks
        told = self.judge.may_start(traffic, tried[1].name, tried[2])
        self._left -= min(self._left, self.judge.looks - before)
        if not told:
            if len(self._looked) >= KEPT:
                self._looked.clear()
            self._looked[_key(tried)] = self._turn
        return told

    def _tries(self, idle: Sequence[Seen], jobs: Sequence[Waiting]) -> Iterator[Try]:
        """Jobs, each with a vehicle and its way, the nearest first."""
        pairs = []
        for number, one in enumerate(jobs):
            stops = [self.ways.node_of(name) for name in (one.origin, one.target)]
            nearer = one.nearer(self._now)
            for seen in idle:
                hops = self.ways.hops(seen.row.node, stops[0])
                if hops is not None:
                    pairs.append((hops - nearer, number, seen.name, seen, (seen.row.node, *stops)))
        pairs.sort(key=lambda pair: pair[:3])
        tries = ((jobs[number], seen, self.ways.way(stops)) for _, number, _, seen, stops in pairs)
        return ((one, seen, way) for one, seen, way in tries if way is not None)

    def _with_more(
        self,
        first: Proposal,
        one: Waiting,
        seen: Seen,
        waiting: Sequence[Waiting],
        traffic: Traffic,
    ) -> Proposal:
        """Returns the order with further jobs that it saves a way of their own, the one by which it
        saves most first, as far as the vehicle can carry them."""
        stops = [
            At(first.stops[0], self.ways.node_of(one.origin)),
            At(first.stops[1], self.ways.node_of(one.target)),
        ]
        found = first
        while len(found.jobs) < seen.free():
            names = {job.job for job in found.jobs}
            others = [
                other
                for other in waiting[:MORE]
                if other.job not in names and other.behind <= names
            ]
            longer = self._longer(seen, stops, others, found, traffic)
            if longer is None:
                break
            found, stops = longer
        return found

    def _longer(
        self,
        seen: Seen,
        stops: list[At],
        others: Sequence[Waiting],
        found: Proposal,
        traffic: Traffic,
    ) -> tuple[Proposal, list[At]] | None:
        """Returns the order with one more of these jobs, if one may be added, and its stops."""
        tries = []
        for number, other in enumerate(others):
            inserted = self._inserted(seen.row.node, stops, other, found.way)
            if inserted is not None:
                tries.append((inserted[0], number, inserted[1]))
        for _, number, longer in sorted(tries, key=lambda tried: tried[:2]):
            way = self.ways.way((seen.row.node, *(at.node for at in longer)))
            if way is not None and (
                way == found.way
                or self._left
                and self._may_start((others[number], seen, way), traffic)
            ):
                jobs = (*found.jobs, others[number])
                return Proposal(seen.name, tuple(at.stop for at in longer), way, jobs), longer
        return None

    def _inserted(
        self, start: str, stops: list[At], other: Waiting, way: Sequence[str]
    ) -> tuple[int, list[At]] | None:
        """Returns the stops with those of another job among them where the way is shortest, and how
        many edges more it is than the two ways apart, a number below 0. None where it is too long.
        It is put down behind those of its truck that come before it."""
        pick, drop = (
            At(stop, self.ways.node_of(name))
            for stop, name in zip(_stops(other), (other.origin, other.target))
        )
        alone = self.ways.hops(pick.node, drop.node)
        if alone is None or not self.detour and (pick.node not in way or drop.node not in way):
            return None
        most = min(len(way) + self.detour, len(way) + alone - 1)
        best: tuple[int, list[At]] | None = None
        before = (n for n, at in enumerate(stops, 1) if at.stop.job in other.behind)
        least = max(before, default=0)  # behind the drops of those that come before it
        for i in range(len(stops) + 1):
            for j in range(max(i, least), len(stops) + 1):
                tried = [*stops[:i], pick, *stops[i:j], drop, *stops[j:]]
                legs = [
                    self.ways.hops(a, b)
                    for a, b in zip((start, *(at.node for at in tried)), (at.node for at in tried))
                ]
                length = 1 + sum(leg if leg is not None else most for leg in legs)
                if length <= most and (best is None or length - len(way) - alone < best[0]):
                    best = length - len(way) - alone, tried
        return best


def _stops(one: Waiting) -> tuple[Stop, Stop]:
    return Stop('pick', one.job), Stop('drop', one.job)


def _key(tried: Try) -> tuple[str, ...]:
    one, seen, _ = tried
    return seen.row.node, one.origin, one.target
