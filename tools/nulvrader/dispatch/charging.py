"""Which vehicles are to charge, and where. Pure: it proposes drives, and the dispatcher asks for
them.

A vehicle below the lower mark takes no job and goes to a charger. While jobs wait only a quarter of
the vehicles go above that mark, those with the least charge, below the middle of the marks: so they
don't all come to the lower mark at once. A vehicle at a charger takes no job below the middle, nor
below the upper mark where it is one of that quarter and nobody needs its place."""
from __future__ import annotations

from collections.abc import Iterable, Iterator, Mapping, Sequence
from dataclasses import dataclass

from .chargers import Chargers, Marks
from .judge import Judge
from .parking import Drive
from .routes import Ways
from .snapshot import Seen
from .traffic import Traffic

IDLE = 10.0
"""A vehicle below the upper mark that has had no order for so many seconds goes to charge."""

FLAT = 900.0
"""A battery that has not risen at a charger for so many seconds does not charge there."""

PART = 4
"""One of so many vehicles, or one, charges of its own accord while jobs wait."""

TRIES = 4
"""So many drives are tried in a turn, the vehicle with the least charge first."""


@dataclass(frozen=True)
class Stay:
    """A vehicle without an order at a charger: its greatest charge there, and since when it has had
    that."""

    node: str
    charge: float
    since: float


class Charging:
    """The chargers of a layout, and which vehicles are to go there or to leave."""

    def __init__(
        self, ways: Ways, judge: Judge, chargers: Chargers, marks: Marks = Marks()
    ) -> None:
        self.ways, self.judge, self.chargers, self.marks = ways, judge, chargers, marks
        self.charges: Mapping[str, float] = {}
        self._stays: dict[str, Stay] = {}
        self._now = 0.0
        self._busy = False  # whether jobs wait
        self._resting: frozenset[str] = frozenset()  # those at chargers that take no job

    def begin_turn(
        self, seen: Mapping[str, Seen], charges: Mapping[str, float], is_busy: bool, now: float
    ) -> None:
        """Notes the charges of this turn, and whether jobs wait."""
        self.charges = charges if self.chargers else {}
        self._now, self._busy = now, is_busy
        stays = {}
        for name, one in seen.items():
            node, charge = one.row.node, self.charges.get(name)
            if one.order is not None or charge is None or not self._may(name, node):
                continue
            before = self._stays.get(name)
            is_same = before is not None and before.node == node and before.charge >= charge
            stays[name] = before if before and is_same else Stay(node, charge, now)
        self._stays = stays
        self._resting = frozenset(self._rest())

    def _may(self, vehicle: str, node: str) -> bool:
        """Whether a node is a charger at which a vehicle may charge."""
        vehicles = self.chargers.get(node)
        return vehicles is not None and (not vehicles or vehicle in vehicles)

    def _rest(self) -> Iterator[str]:
        """Yields the vehicles at chargers that take no job."""
        marks, places = self.marks, self._places()
        needed = not places and any(
            charge < marks.low for name, charge in self.charges.items() if name not in self._stays
        )
        for number, name in enumerate(sorted(self._stays, key=self._charge)):
            charge = self._charge(name)
            if self.is_flat(name):
                is_resting = charge < marks.low
            elif charge < marks.enough:
                is_resting = True
            else:
                is_resting = charge < marks.high and number < self._most() and not needed
            if is_resting:
                yield name

    def _places(self) -> list[str]:
        """Returns the chargers at which no vehicle stands."""
        return sorted(self.chargers.keys() - {stay.node for stay in self._stays.values()})

    def _charge(self, vehicle: str) -> float:
        return self.charges[vehicle]

    def _most(self) -> int:
        """Returns how many charge of their own accord while jobs wait."""
        return max(1, len(self.charges) // PART)

    def is_flat(self, vehicle: str) -> bool:
        """Whether a vehicle stands at a charger, and its battery has not risen for long."""
        stay = self._stays.get(vehicle)
        return stay is not None and stay.charge < self.marks.high and self._now - stay.since >= FLAT

    def rests(self, vehicle: str) -> str | None:
        """Returns why a vehicle takes no job, in a few words, or None."""
        charge = self.charges.get(vehicle)
        if charge is None:
            return None
        if vehicle in self._resting and not self.is_flat(vehicle):
            return 'charges'
        return self._is_low() if charge < self.marks.low else None

    def _is_low(self) -> str:
        return f'has a battery below {self.marks.low:g} %'

    def is_charging(self, vehicle: str) -> bool:
        """Whether a vehicle stands at a charger, where it is to be left."""
        return vehicle in self._stays

    def stays(self, vehicle: str, is_wanted: bool) -> bool:
        """Whether a vehicle stands at a charger where it is to be left. Where that is wanted, as
        for a drop, it is if it takes no job."""
        return vehicle in (self._resting if is_wanted else self._stays)

    def first(self, idle: Iterable[Seen], traffic: Traffic) -> list[Seen]:
        """Of these, those that go to charge before any gets a job: those below the lower mark, and
        while jobs wait those whose turn it is."""
        away = sorted(
            (one for one in idle if one.name in self.charges and not self.is_charging(one.name)),
            key=lambda one: self._charge(one.name),
        )
        low = [one for one in away if self._charge(one.name) < self.marks.low]
        room = self._most() - self._count(traffic) - len(low)
        others = [one for one in away[len(low) :] if self._charge(one.name) < self.marks.enough]
        return low + (others[: max(0, room)] if self._busy else [])

    def later(
        self, idle: Iterable[Seen], since: Mapping[str, float], traffic: Traffic
    ) -> list[Seen]:
        """Of these, to which no job was given, those that go to charge: they are below the upper
        mark and have had no order for a while."""
        found = [
            one
            for one in idle
            if self.charges.get(one.name, 100.0) < self.marks.high
            and not self.is_charging(one.name)
            and self._now - since.get(one.name, self._now) >= IDLE
        ]
        found.sort(key=lambda one: self._charge(one.name))
        room = self._most() - self._count(traffic) if self._busy else len(found)
        return found[: max(0, room)]

    def _count(self, traffic: Traffic) -> int:
        """Returns how many charge, or are on their way to a charger."""
        ends = [way[-1] for way in traffic.all_ways().values()]
        return len(self._stays) + sum(1 for end in ends if end in self.chargers)

    def propose(
        self, wanting: Sequence[Seen], idle: Iterable[Seen], traffic: Traffic
    ) -> tuple[Drive | None, Seen | None]:
        """Returns a drive to a charger that may be started, for the first of these that can have
        one; else of those without an order the vehicle that is to leave its charger for one of
        these."""
        left = TRIES
        leaves: Seen | None = None
        standing = {one.name: one for one in idle}
        for seen in wanting:
            for place in self._free(seen, traffic)[:left]:
                left -= 1
                way = self.ways.way((seen.row.node, place))
                if way is not None and self.judge.may_start(traffic, seen.name, way):
                    return Drive(seen.name, place, way), None
            leaves = leaves or self._leaves(seen, standing, traffic)
        return None, leaves

    def _free(self, seen: Seen, traffic: Traffic) -> list[str]:
        """Returns the chargers where a vehicle may charge and nobody is or goes to, the nearest
        first."""
        taken = {way[-1] for way in traffic.all_ways().values()} | traffic.walls
        rows = []
        for place in self.chargers:
            hops = self.ways.hops(seen.row.node, place)
            if hops and place not in taken and self._may(seen.name, place):
                rows.append((hops, place))
        return [place for _, place in sorted(rows)]

    def _leaves(self, seen: Seen, standing: Mapping[str, Seen], traffic: Traffic) -> Seen | None:
        """Returns the vehicle that is to leave a charger for another one, which has no free one: it
        has the upper mark, or the middle where the other is below the lower one, or does not
        charge."""
        if self._free(seen, traffic):
            return None
        is_low = self._charge(seen.name) < self.marks.low
        mark = self.marks.enough if is_low else self.marks.high
        found = [
            name
            for name, stay in self._stays.items()
            if name in standing
            and self._may(seen.name, stay.node)
            and (self._charge(name) >= mark or self.is_flat(name))
        ]
        return standing[max(found, key=self._charge)] if found else None

    def why_not(self, seen: Seen, traffic: Traffic) -> str:
        """Returns why a vehicle that is to charge does not go to a charger, and what ends that."""
        own = [place for place in self.chargers if self._may(seen.name, place)]
        if not any(self.ways.hops(seen.row.node, place) is not None for place in own):
            end = 'gets to no charger, until a person charges it'
        elif self._free(seen, traffic):
            end = 'gets to no charger without blocking others, until these go on'
        else:
            end = 'finds no charger free, until a vehicle leaves one'
        return f'{self._is_low()}, and {end}'

    def flat(self) -> dict[str, str]:
        """Returns what is to be said of those that stand at a charger and do not charge."""
        minutes = FLAT / 60
        return {
            name: f'stands at the charger at {stay.node}, and its battery has not risen for'
            f' {minutes:.0f} minutes, until a person looks after it'
            for name, stay in self._stays.items()
            if self.is_flat(name)
        }
