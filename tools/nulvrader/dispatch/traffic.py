"""What the vehicles hold and what they still have to pass."""
from __future__ import annotations

from collections.abc import Mapping
from dataclasses import dataclass, field, replace
from functools import cached_property

from .closures import Closures
from .deadlock import after_release
from .lanes import Way

View = tuple[Mapping[str, Way], frozenset[str]]
"""Ways, and the nodes that stay taken."""

Views = tuple[View, View, View]

NOW, SOON, LATER = range(3)


@dataclass(frozen=True)
class Still:
    """A vehicle with an order that does not go on now, as one that is paused or silent: the nodes
    that it holds, and its way from the last of them on, for when it goes on."""

    held: frozenset[str]
    way: Way


@dataclass(frozen=True)
class Traffic:
    """All vehicles by name. `ways` has those that go on with their order: the last node that each
    holds, and all behind it. `still` has those that have an order and do not go on. `parked` has
    the nodes that each vehicle without an order holds. `out` has of each node that is in a dead end
    the nodes behind it on the way out. `closed` is what is to be opened again later."""

    ways: Mapping[str, Way]
    still: Mapping[str, Still] = field(default_factory=dict)
    parked: Mapping[str, frozenset[str]] = field(default_factory=dict)
    out: Mapping[str, Way] = field(default_factory=dict)
    closed: Closures = Closures()

    def standing(self) -> dict[str, frozenset[str]]:
        """Returns the nodes that each vehicle holds that does not go on."""
        return {**self.parked, **{name: one.held for name, one in self.still.items()}}

    @cached_property
    def walls(self) -> frozenset[str]:
        """The nodes that stay taken as long as those that stand do, and what is closed is."""
        return self.closed.walls.union(*self.standing().values())

    def is_open(self, vehicle: str, way: Way) -> bool:
        """Whether nothing of this way is closed, and no other vehicle holds a node of it that
        stands, as this one does without an order."""
        is_closed = self.closed.first_on(way) is not None
        return not is_closed and self.walls.intersection(way) <= self.parked[vehicle]

    def all_ways(self) -> dict[str, Way]:
        return {**self.ways, **{name: one.way for name, one in self.still.items()}}

    def views(self) -> Views:
        """Returns what is looked at: the ways and the walls where nobody that stands goes away;
        where those that do not go on do so again; and where those without an order get out, too,
        and all that is closed is opened."""
        now = self._walled(self.ways), self.walls
        if not self.still:
            return now, now, (self.ways_later(), frozenset())
        walls = self.closed.walls.union(*self.parked.values())
        return now, (self._walled(self.all_ways()), walls), (self.ways_later(), frozenset())

    def _walled(self, ways: Mapping[str, Way]) -> Mapping[str, Way]:
        """Returns these ways, on which each closed edge leads to a wall."""
        return {name: self.closed.walled(way) for name, way in ways.items()}

    def ways_later(self) -> dict[str, Way]:
        """Returns all ways, each with that out of a dead end behind its end, and then a node of its
        own: that of the vehicle that has left the floor. Vehicles without an order are to get out,
        too."""
        ways: dict[str, Way] = {
            name: tuple(held) for name, held in self.parked.items() if len(held) == 1
        }
        ways.update(self.all_ways())
        return {
            name: (*way, *self.out.get(way[-1], ()), 'behind the end of ' + name)
            for name, way in ways.items()
        }

    def released(self, vehicle: str, nodes: int) -> Traffic:
        """Returns the traffic after a release of so many nodes."""
        return replace(self, ways=after_release(self.ways, vehicle, nodes))

    def started(self, vehicle: str, way: Way) -> Traffic:
        """Returns the traffic after a parked vehicle was given an order along this way, of which it
        holds the first node."""
        parked = {name: held for name, held in self.parked.items() if name != vehicle}
        return replace(self, ways={**self.ways, vehicle: way}, parked=parked)

    def in_the_way(self, vehicle: str) -> list[str]:
        """Returns the vehicles that still have to pass a node that this one holds."""
        ways = self.all_ways()
        held = self.parked.get(vehicle) or {ways[vehicle][0]}
        return sorted(
            name for name, way in ways.items() if name != vehicle and not held.isdisjoint(way[1:])
        )

    def makes_room(self, vehicle: str, finish: frozenset[str]) -> bool:
        """Whether a vehicle is in the way of one of these, or of one that is in the way of one of
        these, and so on."""
        seen, row = {vehicle}, [vehicle]
        for name in row:
            for other in self.in_the_way(name):
                if other in finish:
                    return True
                if other in self.ways and other not in seen:
                    seen.add(other)
                    row.append(other)
        return False

    def goes_on_from(self, before: Traffic) -> bool:
        """Whether this is what was before, but that vehicles have gone ahead on their ways, and
        that some have no order any more at the end of theirs."""
        ended = {
            name: held
            for name, held in self.parked.items()
            if name in before.ways and tuple(held) == tuple(before.ways[name])
        }
        return (
            self.still == before.still
            and self.closed == before.closed
            and {**before.parked, **ended} == self.parked
            and self.ways.keys() | ended.keys() == before.ways.keys()
            and all(is_rest(way, before.ways[name]) for name, way in self.ways.items())
        )


def is_rest(way: Way, of: Way) -> bool:
    """Whether a way is the last part of another one."""
    return tuple(of[-len(way) :]) == tuple(way)
