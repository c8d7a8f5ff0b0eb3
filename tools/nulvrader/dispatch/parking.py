"""Where a vehicle without an order is in nobody's way, and which is to drive there. Pure: it
proposes drives, and the dispatcher asks for them."""
from __future__ import annotations

import collections
from collections.abc import Collection, Iterable, Mapping, Sequence
from dataclasses import dataclass

from ..common.layouts import Layout
from .judge import Judge
from .routes import Ways
from .snapshot import Seen
from .traffic import Traffic

HEADER = 'node,behind'

IDLE = 30.0
"""A vehicle that has had no order for so many seconds goes to a parking place."""

TRIES = 4
"""So many places are tried for a vehicle in a turn, the best first."""

MOST_BEHIND = 99


class BadParking(ValueError):
    """A file of parking places that can't be used. Its `str()` says where and why."""


@dataclass(frozen=True)
class Drive:
    """Vehicle `vehicle` should drive to the node `to`, along this way."""

    vehicle: str
    to: str
    way: tuple[str, ...]


def read_parking(text: str, layout: Layout) -> tuple[str, ...]:
    """Returns the parking places of a file `parking.csv`. Each line has a node, and how many
    vehicles may wait behind it: on the nodes before it on the only way there."""
    lines = text.removeprefix('\ufeff').splitlines()
    if not lines or lines[0].strip() != HEADER:
        raise BadParking(f'line 1: the header is not {HEADER}')
    into = _into(layout)
    found: dict[str, None] = {}
    for number, line in enumerate(lines[1:], 2):
        if not line.strip():
            continue
        node, _, behind = (part.strip() for part in line.partition(','))
        if node not in into:
            raise BadParking(f'line {number}: the layout has no node {node}')
        if behind and not (behind.isascii() and behind.isdigit() and int(behind) <= MOST_BEHIND):
            raise BadParking(f'line {number}: {behind} is no number from 0 to {MOST_BEHIND}')
        for place in _with_behind(node, int(behind or 0), into, number):
            if place in found:
                raise BadParking(f'line {number}: the node {place} is a place already')
            found[place] = None
    return tuple(found)


def _into(layout: Layout) -> dict[str, set[str]]:
    """Returns by each node those from which an edge leads to it."""
    found: dict[str, set[str]] = {node: set() for node in layout.nodes}
    for edge in layout.edges.values():
        found[edge.finish].add(edge.start)
    return found


def _with_behind(
    node: str, behind: int, into: Mapping[str, Collection[str]], number: int
) -> list[str]:
    found = [node]
    for _ in range(behind):
        before = set(into[found[-1]]) - set(found)
        if len(before) != 1:
            raise BadParking(f'line {number}: there is no single way to {found[-1]}')
        found += before
    return found


def passed(layout: Layout) -> frozenset[str]:
    """Returns the nodes over which ways between stations lead, as a desk makes them, but for the
    ends."""
    stations = {station.node for station in layout.stations.values()}
    out: dict[str, list[str]] = collections.defaultdict(list)
    for _, edge in sorted(layout.edges.items()):
        out[edge.start].append(edge.finish)
    found: set[str] = set()
    for target in stations:
        far, seen = layout.distances(target), {target}
        for start in stations & far.keys():
            node = start
            while node not in seen:
                seen.add(node)
                node = next(after for after in out[node] if far.get(after) == far[node] - 1)
                if node != target:
                    found.add(node)
    return frozenset(found)


def chosen(layout: Layout) -> tuple[str, ...]:
    """Returns the parking places of a layout for which none are given: nodes without a station over
    which no way between stations leads, with a way to each station and back. Where there are none,
    those with a station: who stands there is in the way of its jobs alone."""
    over, stations = passed(layout), {one.node for one in layout.stations.values()}
    to_all, from_all = set(layout.nodes), set(layout.nodes)
    back = _turned(layout)
    for node in stations:
        to_all &= layout.distances(node).keys()
        from_all &= back.distances(node).keys()
    free = [node for node in layout.nodes if node not in over and node in to_all & from_all]
    return tuple(node for node in free if node not in stations) or tuple(free)


def _turned(layout: Layout) -> Layout:
    """Returns the layout with each edge the other way."""
    edges = {name: type(edge)(name, edge.finish, edge.start) for name, edge in layout.edges.items()}
    return Layout(layout.nodes, edges, layout.stations)


class Parking:
    """The parking places of a layout, and which vehicles are to go there. Nobody parks on the nodes
    of `besides`, where no places are given."""

    def __init__(
        self,
        ways: Ways,
        judge: Judge,
        places: Iterable[str] | None = None,
        besides: Collection[str] = (),
    ) -> None:
        self.ways, self.judge = ways, judge
        if places is None:
            free = chosen(ways.layout)
            places = [node for node in free if node not in besides] or free
        self.places = tuple(places)

    def propose(
        self,
        idle: Sequence[Seen],
        since: Mapping[str, float],
        drops: Collection[str],
        picks: Sequence[str],
        traffic: Traffic,
        now: float,
    ) -> Drive | None:
        """Returns a drive that may be started, or None: first for a vehicle that is in the way of
        another, or stands where a job that waits is to be put down (`drops`); then for one that has
        been idle for a while (`since`) and is at no parking place, or where a job that waits is to
        be picked (`picks`): it would have taken that itself if it could. The place is the nearest
        for the vehicle and for those jobs."""
        wanted = {*drops, *picks}
        first = [one for one in idle if one.row.node in drops or traffic.in_the_way(one.name)]
        for seen in [*first, *(one for one in idle if self._is_to_go(one, since, picks, now))]:
            found = self.away(seen, wanted, picks, traffic)
            if found is not None:
                return found
        return None

    def _is_to_go(
        self, seen: Seen, since: Mapping[str, float], picks: Sequence[str], now: float
    ) -> bool:
        """Whether a vehicle has been idle for a while, and is not where it is to be then."""
        is_at_place = seen.row.node in self.places and seen.row.node not in picks
        return not is_at_place and now - since.get(seen.name, now) >= IDLE

    def away(
        self, seen: Seen, wanted: Collection[str], picks: Sequence[str], traffic: Traffic
    ) -> Drive | None:
        """Returns a drive of a vehicle to the best place that is not wanted, or None."""
        ends = {way[-1] for way in traffic.all_ways().values()}
        taken = ends | traffic.walls | set(wanted)
        rows = []
        for place in self.places:
            hops = self.ways.hops(seen.row.node, place)
            if hops and place not in taken:
                far = sum(self.ways.hops(place, pick) or 0 for pick in picks)
                rows.append((hops + far / max(1, len(picks)), place))
        for _, place in sorted(rows)[:TRIES]:
            way = self.ways.way((seen.row.node, place))
            if way is not None and self.judge.may_start(traffic, seen.name, way):
                return Drive(seen.name, place, way)
        return None
