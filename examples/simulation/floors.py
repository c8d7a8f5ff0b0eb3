"""Layouts of simulated plants, with the lengths of their edges in metres."""
from __future__ import annotations

from dataclasses import dataclass, field

from nulvrader.common.layouts import Edge, Layout, Station, of_parts

STREET, SIDING, TRACK = 8.0, 4.0, 10.0


@dataclass
class Floor:
    """A layout under construction. `bays` are the nodes with a station at the end of a siding of
    their own, where a vehicle stands in nobody's way, and `chargers` such nodes without one."""

    nodes: list[str] = field(default_factory=list)
    edges: list[Edge] = field(default_factory=list)
    stations: list[Station] = field(default_factory=list)
    metres: dict[str, float] = field(default_factory=dict)
    bays: list[str] = field(default_factory=list)
    chargers: list[str] = field(default_factory=list)

    def layout(self) -> Layout:
        return of_parts(self.nodes, self.edges, self.stations)

    def one_way(self, start: str, finish: str, metres: float) -> None:
        name = f'{start}.{finish}'
        self.edges.append(Edge(name, start, finish))
        self.metres[name] = metres

    def two_way(self, a: str, b: str, metres: float) -> None:
        self.one_way(a, b, metres)
        self.one_way(b, a, metres)

    def ring(self, front: str, size: int, room: int, bay_every: int) -> None:
        """Adds a street that is passed one way, `N00` to the last and back, and at every so many
        nodes a bay with a station."""
        names = [f'{front}{n:02d}' for n in range(size)]
        self.nodes += names
        for here, after in zip(names, names[1:] + names[:1]):
            self.one_way(here, after, STREET)
        for here in names[::bay_every]:
            bay = here + 'b'
            self.nodes.append(bay)
            self.two_way(here, bay, SIDING)
            self.stations.append(Station(here + 's', bay, room))
            self.bays.append(bay)

    def spur(self, at: str, length: int, room: int) -> None:
        """Adds a dead end of so many nodes in a row, with a station at each but the first: who is
        at its end comes out last."""
        before = at
        for n in range(length):
            node = f'{at}x{n}'
            self.nodes.append(node)
            self.two_way(before, node, SIDING)
            if n:
                self.stations.append(Station(node + 's', node, room))
            before = node

    def charger(self, at: str) -> None:
        """Adds a siding with a charger at its end."""
        node = at + 'c'
        self.nodes.append(node)
        self.two_way(at, node, SIDING)
        self.chargers.append(node)

    def with_chargers(self, count: int) -> Floor:
        """Returns the floor with so many chargers, where streets have no bay, all over it."""
        with_bay = {bay[:-1] for bay in self.bays}
        free = [node for node in self.nodes if node[1:].isdigit() and int(node[1:]) % 2]
        free = [node for node in free if node not in with_bay and f'{node}x0' not in self.nodes]
        for n in range(count):
            self.charger(free[n * len(free) // count])
        return self

    def single_track(self, front: str, a: str, b: str, length: int) -> None:
        """Adds a track between two nodes that is passed both ways, with a passing place in its
        middle: there the way to b is one node and the way back another."""
        half = length // 2
        left = [a, *(f'{front}{n:02d}' for n in range(half))]
        right = [*(f'{front}{n:02d}' for n in range(half, length)), b]
        there, back = front + 'there', front + 'back'
        self.nodes += [*left[1:], *right[:-1], there, back]
        for row in (left, right):
            for one, other in zip(row, row[1:]):
                self.two_way(one, other, TRACK)
        for middle, start, finish in ((there, left[-1], right[0]), (back, right[0], left[-1])):
            self.one_way(start, middle, TRACK)
            self.one_way(middle, finish, TRACK)


def large() -> Floor:
    """Returns the layout for twenty vehicles: three one-way rings, joined by single track with
    passing places, and dead ends on each."""
    floor = Floor()
    for front in 'NMS':
        floor.ring(front, 24, 12, 2)
        floor.spur(front + '03', 3, 8)
        floor.spur(front + '15', 3, 8)
    floor.single_track('A', 'N09', 'M09', 4)
    floor.single_track('B', 'N21', 'M21', 4)
    floor.single_track('C', 'M11', 'S11', 4)
    floor.single_track('E', 'M23', 'S23', 4)
    return floor


def small() -> Floor:
    """Returns the layout for five vehicles: two one-way rings, joined by one single track with a
    passing place, and a dead end."""
    floor = Floor()
    floor.ring('N', 10, 6, 2)
    floor.ring('S', 8, 6, 2)
    floor.spur('S05', 3, 4)
    floor.single_track('A', 'N05', 'S01', 2)
    return floor


def huge() -> Floor:
    """Returns the layout for a hundred vehicles: eight one-way rings in a circle, each joined to
    the next one by single track with a passing place, and dead ends on each; 480 nodes."""
    floor, rings = Floor(), 'NMSPQRTU'
    for front in rings:
        floor.ring(front, 32, 12, 2)
        floor.spur(front + '03', 3, 8)
        floor.spur(front + '19', 3, 8)
    for track, here, after in zip('ABCEFGHJ', rings, rings[1:] + rings[:1]):
        floor.single_track(track, here + '09', after + '25', 4)
    return floor


FLOORS = {'large': large, 'small': small, 'huge': huge}
