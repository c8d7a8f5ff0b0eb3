"""Layouts for random traffic, on which many vehicles can drive without standing in one another's
way."""
import collections


class Streets:
    """Streets that are passed one way: rows east and west in turn, every second column and the last
    north and south, and the rim clockwise, so that each node leads to each. Beside every second
    edge of a row is a bay, into which a vehicle turns at the edge's start and which it leaves to
    its end, so that it isn't in the way there; at each bay is a station, and at every third one
    another."""

    def __init__(self, width: int, height: int) -> None:
        self.streets = [f'N{y:02d}-{x:02d}' for y in range(height) for x in range(width)]
        self.bays: list[str] = []
        self.edges: dict[str, tuple[str, str]] = {}
        self.stations: dict[str, tuple[str, int]] = {}
        for y in range(height):
            for x in range(width):
                east, south = f'N{y:02d}-{x + 1:02d}', f'N{y + 1:02d}-{x:02d}'
                here = f'N{y:02d}-{x:02d}'
                if x + 1 < width:
                    ends = (east, here) if y % 2 or y == height - 1 else (here, east)
                    self.join(*ends)
                    if (x + y) % 2 == 0:
                        self.bay('B' + here[1:], *ends, x * 7 + y * 5)
                if y + 1 < height and (x % 2 == 0 or x == width - 1):
                    self.join(*((here, south) if x % 4 == 2 or x == width - 1 else (south, here)))
        self.nodes = self.streets + self.bays
        self.out: dict[str, list[tuple[str, str]]] = collections.defaultdict(list)
        self.into: dict[str, list[str]] = collections.defaultdict(list)
        for name, (start, finish) in sorted(self.edges.items()):
            self.out[start].append((name, finish))
            self.into[finish].append(start)
        self.known: dict[str, dict[str, int]] = {}

    def join(self, start: str, finish: str) -> None:
        self.edges[f'{start}.{finish}'] = start, finish

    def bay(self, name: str, start: str, finish: str, number: int) -> None:
        self.bays.append(name)
        self.join(start, name)
        self.join(name, finish)
        for side in 'ab' if number % 3 == 0 else 'a':
            self.stations['S' + name[1:] + side] = name, 1 + number % 5

    def rows(self) -> str:
        """The file that sets it as the layout."""
        lines = ['kind,id,from,to', *[f'node,{node},,' for node in self.nodes]]
        lines += [f'edge,{name},{start},{end}' for name, (start, end) in self.edges.items()]
        lines += [f'station,{name},{node},{room}' for name, (node, room) in self.stations.items()]
        return '\n'.join([*lines, ''])

    def hops_to(self, target: str) -> dict[str, int]:
        """How many edges each node is from the target."""
        if target not in self.known:
            found, row = {target: 0}, [target]
            for at in row:
                for before in self.into[at]:
                    if before not in found:
                        found[before] = found[at] + 1
                        row.append(before)
            self.known[target] = found
        return self.known[target]

    def next_node(self, start: str, target: str) -> str:
        """Where the first edge of the route ends: of those whose end is one hop nearer the one of
        least name."""
        hops = self.hops_to(target)
        return next(end for _, end in self.out[start] if hops.get(end, -1) == hops[start] - 1)


def streets_for(vehicles: int) -> Streets:
    """Streets with room to drive: three nodes for each vehicle, and bays beside them."""
    width = height = 4
    while width * height < 3 * vehicles:
        width, height = (width, height + 2) if width > height else (width + 2, height)
    return Streets(width, height)
