"""A small layout with bays, and vehicles that stand on it without an order."""
from __future__ import annotations

from collections.abc import Sequence

from nulvrader.common.layouts import Edge, Layout, Station, of_parts
from nulvrader.common.names import VehicleKey
from nulvrader.desk.client import Vehicle
from nulvrader.dispatch.snapshot import Seen


def layout(
    one_way: Sequence[str] = (), both_ways: Sequence[str] = (), stations: str = ''
) -> Layout:
    """Of edges such as `ab`; each station stands at the node of its name in lower case."""
    pairs = [*one_way, *both_ways, *(pair[::-1] for pair in both_ways)]
    nodes = sorted({node for pair in pairs for node in pair})
    edges = [Edge(pair, *pair) for pair in pairs]
    return of_parts(nodes, edges, [Station(name.upper(), name, 9) for name in stations])


# A ring a > b > c > d > a with stations in the bays s at a and t at c, a bay p at b without one,
# and q behind it.
RING = layout(('ab', 'bc', 'cd', 'da'), ('as', 'ct', 'bp', 'pq'), 'st')


def seen(number: int, node: str) -> Seen:
    """A vehicle that stands at a node."""
    key = VehicleKey('KIT', f'{number:04d}')
    row = Vehicle(key, node, 1, True, False, False, None, None, None, None, 1)
    return Seen(row, (), None, frozenset((node,)), 0)
