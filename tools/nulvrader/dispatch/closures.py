"""What people have closed: nodes and edges to which nothing is released, and over which no order is
given.

The search of `deadlock.py` knows nodes alone. A closed node is a wall to it. A way over a closed
edge has a node of the edge's own in the place of the one behind it, and that is a wall, too."""
from __future__ import annotations

from collections.abc import Mapping
from dataclasses import dataclass, field
from functools import cached_property

from .lanes import Way

Pair = tuple[str, str]
"""The nodes from which and to which an edge leads."""


@dataclass(frozen=True)
class Closures:
    """The closed nodes, and by their ends the names of the closed edges."""

    nodes: frozenset[str] = frozenset()
    edges: Mapping[Pair, str] = field(default_factory=dict)

    @cached_property
    def walls(self) -> frozenset[str]:
        return self.nodes | {_wall(edge) for edge in self.edges.values()}

    @cached_property
    def names(self) -> frozenset[str]:
        """All of them, as `node N7`."""
        nodes = {f'node {node}' for node in self.nodes}
        return frozenset(nodes | {f'edge {edge}' for edge in self.edges.values()})

    def first_on(self, way: Way) -> str | None:
        """Returns the first of them that a way leads over, behind its first node, as `node N7`."""
        for pair in zip(way, way[1:]):
            if pair in self.edges:
                return f'edge {self.edges[pair]}'
            if pair[1] in self.nodes:
                return f'node {pair[1]}'
        return None

    def walled(self, way: Way) -> Way:
        """Returns a way on which each closed edge leads to a wall."""
        if not self.edges:
            return way
        pairs = list(zip(way, way[1:]))
        if not any(pair in self.edges for pair in pairs):
            return way
        behind = (_wall(self.edges[one]) if one in self.edges else one[1] for one in pairs)
        return (way[0], *behind)


def _wall(edge: str) -> str:
    return 'closed edge ' + edge
