"""Ways over a layout as a desk makes them, by node, and kept once they were found."""
from __future__ import annotations

from collections import defaultdict
from collections.abc import Sequence

from ..common.layouts import Layout

MOST_EDGES = 200
"""So many edges has the way of an order at most."""

KEPT = 20_000
"""So many ways are kept."""


class Ways:
    """The ways of one layout. `edges` has the name of the edge that a way takes between two
    nodes."""

    def __init__(self, layout: Layout) -> None:
        self.layout = layout
        self._far: dict[str, dict[str, int]] = {}
        self._kept: dict[tuple[str, ...], tuple[str, ...] | None] = {}
        self._out: dict[str, list[tuple[str, str]]] = defaultdict(list)
        for name, edge in sorted(layout.edges.items()):
            self._out[edge.start].append((name, edge.finish))
        self.edges = {
            (start, finish): name
            for start, row in self._out.items()
            for name, finish in reversed(row)
        }

    def hops(self, start: str, target: str) -> int | None:
        """Returns how many edges a shortest walk from `start` to `target` has, or None where there
        is none. The distances to a target are computed once and kept."""
        if target not in self._far:
            self._far[target] = self.layout.distances(target)
        return self._far[target].get(start)

    def way(self, stops: Sequence[str]) -> tuple[str, ...] | None:
        """Returns the nodes of the way from the first of these nodes over all others: from each to
        the next by the shortest walk, the one of the least names. None where there is none, or it
        is too long for an order."""
        asked = tuple(stops)
        if asked not in self._kept:
            if len(self._kept) >= KEPT:
                self._kept.clear()
            self._kept[asked] = self._way(asked)
        return self._kept[asked]

    def _way(self, stops: Sequence[str]) -> tuple[str, ...] | None:
        """Finds what `way` returns, without what that keeps."""
        nodes = [stops[0]]
        for target in stops[1:]:
            far = self.hops(nodes[-1], target)
            if far is None:
                return None
            for left in range(far, 0, -1):
                nodes.append(
                    next(
                        end
                        for _, end in self._out[nodes[-1]]
                        if self._far[target].get(end) == left - 1
                    )
                )
        return tuple(nodes) if len(nodes) - 1 <= MOST_EDGES else None

    def node_of(self, station: str) -> str:
        return self.layout.stations[station].node

    def way_out(self, node: str) -> tuple[str, ...]:
        """Returns the nodes behind this one on the shortest walk out of a dead end: to a node from
        which an edge leads on that does not lead back. None for a node that has such an edge
        itself, or where there is no such node."""
        before: dict[str, str] = {}
        row = [node]
        for here in row:
            if any(all(end != here for _, end in self._out[after]) for _, after in self._out[here]):
                found = [here]
                while found[-1] != node:
                    found.append(before[found[-1]])
                return tuple(reversed(found[:-1]))
            for _, after in self._out[here]:
                if after != node and after not in before:
                    before[after] = here
                    row.append(after)
        return ()
