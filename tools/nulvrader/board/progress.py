"""The way of an open order, as its message tells it."""
from __future__ import annotations

from collections.abc import Mapping
from dataclasses import dataclass
from typing import Any

from ..desk.errors import NotADesk
from ..desk.members import Members
from ..desk.messages import Act, read_order

Thing = tuple[str, str]  # `('node', 'N1')` or `('edge', 'E12')`


@dataclass(frozen=True)
class PlacedAct(Act):
    """A pick or a drop of an order; `at` is the place of its node on the way."""

    at: int


@dataclass(frozen=True)
class Way:
    """The way of an order. Its nodes are counted from 0 on; those before `first` aren't known,
    where the board saw a later update first. `edges[k]` leads from node `first + k` to the next
    one."""

    order: str
    first: int
    nodes: tuple[str, ...]
    edges: tuple[str, ...]
    acts: tuple[PlacedAct, ...]

    @property
    def end(self) -> int:
        """The place of the last node: how many edges the whole way has."""
        return self.first + len(self.edges)

    def behind(self, place: int) -> list[Thing]:
        """Returns the edge behind the node of this place, and the node that it leads to; none at
        the end of the way."""
        at = place - self.first
        if not 0 <= at < len(self.edges):
            return []
        return [('edge', self.edges[at]), ('node', self.nodes[at + 1])]


def way_of(message: Mapping[str, Any]) -> Way:
    """Returns the way that an order message tells, from its first node to its last. `NotADesk`
    where it tells none."""
    order = read_order(message)
    sequence = Members(message).objects('nodes')[0].number('sequenceId')
    if sequence % 2:
        raise NotADesk(f'the first node of order {order.name} has the sequenceId {sequence}')
    first = sequence // 2
    acts = [
        PlacedAct(act.number, act.kind, act.load, act.station, at)
        for at, node in enumerate(order.nodes, first)
        for act in node.acts
    ]
    return Way(
        order=order.name,
        first=first,
        nodes=tuple(node.name for node in order.nodes),
        edges=tuple(edge.name for edge in order.edges),
        acts=tuple(acts),
    )
