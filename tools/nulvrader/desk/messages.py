"""Reads the order and instantActions messages of a desk (docs/PROFILE.md, *Messages that are
written*). Raises `NotADesk` for what no desk writes."""
from __future__ import annotations

from collections.abc import Mapping
from dataclasses import dataclass

from .errors import NotADesk
from ..common.layouts import Edge
from .members import Members
from ..common.names import VehicleKey

MOST_EDGES = 200  # of an order


@dataclass(frozen=True)
class Act:
    """A pick or a drop: its number among the acts of the order, from 0, `pick` or `drop`, the load,
    and the station."""

    number: int
    kind: str
    load: str
    station: str


@dataclass(frozen=True)
class OrderNode:
    """A node of an order's way, whether it is released, and the acts there."""

    name: str
    released: bool
    acts: tuple[Act, ...]


@dataclass(frozen=True)
class OrderEdge(Edge):
    """An edge of an order's way, and whether it is released."""

    released: bool


@dataclass(frozen=True)
class Order:
    """The last message of an open order. It has only the rest of the way, from the last node that
    was released before this update, and the acts there. The last act of an order is at the last
    node; a drive has no acts."""

    name: str
    update: int
    vehicle: VehicleKey
    nodes: tuple[OrderNode, ...]
    edges: tuple[OrderEdge, ...]

    def acts(self) -> list[Act]:
        """Returns the acts on the rest of the way, in their order."""
        return [act for node in self.nodes for act in node.acts]

    def is_drive(self) -> bool:
        """Whether the order only leads its vehicle to a node. The last message of any other order
        still has its last act."""
        return not self.acts()

    def next_edge(self) -> OrderEdge | None:
        """Returns the first edge that is not released, or None where all are."""
        return next((edge for edge in self.edges if not edge.released), None)

    def base_end(self) -> str:
        """Returns the last released node: the end of what VDA 5050 calls the base."""
        return [node.name for node in self.nodes if node.released][-1]


def read_order(message: Mapping[str, object]) -> Order:
    """Reads an order message."""
    members = Members(message)
    order = Order(
        members.name('orderId'),
        members.number('orderUpdateId'),
        members.vehicle(),
        tuple(
            OrderNode(node.name('nodeId'), node.flag('released'), read_acts(node))
            for node in members.objects('nodes')
        ),
        tuple(read_edge(edge) for edge in members.objects('edges')),
    )
    check_way(order)
    return order


def read_edge(edge: Members) -> OrderEdge:
    """Reads an edge of an order message."""
    names = (edge.name('edgeId'), edge.name('startNodeId'), edge.name('endNodeId'))
    return OrderEdge(*names, edge.flag('released'))


def read_acts(node: Members) -> tuple[Act, ...]:
    """Reads the acts of a node of an order message."""
    return tuple(read_act(act) for act in node.objects('actions'))


def read_act(action: Members) -> Act:
    """Reads a pick or a drop of an order message."""
    parameters = action.objects('actionParameters')
    values = {one.text('key'): one.name('value') for one in parameters}
    name, kind = action.text('actionId'), action.text('actionType')
    number = name.rpartition('.')[2]
    if not (number.isascii() and number.isdigit() and len(number) < 6):
        raise action.wrong('actionId', name)
    if kind not in ('pick', 'drop'):
        raise action.wrong('actionType', kind)
    if not {'loadId', 'stationName'} <= values.keys():
        raise NotADesk(f'the action {name} has no load or no station')
    return Act(int(number), kind, values['loadId'], values['stationName'])


def check_way(order: Order) -> None:
    """Raises `NotADesk` where the nodes and edges of an order don't join, the released ones are not
    the first ones, an order with acts has none at its end, or a drive has no edge."""
    nodes, edges = order.nodes, order.edges
    joins = len(nodes) == len(edges) + 1 <= MOST_EDGES + 1 and all(
        (edge.start, edge.finish) == (before.name, after.name) and edge.released == after.released
        for edge, before, after in zip(edges, nodes, nodes[1:])
    )
    released = [node.released for node in nodes]
    if not joins or not released[0] or released != sorted(released, reverse=True):
        raise NotADesk(f'the nodes and edges of order {order.name} are no way')
    if not order.is_drive() and not nodes[-1].acts:
        raise NotADesk(f'the order {order.name} does nothing at its end')
    if order.is_drive() and not edges:
        raise NotADesk(f'the order {order.name} does nothing and leads nowhere')


def read_instant_action(message: Mapping[str, object]) -> tuple[VehicleKey, str]:
    """Reads an instantActions message: its vehicle, and the id of its one action."""
    members = Members(message)
    key, actions = members.vehicle(), members.objects('actions')
    if len(actions) != 1:
        raise NotADesk(f'an instantActions message has {len(actions)} actions')
    members.number('headerId')
    actions[0].name('actionType')
    return key, actions[0].name('actionId')
