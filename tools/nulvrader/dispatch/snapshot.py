"""What a dispatcher sees of a desk at one moment: all vehicles with their orders and what they
hold, the live jobs, and the loads."""
from __future__ import annotations

from collections.abc import Iterable
from dataclasses import dataclass

from ..desk.client import Desk, Job, NotADesk, Vehicle
from ..common.layouts import Layout
from ..desk.messages import Order
from ..common.names import VehicleKey
from ..desk.questions import held, open_orders, stock
from ..desk.reports import Holds, Stock


@dataclass(frozen=True)
class Seen:
    """A vehicle: its row, the loads that are recorded on it, its open order, the nodes that it
    holds, and how many edges."""

    row: Vehicle
    loads: tuple[str, ...]
    order: Order | None
    nodes: frozenset[str]
    edges: int

    @property
    def name(self) -> str:
        return str(self.row.key)

    def rest(self) -> tuple[str, ...]:
        """Returns the last released node of the order's way, and all behind it."""
        assert self.order is not None
        return (
            self.order.base_end(),
            *(node.name for node in self.order.nodes if not node.released),
        )

    def edges_left(self) -> int:
        """Returns how many edges of the order are not released."""
        return 0 if self.order is None else sum(1 for edge in self.order.edges if not edge.released)

    def has_to_act(self) -> bool:
        """Whether it still has something to pick or put down at the last node that is released."""
        assert self.order is not None
        acts = [node.acts for node in self.order.nodes if node.released][-1]
        return any((act.kind == 'drop') == (act.load in self.loads) for act in acts)

    def is_confirmed(self) -> bool:
        return self.row.sent == self.row.confirmed

    def free(self) -> int:
        """Returns how many loads more it can carry."""
        return self.row.capacity - len(self.loads)


@dataclass(frozen=True)
class Snapshot:
    """All of one moment. `places` has the place of each load that has not left, as `station A`."""

    vehicles: dict[str, Seen]
    jobs: dict[str, Job]
    stock: Stock
    holds: Holds
    places: dict[str, str]

    def orders_of(self, rows: Iterable[Vehicle]) -> dict[VehicleKey, Order]:
        """Returns the messages here that are still the last ones of these vehicles."""
        found = {}
        for row in rows:
            seen = self.vehicles.get(str(row.key))
            if (
                seen is not None
                and seen.order is not None
                and (seen.order.name, seen.order.update) == (row.order, row.sent)
            ):
                found[row.key] = seen.order
        return found


def take(desk: Desk, before: Snapshot | None = None) -> Snapshot:
    """Asks all of it, on one connection. Four requests, and one for each open order of which an
    earlier snapshot does not have the last message."""
    with desk.kept():
        loads, holds, jobs, rows = stock(desk), held(desk), desk.jobs(), desk.vehicles()
        orders = {} if before is None else before.orders_of(rows.values())
        wanted = [row for key, row in rows.items() if key not in orders]
        orders |= {order.vehicle: order for order in open_orders(desk, wanted)}
    nodes: dict[VehicleKey, set[str]] = {key: set() for key in rows}
    edges: dict[VehicleKey, int] = dict.fromkeys(rows, 0)
    strange = {*holds.nodes.values(), *holds.edges.values(), *loads.vehicles} - rows.keys()
    if strange:
        raise NotADesk(f'its reports contradict each other: {min(strange)} is in one of them')
    for node, key in holds.nodes.items():
        nodes[key].add(node)
    for key in holds.edges.values():
        edges[key] += 1
    vehicles = {
        str(key): Seen(
            row,
            tuple(loads.vehicles.get(key, ())),
            orders.get(key),
            frozenset(nodes[key]),
            edges[key],
        )
        for key, row in rows.items()
    }
    return Snapshot(vehicles, jobs, loads, holds, loads.places())


def differences(stock: Stock, holds: Holds, layout: Layout) -> list[str]:
    """Returns what of a layout is not as the desk has it, as far as its reports tell."""
    there = {one.name: (one.node, one.capacity) for one in stock.stations.values()}
    here = {one.name: (one.node, one.capacity) for one in layout.stations.values()}
    names = sorted(there.keys() | here.keys())
    found = [f'station {name}' for name in names if there.get(name) != here.get(name)]
    count = len(layout.nodes) + len(layout.edges)
    if holds.things != count:
        found.append(f'{count} nodes and edges, where the desk has {holds.things}')
    found += [f'node {name}' for name in sorted(holds.nodes.keys() - set(layout.nodes))]
    return found + [f'edge {name}' for name in sorted(holds.edges.keys() - layout.edges.keys())]


def check(seen: Snapshot, layout: Layout) -> None:
    """Raises `NotADesk` where what was seen is not of a desk with this layout, or its parts
    contradict each other."""
    if wrong := differences(seen.stock, seen.holds, layout):
        raise NotADesk(f'it has another layout: {", ".join(wrong[:5])}')
    if len(seen.stock.loads()) != len(seen.places):
        raise NotADesk('its stock report has a load at two places')
    nodes = set(layout.nodes)
    for vehicle in seen.vehicles.values():
        row, order = vehicle.row, vehicle.order
        if row.node not in nodes:
            raise NotADesk(f'it has another layout: {vehicle.name} is at node {row.node}')
        if row.node not in vehicle.nodes:
            raise NotADesk(
                f'its answers contradict each other: {row.node} is not held by {row.key}'
            )
        if row.order is not None:
            if order is None or (order.name, order.update) != (row.order, row.sent):
                raise NotADesk(f'its answers contradict each other about order {row.order}')
            check_order(order, layout)


def check_order(order: Order, layout: Layout) -> None:
    """Raises `NotADesk` where an order does not lead over this layout."""
    for edge in order.edges:
        known = layout.edges.get(edge.name)
        if known is None or (known.start, known.finish) != (edge.start, edge.finish):
            raise NotADesk(f'it has another layout: edge {edge.name} of order {order.name}')
    for node in order.nodes:
        stations = [layout.stations.get(act.station) for act in node.acts]
        if any(station is None or station.node != node.name for station in stations):
            raise NotADesk(f'it has another layout: node {node.name} of order {order.name}')
