"""Questions for which a desk has no single call. Each is asked by several requests over one
connection, so that the answers are of one moment; meanwhile the desk answers nobody else. Each
function says how many requests it costs."""
from __future__ import annotations

from collections.abc import Iterable
from dataclasses import dataclass

from .client import Desk, Vehicle
from .messages import Act, Order, read_order
from ..common.names import VehicleKey
from .reports import Holds, Stock, read_holds, read_stock
from .waits import Thing, circles_of, first_held


@dataclass(frozen=True)
class OrderRow:
    """An open order: its vehicle and the node where that stands, the numbers of the last updates
    that were sent and confirmed, the node up to which the way is released, the number of edges that
    are not released, the acts in its last message, and the node where it ends. A drive has no
    acts."""

    order: str
    vehicle: VehicleKey
    node: str
    sent: int
    confirmed: int | None
    released_to: str
    edges_left: int
    acts: tuple[Act, ...]
    end: str


@dataclass(frozen=True)
class BlockedOrder:
    """A vehicle with an open order whose next edge, or the node at its end, another vehicle holds.
    `in_circle` says that each of some vehicles waits for the next and the last for the first, and
    that this is one of them: none gets free by itself."""

    vehicle: VehicleKey
    order: str
    at: str
    what: str
    by: VehicleKey
    in_circle: bool


def stock(desk: Desk) -> Stock:
    """Returns where the loads are. Costs one request."""
    return read_stock(desk.stock_report())


def held(desk: Desk) -> Holds:
    """Returns what the vehicles hold. Costs one request."""
    return read_holds(desk.hold_report())


def open_orders(desk: Desk, rows: Iterable[Vehicle]) -> list[Order]:
    """Returns the last message of each open order of these vehicles. Costs a request for each."""
    messages = [desk.order_message(row.key) for row in rows if row.order is not None]
    return [read_order(message) for message in messages if message is not None]


def orders(desk: Desk) -> list[OrderRow]:
    """Returns the open orders. Costs one request, and one for each order."""
    with desk.kept():
        rows = desk.vehicles()
        opened = open_orders(desk, rows.values())
    found = []
    for order in opened:
        row = rows[order.vehicle]
        left = sum(1 for edge in order.edges if not edge.released)
        numbers = order.update, row.confirmed
        acts, end = tuple(order.acts()), order.nodes[-1].name
        found.append(
            OrderRow(order.name, row.key, row.node, *numbers, order.base_end(), left, acts, end)
        )
    return sorted(found, key=lambda one: one.order)


def who_waits(desk: Desk) -> list[BlockedOrder]:
    """Returns the vehicles whose next edge or node another vehicle holds. Costs two requests, and
    one for each order."""
    with desk.kept():
        opened = open_orders(desk, desk.vehicles().values())
        holders = held(desk).holders()
    waits = [
        (order, found)
        for order in opened
        if (found := first_held(order.vehicle, next_things(order), holders)) is not None
    ]
    circles = circles_of({order.vehicle: by for order, (_, by) in waits})
    in_circle = {vehicle for circle in circles for vehicle in circle}
    return [
        BlockedOrder(
            order.vehicle,
            order.name,
            order.base_end(),
            f'{kind} {name}',
            by,
            order.vehicle in in_circle,
        )
        for order, ((kind, name), by) in waits
    ]


def next_things(order: Order) -> list[Thing]:
    """Returns the next edge of an order that is not released, and the node at its end, if there is
    one."""
    edge = order.next_edge()
    return [] if edge is None else [('edge', edge.name), ('node', edge.finish)]
