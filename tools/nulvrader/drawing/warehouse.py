"""Reads what is drawn of a warehouse, from the file of a stopped desk or from a running desk."""
from __future__ import annotations

from dataclasses import dataclass, field

from ..file import stopped_file, tables
from ..desk.client import Desk
from ..common.layouts import Layout, of_parts
from ..desk.reports import read_holds, read_stock
from ..file.tables import key_of


@dataclass
class Warehouse:
    """A layout and what is in it: the node of each vehicle, as `KIT/0001`; the vehicle that holds
    each held node and edge, as `node N1` or `edge E12`; and the place of each load that has not
    left, as `station A`, `vehicle KIT/0001` or `checking`."""

    layout: Layout
    vehicles: dict[str, str] = field(default_factory=dict)
    holds: dict[str, str] = field(default_factory=dict)
    loads: dict[str, str] = field(default_factory=dict)


def of_file(path: str) -> Warehouse:
    """Reads the warehouse of a stopped desk's file. Raises `stopped_file.Unread`."""
    with stopped_file.opened(path) as connection:
        found = Warehouse(stopped_file.layout_in(connection))
        found.vehicles = {
            str(key): node
            for key, (node, _) in stopped_file.vehicles_in(connection, found.layout).items()
        }
        for hold in stopped_file.rows_in(connection, tables.HoldRow):
            found.holds[f'{hold.kind} {hold.id}'] = '/'.join(key_of(hold))
        found.loads = {
            load: place
            for load, place in stopped_file.places_in(connection).items()
            if place != 'left'
        }
    return found


def of_desk(desk: Desk) -> Warehouse:
    """Reads the warehouse of a running desk, empty if the desk has no layout yet, by four requests
    over one connection, so that all is of one moment."""
    with desk.kept():
        layout, vehicles = desk.layout(), desk.vehicles()
        stock, holds = read_stock(desk.stock_report()), read_holds(desk.hold_report())
    found = Warehouse(layout or of_parts([], [], []))
    found.loads = stock.places()
    found.vehicles = {str(key): row.node for key, row in vehicles.items()}
    found.holds = {f'node {name}': str(key) for name, key in holds.nodes.items()}
    found.holds |= {f'edge {name}': str(key) for name, key in holds.edges.items()}
    return found
