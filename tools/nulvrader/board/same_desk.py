"""Whether the desk that answers is still the one that `board.db` tells of. The layout of a desk is
set once, its vehicles are never removed, and a load that is gone has left, which the desk counts:
so a desk that says less than it has said is another one, or has got an older file."""
from __future__ import annotations

from collections.abc import Iterable, Mapping

from ..common.layouts import Layout
from ..common.names import VehicleKey
from ..desk.reports import Holds, Stock
from .messages import Line
from .record import Record


class OtherDesk(Exception):
    """Another desk answers. `line` is the sentence that says how that is known, and `str()` the
    same in English."""

    def __init__(self, name: str, **values: object):
        self.line = Line(f'other.{name}', values)
        super().__init__(self.line.words())


class SameDesk:
    """What the desk has said that stays so, by the record and by each report since."""

    def __init__(self, record: Record):
        self.record = record
        rows = record.rows('SELECT station, node, capacity FROM stations')
        self.stations = {str(name): (str(node), int(capacity)) for name, node, capacity in rows}
        self.vehicles = {str(name) for (name,) in record.rows('SELECT vehicle FROM vehicles')}
        self.left = int(record.rows("SELECT count(*) FROM loads WHERE place = 'left'")[0][0])
        self.things = int(record.meta('things') or 0)

    def check_layout(self, layout: Layout | None) -> None:
        """Checks the layout. Raises `OtherDesk` where it is not the one that is kept."""
        kept = self.record.meta('layout')
        if kept is not None and (layout is None or layout.csv().decode() != f'{kept}\n'):
            raise OtherDesk('layout')

    def check(self, stock: Stock, places: Mapping[str, str]) -> None:
        """Checks a stock report by the loads that were there, and learns from it. Raises
        `OtherDesk` where stations differ, or a vehicle or a load is missing that can't be gone."""
        stations = {
            name: (station.node, station.capacity) for name, station in stock.stations.items()
        }
        if self.stations and stations != self.stations:
            apart = [
                name
                for name in stations.keys() | self.stations.keys()
                if stations.get(name) != self.stations.get(name)
            ]
            raise OtherDesk('station', station=min(apart))
        vehicles = self.check_vehicles(stock.vehicles)
        if stock.left < self.left:
            raise OtherDesk('left', count=self.left, left=stock.left)
        gone, left = places.keys() - stock.places().keys(), stock.left - self.left
        if left < len(gone):
            raise OtherDesk('missing', count=len(gone), load=min(gone), left=left)
        self.stations, self.left = stations, stock.left
        self.vehicles |= vehicles

    def check_holds(self, holds: Holds) -> None:
        """Checks a hold report, and learns from it: each vehicle holds at least its node. Raises
        `OtherDesk` where the things of the layout are others, or a known vehicle is missing."""
        if self.things and holds.things != self.things:
            raise OtherDesk('things', before=self.things, after=holds.things)
        self.check_vehicles(holds.nodes.values())
        if holds.things != self.things:
            self.things = holds.things
            self.record.set_meta('things', str(holds.things))

    def check_export(self, loads: Iterable[str]) -> None:
        """Checks an export: each load that was ever seen is in it. Raises `OtherDesk` where one is
        missing."""
        known = {str(name) for (name,) in self.record.rows('SELECT load FROM loads')}
        missing = known - set(loads)
        if missing:
            raise OtherDesk('export', count=len(missing), load=min(missing))

    def check_vehicles(self, told: Iterable[VehicleKey]) -> set[str]:
        """Checks which vehicles there are, and returns their names. Raises `OtherDesk` where a
        known one is missing."""
        vehicles = {str(key) for key in told}
        missing = self.vehicles - vehicles
        if missing:
            raise OtherDesk('vehicle', vehicle=min(missing))
        return vehicles
