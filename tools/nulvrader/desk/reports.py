"""Reads the stock report and the hold report (docs/PROFILE.md, *Reports and exports*). Raises
`BadReport` for a text that is no such report, or only a part of one."""
from __future__ import annotations

import io
import re
from collections.abc import Iterator
from dataclasses import dataclass, field

from .errors import NotADesk
from ..common.names import VehicleKey
from ..common.text import shown

NAME = '([A-Za-z0-9_.:-]{1,32})'
KEY = f'{NAME}/{NAME}'
COUNT = '([0-9]{1,7})'
STATION = re.compile(f'station {NAME} at {NAME}: {COUNT} of {COUNT}, reserved {COUNT}')
CHECKING = re.compile(f'checking: {COUNT}')
VEHICLE = re.compile(f'vehicle {KEY}: {COUNT}')
LOAD = re.compile(f'  {NAME}')
LEFT = re.compile(f'left: {COUNT}')
THING = re.compile(f'(node|edge) {NAME} {KEY}')
HELD = re.compile(f'held {COUNT} of {COUNT}')
# What a desk has at most (README.md, *Limits*), and the most lines of a hold report.
LOADS, STATIONS, VEHICLES, CAPACITY = 1_000_000, 500, 100, 999
LINES = 2_001


class BadReport(NotADesk):
    """A text that is no report or export, or one that is cut or contradicts itself."""


@dataclass
class StationStock:
    """A station: its name, its node, how many loads it has room for, how many live jobs go to it,
    and the loads there."""

    name: str
    node: str
    capacity: int
    reserved: int
    loads: list[str] = field(default_factory=list)


@dataclass
class Stock:
    """The stock report: the loads at each station, at the checking place and on each vehicle, in
    the order of names, and how many loads have left."""

    stations: dict[str, StationStock] = field(default_factory=dict)
    checking: list[str] = field(default_factory=list)
    vehicles: dict[VehicleKey, list[str]] = field(default_factory=dict)
    left: int = 0

    def places(self) -> dict[str, str]:
        """Returns the place of each load that has not left, as `GET /loads/{load}` has it: `station
        A`."""
        found: dict[str, str] = {}
        for station in self.stations.values():
            found |= dict.fromkeys(station.loads, f'station {station.name}')
        found |= dict.fromkeys(self.checking, 'checking')
        for key, loads in self.vehicles.items():
            found |= dict.fromkeys(loads, f'vehicle {key}')
        return found

    def loads(self) -> list[str]:
        """Returns the loads that have not left, each as often as the report has it."""
        stations = (station.loads for station in self.stations.values())
        lists = [*stations, self.checking, *self.vehicles.values()]
        return [load for loads in lists for load in loads]

    def live_jobs(self) -> int:
        """Returns how many live jobs there are. Each has a place reserved at its target."""
        return sum(station.reserved for station in self.stations.values())


@dataclass
class Holds:
    """The hold report: the vehicle that holds each held node and edge, by its name, and how many
    nodes and edges the layout has."""

    nodes: dict[str, VehicleKey] = field(default_factory=dict)
    edges: dict[str, VehicleKey] = field(default_factory=dict)
    things: int = 0

    def holders(self) -> dict[tuple[str, str], VehicleKey]:
        """Returns the vehicle that holds each node and edge, by its kind and its name."""
        nodes = {('node', name): vehicle for name, vehicle in self.nodes.items()}
        return nodes | {('edge', name): vehicle for name, vehicle in self.edges.items()}


def read_stock(report: bytes) -> Stock:
    """Reads a stock report. It ends with how many loads have left, and lists as many loads at each
    place as the line of the place says."""
    stock = Stock()
    loads: list[str] | None = None  # of the place whose line came last
    says = 0  # how many loads there are by that line
    part = count = 0
    for line in whole_lines(report):
        count += 1
        if count > LOADS + STATIONS + VEHICLES + 2 or part == 3:
            raise no_line('a stock report', line)
        if loads is not None and (said := LOAD.fullmatch(line)):
            loads.append(said.group(1))
            continue
        check_count(loads, says)
        before, (part, loads, says) = part, _read_place(line, stock)
        if part < before or part == before == 1 or part > before + 1 == 1:
            raise no_line('a stock report', line)
    if part != 3:
        raise BadReport('a stock report is cut: it does not end with how many loads have left')
    return stock


def _read_place(line: str, stock: Stock) -> tuple[int, list[str] | None, int]:
    """Reads a line of a stock report that is not a load, and adds what it says to `stock`. Returns
    the number of its part of the report (0 stations, 1 the checking place, 2 vehicles, 3 the end),
    the list for the loads of its place, and how many these are by the line."""
    if said := STATION.fullmatch(line):
        count, capacity, reserved = map(int, said.groups()[2:])
        station = StationStock(said.group(1), said.group(2), capacity, reserved)
        is_new = station.name not in stock.stations and len(stock.stations) < STATIONS
        if is_new and 0 < capacity <= CAPACITY and count + reserved <= capacity:
            stock.stations[station.name] = station
            return 0, station.loads, count
    elif said := CHECKING.fullmatch(line):
        return 1, stock.checking, int(said.group(1))
    elif said := VEHICLE.fullmatch(line):
        key = VehicleKey(said.group(1), said.group(2))
        if key not in stock.vehicles and len(stock.vehicles) < VEHICLES:
            loads = stock.vehicles[key] = []
            return 2, loads, int(said.group(3))
    elif said := LEFT.fullmatch(line):
        stock.left = int(said.group(1))
        return 3, None, 0
    raise no_line('a stock report', line)


def check_count(loads: list[str] | None, says: int) -> None:
    """Raises `BadReport` where a place has more or fewer loads than its line says."""
    if loads is not None and len(loads) != says:
        raise BadReport(f'a stock report lists {len(loads)} loads where it says {says}')


def read_holds(report: bytes) -> Holds:
    """Reads a hold report. It ends with how many nodes and edges are held, as many as it lists."""
    holds = Holds()
    ended = False
    for count, line in enumerate(whole_lines(report)):
        if ended or count > LINES:
            raise no_line('a hold report', line)
        if said := THING.fullmatch(line):
            kind, name, manufacturer, serial = said.groups()
            of = holds.nodes if kind == 'node' else holds.edges
            if name in of:
                raise BadReport(f'a hold report has {kind} {name} twice')
            of[name] = VehicleKey(manufacturer, serial)
        elif said := HELD.fullmatch(line):
            held, holds.things, ended = int(said.group(1)), int(said.group(2)), True
            if held != count or held > holds.things:
                raise BadReport(f'a hold report lists {count} where it says {held}')
        else:
            raise no_line('a hold report', line)
    if not ended:
        raise BadReport('a hold report is cut: it does not end with how much is held')
    return holds


def check_stock(report: bytes) -> bytes:
    """Returns a stock report, and raises `BadReport` where it is cut."""
    return _checked(report, LEFT, 'a stock report')


def check_holds(report: bytes) -> bytes:
    """Returns a hold report, and raises `BadReport` where it is cut."""
    return _checked(report, HELD, 'a hold report')


def _checked(report: bytes, last: re.Pattern[str], what: str) -> bytes:
    """Returns a report, and raises `BadReport` where its last line is not of this form."""
    at = report.rfind(b'\n', 0, -1) + 1
    line = report[at : at + 100].decode('latin-1')
    if not line.endswith('\n') or not last.fullmatch(line[:-1]):
        raise BadReport(f'{what} is cut: it ends with {shown(line, 60)}')
    return report


def whole_lines(report: bytes) -> Iterator[str]:
    """Yields the lines of a report without their line ends. Raises `BadReport` where the last line
    has none."""
    for line in io.BytesIO(report):
        if not line.endswith(b'\n'):
            raise BadReport(f'a report is cut: it ends with {shown(line, 60)}')
        yield line[:-1].decode('latin-1')


def no_line(what: str, line: str) -> BadReport:
    """Returns the exception for a line that does not belong into a report."""
    return BadReport(f'no line of {what}: {shown(line, 60)}')
