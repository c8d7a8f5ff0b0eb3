"""Reads the exports of the loads, the live jobs, the vehicles and the layout (docs/PROFILE.md,
*Reports and exports*). Raises `BadReport` for a text that is no such export or contradicts itself.
An export has no last line of its own: of one that was cut between two rows only the length of the
answer shows it."""
from __future__ import annotations

import re
from collections.abc import Iterator

from .messages import MOST_EDGES
from .reports import LOADS, NAME, KEY, VEHICLES, BadReport, no_line, whole_lines
from .values import Job, ExportedVehicle
from ..common.layouts import BadLayout, Layout
from ..common.layouts import read_layout as read_file
from ..common.names import LARGEST, VehicleKey
from ..common.tables import BODY

LOADS_HEADER = 'load,place,at'
JOBS_HEADER = 'job,load,from,to,phase,manufacturer,serialNumber,order'
VEHICLES_HEADER = (
    'manufacturer,serialNumber,node,capacity,ready,paused,astray,headerId,pending,'
    'order,sent,confirmed,released,edges,seen,restEdge,restNode'
)
LAYOUT_HEADER = 'kind,id,from,to'

LOAD = re.compile(f'{NAME},(?:(station),{NAME}|(vehicle),({KEY})|(checking|left),)')
JOB = re.compile(f'{NAME},{NAME},{NAME},{NAME},(?:waiting,,,|riding,{NAME},{NAME},{NAME})')
FLAG = '(true|false)'
NUMBER = '(0|[1-9][0-9]{0,9})'
PENDING = '(startPause|stopPause|cancelOrder)'
ORDER = f'{NAME},{NUMBER},{NUMBER}?,{NUMBER},{NUMBER},{NUMBER}'
VEHICLE = re.compile(
    f'{NAME},{NAME},{NAME},([1-4]),{FLAG},{FLAG},{FLAG},{NUMBER}?,{PENDING}?,'
    f'(?:{ORDER}|,,,,,),(?:{NAME},{NAME}|,)'
)


def read_loads(export: bytes) -> dict[str, str]:
    """Reads the place of each load, even of those that have left, as `GET /loads/{load}` has it:
    `station A`."""
    what = 'an export of loads'
    found: dict[str, str] = {}
    places: dict[str, str] = {}  # each once, since many loads are at one
    for line, (load, station, name, vehicle, key, *_, other) in _rows(
        export, LOADS_HEADER, LOAD, what
    ):
        if load in found or len(found) >= LOADS:
            raise no_line(what, line)
        place = other or (f'{station} {name}' if station else f'{vehicle} {key}')
        found[load] = places.setdefault(place, place)
    return found


def read_jobs(export: bytes) -> dict[str, Job]:
    """Reads the live jobs by their names, in the order of the names. A load has at most one of
    them, and a vehicle at most one order."""
    what = 'an export of jobs'
    found: dict[str, Job] = {}
    loads: set[str] = set()
    orders: dict[str, VehicleKey] = {}
    carriers: dict[VehicleKey, str] = {}
    last = ''
    for line, fields in _rows(export, JOBS_HEADER, JOB, what):
        name, load, origin, target, manufacturer, serial, order = fields
        key = VehicleKey(manufacturer, serial) if order else None
        job = Job(name, load, origin, target, key, order)
        if key and (orders.setdefault(order, key), carriers.setdefault(key, order)) != (key, order):
            raise BadReport(f'{what} has vehicle {key} or order {order} twice')
        if name <= last or load in loads or origin == target:
            raise no_line(what, line)
        found[name] = job
        loads.add(load)
        last = name
    return found


def read_vehicles(export: bytes) -> dict[VehicleKey, ExportedVehicle]:
    """Reads the vehicles by their keys, in the order of the keys. No two stand at one node or have
    the same order."""
    what = 'an export of vehicles'
    found: dict[VehicleKey, ExportedVehicle] = {}
    nodes: set[str] = set()
    orders: set[str | None] = set()
    for line, fields in _rows(export, VEHICLES_HEADER, VEHICLE, what):
        row = _vehicle(fields)
        is_next = not found or next(reversed(found)) < row.key
        if not is_next or not _fits(row) or row.node in nodes or row.order in orders - {None}:
            raise no_line(what, line)
        if len(found) >= VEHICLES:
            raise BadReport(f'{what} has more than {VEHICLES}')
        found[row.key] = row
        nodes.add(row.node)
        orders.add(row.order)
    return found


def _vehicle(fields: tuple[str, ...]) -> ExportedVehicle:
    """Reads a vehicle from the fields of its row."""
    manufacturer, serial, node, capacity, ready, paused, astray, header, pending = fields[:9]
    order, sent, confirmed, released, edges, seen, *rest = fields[9:]
    return ExportedVehicle(
        key=VehicleKey(manufacturer, serial),
        node=node,
        capacity=int(capacity),
        ready=ready == 'true',
        paused=paused == 'true',
        astray=astray == 'true',
        pending=pending,
        order=order,
        sent=_number(sent),
        confirmed=_number(confirmed),
        header=_number(header),
        released=_number(released),
        edges=_number(edges),
        seen=_number(seen),
        rest=(rest[0], rest[1]) if rest[0] else None,
    )


def _number(field: str | None) -> int | None:
    """Reads a number, or None where the field is empty."""
    return None if field is None else int(field)


def _fits(row: ExportedVehicle) -> bool:
    """Whether the fields of a vehicle agree with each other."""
    numbers = (row.header or 0, row.sent or 0)
    way = (row.seen or 0, row.released or 0, row.edges or 0, MOST_EDGES)
    return (
        max(numbers) <= LARGEST
        and (row.confirmed or 0) <= (row.sent or 0)
        and way == tuple(sorted(way))
        and row.astray == (row.rest is not None)
        and not (row.astray and row.order is not None)
    )


def read_layout(export: bytes) -> Layout | None:
    """Reads the layout; None where the desk has none yet."""
    if export == f'{LAYOUT_HEADER}\n'.encode():
        return None
    # The largest file that a desk takes may lack its last line end, which an export has.
    if len(export) > BODY + 1:
        raise BadReport(f'an export of the layout has more than {BODY + 1:,} bytes')
    try:
        layout = read_file(export.removesuffix(b'\n'))
    except BadLayout as fault:
        raise BadReport(f'an export of the layout is no layout: {fault}') from None
    if layout.csv() != export:
        raise BadReport('an export of the layout is written as no desk writes it')
    return layout


def check_loads(export: bytes) -> bytes:
    """Returns an export of loads, and raises `BadReport` where its beginning or end is none."""
    if not export.startswith(f'{LOADS_HEADER}\n'.encode()) or not export.endswith(b'\n'):
        raise BadReport('an export of loads lacks its header, or the end of its last row')
    return export


def _rows(
    export: bytes, header: str, row: re.Pattern[str], what: str
) -> Iterator[tuple[str, tuple[str, ...]]]:
    """Yields the rows behind the header, each with its fields."""
    lines = whole_lines(export)
    if next(lines, None) != header:
        raise BadReport(f'{what} lacks its header')
    for line in lines:
        fields = row.fullmatch(line)
        if fields is None:
            raise no_line(what, line)
        yield line, fields.groups()
