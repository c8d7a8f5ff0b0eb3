"""Reads the rows of a desk's file, and derives from them what more than one rule needs: each open
order with its way, and what each vehicle holds. The file may have anything in the place of these
rows: they are read one by one, and no more than a desk has."""
from __future__ import annotations

import collections
import dataclasses
import functools
import sqlite3
from collections.abc import Callable, Iterable, Iterator
from typing import Any, TypeVar

from .tables import (
    MOST,
    SECOND,
    TABLES,
    ActRow,
    CapacityRow,
    EdgeRow,
    HoldRow,
    JobRow,
    JourneyRow,
    Key,
    LegRow,
    LoadRow,
    MetaRow,
    NodeRow,
    AnyRow,
    StationRow,
    TripRow,
    UsedRow,
    VehicleRow,
    columns,
    key_of,
    table_of,
    types_of,
)

Thing = tuple[str, str]  # `node` or `edge`, and its name


@dataclasses.dataclass(frozen=True)
class OpenOrder:
    """An open order: its rows of the tables `journey`, `leg` and `act`, and the nodes of its way. A
    node is None where the layout doesn't have the edge before it."""

    journey: JourneyRow
    legs: list[LegRow]
    acts: list[ActRow]
    nodes: list[str | None]

    def node(self, k: int) -> str | None:
        """Returns the node at place k of the way, from 0; None where there is none."""
        return self.nodes[k] if 0 <= k < len(self.nodes) else None

    def released(self) -> Iterator[Thing]:
        """Yields the node that the vehicle has reached, and each released edge and node ahead of
        it."""
        journey = self.journey
        for k in range(max(journey.seen, 0), min(journey.base, len(self.legs)) + 1):
            node = self.node(k)
            if node is not None:
                yield 'node', node
            if k < min(journey.base, len(self.legs)):
                yield 'edge', self.legs[k].edge


NamedRow = TypeVar('NamedRow', EdgeRow, StationRow, LoadRow, JobRow)


def by_name(
    rows_of: Callable[[Rows], list[NamedRow]]
) -> functools.cached_property[dict[str, NamedRow]]:
    """Returns a property with the rows of a table by their names, which is made once."""
    return functools.cached_property(lambda rows: {row.id: row for row in rows_of(rows)})


@dataclasses.dataclass(frozen=True)
class Rows:
    """All rows of a file of the second schema."""

    meta: list[MetaRow]
    node: list[NodeRow]
    edge: list[EdgeRow]
    station: list[StationRow]
    vehicle: list[VehicleRow]
    trip: list[TripRow]
    leg: list[LegRow]
    load: list[LoadRow]
    job: list[JobRow]
    hold: list[HoldRow]
    used: list[UsedRow]
    capacity: list[CapacityRow]
    journey: list[JourneyRow]
    act: list[ActRow]

    def all(self) -> Iterator[AnyRow]:
        """Yields all rows, table by table."""
        for table in TABLES:
            yield from getattr(self, table)

    @functools.cached_property
    def nodes(self) -> set[str]:
        """The names of the nodes."""
        return {row.id for row in self.node}

    edges = by_name(lambda rows: rows.edge)
    stations = by_name(lambda rows: rows.station)
    loads = by_name(lambda rows: rows.load)
    jobs = by_name(lambda rows: rows.job)

    @functools.cached_property
    def vehicles(self) -> dict[Key, VehicleRow]:
        """The vehicles by their keys."""
        return {key_of(row): row for row in self.vehicle}

    @functools.cached_property
    def capacities(self) -> dict[Key, int]:
        """The capacity of each vehicle."""
        return {key_of(row): row.capacity for row in self.capacity}

    @functools.cached_property
    def open_orders(self) -> dict[Key, OpenOrder]:
        """The open order of each vehicle that has one."""
        legs: dict[str, list[LegRow]] = collections.defaultdict(list)
        acts: dict[str, list[ActRow]] = collections.defaultdict(list)
        for leg in sorted(self.leg, key=lambda row: row.k):
            legs[leg.order_id].append(leg)
        for act in sorted(self.act, key=lambda row: row.n):
            acts[act.order_id].append(act)
        found = {}
        for journey in self.journey:
            walk = legs.get(journey.order_id, [])
            ends = [self.edges[leg.edge].finish if leg.edge in self.edges else None for leg in walk]
            found[key_of(journey)] = OpenOrder(
                journey, walk, acts.get(journey.order_id, []), [journey.start, *ends]
            )
        return found

    @functools.cached_property
    def to_drop(self) -> dict[str, ActRow]:
        """The drops of open orders that are not finished, by their jobs."""
        acts = (act for order in self.open_orders.values() for act in order.acts)
        return {act.job: act for act in acts if act.kind == 'drop' and act.status != 'FINISHED'}

    @functools.cached_property
    def held(self) -> dict[Thing, list[Key]]:
        """The vehicles that hold each node and edge. A vehicle without an order holds the node
        where it stands and its rest, one with an order what is released to it."""
        found: dict[Thing, list[Key]] = collections.defaultdict(list)
        for key, vehicle in self.vehicles.items():
            order = self.open_orders.get(key)
            things = _without_order(vehicle) if order is None else order.released()
            for thing in dict.fromkeys(things):
                found[thing].append(key)
        return found


def _without_order(vehicle: VehicleRow) -> Iterator[Thing]:
    """Yields what a vehicle without an order holds."""
    yield 'node', vehicle.node
    if vehicle.rest_edge is not None:
        yield 'edge', vehicle.rest_edge
    if vehicle.rest_node is not None:
        yield 'node', vehicle.rest_node


LONGEST = 64  # the most characters of a text that is read: a name has 32 bytes
VALUE = 1000  # the most bytes of one that SQLite reads, where it lies in more than a page


RowOfTable = TypeVar('RowOfTable', bound=tuple[Any, ...])


class BadRows(Exception):
    """A table has rows of a form that no desk writes, so that no rule can be checked. Its `str()`
    says what is wrong."""


def rows_in(
    connection: sqlite3.Connection, kind: type[RowOfTable], most: int | None = None
) -> Iterator[RowOfTable]:
    """Yields the rows of the table of a type, without the use of an index. Bytes that are not UTF-8
    become characters that no name has. Raises `BadRows` for more than `most` rows (without it the
    `MOST` of the table), a value that is not of the type of its column, and a text of more than
    `LONGEST` characters."""
    connection.text_factory = any_text
    connection.setlimit(sqlite3.SQLITE_LIMIT_LENGTH, VALUE)
    table = table_of(kind)
    allowed = types_of(table)
    most = MOST[table] if most is None else most
    names = ', '.join(f'"{name}"' for name in columns(table))
    for number, values in enumerate(
        connection.execute(f'SELECT {names} FROM "{table}" NOT INDEXED')
    ):
        if number >= most:
            raise BadRows(f'the table {table} has more than {most} rows')
        if tuple(map(type, values)) not in allowed:
            raise BadRows(f'the table {table} has a value that is not of the type of its column')
        if any(isinstance(value, str) and len(value) > LONGEST for value in values):
            raise BadRows(f'the table {table} has a text of more than {LONGEST} characters')
        yield kind(*values)


def read_rows(connection: sqlite3.Connection) -> Rows:
    """Reads all rows of a file of the second schema."""
    return Rows(**_read(connection, TABLES))


def read_first_rows(connection: sqlite3.Connection) -> Rows:
    """Reads all rows of a file of the first schema, and returns them as `migrate` would write them
    in the second one."""
    found = _read(connection, (table for table in TABLES if table not in SECOND))
    trips: list[TripRow] = found.pop('trip')
    found['meta'] = [MetaRow(row.id, row.schema + 1) for row in found['meta']]
    return Rows(
        **found,
        trip=[],
        capacity=[CapacityRow(*key_of(row), 1) for row in found['vehicle']],
        journey=[_journey_of(trip) for trip in trips],
        act=[act for trip in trips for act in _acts_of(trip)],
    )


def _journey_of(trip: TripRow) -> JourneyRow:
    """Returns the row of `journey` that `migrate` makes of a trip."""
    walk = trip.start, trip.first, trip.base, trip.sent, trip.confirmed, trip.seen
    return JourneyRow(trip.order_id, trip.manufacturer, trip.serial, *walk)


def _acts_of(trip: TripRow) -> Iterator[ActRow]:
    """Yields the rows of `act` that `migrate` makes of a trip."""
    yield ActRow(trip.order_id, 0, trip.job, 'pick', trip.pick_at, trip.pick_status)
    yield ActRow(trip.order_id, 1, trip.job, 'drop', trip.drop_at, trip.drop_status)


def any_text(data: bytes) -> str:
    """Returns a text of SQLite, which need not be UTF-8."""
    return data.decode('utf-8', 'surrogateescape')


def _read(connection: sqlite3.Connection, tables: Iterable[str]) -> dict[str, Any]:
    """Reads the rows of these tables, by the names that `Rows` has them under. Of each, up to 1000
    beyond the limit are read, so that a rule can say that there are too many."""
    return {table: list(rows_in(connection, TABLES[table], MOST[table] + 1000)) for table in tables}
