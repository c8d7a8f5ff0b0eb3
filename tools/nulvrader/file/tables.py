"""The tables of a desk's file, as docs/TABLES.md has them: the type of their rows, their columns
and keys, and how many rows each may have."""
from __future__ import annotations

import functools
import itertools
import typing
from collections.abc import Callable
from typing import Any, NamedTuple, TypeVar

MANY = 1_000_000  # the most loads, jobs, orders and references, of each
LIVE = ('waiting', 'riding')
RowType = TypeVar('RowType', bound=type[tuple[Any, ...]])


def shown_as(form: str) -> Callable[[RowType], RowType]:
    """Returns a decorator that makes `str()` of a row the name of its table and its key, which is
    in its first columns."""

    def with_text(kind: RowType) -> RowType:
        setattr(kind, '__str__', lambda row: form.format(*row))
        return kind

    return with_text


@shown_as('meta {}, {}')
class MetaRow(NamedTuple):
    id: int
    schema: int


@shown_as('node {}')
class NodeRow(NamedTuple):
    id: str


@shown_as('edge {}')
class EdgeRow(NamedTuple):
    id: str
    start: str
    finish: str


@shown_as('station {}')
class StationRow(NamedTuple):
    id: str
    node: str
    capacity: int


@shown_as('vehicle {}/{}')
class VehicleRow(NamedTuple):
    manufacturer: str
    serial: str
    node: str
    rest_edge: str | None
    rest_node: str | None
    last_header: int | None
    reported: str | None
    ready: int
    paused: int
    order_header: int
    order_at: int
    instant_header: int
    instant_at: int
    pending: str | None


@shown_as('trip {}')
class TripRow(NamedTuple):
    """An open order as the first schema has it; in the second one this table is empty."""

    order_id: str
    manufacturer: str
    serial: str
    job: str
    start: str
    first: int
    base: int
    sent: int
    confirmed: int | None
    seen: int
    pick_at: int
    drop_at: int
    pick_status: str
    drop_status: str


@shown_as('leg {}, {}')
class LegRow(NamedTuple):
    order_id: str
    k: int
    edge: str


@shown_as('load {}')
class LoadRow(NamedTuple):
    id: str
    kind: str
    station: str | None
    manufacturer: str | None
    serial: str | None


@shown_as('job {}')
class JobRow(NamedTuple):
    id: str
    load: str
    origin: str
    target: str
    phase: str


@shown_as('hold {} {}')
class HoldRow(NamedTuple):
    kind: str
    id: str
    manufacturer: str
    serial: str


@shown_as('used {} {}')
class UsedRow(NamedTuple):
    kind: str
    id: str


@shown_as('capacity {}/{}')
class CapacityRow(NamedTuple):
    manufacturer: str
    serial: str
    capacity: int


@shown_as('journey {}')
class JourneyRow(NamedTuple):
    order_id: str
    manufacturer: str
    serial: str
    start: str
    first: int
    base: int
    sent: int
    confirmed: int | None
    seen: int


@shown_as('act {}, {}')
class ActRow(NamedTuple):
    order_id: str
    n: int
    job: str
    kind: str
    place_at: int
    status: str


# A row of any table; its `str()` names the table and the key.
AnyRow = (
    MetaRow
    | NodeRow
    | EdgeRow
    | StationRow
    | VehicleRow
    | TripRow
    | LegRow
    | LoadRow
    | JobRow
    | HoldRow
    | UsedRow
    | CapacityRow
    | JourneyRow
    | ActRow
)
Key = tuple[str, str]  # a vehicle's manufacturer and serial number


def key_of(row: VehicleRow | CapacityRow | JourneyRow | HoldRow) -> Key:
    """Returns the key of the vehicle that a row is about."""
    return row.manufacturer, row.serial


def table_of(kind: type[tuple[Any, ...]]) -> str:
    """Returns the name of the table that has rows of this type."""
    return kind.__name__.removesuffix('Row').lower()


# The types of rows, by the names of their tables.
TABLES: dict[str, type[AnyRow]] = {table_of(kind): kind for kind in typing.get_args(AnyRow)}
SECOND = ('capacity', 'journey', 'act')  # the tables that the first schema lacks
# The keys of each table, each a list of columns; here the primary one is first, and in a file they
# may have any order.
KEYS = {
    'meta': ['id'],
    'node': ['id'],
    'edge': ['id'],
    'station': ['id'],
    'vehicle': ['manufacturer serial'],
    'trip': ['order_id', 'manufacturer serial', 'job'],
    'leg': ['order_id k'],
    'load': ['id'],
    'job': ['id'],
    'hold': ['kind id'],
    'used': ['kind id'],
    'capacity': ['manufacturer serial'],
    'journey': ['order_id', 'manufacturer serial'],
    'act': ['order_id n', 'job kind'],
}


class Column(NamedTuple):
    """A column of a table, of whole numbers or of texts."""

    name: str
    is_number: bool
    may_be_null: bool


def columns(table: str) -> tuple[str, ...]:
    """Returns the names of a table's columns, in their order."""
    return TABLES[table]._fields


# The most rows of each table by the limits of README.md.
MOST = {
    'meta': 1,
    'node': 500,
    'edge': 1500,
    'station': 500,
    'vehicle': 100,
    'trip': 100,
    'leg': 100 * 200,
    'load': MANY,
    'job': MANY,
    'hold': 500 + 1500,
    'used': 2 * MANY,
    'capacity': 100,
    'journey': 100,
    'act': 100 * 2 * 4,
}


@functools.cache
def columns_of(table: str) -> tuple[Column, ...]:
    """Returns the columns of a table, in their order, by the types of its row."""
    return tuple(
        Column(name, int in kinds, type(None) in kinds)
        for name, kinds in zip(TABLES[table]._fields, _kinds_of(table))
    )


def _kinds_of(table: str) -> list[tuple[type, ...]]:
    """Returns the types that each value of a row may have."""
    hints = typing.get_type_hints(TABLES[table]).values()
    return [typing.get_args(hint) or (hint,) for hint in hints]


@functools.cache
def types_of(table: str) -> frozenset[tuple[type, ...]]:
    """Returns all combinations of types that the values of a row may have."""
    return frozenset(itertools.product(*_kinds_of(table)))
