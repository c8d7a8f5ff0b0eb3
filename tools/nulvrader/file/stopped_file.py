"""Reads the file of a desk that is stopped, by SQLite. Neither the file nor what lies beside it is
changed. The file may be anybody's: its rows are read only if its tables are a desk's, and only as
long as they could be a desk's rows."""
from __future__ import annotations

import contextlib
import os
import sqlite3
from collections.abc import Iterator

from . import database, opening, rows, tables
from ..common.layouts import Edge, Layout, Station, of_parts
from ..common.names import VehicleKey, is_name
from ..common.plain_files import PATH, NotPlain
from ..common.text import shown
from .rows import BadRows, RowOfTable
from .tables import LIVE, key_of, table_of

SCHEMA = 2
STOPPED = 'another SQLite was stopped in the middle of a change: tools/why says what to do'
LOCKED = 'database is locked: ask the desk that has it open, or stop it first'
NO_TABLES = 'it has no tables of a desk'


class Unread(Exception):
    """A file that can't be read as a desk's. Its `str()` is a sentence that begins with the file's
    name; `why` is the rest of it."""

    def __init__(self, path: str, why: str) -> None:
        self.why = shown(why, 2 * PATH)
        super().__init__(f'{shown(path, PATH)}: {self.why}')


@contextlib.contextmanager
def opened(path: str, folder: str | None = None) -> Iterator[sqlite3.Connection]:
    """Opens the file of a desk, or where it has a log a copy in `folder`. Raises `Unread` where its
    tables are not a desk's, or where opening it or a query of the block fails."""
    try:
        if not os.path.exists(path):
            raise Unread(path, 'there is no such file')
        if opening.has_journal(path):
            raise Unread(path, STOPPED)
        with opening.opened(path, alone=True, folder=folder) as connection:
            _check_tables(path, connection)
            yield connection
    except BlockingIOError:
        raise Unread(path, LOCKED) from None
    except NotPlain as fault:
        raise Unread(fault.filename, fault.strerror) from None
    except OSError as fault:
        raise Unread(path, fault.strerror or str(fault)) from None
    except (BadRows, database.TooMany) as fault:
        raise Unread(path, f'{fault}: tools/why says more') from None
    except (sqlite3.Error, MemoryError, UnicodeError) as fault:
        is_none = getattr(fault, 'sqlite_errorcode', None) == sqlite3.SQLITE_NOTADB
        raise Unread(path, NO_TABLES if is_none else opening.why_unread(fault)) from None


def _check_tables(path: str, connection: sqlite3.Connection) -> None:
    """Raises `Unread` where the tables are not a desk's of this schema."""
    found = database.tables_of(connection)
    if (
        found.is_first
        or found.is_second
        and [*rows_in(connection, tables.MetaRow)] != [(1, SCHEMA)]
    ):
        raise Unread(path, f'it has not schema {SCHEMA}: `./desk migrate` migrates one of schema 1')
    if not found.is_second:
        why = found.odd or [f'the table {name} is missing' for name in found.missing]
        is_none = found.is_bare or found.is_foreign and not found.odd
        raise Unread(path, NO_TABLES if is_none else f"its tables aren't those of a desk: {why[0]}")


def rows_in(connection: sqlite3.Connection, kind: type[RowOfTable]) -> Iterator[RowOfTable]:
    """Yields the rows of the table of a type. Raises `BadRows` for more rows than a desk has, and
    for a text that could not be a name."""
    for row in rows.rows_in(connection, kind):
        for value in row:
            if isinstance(value, str) and not is_name(value):
                raise BadRows(f'the table {table_of(kind)} has a text that is no name')
        yield row


def layout_in(connection: sqlite3.Connection) -> Layout:
    """Reads the layout, which has no nodes before one is set."""
    layout = of_parts(
        (row.id for row in rows_in(connection, tables.NodeRow)),
        (Edge(*row) for row in rows_in(connection, tables.EdgeRow)),
        (Station(*row) for row in rows_in(connection, tables.StationRow)),
    )
    ends = {node for edge in layout.edges.values() for node in (edge.start, edge.finish)}
    if not ends | {station.node for station in layout.stations.values()} <= set(layout.nodes):
        raise BadRows('the layout names a node that it does not have')
    return layout


def places_in(connection: sqlite3.Connection) -> dict[str, str]:
    """Reads the place of each load, even of those that have left, by the load's name: `station A`,
    `vehicle KIT/0001`, `checking`, `left`."""
    found = {}
    for load in sorted(rows_in(connection, tables.LoadRow), key=lambda row: str(row.id)):
        where = {'station': load.station, 'vehicle': f'{load.manufacturer}/{load.serial}'}.get(
            load.kind
        )
        found[load.id] = f'{load.kind} {where}' if where else load.kind
    return found


def vehicles_in(
    connection: sqlite3.Connection, layout: Layout
) -> dict[VehicleKey, tuple[str, int]]:
    """Reads the node and the capacity of each vehicle."""
    capacities = {key_of(row): row.capacity for row in rows_in(connection, tables.CapacityRow)}
    found = {}
    for row in sorted(rows_in(connection, tables.VehicleRow), key=key_of):
        if row.node not in layout.nodes or key_of(row) not in capacities:
            raise BadRows(
                'a vehicle has no capacity, or stands at a node that the layout does not have'
            )
        found[VehicleKey(*key_of(row))] = row.node, capacities[key_of(row)]
    return found


def live_jobs_in(connection: sqlite3.Connection) -> dict[str, tuple[str, str]]:
    """Reads the live jobs: by the load of each, its name and its target."""
    jobs = rows_in(connection, tables.JobRow)
    return {job.load: (job.id, job.target) for job in jobs if job.phase in LIVE}
