"""What the model keeps: the fourteen tables with the indexes of docs/TABLES.md, over a connection
of SQLite, and beside them the layout in memory. And the questions and the writes that several calls
have in common."""
from __future__ import annotations

import sqlite3
from typing import Any

from nulvrader.file.tables import KEYS, TABLES, columns, columns_of

from tests.model.bodies import check

# A vehicle's manufacturer and serial number, a node or an edge by its kind and its id, and all rows
# by table.
Key = tuple[str, str]
Thing = tuple[str, str]
TableRows = dict[str, list[tuple[Any, ...]]]

MOST = 1_000_000  # loads, jobs, orders and references, of each
VEHICLES = 100
LAST = 4294967295  # the last number
INDEXES = {
    'load_station': 'load (station)',
    'load_vehicle': 'load (manufacturer, serial)',
    'job_load': 'job (load, phase)',
    'job_target': 'job (target, phase)',
}


def schema() -> str:
    """The statements that make the tables, where there are none yet."""
    made = []
    for table, (primary, *others) in KEYS.items():
        parts = [
            f'{column.name} {"INT" if column.is_number else "TEXT"}'
            f'{"" if column.may_be_null else " NOT NULL"}'
            for column in columns_of(table)
        ]
        parts += [
            f'PRIMARY KEY ({primary.replace(" ", ", ")})',
            *[f'UNIQUE ({other.replace(" ", ", ")})' for other in others],
        ]
        made.append(f'CREATE TABLE IF NOT EXISTS {table} ({", ".join(parts)}) STRICT;')
    made.append('INSERT OR IGNORE INTO meta VALUES (1, 2);')
    return '\n'.join(
        made + [f'CREATE INDEX IF NOT EXISTS {name} ON {of};' for name, of in INDEXES.items()]
    )


class Layout:
    """The layout as the tables have it."""

    def __init__(self, base: sqlite3.Connection) -> None:
        self.nodes = {row['id'] for row in base.execute('SELECT id FROM node')}
        self.edges = {
            row['id']: (row['start'], row['finish']) for row in base.execute('SELECT * FROM edge')
        }
        self.stations: dict[str, tuple[str, int]] = {
            row['id']: (row['node'], row['capacity'])
            for row in base.execute('SELECT * FROM station')
        }
        self.out: dict[str, list[tuple[str, str]]] = {node: [] for node in self.nodes}
        self.into: dict[str, list[str]] = {node: [] for node in self.nodes}
        for name in sorted(self.edges):
            start, finish = self.edges[name]
            self.out[start].append((name, finish))
            self.into[finish].append(start)

    def route(self, start: str, target: str) -> list[str]:
        """At each node the edge of least name whose end is one hop nearer."""
        hops, row = {target: 0}, [target]
        for at in row:
            for before in self.into.get(at, ()):
                if before not in hops:
                    hops[before] = hops[at] + 1
                    row.append(before)
        check(start not in hops or target not in self.nodes, 'NoWalk')
        edges = []
        while start != target:
            name, start = next(
                (name, end) for name, end in self.out[start] if hops.get(end, -1) == hops[start] - 1
            )
            edges.append(name)
        return edges


class Trip:
    """An open order: its row, its edges, the nodes between them, and its picks and drops."""

    def __init__(
        self, row: sqlite3.Row, edges: list[str], nodes: list[str], acts: list[sqlite3.Row]
    ) -> None:
        self.row, self.edges, self.nodes, self.acts = row, edges, nodes, acts

    def action(self, act: sqlite3.Row) -> str:
        """The id by which the vehicle knows an act."""
        return f'{self.row["order_id"]}.{act["n"]}'


def things(nodes: list[str], edges: list[str], begin: int, end: int) -> list[Thing]:
    """The nodes and edges of a stretch, in its order."""
    found = [('node', nodes[begin])]
    for k in range(begin, end):
        found += [('edge', edges[k]), ('node', nodes[k + 1])]
    return found


class Tables:
    def __init__(self, base: sqlite3.Connection, now: int) -> None:
        self.base, self.now = base, now
        self.base.executescript(schema())
        self.layout = Layout(base)

    def one(self, question: str, *values: Any) -> Any:
        """Returns the first row that answers a question, or None."""
        return self.base.execute(question, values).fetchone()

    def number(self, question: str, *values: Any) -> int:
        """Returns the first field of the first row, which is a number."""
        (number, *_) = self.one(question, *values)
        assert isinstance(number, int)
        return number

    def put(self, question: str, *values: Any) -> None:
        self.base.execute(question, values)

    def rows(self) -> TableRows:
        """All rows by table."""
        return {
            table: [
                tuple(row)
                for row in self.base.execute(f'SELECT {", ".join(columns(table))} FROM {table}')
            ]
            for table in TABLES
        }

    def take_rows(self, rows: TableRows) -> None:
        """Has these rows in the place of its own."""
        for table, of in rows.items():
            self.put('DELETE FROM ' + table)
            self.base.executemany(
                f'INSERT INTO {table} VALUES ({", ".join("?" * len(columns(table)))})', of
            )
        self.layout = Layout(self.base)

    # Vehicles and their orders.

    def vehicle(self, key: Key) -> sqlite3.Row:
        row: sqlite3.Row = self.one(
            'SELECT * FROM vehicle WHERE manufacturer = ? AND serial = ?', *key
        )
        check(row is None, 'NoVehicle')
        return row

    def capacity(self, key: Key) -> int:
        return self.number(
            'SELECT capacity FROM capacity WHERE manufacturer = ? AND serial = ?', *key
        )

    def trip(self, key: Key) -> Trip | None:
        row = self.one('SELECT * FROM journey WHERE manufacturer = ? AND serial = ?', *key)
        if row is None:
            return None
        legs = self.base.execute(
            'SELECT edge FROM leg WHERE order_id = ? ORDER BY k', (row['order_id'],)
        )
        edges = [leg['edge'] for leg in legs]
        nodes = [row['start']] + [self.layout.edges[edge][1] for edge in edges]
        acts = self.base.execute(
            (
                "SELECT act.*, load, CASE kind WHEN 'pick' THEN origin ELSE target END AS station "
                "FROM act JOIN job ON job.id = job WHERE order_id = ? ORDER BY n"
            ),
            (row['order_id'],),
        ).fetchall()
        return Trip(row, edges, nodes, acts)

    def has_trip(self, key: Key) -> bool:
        return (
            self.one('SELECT 1 FROM journey WHERE manufacturer = ? AND serial = ?', *key)
            is not None
        )

    def end_trip(self, trip: Trip) -> None:
        order = trip.row['order_id']
        for act in trip.acts:
            self.put(
                "UPDATE job SET phase = 'stopped' WHERE phase = 'riding' AND id = ?", act['job']
            )
        for name in ('journey', 'act', 'leg'):
            self.put(f'DELETE FROM {name} WHERE order_id = ?', order)

    # Loads, stations, jobs.

    def load(self, load: str) -> sqlite3.Row:
        row: sqlite3.Row = self.one('SELECT * FROM load WHERE id = ?', load)
        check(row is None, 'NoLoad')
        return row

    def put_load(
        self,
        load: str,
        kind: str,
        station: str | None = None,
        key: tuple[str | None, str | None] = (None, None),
    ) -> None:
        self.put(
            'UPDATE load SET kind = ?, station = ?, manufacturer = ?, serial = ? WHERE id = ?',
            kind,
            station,
            *key,
            load,
        )

    def live_job(self, load: str) -> str | None:
        row = self.one("SELECT id FROM job WHERE load = ? AND phase IN ('waiting', 'riding')", load)
        return row['id'] if row else None

    def coming(self, station: str) -> int:
        return self.number(
            "SELECT count(*) FROM job WHERE target = ? AND phase IN ('waiting', 'riding')", station
        )

    def aboard(self, key: Key) -> int:
        return self.number('SELECT count(*) FROM load WHERE manufacturer = ? AND serial = ?', *key)

    def room(self, station: str) -> int:
        here = self.number('SELECT count(*) FROM load WHERE station = ?', station)
        return self.layout.stations[station][1] - here - self.coming(station)

    # Names, limits, track.

    def use(self, kind: str, name: str) -> None:
        self.put('INSERT INTO used VALUES (?, ?)', kind, name)

    def is_used(self, kind: str, name: str) -> bool:
        return self.one('SELECT 1 FROM used WHERE kind = ? AND id = ?', kind, name) is not None

    def check_limit(self, what: str, most: int | None = None) -> None:
        check(
            self.number('SELECT count(*) FROM ' + what) >= (MOST if most is None else most), 'Limit'
        )

    def holder(self, kind: str, name: str) -> Key | None:
        row = self.one(
            'SELECT manufacturer, serial FROM hold WHERE kind = ? AND id = ?', kind, name
        )
        return (row['manufacturer'], row['serial']) if row else None

    def check_free(self, key: Key, wanted: list[Thing]) -> None:
        for kind, name in wanted:
            by = self.holder(kind, name) or key
            check(by != key, 'Held', by='/'.join(by), what=f'{kind} {name}')

    def hold(self, key: Key, wanted: list[Thing]) -> None:
        """The vehicle holds just these."""
        held = self.base.execute(
            'SELECT kind, id FROM hold WHERE manufacturer = ? AND serial = ?', key
        )
        before = {(row['kind'], row['id']) for row in held}
        for kind, name in before - set(wanted):
            self.put('DELETE FROM hold WHERE kind = ? AND id = ?', kind, name)
        for kind, name in set(wanted) - before:
            self.put('INSERT INTO hold VALUES (?, ?, ?, ?)', kind, name, *key)
