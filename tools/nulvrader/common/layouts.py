"""Layouts: reads the nodes, edges and stations of a warehouse from the file that `PUT /layout`
takes, names each fault of the file with its line, and finds routes as a desk does."""
from __future__ import annotations

import collections
import re
from collections.abc import Iterable, Mapping
from dataclasses import dataclass

from .names import NAME_RULE, is_name
from .tables import Fault, TableFile, quoted, records_of, said

MOST = {'node': 500, 'edge': 1500, 'station': 500}
HEADER = [b'kind', b'id', b'from', b'to']
CAPACITY = re.compile(rb'[0-9]{1,3}')
# The refusals of a layout, in the order in which a desk looks for them.
REFUSALS = ('TooLarge', 'BadCsv', 'Limit', 'LayoutBad')


class BadLayout(ValueError):
    """A desk refuses the file, which has these faults. Its `str()` is the first of them."""

    def __init__(self, faults: list[Fault]):
        super().__init__(str(faults[0]))
        self.faults = faults


@dataclass(frozen=True)
class Edge:
    """An edge, which leads from a node to another one, and not back."""

    name: str
    start: str
    finish: str


@dataclass(frozen=True)
class Station:
    """A station, which is at a node and has room for `capacity` loads, 1 to 999."""

    name: str
    node: str
    capacity: int


@dataclass(frozen=True)
class Layout:
    """A layout: its nodes, edges and stations by their names, in the order of the names."""

    nodes: tuple[str, ...]
    edges: dict[str, Edge]
    stations: dict[str, Station]

    def distances(self, target: str) -> dict[str, int]:
        """Returns the least number of edges of a walk from each node to `target`; nodes from which
        no walk leads there are left out."""
        into = neighbours_of((edge.finish, edge.start) for edge in self.edges.values())
        found, row = {target: 0}, [target]
        for node in row:
            for other in into.get(node, ()):
                if other not in found:
                    found[other] = found[node] + 1
                    row.append(other)
        return found

    def hops(self, start: str, target: str) -> int | None:
        """Returns the least number of edges of a walk, or None where there is no walk or no such
        node."""
        return (
            self.distances(target).get(start)
            if start in self.nodes and target in self.nodes
            else None
        )

    def route(self, start: str, target: str) -> list[str] | None:
        """Returns the edges of the walk that a desk takes, or None where there is none. At each
        node it takes the edge of the least name of those that shorten the rest of the walk."""
        if self.hops(start, target) is None:
            return None
        far = self.distances(target)
        out: dict[str, list[Edge]] = collections.defaultdict(list)
        for _, edge in sorted(self.edges.items()):
            out[edge.start].append(edge)
        found, node = [], start
        while far[node]:
            edge = next(edge for edge in out[node] if far.get(edge.finish) == far[node] - 1)
            found.append(edge.name)
            node = edge.finish
        return found

    def csv(self) -> bytes:
        """Returns the layout as a file."""
        rows = ['kind,id,from,to', *(f'node,{node},,' for node in self.nodes)]
        rows += [f'edge,{edge.name},{edge.start},{edge.finish}' for edge in self.edges.values()]
        rows += [f'station,{at.name},{at.node},{at.capacity}' for at in self.stations.values()]
        return ''.join(row + '\n' for row in rows).encode()


def of_parts(nodes: Iterable[str], edges: Iterable[Edge], stations: Iterable[Station]) -> Layout:
    """Returns the layout of these parts, which may be in any order."""
    return Layout(
        tuple(sorted(nodes)),
        {edge.name: edge for edge in sorted(edges, key=lambda one: one.name)},
        {station.name: station for station in sorted(stations, key=lambda one: one.name)},
    )


def neighbours_of(pairs: Iterable[tuple[str, str]]) -> dict[str, list[str]]:
    """Returns the second node of each pair, by the first ones."""
    ways: dict[str, list[str]] = collections.defaultdict(list)
    for first, second in pairs:
        ways[first].append(second)
    return ways


def read_layout(data: bytes) -> Layout:
    """Reads a layout file, or raises `BadLayout`."""
    file = LayoutFile(data)
    if file.faults:
        raise BadLayout(file.faults)
    return file.layout()


@dataclass(frozen=True)
class LayoutRow:
    """A row of a layout file, without its kind and name: the number of its line and its last two
    fields."""

    line: int
    start: bytes
    finish: bytes


class LayoutFile(TableFile):
    """A layout file: its rows by kind and name, and its faults."""

    def __init__(self, data: bytes) -> None:
        super().__init__(data, REFUSALS)
        self.rows: dict[str, dict[bytes, LayoutRow]] = {kind: {} for kind in MOST}
        self.counts: collections.Counter[str] = collections.Counter()
        records = records_of(data)
        for line, fields in records[1:] if self.has_header(records) else records:
            self.read(line, fields)
        for kind, most in MOST.items():
            if self.counts[kind] > most:
                self.fault(
                    None,
                    'Limit',
                    f'there are {self.counts[kind]} {kind}s, and at most {most} may be',
                )
        if self.answer() is None and not self.counts['node']:
            self.fault(None, 'LayoutBad', 'there is no node')
        self.check_rows()
        self.faults.sort(key=lambda fault: fault.line or 0)

    def layout(self) -> Layout:
        """Returns the layout. The file must have no faults."""
        return of_parts(
            (name.decode() for name in self.rows['node']),
            (
                Edge(name.decode(), row.start.decode(), row.finish.decode())
                for name, row in self.rows['edge'].items()
            ),
            (
                Station(name.decode(), row.start.decode(), int(row.finish))
                for name, row in self.rows['station'].items()
            ),
        )

    def has_header(self, records: list[tuple[int, list[bytes]]]) -> bool:
        """Whether the first record is not a row. Notes a fault unless it is the header."""
        line, fields = records[0] if records else (1, [])
        if fields == HEADER:
            return True
        self.fault(
            line, 'BadCsv', f'the first line has to be kind,id,from,to, and is {said(fields)}'
        )
        return not (len(fields) == len(HEADER) and fields[0].decode('latin-1') in MOST)

    def read(self, line: int, fields: list[bytes]) -> None:
        """Reads a record as a row, and notes its faults."""
        if len(fields) != len(HEADER):
            count = f'{len(fields)} field{"s" * (len(fields) != 1)}'
            self.fault(line, 'BadCsv', f'{count}, and not the four of kind,id,from,to')
            return
        first, name, start, finish = fields
        kind = first.decode('latin-1')
        if kind not in MOST:
            self.fault(
                line, 'BadCsv', f'the kind is {quoted(first)}, and not node, edge or station'
            )
            return
        self.counts[kind] += 1
        parts = {
            'node': [('name', name)],
            'edge': [('name', name), ('start', start), ('end', finish)],
        }
        for of, field in parts.get(kind, [('name', name), ('node', start)]):
            if not is_named(field):
                rule = f'the {of} of the {kind} is {quoted(field)}, and no name: {NAME_RULE}'
                self.fault(line, 'BadCsv', rule)
        if kind == 'node' and (start or finish):
            self.fault(line, 'BadCsv', f'node {called(name)} has something after its name')
        if kind == 'station' and not CAPACITY.fullmatch(finish):
            rule = f'station {called(name)} has room for {quoted(finish)}, and not for 1 to 999'
            self.fault(line, 'BadCsv', rule)
        before = self.rows[kind].setdefault(name, LayoutRow(line, start, finish))
        if before.line != line and is_named(name):
            self.fault(
                line, 'LayoutBad', f'{kind} {called(name)} stands in line {before.line} already'
            )

    def check_rows(self) -> None:
        """Notes where rows contradict one another, of those whose names are names."""
        for name, row in self.named('edge'):
            self.check_node(row.line, f'edge {name} leads from', row.start)
            self.check_node(row.line, f'edge {name} leads to', row.finish)
            if row.start == row.finish and is_named(row.start):
                self.fault(
                    row.line, 'LayoutBad', f'edge {name} leads from {called(row.start)} to itself'
                )
        for name, row in self.named('station'):
            self.check_node(row.line, f'station {name} is at', row.start)
            if CAPACITY.fullmatch(row.finish) and int(row.finish) == 0:
                self.fault(row.line, 'LayoutBad', f'station {name} has room for no load')

    def named(self, kind: str) -> list[tuple[str, LayoutRow]]:
        """Returns the rows of a kind whose names are names."""
        return [(called(name), row) for name, row in self.rows[kind].items() if is_named(name)]

    def check_node(self, line: int, what: str, node: bytes) -> None:
        """Notes a fault where a row names a node that the layout doesn't have."""
        if is_named(node) and node not in self.rows['node']:
            self.fault(line, 'LayoutBad', f'{what} {called(node)}, which is no node')

    def lacking_walks(self) -> list[tuple[int, str]]:
        """Returns the stations that some others can't reach, or can't be reached from: the line of
        each, and a sentence that names these others."""
        layout = self.layout()
        line_of = {name: row.line for name, row in self.named('station')}
        edges = layout.edges.values()
        out = neighbours_of((edge.start, edge.finish) for edge in edges)
        into = neighbours_of((edge.finish, edge.start) for edge in edges)
        found = []
        for words, ways in (('no walk leads to it from', into), ('no walk leads from it to', out)):
            near = {
                node: reachable_from(node, ways)
                for node in {station.node for station in layout.stations.values()}
            }
            for station in layout.stations.values():
                far = [
                    other.name
                    for other in layout.stations.values()
                    if other.node not in near[station.node]
                ]
                if far:
                    more = f' and {len(far) - 5} more' if len(far) > 5 else ''
                    rule = f'station {station.name}: {words} {", ".join(far[:5])}{more}'
                    found.append((line_of[station.name], rule))
        return sorted(found)


def is_named(field: bytes) -> bool:
    """Whether a field is a name."""
    return is_name(field.decode('latin-1'))


def called(name: bytes) -> str:
    """Returns a field as it is if it is a name, else in quotes."""
    return name.decode() if is_named(name) else quoted(name)


def reachable_from(node: str, ways: Mapping[str, list[str]]) -> set[str]:
    """Returns the nodes that can be reached from a node, with itself, by the neighbours of
    each."""
    found, left = {node}, [node]
    while left:
        for there in ways.get(left.pop(), ()):
            if there not in found:
                found.add(there)
                left.append(there)
    return found
