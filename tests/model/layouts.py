"""The layout is set once."""
from __future__ import annotations

import re

from tests.model.bodies import NAME, Told, check, table
from tests.model.tables import Layout, Tables

# The rows of a layout without their first field, by that field.
Kinds = dict[str, list[list[str]]]


def set_layout(desk: Tables, body: bytes) -> Told:
    rows = table(body, ['kind', 'id', 'from', 'to'])
    check(not all(map(is_row, rows)), 'BadCsv')
    check(desk.layout.nodes, 'LayoutSet')
    kinds = {
        kind: [row[1:] for row in rows if row[0] == kind] for kind in ('node', 'edge', 'station')
    }
    check(
        len(kinds['node']) > 500 or len(kinds['edge']) > 1500 or len(kinds['station']) > 500,
        'Limit',
    )
    check(not is_sound(kinds), 'LayoutBad')
    desk.base.executemany('INSERT INTO node VALUES (?)', [row[:1] for row in kinds['node']])
    desk.base.executemany('INSERT INTO edge VALUES (?, ?, ?)', kinds['edge'])
    desk.base.executemany(
        'INSERT INTO station VALUES (?, ?, ?)',
        [(name, node, int(capacity)) for name, node, capacity in kinds['station']],
    )
    desk.layout = Layout(desk.base)
    return {}


def is_row(row: list[str]) -> bool:
    """Whether it is a row of a layout by its form."""
    kind, name, start, finish = row
    if not NAME.fullmatch(name):
        return False
    if kind == 'node':
        return start == finish == ''
    if kind == 'edge':
        return bool(NAME.fullmatch(start) and NAME.fullmatch(finish))
    return bool(kind == 'station' and NAME.fullmatch(start) and re.fullmatch('[0-9]{1,3}', finish))


def is_sound(kinds: Kinds) -> bool:
    """Whether there is a node, no name twice, and each edge and station names nodes."""
    nodes = {name for name, _, _ in kinds['node']}
    return (
        bool(nodes)
        and all(len({row[0] for row in said}) == len(said) for said in kinds.values())
        and all(
            start in nodes and finish in nodes and start != finish
            for _, start, finish in kinds['edge']
        )
        and all(node in nodes and int(capacity) > 0 for _, node, capacity in kinds['station'])
    )
