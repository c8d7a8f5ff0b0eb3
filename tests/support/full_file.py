"""The rows of a file with as many loads, jobs, orders and references as there may be, and the
answers and reports of a desk over it, written out by loops."""
from __future__ import annotations

import contextlib
import sqlite3
from collections.abc import Iterator

from tests.support import calls
from tests.support.answers import LONG

MOST = 1_000_000 if LONG else 1_000  # loads, jobs, orders and references, of each
STATIONS, VEHICLES = 500, 100

# of so many loads one stands at each station, and the others are at the checking place or have left
PERIOD = 1_010
SECONDS = 1_800  # for one step, at most
DONE, LIMIT = (200, b'{}'), (409, b'{"name":"Limit","refusal":51}')
Row = tuple[str | None, ...]


def station(at: int) -> str:
    return f'S{at % STATIONS:03d}'


def node(at: int) -> str:
    return f'N{at % STATIONS:03d}'


# A ring of nodes, each with a station, with edges both ways and edges that pass over a node.
LAYOUT = 'kind,id,from,to\n' + ''.join(
    (
        'node,{1},,\nstation,{2},{1},999\nedge,E{0:03},{1},{3}\nedge,F{0:03},{3},{1}\nedge,G{0:03},'
        '{1},{4}\n'
    ).format(at, node(at), station(at), node(at + 1), node(at + 2))
    for at in range(STATIONS)
)

# What a new desk is asked. KIT/0000 to KIT/0002 are ready, where A1 to A3 wait for a vehicle; the
# first has the order O1.
SET_UP = [
    calls.layout(LAYOUT),
    *(calls.vehicle(f'{at:04d}', node(5 * at)) for at in range(VEHICLES)),
    *(calls.load(f'A{at + 1}', station(5 * at)) for at in range(3)),
    *(calls.job(f'J{at + 1}', f'A{at + 1}', station(5 * at + 1)) for at in range(3)),
    *(calls.state(1, node=node(5 * at), serial=f'{at:04d}') for at in range(3)),
    calls.order('O1', 'J1', 1, '0000'),
]

# What it is asked once the file is filled: the last load, job, order and reference, a vehicle too
# many, and a state that picks A1.
LAST = [
    (calls.load('A4', 'S020'), DONE),
    (calls.job('J4', 'A4', 'S021'), DONE),
    (calls.order('O2', 'J2', 1, '0001'), (200, b'{"orderUpdateId":0}')),
    (calls.correct('L0000501', 'Q1', 'S030'), DONE),
    (calls.vehicle('0100', 'N003'), LIMIT),
    (
        calls.state(2, 'O1', node='N000', statuses=[('O1.0', 'FINISHED')], serial='0000'),
        (200, b'{"accepted":true}'),
    ),
    (calls.get_load('A1'), (200, b'{"job":"J1","load":"A1","place":"vehicle KIT/0000"}')),
    (calls.get_load('L0000501'), (200, b'{"job":null,"load":"L0000501","place":"station S030"}')),
]

# One more of each, in each way in which they come.
BEYOND = [
    calls.load('A5'),
    calls.load('A5', 'S040'),
    calls.job('J5', 'L0001017', 'S008'),
    calls.order('O3', 'J3', 1, '0002'),
    calls.correct('L0000503', 'Q2', 'S040'),
    calls.leave('L0000503', 'Q2'),
    calls.place('Q2', 'N003', '0050'),
    calls.stocktake('Q2', []),
]


def place(number: int) -> str:
    """Where the load of this number is written."""
    turn = number % PERIOD
    return station(turn) if turn < STATIONS else 'checking' if turn % 2 else 'left'


def load_row(load: str, at: str) -> Row:
    if at.startswith('KIT/'):
        return load, 'vehicle', None, *at.split('/')
    return load, *(('station', at) if at.startswith('S') else (at, None)), None, None


def job_row(number: int) -> Row:
    """The job for the load of this number: to the station behind that of its turn. The first ones
    wait, and the others have ended."""
    turn = number % PERIOD
    phase = 'waiting' if number < STATIONS else 'done' if number % 2 else 'stopped'
    return f'K{number:07d}', f'L{number:07d}', station(turn), station(turn + 1), phase


def places() -> Iterator[tuple[str, str]]:
    """Each load with its place at the end, by name."""
    yield from (('A1', 'KIT/0000'), ('A2', 'S005'), ('A3', 'S010'), ('A4', 'S020'))
    yield from (
        (f'L{number:07d}', 'S030' if number == 501 else place(number)) for number in range(MOST - 4)
    )


def jobs() -> Iterator[Row]:
    """The rows of jobs at the end, by name."""
    for number, phase in enumerate(('riding', 'riding', 'waiting')):
        yield f'J{number + 1}', f'A{number + 1}', station(5 * number), station(
            5 * number + 1
        ), phase
    yield 'J4', 'A4', 'S020', 'S021', 'waiting'
    yield from map(job_row, range(MOST - 4))


def used() -> Iterator[Row]:
    """The names of orders and the references at the end, by kind and name."""
    yield from (
        ('order', 'O1'),
        ('order', 'O2'),
        *(('order', f'P{number:07d}') for number in range(MOST - 2)),
    )
    yield from (('ref', 'Q1'), *(('ref', f'R{number:07d}') for number in range(MOST - 1)))


def fill(db: str) -> None:
    """Writes the rows that are there at the end but for those that the desk makes."""
    with contextlib.closing(sqlite3.connect(db)) as base:
        base.executescript('PRAGMA synchronous = OFF; PRAGMA cache_size = -500000')
        with base:
            base.executemany(
                'INSERT INTO load VALUES (?, ?, ?, ?, ?)',
                (load_row(f'L{number:07d}', place(number)) for number in range(MOST - 4)),
            )
            base.executemany(
                'INSERT INTO job VALUES (?, ?, ?, ?, ?)', map(job_row, range(MOST - 4))
            )
            base.executemany(
                'INSERT INTO used VALUES (?, ?)',
                (row for row in used() if row[1] not in ('O1', 'O2', 'Q1')),
            )


def stock() -> bytes:
    here: dict[str, list[str]] = {}
    for load, at in places():
        here.setdefault(at, []).append(f'  {load}\n')
    heads = {
        'checking': 'checking: %d\n',
        **{f'KIT/{at:04d}': f'vehicle KIT/{at:04d}: %d\n' for at in range(VEHICLES)},
    }
    coming = {station(at): 1 for at in range(STATIONS)} | {
        at: 2 for at in ('S001', 'S006', 'S011', 'S021')
    }
    heads = {
        at: f'station {at} at N{at[1:]}: %d of 999, reserved {coming[at]}\n'
        for at in sorted(coming)
    } | heads
    told = (head % len(here.get(at, ())) + ''.join(here.get(at, ())) for at, head in heads.items())
    return (''.join(told) + f'left: {len(here["left"])}\n').encode()


def export() -> bytes:
    words = {'S': 'station,%s', 'K': 'vehicle,%s'}
    told = (
        load + ',' + (words[at[0]] % at if at[0] in words else at + ',') + '\n'
        for load, at in places()
    )
    return ('load,place,at\n' + ''.join(told)).encode()


def jobs_export() -> bytes:
    carriers = {'J1': 'KIT,0000,O1', 'J2': 'KIT,0001,O2'}
    told = (
        ','.join([*map(str, row), carriers.get(str(row[0]), ',,')])
        for row in jobs()
        if row[-1] in ('waiting', 'riding')
    )
    return '\n'.join(['job,load,from,to,phase,manufacturer,serialNumber,order', *told, '']).encode()


def vehicles_export() -> bytes:
    """Three vehicles have reported, of which the first two have orders of one edge, and the second
    has not named its own yet."""
    heads = {
        0: 'true,false,false,2,,O1,0,0,1,1,0,,',
        1: 'true,false,false,1,,O2,0,,1,1,0,,',
        2: 'true,false,false,1,,,,,,,,,',
    }
    told = (
        f'KIT,{at:04d},{node(5 * at)},1,{heads.get(at, "false,false,false,,,,,,,,,,")}'
        for at in range(VEHICLES)
    )
    columns = (
        'node,capacity,ready,paused,astray,headerId,pending,order,sent,confirmed,released,'
        'edges,seen,restEdge,restNode'
    )
    return '\n'.join(['manufacturer,serialNumber,' + columns, *told, '']).encode()


def layout_export() -> bytes:
    """The rows of the layout, those of each kind by name."""
    head, *rows = LAYOUT.splitlines()
    kinds = ('node', 'edge', 'station')
    return '\n'.join(
        [head, *sorted(rows, key=lambda row: (kinds.index(row.split(',')[0]), row)), '']
    ).encode()


def holds() -> bytes:
    """Each vehicle holds its node, and those with an order the edge and the node that were
    released."""
    nodes = {node(5 * at): at for at in range(VEHICLES)} | {'N001': 0, 'N006': 1}
    told = ''.join(f'node {name} KIT/{nodes[name]:04d}\n' for name in sorted(nodes))
    return (told + 'edge E000 KIT/0000\nedge E005 KIT/0001\nheld 104 of 2000\n').encode()
