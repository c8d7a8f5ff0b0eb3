"""Files of a desk that are filled, and damaged."""
import random
from collections.abc import Sequence
from typing import Any

from tests.support.calls import state
from tests.support.faults import lines
from tests.support.script_calls import accepted, drive, job, load, ok, order, vehicle

PAGE = 512  # bytes of a page of a new file
NODES = range(1, 9)
LAYOUT = (
    'kind,id,from,to\n'
    + ''.join(f'node,N{n},,\n' for n in NODES)
    + ''.join(
        f'edge,E{n}{n + 1},N{n},N{n + 1}\nedge,E{n + 1}{n},N{n + 1},N{n}\n' for n in NODES[:-1]
    )
    + ''.join(f'station,{name},N{n},2\n' for name, n in (('A', 1), ('B', 3), ('C', 5), ('D', 8)))
)
FINISHED = 'FINISHED'

# Each table but `trip`, which stays empty, gets rows of each kind: a load at each kind of place, a
# job of each phase, an open trip, a vehicle that left its order on the way, one whose action is
# pending and which carries up to three, and used names.
FILLED = [
    ok('PUT /layout', LAYOUT),
    vehicle('0001', 'N1'),
    vehicle('0002', 'N7'),
    vehicle('0003', 'N6', 3),
    accepted(state(1)),
    accepted(state(1, node='N7', serial='0002')),
    accepted(state(1, node='N6', serial='0003')),
    load('L1', 'A'),
    load('L2', 'D'),
    load('L3'),
    load('L4'),
    load('L5', 'A'),
    load('L6', 'B'),
    ok('POST /loads/L4/leave', {'ref': 'R1'}),
    job('J1', 'L1', 'B'),
    order('O1', 'J1', 2),
    accepted(
        state(2, 'O1', node='N3', sequence=4, statuses=[('O1.0', FINISHED), ('O1.1', FINISHED)])
    ),
    job('J2', 'L1', 'C'),
    order('O2', 'J2', 1),
    accepted(state(3, 'O2', node='N3', statuses=[('O2.0', FINISHED)])),
    job('J3', 'L2', 'C'),
    order('O3', 'J3', 1, '0002'),
    ok('POST /vehicles/KIT/0002/cancel', '', '{"actionId":"instant-1"}'),
    accepted(state(2, 'O3', node='N7', statuses=[('instant-1', FINISHED)], serial='0002')),
    ok('POST /vehicles/KIT/0003/pause', '', '{"actionId":"instant-1"}'),
    job('J5', 'L5', 'B'),
    job('J4', 'L6', 'C'),
    ok('DELETE /jobs/J4'),
]

# Behind these, KIT/0003 is on its way to N4, and has come to the end of what is released to it.
DRIVEN = [
    drive('G1', 'N4', 1, '0003'),
    accepted(state(2, 'G1', node='N5', sequence=2, serial='0003')),
]


def asked(script: Sequence[Any]) -> bytes:
    return b''.join(lines([(*line, None, None)[:4] for line in script]))


def damaged(data: bytes, chance: random.Random, used: int = 0) -> bytes:
    """The bytes with one change, in the front that is used where there is one."""
    data, used = bytearray(data), used or len(data)
    kind, at = chance.randrange(6), chance.randrange(used)
    if kind in (0, 1):
        data[at] ^= 1 << chance.randrange(8) if kind == 0 else chance.randrange(1, 256)
    elif kind == 2:
        data[at : at + 16] = chance.randbytes(len(data[at : at + 16]))
    elif kind == 3:
        page = at // PAGE * PAGE
        part = len(data[page : page + PAGE])
        data[page : page + PAGE] = chance.choice((bytes(part), chance.randbytes(part)))
    elif kind == 4:
        one, other = at // PAGE * PAGE, chance.randrange(used) // PAGE * PAGE
        data[one : one + PAGE] = data[other : other + PAGE]
    else:
        size = chance.choice((1, PAGE, 4096))
        del data[at // size * size :]
    return bytes(data)


# Tables that aren't a desk's: one is missing, has another column or another rule, or is another's
# foreign key; or all is as in the first schema.
SHAPES = [
    'DROP TABLE used',
    'DROP TABLE trip',
    'DROP TABLE act',
    (
        'DROP TABLE capacity; CREATE TABLE capacity (manufacturer TEXT, serial TEXT, capacity'
        ' INTEGER, PRIMARY KEY (manufacturer, serial)) STRICT'
    ),
    (
        "DROP TABLE capacity; DROP TABLE journey; DROP TABLE act; UPDATE meta SET schema = 1;"
        " INSERT INTO trip VALUES ('O2', 'KIT', '0001', 'J2', 'N3', 0, 1, 0, 0, 0, 0, 2,"
        " 'FINISHED', 'WAITING')"
    ),
    'DROP TABLE used; CREATE TABLE used (kind TEXT, id TEXT, PRIMARY KEY (kind, id))',
    (
        'DROP TABLE used; CREATE TABLE used (kind TEXT, id TEXT, at INTEGER, PRIMARY KEY (kind,'
        ' id)) STRICT'
    ),
    'CREATE TABLE other (a TEXT REFERENCES load (id))',
]
