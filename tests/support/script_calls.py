"""Calls of the scripts, each with the answer that is expected; calls with which scripts begin; and
the answers of an output, read."""
from __future__ import annotations

import json
from collections.abc import Iterable, Sequence
from typing import Any

from tests.support import calls
from tests.support.calls import Asked, state

LAYOUT = (
    'kind,id,from,to\nnode,N1,,\nnode,N2,,\nnode,N3,,\nedge,E12,N1,N2\nedge,E21,N2,N1\nedge,E23,'
    'N2,N3\nedge,E32,N3,N2\n'
    'station,A,N1,1\nstation,B,N3,1\nstation,C,N3,2\n'
)

# A request, its body, and the status and the body of the answer.
Case = tuple[str, object, int, str]


def ok(request: str, body: object = None, told: str = '{}') -> Case:
    return request, body, 200, told


def refused(request: str, body: object, status: int, name: str, number: int) -> Case:
    return request, body, status, f'{{"name":"{name}","refusal":{number}}}'


def accepted(said: Asked, told: str = '{"accepted":true}') -> Case:
    return said[0], said[1], 200, told


def refused_state(said: Asked, status: int, name: str, number: int) -> Case:
    return refused(said[0], said[1], status, name, number)


def vehicle(serial: str, node: str, capacity: int | None = None) -> Case:
    return ok(*calls.vehicle(serial, node, capacity))


def load(name: str, station: str | None = None) -> Case:
    return ok(*calls.load(name, station))


def job(name: str, of: str, to: str) -> Case:
    return ok(*calls.job(name, of, to))


def order(name: str, of: str, edges: int, serial: str = '0001') -> Case:
    return ok(*calls.order(name, of, edges, serial), '{"orderUpdateId":0}')


def drive(name: str, to: str, edges: int, serial: str = '0001') -> Case:
    return ok(*calls.drive(name, to, edges, serial), '{"orderUpdateId":0}')


def refused_drive(
    name: str,
    number: int,
    order: str = 'G9',
    to: str = 'N3',
    edges: int = 1,
    status: int = 409,
    serial: str = '0001',
    **more: Any,
) -> Case:
    """A drive that is refused; `more` is what the answer tells besides."""
    told = {'name': name, 'refusal': number, **more}
    text = json.dumps(told, sort_keys=True, separators=(',', ':'))
    return *calls.drive(order, to, edges, serial), status, text


def order_over(name: str, stops: Iterable[str], edges: int, serial: str) -> calls.Call:
    """An order over several jobs; `stops` are words as `pick J1`."""
    return calls.order_of_stops(name, [stop.split() for stop in stops], edges, serial)


def stands(name: str, place: str, of: str | None = None) -> Case:
    return ok(
        'GET /loads/' + name,
        None,
        json.dumps({'job': of, 'load': name, 'place': place}, separators=(',', ':')),
    )


def phase(
    name: str,
    of: str,
    origin: str,
    to: str,
    told: str,
    on: str | None = None,
    vehicle: str | None = None,
) -> Case:
    """What is told of a job, by the order that has it and its vehicle while it rides."""
    body = {
        'from': origin, 'job': name, 'load': of, 'order': on, 'phase': told, 'to': to,
        'vehicle': vehicle,
    }  # fmt: skip
    return ok(*calls.get_job(name), json.dumps(body, separators=(',', ':')))


def export(kind: str, *rows: str) -> Case:
    heads = {
        'loads': 'load,place,at',
        'jobs': 'job,load,from,to,phase,manufacturer,serialNumber,order',
        'layout': 'kind,id,from,to',
        'vehicles': 'manufacturer,serialNumber,node,capacity,ready,paused,astray,headerId,pending,'
        'order,sent,confirmed,released,edges,seen,restEdge,restNode',
    }
    return ok('GET /export/' + kind, None, ''.join(row + '\n' for row in (heads[kind], *rows)))


def holds(*lines: str, of: int = 7) -> Case:
    return ok(
        'GET /report/holds',
        None,
        ''.join(line + '\n' for line in lines) + f'held {len(lines)} of {of}\n',
    )


READY = [ok('PUT /layout', LAYOUT), vehicle('0001', 'N1'), accepted(state(1))]
AT_A = READY + [load('L1', 'A')]
FIRST_EDGE = AT_A + [job('J1', 'L1', 'B'), order('O1', 'J1', 1)]
BOTH_EDGES = AT_A + [job('J1', 'L1', 'B'), order('O1', 'J1', 2)]
CANCELLED = FIRST_EDGE + [ok('POST /vehicles/KIT/0001/cancel', '', '{"actionId":"instant-1"}')]
FINISHED = [('O1.0', 'FINISHED'), ('O1.1', 'FINISHED')]
FOR_TWO = [ok('PUT /layout', LAYOUT), vehicle('0003', 'N1', 2), accepted(state(1, serial='0003'))]
TWO_LOADS = FOR_TWO + [
    load('L1', 'A'),
    load('L2', 'C'),
    job('J1', 'L1', 'C'),
    job('J2', 'L2', 'B'),
    ok(
        *order_over('O5', ['pick J1', 'pick J2', 'drop J1', 'drop J2'], 2, '0003'),
        '{"orderUpdateId":0}',
    ),
    accepted(
        state(
            2,
            'O5',
            node='N3',
            sequence=4,
            serial='0003',
            statuses=[
                ('O5.0', 'FINISHED'),
                ('O5.1', 'FINISHED'),
                ('O5.2', 'FINISHED'),
                ('O5.3', 'RUNNING'),
            ],
        )
    ),
    stands('L1', 'station C'),
    stands('L2', 'vehicle KIT/0003', 'J2'),
    job('J3', 'L1', 'A'),
]
THREE_NODES = [
    ok('PUT /layout', LAYOUT),
    vehicle('0002', 'N3'),
    accepted(state(1, node='N3', serial='0002')),
]


def bytes_of(line: Sequence[Any]) -> bytes:
    return calls.request(*line[:2])


# Two registrations, and a third of whose body of 13 bytes there are 5.
CUT = [bytes_of(load('L1')), bytes_of(load('L2')), bytes_of(load('L1'))[:-8]]


def answers_of(data: bytes) -> Any:
    """The answers of an output, each its status and its body; none where the last one lacks
    bytes."""
    found, at = [], 0
    while at < len(data):
        end = data.find(b'\r\n\r\n', at)
        if end < 0:
            return None
        length = 0
        for line in data[at:end].split(b'\r\n')[1:]:
            if line.lower().startswith(b'content-length:'):
                length = int(line.split(b':')[1])
        if end + 4 + length > len(data):
            return None
        found.append((int(data[at + 9 : at + 12]), data[end + 4 : end + 4 + length].decode()))
        at = end + 4 + length
    return found
