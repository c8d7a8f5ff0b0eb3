"""Rounds of requests for the measuring scripts: in each a load is registered, moved by an order
from station A to B and gone, so that the desk ends a round as it began it, but for names that are
used and the count of what has ended. Each request is answered 200, a question for a message that
isn't there 204."""
import sqlite3
from collections.abc import Iterator, Sequence
from typing import Any

from tests.support import calls

AT = '1700000000000'
LAYOUT = (
    'kind,id,from,to\nnode,N1,,\nnode,N2,,\nnode,N3,,\nedge,E12,N1,N2\nedge,E21,N2,N1\nedge,E23,'
    'N2,N3\nedge,E32,N3,N2\n'
    'station,A,N1,999\nstation,B,N3,999\n'
)
START = [
    calls.layout(LAYOUT).to_bytes(),
    calls.vehicle('0001', 'N1').to_bytes(),
    calls.state(1).to_bytes(),
]


def nodes_ahead(*nodes: tuple[str, int]) -> list[dict[str, Any]]:
    """Returns the nodes that a vehicle has ahead, as pairs of a name and its number on the way."""
    return [{'nodeId': name, 'sequenceId': at, 'released': True} for name, at in nodes]


class Rounds:
    """The requests of one round after the other, each with the name of its kind."""

    def __init__(self) -> None:
        self.number, self.header, self.instant = 0, 1, 0

    def next_state(
        self,
        order: str = '',
        update: int = 0,
        node: str = 'N1',
        sequence: int = 0,
        statuses: Sequence[tuple[str, str]] = (),
        ahead: Sequence[tuple[str, int]] = (),
    ) -> calls.Call:
        self.header += 1
        return calls.state(
            self.header, order, update, node, sequence, statuses, nodeStates=nodes_ahead(*ahead)
        )

    def next_instant(self) -> str:
        self.instant += 1
        return f'instant-{self.instant}'

    def round(self) -> Iterator[Any]:
        for what, call in self.calls():
            yield what, call.to_bytes()

    def calls(self) -> Iterator[Any]:
        self.number += 1
        n = self.number
        load, job, stopped, back = f'A{n:06d}', f'P{n:06d}', f'Q{n:06d}', f'R{n:06d}'
        order, second = f'O{n:06d}', f'T{n:06d}'
        picked, dropped = (order + '.0', 'FINISHED'), (order + '.1', 'FINISHED')
        yield 'register a load', calls.load(load, 'A')
        yield 'add a job', calls.job(stopped, load, 'B')
        yield 'stop a job', calls.stop_job(stopped)
        yield 'add a job', calls.job(job, load, 'B')
        yield 'start an order', calls.order(order, job, 1)
        yield 'get an order message', calls.get_order()
        yield 'a state: picked', self.next_state(order, statuses=[picked], ahead=[('N2', 2)])
        yield 'release an edge more', calls.advance(order, 1, 1)
        waits = order + '.1', 'WAITING'
        yield 'a state: at the next node', self.next_state(
            order, 1, 'N2', 2, [picked, waits], [('N3', 4)]
        )
        ended = self.next_state(order, 1, 'N3', 4, [picked, dropped])
        yield 'a state: dropped, the order ends', ended
        yield 'the same state again', ended
        yield 'add a job', calls.job(back, load, 'A')
        yield 'start an order', calls.order(second, back, 1)
        yield 'cancel an order', calls.instant('cancel')
        cancelled = self.next_instant(), 'FINISHED'
        yield 'a state: the cancel is done', self.next_state(
            second, node='N3', statuses=[cancelled], ahead=[('N2', 2)]
        )
        yield 'correct a load', calls.correct(load, f'C{n:06d}')
        yield 'get a load', calls.get_load(load)
        yield 'get the phase of a job', calls.get_job(back)
        yield 'get a vehicle', calls.get_vehicle()
        yield 'a load leaves', calls.leave(load, f'D{n:06d}')
        yield 'place a vehicle', calls.place(f'E{n:06d}', 'N1')
        yield 'pause', calls.instant('pause')
        yield 'get an instantActions message', calls.get_instant()
        yield 'a state: the pause is done', self.next_state(
            second, statuses=[(self.next_instant(), 'FINISHED')]
        )
        yield 'resume', calls.instant('resume')
        yield 'a state: resumed', self.next_state(
            second, statuses=[(self.next_instant(), 'FINISHED')]
        )
        yield 'begin anew', calls.resync()
        yield 'a state without an order', self.next_state()
        yield 'stocktake of two stations', calls.stocktake(f'F{n:06d}', [('A', ''), ('B', '')])
        for order, to in (f'V{n:06d}', 'N2'), (f'W{n:06d}', 'N1'):
            yield 'start a drive', calls.drive(order, to, 1)
            yield 'a state: the drive ends', self.next_state(order, 0, to, 2)


def fill(name: str, count: int) -> None:
    """Puts so many loads at the checking place into a desk's file, with a job each that has ended,
    as its rows."""
    base = sqlite3.connect(name)
    base.execute('PRAGMA synchronous = OFF')
    have = base.execute('SELECT count(*) FROM load').fetchone()[0]
    with base:
        base.executemany(
            "INSERT INTO load (id, kind) VALUES (?, 'checking')",
            ((f'L{i:07d}',) for i in range(have, count)),
        )
        base.executemany(
            "INSERT INTO job (id, load, origin, target, phase) VALUES (?, ?, 'A', 'B', 'done')",
            ((f'J{i:07d}', f'L{i:07d}') for i in range(have, count)),
        )
    base.close()
