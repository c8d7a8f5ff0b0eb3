"""Shows that the reports and exports of 500 full stations and 100,000 loads are, to the byte,
those that loops write out here.

Another SQLite writes the loads and jobs. Each 501st load is at the checking place, and each
other one has a job that waits, to the next station."""
import collections
import os
import sqlite3
import tempfile
import unittest
from collections.abc import Iterator
from typing import Any

from tests.support.calls import REPORTS, Call, request
from tests.support.records import FOLDER
from tests.support.answers import answers_of
from tests.support.desks import AT, run

STATIONS, LOADS = 500, 100_000
VEHICLES = (
    b'manufacturer,serialNumber,node,capacity,ready,paused,astray,headerId,pending,order,sent,'
    b'confirmed,released,edges,seen,'
    b'restEdge,restNode\n'
)
LAYOUT = 'kind,id,from,to\nnode,N1,,\n' + ''.join(
    f'station,S{at:03d},N1,999\n' for at in range(STATIONS)
)


def place_of(number: int) -> Any:
    """The station of a load by its number; none where it is at the checking place."""
    turn = number % (STATIONS + 1)
    return f'S{turn:03d}' if turn < STATIONS else None


def jobs() -> Iterator[Any]:
    """The row of each job, by name."""
    for number in range(LOADS):
        if place_of(number):
            target = f'S{(number % (STATIONS + 1) + 1) % STATIONS:03d}'
            yield f'J{number:06d}', f'L{number:06d}', place_of(number), target, 'waiting'


def stock() -> bytes:
    here: dict[Any, Any] = {}
    coming = collections.Counter(target for _, _, _, target, _ in jobs())
    for number in range(LOADS):
        here.setdefault(place_of(number), []).append(f'  L{number:06d}\n')
    lines: list[str] = []
    for station in [f'S{at:03d}' for at in range(STATIONS)]:
        loads, reserved = here[station], coming[station]
        lines += [f'station {station} at N1: {len(loads)} of 999, reserved {reserved}\n', *loads]
    lines += [f'checking: {len(here[None])}\n', *here[None], 'left: 0\n']
    return ''.join(lines).encode()


def export() -> bytes:
    places = ((number, place_of(number)) for number in range(LOADS))
    return (
        'load,place,at\n'
        + ''.join(
            f'L{number:06d},{"station," + place if place else "checking,"}\n'
            for number, place in places
        )
    ).encode()


def jobs_export() -> bytes:
    return (
        'job,load,from,to,phase,manufacturer,serialNumber,order\n'
        + ''.join(','.join(row) + ',,,\n' for row in jobs())
    ).encode()


class LargeReports(unittest.TestCase):
    def test_all_stations_full(self) -> None:
        with tempfile.TemporaryDirectory(dir=FOLDER) as folder:
            db = os.path.join(folder, 'large.db')
            self.assertEqual(
                run('replay', '--db', db, '--at', AT, stdin=request('PUT /layout', LAYOUT))[::2],
                (0, b''),
            )
            base = sqlite3.connect(db, isolation_level=None)
            base.execute('BEGIN')
            base.executemany(
                'INSERT INTO load VALUES (?, ?, ?, NULL, NULL)',
                (
                    (
                        f'L{number:06d}',
                        'station' if place_of(number) else 'checking',
                        place_of(number),
                    )
                    for number in range(LOADS)
                ),
            )
            base.executemany('INSERT INTO job VALUES (?, ?, ?, ?, ?)', jobs())
            base.execute('COMMIT')
            base.close()
            status, out, said = run(
                'replay',
                '--db',
                db,
                '--at',
                AT,
                stdin=b''.join(map(Call.to_bytes, REPORTS)),
                limit=300,
            )
            self.assertEqual((status, said), (0, b''))
            found, left = answers_of(out)
            self.assertEqual(
                (left, [answer.status for answer in found]), (b'', [200] * len(REPORTS))
            )
            bodies = stock(), b'held 0 of 1\n', export(), jobs_export(), VEHICLES, LAYOUT.encode()
            for answer, body in zip(found, bodies, strict=True):
                self.assertTrue(answer.body == body)
            self.assertTrue(run('report', '--db', db, 'stock') == (0, stock(), b''))


if __name__ == '__main__':
    unittest.main()
