"""Shows that a copy is put back by the steps of docs/OPERATE.md, whatever has happened since."""
from __future__ import annotations

import contextlib
import os
import shutil
import sqlite3
import tempfile
import unittest
from typing import Any

from tests.support.calls import advance, state
from tests.support.desks import Serving, over_sockets
from tests.support.operating import PICKED, Program, SIDING
from tests.support.records import broken, copied, rows_of
from tests.support.script_calls import job, load, ok, order, vehicle


@over_sockets
class PutBack(Program):
    """KIT/0001 has picked L1 up by the order O1 and may go on to N2, KIT/0002 stands at N4, and J2
    waits, when the file is copied. Then KIT/0001 carries L1 to B, L3 leaves, and L4 comes."""

    BEFORE = [
        ok('PUT /layout', SIDING),
        vehicle('0001', 'N1'),
        vehicle('0002', 'N4'),
        ok(*state(1)),
        ok(*state(1, node='N4', serial='0002')),
        load('L1', 'A'),
        load('L2', 'B'),
        load('L3', 'C'),
        load('L5', 'B'),
        job('J1', 'L1', 'B'),
        job('J2', 'L2', 'C'),
        order('O1', 'J1', 1),
        ok(*state(2, 'O1', statuses=PICKED)),
        ok('POST /vehicles/KIT/0001/pause', ''),
    ]
    SINCE = [
        ok(*advance('O1', 1, 1)),
        ok(*state(3, 'O1', 1, 'N3', 4, PICKED + [('O1.1', 'FINISHED'), ('instant-1', 'FINISHED')])),
        ok('POST /loads/L3/leave', {'ref': 'R1'}),
        load('L4', 'A'),
    ]
    # What stands in the warehouse then, L2 and L5 taken elsewhere by hand.
    STOCK = 'station,load\nA,L4\nA,L5\nB,L1\nC,L2\n'

    def setUp(self) -> None:
        super().setUp()
        self.write(self.BEFORE)
        self.copy = self.path('copy.db')
        base, other = sqlite3.connect(self.db), sqlite3.connect(self.copy)
        base.backup(other)
        base.close()
        other.close()
        self.rows = rows_of(self.copy)
        with Serving(self.db) as desk:
            self.done(desk, *self.SINCE)
            desk.process.kill()
            desk.process.wait(300)

    def put_back(self) -> None:
        """As step 3 of the page has it."""
        os.mkdir(self.path('aside'))
        for name in os.listdir(self.folder.name):
            if name.startswith('warehouse.db'):
                shutil.move(self.path(name), self.path('aside', name))
        shutil.copy(self.copy, self.db)

    def test_a_log_that_was_left(self) -> None:
        """With it beside the copy, others are read than the rows of the copy; without it just
        those."""
        self.assertGreater(os.path.getsize(self.db + '-wal'), 0)
        shutil.copy(self.copy, self.db)
        with tempfile.TemporaryDirectory() as folder:
            base = sqlite3.connect(copied(self.db, folder))
            try:
                found = base.execute('SELECT id, kind, station FROM load ORDER BY id').fetchall()
            except sqlite3.DatabaseError:
                found = None
            base.close()
        self.assertNotEqual(found, [row[:3] for row in self.rows['load']])
        os.remove(self.db + '-wal')
        self.assertEqual(rows_of(self.db), self.rows)

    def test_what_a_gateway_would_fetch(self) -> None:
        """The order and the pause of the copy, as long as the vehicle isn't placed. And what it
        reports of an earlier instant-1 ends the one of the copy."""
        self.put_back()
        with Serving(self.db) as desk:
            self.assertEqual(self.ask(desk, 'GET /uagv/v2/KIT/0001/order')[1]['orderId'], 'O1')
            self.assertEqual(self.ask(desk, 'GET /uagv/v2/KIT/0001/instantActions')[0], 200)
            self.assertEqual(self.ask(desk, 'GET /vehicles/KIT/0001')[1]['pending'], 'startPause')
            self.done(desk, state(4, 'O1', 0, 'N1', 0, PICKED + [('instant-1', 'FINISHED')]))
            self.assertIsNone(self.ask(desk, 'GET /vehicles/KIT/0001')[1]['pending'])
            self.done(desk, ok('POST /vehicles/KIT/0001/place', {'ref': '1127-R1', 'node': 'N3'}))
            self.assertEqual(self.ask(desk, 'GET /uagv/v2/KIT/0001/order'), (204, ''))

    def test_all_steps(self) -> None:
        """The vehicles have changed places since: KIT/0001 stands at N4 and KIT/0002 at N1."""
        self.put_back()
        with contextlib.closing(sqlite3.connect(self.db)) as base:
            jobs = base.execute("SELECT id FROM job WHERE phase = 'waiting'")
            waiting = [row[0] for row in jobs]
        self.assertEqual(waiting, ['J2'])
        refs = (f'1127-R{number}' for number in range(1, 100))

        def place(serial: str, node: str) -> Any:
            return ok(f'POST /vehicles/KIT/{serial}/place', {'ref': next(refs), 'node': node})

        with Serving(self.db) as desk:
            self.done(
                desk,
                *[ok(f'POST /vehicles/KIT/{serial}/resync', '') for serial in ('0001', '0002')],
            )
            self.refused(desk, place('0001', 'N4'), 'Held', by='KIT/0002', what='node N4')
            self.refused(desk, place('0002', 'N1'), 'Held', by='KIT/0001', what='node N1')
            self.done(desk, place('0001', 'N3'), place('0002', 'N1'), place('0001', 'N4'))
            self.assertEqual(
                self.ask(desk, 'GET /report/holds')[1],
                'node N1 KIT/0002\nnode N4 KIT/0001\nheld 2 of 10\n',
            )
            self.refused(desk, ok('POST /stocktakes/1127-R50', self.STOCK), 'OnVehicle')
            self.done(desk, ok('POST /loads/L1/correct', {'ref': next(refs)}))
            self.refused(desk, ok('POST /stocktakes/1127-R50', self.STOCK), 'InJob')
            self.done(desk, *[ok('DELETE /jobs/' + name) for name in waiting])
            self.assertEqual(
                self.ask(desk, 'POST /stocktakes/1127-R50', self.STOCK),
                (200, {'moved': 4, 'unknown': ['L4']}),
            )
            self.done(desk, load('L4', 'A'), ok('POST /loads/L3/leave', {'ref': next(refs)}))
            self.assertEqual(
                self.ask(desk, 'GET /export/loads')[1],
                'load,place,at\nL1,station,B\nL2,station,C\nL3,left,\nL4,station,A\nL5,station,A\n',
            )
            self.done(desk, state(1, node='N1', serial='0002'), state(1, node='N4'))
            self.done(desk, job('1127-J1', 'L4', 'B'), order('1127-O1', '1127-J1', 2, '0002'))
        self.assertEqual(broken(rows_of(self.db)), [])


if __name__ == '__main__':
    unittest.main()
