"""Shows that a file is left for a new one by the steps of docs/OPERATE.md."""
from __future__ import annotations

import os
import subprocess
import sys
import unittest
from typing import Any

from tests.support.calls import state
from tests.support.desks import Serving, over_sockets
from tests.support.operating import PICKED, Program, SIDING, TOOLS
from tests.support.records import broken, export_of_rows, rows_of
from tests.support.script_calls import job, load, ok, order, vehicle


@over_sockets
class NewFile(Program):
    OLD = [
        ok('PUT /layout', SIDING),
        vehicle('0001', 'N1', 2),
        vehicle('0002', 'N4'),
        ok(*state(1)),
        ok(*state(1, node='N4', serial='0002')),
        load('L1', 'A'),
        load('L2', 'B'),
        load('L3', 'C'),
        load('L4'),
        load('L5'),
        job('J1', 'L1', 'B'),
        order('O1', 'J1', 2),
        ok(*state(2, 'O1', node='N3', sequence=4, statuses=PICKED + [('O1.1', 'FINISHED')])),
        ok('POST /loads/L5/leave', {'ref': 'R1'}),
        job('J2', 'L2', 'A'),
        job('J3', 'L3', 'A'),
        ok('DELETE /jobs/J3'),
    ]

    def carry(self, desk: Any) -> tuple[Any, Any, Any]:
        old = self.path('old.db')
        line = [
            sys.executable,
            os.path.join(TOOLS, 'new-file'),
            '--from',
            old,
            '--desk',
            f'127.0.0.1:{desk.port}',
        ]
        done = subprocess.run(line, capture_output=True, text=True, timeout=600)
        return done.returncode, done.stdout, done.stderr

    def test_a_new_file(self) -> None:
        """It has the layout, the vehicles, the loads that have not left and the jobs that wait;
        carried over once more, nothing changes. What others have put there is told."""
        self.write(self.OLD, self.path('old.db'))
        with Serving(self.db) as desk:
            for before in (0, 8):
                told = (
                    f'8 calls, {before} of them done before: the new desk has what the file has\n'
                )
                self.assertEqual(self.carry(desk), (0, told, ''))
            self.done(desk, state(1, node='N3'), order('O2', 'J2', 1))
            self.done(
                desk, ok('POST /vehicles/KIT/0001/place', {'ref': 'R1', 'node': 'N3'}), load('L9')
            )
            status, out, said = self.carry(desk)
            wanted = (
                "new-file: GET /export/loads of the new desk has 'L9,checking,', and not 'the"
                " end'\n"
            )
            self.assertEqual((status, out, said), (1, '', wanted))
        old, new = rows_of(self.path('old.db')), rows_of(self.db)
        self.assertEqual((broken(old), broken(new)), ([], []))
        for table in ('node', 'edge', 'station', 'capacity'):
            self.assertEqual(new[table], old[table])
        self.assertEqual([row[:3] for row in new['vehicle']], [row[:3] for row in old['vehicle']])
        wanted = export_of_rows(old).replace('L5,left,\n', 'L9,checking,\n')
        self.assertEqual(export_of_rows(new), wanted)
        self.assertEqual([row[0] for row in new['job']], ['J2'])

    def test_what_is_in_the_way(self) -> None:
        """An order, an instant action, a vehicle astray, and a load on a vehicle: nothing is
        begun."""
        self.write(
            [
                *self.OLD,
                order('O2', 'J2', 1),
                ok(*state(3, 'O2', node='N3', statuses=[('O2.0', 'FINISHED')])),
                ok('POST /vehicles/KIT/0002/pause', ''),
            ],
            self.path('old.db'),
        )
        with Serving(self.db) as desk:
            status, out, said = self.carry(desk)
            self.assertEqual((status, out), (1, ''))
            self.assertEqual(
                said.splitlines(),
                [
                    'new-file: nothing is begun:',
                    'vehicle KIT/0001 has the order O2',
                    'vehicle KIT/0002 is told to startPause',
                    'load L2 is on vehicle KIT/0001',
                ],
            )
            self.write(
                [
                    ok('POST /vehicles/KIT/0001/cancel', ''),
                    ok(*state(4, 'O2', node='N3', statuses=[('instant-1', 'FINISHED')])),
                ],
                self.path('old.db'),
            )
            self.assertIn('vehicle KIT/0001 is astray\n', self.carry(desk)[2])
            self.assertEqual(self.ask(desk, 'GET /report/stock')[1], 'checking: 0\nleft: 0\n')


if __name__ == '__main__':
    unittest.main()
