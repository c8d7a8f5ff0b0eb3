"""Shows a day at a plant with `tools/ask` alone."""
from __future__ import annotations

import os
import unittest

from tests.support.asking import Asking, PLANT
from tests.support.desks import DESK, over_sockets
from tests.support.programs import matched, ran

# The stock at the end of the day.
COUNTED = (
    'station A at N1: 1 of 3, reserved 0\n  L6\nstation B at N3: 2 of 3, reserved 0\n  L1\n'
    '  L5\nstation C at N4: 2 of 2, reserved 0\n  L2\n  L3\nchecking: 0\nvehicle KIT/0001:'
    ' 0\nvehicle KIT/0002: 0\nleft: 1\n'
)


@over_sockets
class ADay(Asking):
    def test_a_day_at_a_plant(self) -> None:
        """Two vehicles, of which KIT/0002 carries two loads, and six loads. The stations are
        counted, and a copy of the file is put back."""
        self.begin_the_day()
        self.carry_two_loads_in_one_order()
        self.cancel_an_order_on_the_way()
        self.count_the_stations()
        self.put_a_copy_back()

    def begin_the_day(self) -> None:
        self.serve()
        self.ask('set-layout', self.file('layout.csv', PLANT))
        self.ask('register-vehicle KIT/0001 --node N3')
        self.ask('register-vehicle KIT/0002 --node N1 --capacity 2')
        for number, station in enumerate('AAABB', 1):
            self.ask(f'register-load L{number} --station {station}')
        self.ask('register-load L6')
        self.state(1, node='N3')
        self.state(1, '0002')

    def carry_two_loads_in_one_order(self) -> None:
        """KIT/0002 takes L2 and L3 from A to C."""
        for job, to in (('J2', 'C'), ('J3', 'C')):
            self.ask(f'add-job {job} --load L{job[1]} --to {to}')
        waiting = {
            'job': 'J2',
            'load': 'L2',
            'from': 'A',
            'to': 'C',
            'phase': 'waiting',
            'vehicle': None,
            'order': None,
        }
        self.assertEqual(self.json('jobs'), [waiting, {**waiting, 'job': 'J3', 'load': 'L3'}])
        self.ask('order O1 --vehicle KIT/0002 --pick J2 --pick J3 --drop J2 --drop J3 --edges 1')
        self.assertEqual(
            self.json('jobs')[0],
            {**waiting, 'phase': 'riding', 'vehicle': 'KIT/0002', 'order': 'O1'},
        )
        self.state(2, '0002', 'O1', 0, 'N2', 2, '01')
        self.assertEqual(
            self.json('loads --vehicle KIT/0002'),
            [
                {'load': 'L2', 'place': 'vehicle KIT/0002'},
                {'load': 'L3', 'place': 'vehicle KIT/0002'},
            ],
        )
        self.assertEqual(self.json('advance KIT/0002 --all'), {'order': 'O1', 'orderUpdateId': 1})
        self.assertEqual(
            {row['thing'] for row in self.json('held --vehicle KIT/0002')},
            {'node N2', 'edge E24', 'node N4'},
        )
        self.state(3, '0002', 'O1', 1, 'N4', 4, '0123')
        self.assertEqual((self.json('orders'), self.json('jobs')), ([], []))

    def cancel_an_order_on_the_way(self) -> None:
        """KIT/0001 takes L1 from A, and is placed anew; a person brings the load to B."""
        self.ask('add-job J1 --load L1 --to B')
        self.ask('order O2 --vehicle KIT/0001 --job J1 --edges 1')
        self.assertEqual(self.json('orders')[0]['edges_left'], 3)
        self.state(2, '0001', 'O2', 0, 'N2', 2)
        self.ask('advance KIT/0001')
        self.state(3, '0001', 'O2', 1, 'N1', 4, '0')
        self.ask('advance KIT/0001 --edges 2')
        self.ask('cancel KIT/0001')
        self.state(4, '0001', 'O2', 2, 'N2', 6, ['0', 'instant-1'])
        self.assertEqual(
            [self.json('vehicle KIT/0001')[name] for name in ('astray', 'order')], [True, None]
        )
        self.assertEqual(self.json('vehicles')[0]['rest'], ['E23', 'N3'])
        self.ask('place KIT/0001 --node N3')
        self.assertEqual(
            self.json('load L1'), {'name': 'L1', 'place': 'vehicle KIT/0001', 'job': None}
        )
        self.ask('correct L1 --station B')

    def count_the_stations(self) -> None:
        count = self.file('count.csv', 'station,load\nA,L6\nB,L1\nB,L5\nC,L2\nC,L3\n')
        address = self.env['NULVRADER_DESK']
        ends, out, _ = ran('check-count', count, '--desk', address)
        self.assertEqual(
            (ends, out.splitlines()[:2]),
            (
                0,
                [
                    'line 2: load L6 would move from checking to station A',
                    'load L4 would move from station B to checking',
                ],
            ),
        )
        taken = self.json('stocktake ' + count)
        self.assertEqual((taken['moved'], taken['unknown']), (2, []))
        self.ask('leave L4')
        self.assertEqual(self.ask('stock-report'), COUNTED)

    def put_a_copy_back(self) -> None:
        """A load that came after the copy is gone."""
        self.stop()
        ends, out, said = ran('backup', '--db', self.db, '--to', self.folder, '--program', DESK)
        self.assertEqual((ends, said), (0, ''))
        copy = matched(r'\A(.*): 6 loads', out)[1]
        self.serve()
        self.ask('register-load L7 --station A')
        self.stop()
        for end in ('', '-wal', '-shm'):
            if os.path.exists(self.db + end):
                os.remove(self.db + end)
        os.rename(copy, self.db)
        self.serve()
        self.assertEqual(self.ask('stock-report'), COUNTED)
        self.ask('resync KIT/0001')
        self.ask('place KIT/0001 --node N3')
        self.assertEqual(self.ask('who-waits'), 'no vehicle waits for another one\n')


if __name__ == '__main__':
    unittest.main()
