"""Shows, over the real program, the orders and ways of drives on the board, the look at a cancel,
and what is too far."""

from __future__ import annotations

import unittest
from typing import Any

from tests.support.board_run import ONE, TWO, Plant, Watching, has_loopback, until
from nulvrader.common.names import VehicleKey


class Drives(Watching):
    def test_a_drive(self) -> None:
        """KIT/0001 drives from N1 to N4, and stops before KIT/0002."""
        self.plant.vehicle(TWO, 'N4')
        self.desk.start_drive('G1', ONE, 'N4', 1)
        self.said('Order G1 of KIT/0001, 2 edges: drive to N4')
        started = "SELECT cause, call FROM events WHERE what = 'order.started'"
        self.rows(started, [('client', 'drive')])
        way = self.wait('way', 'KIT/0001', order='G1')
        self.assertEqual((way['nodes'], way['acts']), (['N1', 'N2', 'N4'], []))
        self.wait('vehicle', 'KIT/0001', order_name='G1', seen=0, base=1, edges=2)
        self.wait('wait', 'KIT/0001', kind='node', name='N4', by='KIT/0002')
        self.plant.state(ONE, 'N2', 'G1', 0, 2)
        self.wait('vehicle', 'KIT/0001', node='N2', seen=1, confirmed=0)
        told = self.board.do('cancel', vehicle='KIT/0001')
        self.assertEqual(told.get('done'), True, told)
        says = [
            'KIT/0001 is told to cancel its order G1, and stops as soon as it can.',
            'Where it stops before the last released node, a person has to look where it stands and'
            ' place it.',
        ]
        self.assertEqual(told['says'], says)


@unittest.skipUnless(has_loopback(), 'no sockets on 127.0.0.1 here')
class FarDrives(unittest.TestCase):
    """Drives over a row of 211 edges that lead one way only, on which other vehicles stand."""

    def setUp(self) -> None:
        nodes = ''.join(f'node,N{n},,\n' for n in range(212))
        edges = ''.join(f'edge,E{n},N{n},N{n + 1}\n' for n in range(211))
        self.plant = Plant(f'kind,id,from,to\n{nodes}{edges}')
        self.addCleanup(self.plant.close)
        self.plant.vehicle(ONE, 'N0')
        for n in range(12):
            self.plant.desk.register_vehicle(VehicleKey('KIT', f'1{n:03}'), f'N{n + 100}')
        self.board = self.plant.board()
        until(lambda: self.board.get('hold', 'node N111'), 'the vehicles')

    def drive(self, node: str, vehicle: str = 'KIT/0001') -> dict[str, Any]:
        return self.board.do('drive', vehicle=vehicle, node=node, edges='0', order='G1')

    def test_what_is_too_far(self) -> None:
        told = self.drive('N201')
        self.assertEqual((told['done'], told['refusal']), (False, 'TooLong'))
        self.assertEqual(
            told['warns'], ['The way has 201 edges, and 200 at most are allowed.'], told
        )
        self.assertLess(max(len(words) for words in told['says']), 100)
        self.assertEqual(self.drive('N200')['done'], True)

    def test_where_no_way_leads(self) -> None:
        told = self.drive('N99', 'KIT/1000')
        self.assertEqual((told['done'], told['refusal']), (False, 'NotReady'))
        self.assertIn('No way leads from N100 to N99.', told['warns'])
        self.plant.state(VehicleKey('KIT', '1000'), 'N100')
        until(lambda: self.board.get('vehicle', 'KIT/1000')['ready'], 'it is ready')
        told = self.drive('N99', 'KIT/1000')
        self.assertEqual((told['done'], told['refusal']), (False, 'NoWalk'))
        self.assertEqual(told['warns'], ['No way leads from N100 to N99.'])

    def test_many_that_are_in_the_way(self) -> None:
        """Ten of them are named, and how many more there are."""
        look = self.board.post(
            '/look', 'drive', vehicle='KIT/0001', node='N150', edges='free', order='G1'
        )
        held = [f'On the way KIT/1{n:03} holds node N{n + 100}.' for n in range(10)]
        self.assertEqual(look['says'][2:13], [*held, 'And 2 more.'])
        self.assertEqual((look['values']['edges'], look['warns']), ('99', []))


if __name__ == '__main__':
    unittest.main()
