"""Shows that the client makes each call of a desk, tells refusals and lost answers apart, and
answers the questions that need several calls."""
from __future__ import annotations

import os
import tempfile
import unittest
from typing import Any

from nulvrader.common import layouts
from nulvrader.desk import client, exports, messages, questions, reports
from tests.support.desks import Serving, over_sockets
from tests.support.programs import PATIENCE
from tests.support.script_calls import LAYOUT
from tests.support.states import KIT1, KIT2, told


class WithADesk(unittest.TestCase):
    """A desk with the layout, KIT/0001 at N1 and L1 at A, whose jobs and orders each test makes."""

    layout: str = LAYOUT
    capacity: int | None = None

    def setUp(self) -> None:
        folder = tempfile.TemporaryDirectory()
        self.addCleanup(folder.cleanup)
        serving = Serving(os.path.join(folder.name, 'desk.db'))
        self.addCleanup(serving.__exit__)
        self.desk = client.Desk(f'127.0.0.1:{serving.port}', timeout=PATIENCE)
        self.desk.set_layout(self.layout.encode())
        self.desk.register_vehicle(KIT1, 'N1', self.capacity)
        self.desk.register_load('L1', 'A')


@over_sockets
class OverADesk(WithADesk):
    def refused(self, call: Any, *words: Any, **named: Any) -> Any:
        with self.assertRaises(client.Refused) as caught:
            call(*words, **named)
        return caught.exception

    def test_each_call(self) -> None:
        """A transport of L1 from A to B, with every call of the client."""
        desk = self.desk
        self.assertTrue(desk.post_state(KIT1, told(1)))
        self.assertFalse(desk.post_state(KIT1, told(1)))
        desk.register_load('L2')
        desk.correct_load('L2', 'R1', 'C')
        desk.leave_load('L2', 'R2')
        desk.add_job('J0', 'L1', 'C')
        desk.stop_job('J0')
        desk.add_job('J1', 'L1', 'B')
        self.assertEqual(desk.load('L1'), client.Load('L1', 'station A', 'J1'))
        self.assertEqual(desk.jobs(), {'J1': client.Job('J1', 'L1', 'A', 'B')})
        self.assertEqual(desk.layout(), layouts.read_layout(self.layout.encode()))
        self.assertIsNone(desk.order_message(KIT1))
        self.assertEqual(desk.start_order('O1', KIT1, job='J1', edges=1), 0)
        message: Any = desk.order_message(KIT1)
        assert message
        self.assertEqual([node['nodeId'] for node in message['nodes']], ['N1', 'N2', 'N3'])
        desk.post_state(KIT1, told(2, 'O1', statuses=[('O1.0', 'FINISHED')]))
        self.assertEqual(desk.load('L1').place, 'vehicle KIT/0001')
        self.assertEqual(desk.advance(KIT1, 'O1', 1, 1), 1)
        wanted = client.Vehicle(KIT1, 'N1', 1, True, False, False, None, 'O1', 1, 0, 2)
        self.assertEqual(desk.vehicle(KIT1), wanted)
        row = client.ExportedVehicle(**vars(wanted), released=2, edges=2, seen=0, rest=None)
        self.assertEqual(desk.vehicles(), {KIT1: row})
        self.assertEqual(desk.jobs(), {'J1': client.Job('J1', 'L1', 'A', 'B', KIT1, 'O1')})
        both = [('O1.0', 'FINISHED'), ('O1.1', 'FINISHED')]
        desk.post_state(KIT1, told(3, 'O1', 1, 'N3', 4, both))
        self.assertEqual(desk.load('L1'), client.Load('L1', 'station B', None))
        self.assertIsNone(desk.instant_actions(KIT1))
        self.assertEqual(desk.pause(KIT1), 'instant-1')
        actions: Any = desk.instant_actions(KIT1)
        assert actions
        self.assertEqual(actions['actions'][0]['actionType'], 'startPause')
        desk.post_state(
            KIT1, told(4, 'O1', 1, 'N3', 4, [*both, ('instant-1', 'FINISHED')], paused=True)
        )
        self.assertEqual(desk.resume(KIT1), 'instant-2')
        self.check_the_rest(desk)

    def check_the_rest(self, desk: client.Desk) -> None:
        """An order over stops that is cancelled, a vehicle that is placed, and what is told of all
        loads."""
        desk.place(KIT1, 'R3', 'N2')
        desk.add_job('J2', 'L1', 'A')
        stops = [client.Stop('pick', 'J2'), client.Stop('drop', 'J2')]
        self.assertEqual(desk.start_order_of_stops('O2', KIT1, stops=stops, edges=1), 0)
        self.assertEqual(desk.cancel(KIT1), 'instant-3')
        desk.resync(KIT1)
        self.assertIsNone(desk.vehicle(KIT1).header)
        desk.place(KIT1, 'R4', 'N2')
        counted = desk.stocktake('R5', b'station,load\nB,\nC,L1\nC,L9\n')
        self.assertEqual(counted, client.Stocktake(1, ('L9',)))
        self.assertEqual(exports.read_loads(desk.loads_export()), {'L1': 'station C', 'L2': 'left'})
        stock = reports.read_stock(desk.stock_report())
        self.assertEqual(
            (stock.stations['C'].loads, stock.stations['C'].capacity, stock.left), (['L1'], 2, 1)
        )
        holds = reports.read_holds(desk.hold_report())
        self.assertEqual((holds.nodes, holds.edges, holds.things), ({'N2': KIT1}, {}, 7))

    def test_a_drive(self) -> None:
        """KIT/0001 has L1 from an order that was cancelled, and drives to N3 with it."""
        desk = self.desk
        desk.post_state(KIT1, told(1))
        desk.add_job('J1', 'L1', 'B')
        desk.start_order('O1', KIT1, job='J1', edges=0)
        riding = client.JobPhase('J1', 'L1', 'A', 'B', 'riding', KIT1, 'O1')
        self.assertEqual(desk.job('J1'), riding)
        desk.cancel(KIT1)
        over = [('O1.0', 'FINISHED'), ('O1.1', 'FAILED'), ('instant-1', 'FINISHED')]
        desk.post_state(KIT1, told(2, 'O1', statuses=over))
        self.assertEqual(desk.job('J1'), client.JobPhase('J1', 'L1', 'A', 'B', 'stopped'))
        self.assertEqual(desk.start_drive('G1', KIT1, 'N3', 1), 0)
        message: Any = desk.order_message(KIT1)
        assert message is not None
        drive = messages.read_order(message)
        self.assertEqual((drive.is_drive(), drive.acts(), drive.base_end()), (True, [], 'N2'))
        (row,) = questions.orders(desk)
        self.assertEqual(
            (row.order, row.released_to, row.edges_left, row.acts), ('G1', 'N2', 1, ())
        )
        desk.register_vehicle(KIT2, 'N3')
        wait = questions.BlockedOrder(KIT1, 'G1', 'N2', 'node N3', KIT2, False)
        self.assertEqual(questions.who_waits(desk), [wait])
        self.assertEqual(self.refused(desk.advance, KIT1, 'G1', 1, 1).name, 'NotConfirmed')
        desk.post_state(KIT1, told(3, 'G1', 0, 'N2', 2))
        desk.place(KIT2, 'R1', 'N1')
        self.assertEqual(desk.advance(KIT1, 'G1', 1, 1), 1)
        (row,) = questions.orders(desk)
        self.assertEqual((row.released_to, row.edges_left, row.acts), ('N3', 0, ()))
        desk.post_state(KIT1, told(4, 'G1', 1, 'N3', 4))
        vehicle = desk.vehicle(KIT1)
        self.assertEqual((vehicle.node, vehicle.order, desk.jobs()), ('N3', None, {}))
        self.assertEqual(desk.load('L1').place, 'vehicle KIT/0001')

    def test_what_is_refused_of_a_drive(self) -> None:
        desk = self.desk

        def check(
            name: str, order: str = 'G9', vehicle: Any = KIT1, to: str = 'N3', edges: int = 1
        ) -> None:
            self.assertEqual(self.refused(desk.start_drive, order, vehicle, to, edges).name, name)

        check('NotReady')
        desk.post_state(KIT1, told(1, 'O7'))
        check('NoVehicle', vehicle=KIT2)
        check('NoNode', to='N9')
        check('OrderKnown', order='O7')
        check('NoWalk', to='N1')
        check('Beyond', edges=3)
        desk.register_vehicle(KIT2, 'N2')
        check('Held')
        desk.start_drive('G1', KIT1, 'N2', 0)
        check('Exists', order='G1')
        check('Busy')
        desk.cancel(KIT1)
        desk.place(KIT2, 'R1', 'N3')
        desk.post_state(KIT1, told(2, 'G1', statuses=[('instant-1', 'FINISHED')]))
        desk.start_drive('G2', KIT1, 'N2', 1)
        desk.cancel(KIT1)
        desk.post_state(KIT1, told(3, 'G2', statuses=[('instant-2', 'FINISHED')]))
        check('Astray')
        self.assertEqual(self.refused(desk.job, 'J9').name, 'NoJob')
        for order, to, edges in (('D 1', 'N3', 1), ('G1', 'N/3', 1), ('G1', 'N3', -1)):
            with self.assertRaises(client.BadValue):
                desk.start_drive(order, KIT1, to, edges)
        with self.assertRaises(client.BadValue):
            desk.job('')

    def test_a_refusal(self) -> None:
        fault = self.refused(self.desk.register_load, 'L1')
        self.assertEqual(
            (fault.name, fault.number, fault.status, str(fault)),
            ('Exists', 30, 409, 'The name is taken'),
        )
        fault = self.refused(self.desk.register_vehicle, KIT2, 'N1')
        self.assertEqual(
            (str(fault), fault.members['what']), ('The vehicle KIT/0001 holds node N1', 'node N1')
        )
        self.assertIn('Wait until', fault.advice)

    def test_one_connection_kept(self) -> None:
        """A desk that serves one connection and no more is asked three times."""
        with tempfile.TemporaryDirectory() as folder:
            with Serving(os.path.join(folder, 'one.db'), connections=1) as serving:
                desk = client.Desk(f'http://127.0.0.1:{serving.port}/', timeout=PATIENCE)
                with desk.kept(3):
                    desk.register_load('L1')
                    self.assertEqual(self.refused(desk.register_load, 'L1').name, 'Exists')
                    self.assertEqual(desk.load('L1').place, 'checking')
                self.assertEqual(serving.process.wait(300), 0)
                with self.assertRaises(client.NoAnswer) as caught:
                    desk.load('L1')
        self.assertRegex(str(caught.exception), '^http://127.0.0.1:.*no program listens there')
        self.assertFalse(caught.exception.may_be_done)

    def test_questions(self) -> None:
        """L1 goes to B by KIT/0001, before which KIT/0002 stands."""
        desk = self.desk
        desk.register_vehicle(KIT2, 'N3')
        self.assertEqual((questions.orders(desk), questions.who_waits(desk)), ([], []))
        desk.add_job('J1', 'L1', 'B')
        desk.post_state(KIT1, told(1))
        desk.start_order('O1', KIT1, job='J1', edges=1)
        (order,) = questions.orders(desk)
        self.assertEqual((order.order, order.released_to, order.edges_left), ('O1', 'N2', 1))
        self.assertEqual(
            [(act.kind, act.load, act.station) for act in order.acts],
            [('pick', 'L1', 'A'), ('drop', 'L1', 'B')],
        )
        self.assertEqual(
            questions.who_waits(desk),
            [questions.BlockedOrder(KIT1, 'O1', 'N2', 'node N3', KIT2, False)],
        )

    def test_two_that_wait_for_one_another(self) -> None:
        desk = self.desk
        desk.register_vehicle(KIT2, 'N3')
        desk.register_load('L2', 'C')
        desk.add_job('J1', 'L1', 'C')
        desk.post_state(KIT1, told(1))
        desk.post_state(KIT2, told(1, node='N3', serial='0002'))
        desk.start_order('O1', KIT1, job='J1', edges=1)
        desk.post_state(KIT1, told(2, 'O1', statuses=[('O1.0', 'FINISHED')]))
        desk.add_job('J2', 'L2', 'A')
        desk.start_order('O2', KIT2, job='J2', edges=0)
        waits = questions.who_waits(desk)
        self.assertEqual(
            [(wait.vehicle, wait.what, wait.by, wait.in_circle) for wait in waits],
            [(KIT1, 'node N3', KIT2, True), (KIT2, 'node N2', KIT1, True)],
        )


@over_sockets
class FarBehind(WithADesk):
    layout, capacity = LAYOUT.replace(',1\n', ',3\n'), 2

    def test_a_job_of_which_the_message_no_longer_tells(self) -> None:
        """KIT/0001 is to carry L1 to B and then L2 to A. All is released to it in three parts while
        it stands at N1, so that the last message has the last act alone. Both jobs ride all the
        same."""
        desk = self.desk
        desk.register_load('L2', 'C')
        desk.add_job('J1', 'L1', 'B')
        desk.add_job('J2', 'L2', 'A')
        desk.post_state(KIT1, told(1))
        stops = [
            client.Stop(*words.split()) for words in ('pick J1', 'drop J1', 'pick J2', 'drop J2')
        ]
        desk.start_order_of_stops('O1', KIT1, stops=stops, edges=2)
        for update in (1, 2):
            desk.post_state(KIT1, told(1 + update, 'O1', update - 1))
            desk.advance(KIT1, 'O1', update, 1)
        (order,) = questions.orders(desk)
        self.assertEqual(
            [(act.number, act.kind, act.load) for act in order.acts], [(3, 'drop', 'L2')]
        )
        riding = client.Job('J1', 'L1', 'A', 'B', KIT1, 'O1'), client.Job(
            'J2', 'L2', 'C', 'A', KIT1, 'O1'
        )
        self.assertEqual(tuple(desk.jobs().values()), riding)
        row = desk.vehicles()[KIT1]
        self.assertEqual(
            (row.sent, row.confirmed, row.seen, row.released, row.edges), (2, 1, 0, 4, 4)
        )


@over_sockets
class NoLayout(unittest.TestCase):
    def test_a_desk_without_a_layout(self) -> None:
        with tempfile.TemporaryDirectory() as folder, Serving(
            os.path.join(folder, 'new.db')
        ) as serving:
            desk = client.Desk(f'127.0.0.1:{serving.port}', timeout=PATIENCE)
            self.assertEqual((desk.layout(), desk.vehicles(), desk.jobs()), (None, {}, {}))


if __name__ == '__main__':
    unittest.main()
