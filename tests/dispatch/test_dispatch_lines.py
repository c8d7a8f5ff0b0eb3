"""Shows what the dispatcher says, over the built program, of how orders end, who does not go on and
why, and of faults."""
import unittest
from typing import Any
from unittest import mock

from tests.support.dispatching import LAYOUT, ONE, TWO, OverADesk
from nulvrader.desk.client import Answer, Refused
from nulvrader.common.layouts import read_layout
from tests.support.desks import over_sockets


@over_sockets
class Lines(OverADesk):
    places = ()

    def line_after(self, first: str, both: str) -> str:
        """What is said of an order whose pick and drop have ended so."""
        self.turn()
        self.desk.add_job('J1', 'L1', 'B')
        self.turn()
        self.told(ONE, 'b', 4, first)
        self.turn()
        self.told(ONE, 'bb', 6, both)
        return str(self.turn()[0])

    def test_a_failed_drop_is_told(self) -> None:
        line = r'J1 is stopped, since its drop failed: its load L1 is now at vehicle KIT/0001$'
        self.assertRegex(self.line_after('f', 'fx'), f'has ended at bb; {line}')

    def test_a_failed_pick_is_told(self) -> None:
        line = r'J1 is stopped, since its pick failed: its load L1 is now at station A$'
        self.assertRegex(self.line_after('x', 'xx'), f'has ended at bb; {line}')

    def test_a_vehicle_that_is_placed(self) -> None:
        self.turn()
        self.desk.add_job('J1', 'L1', 'B')
        self.turn()
        self.told(ONE, 'a', 2, 'f')
        self.turn()
        self.desk.place(ONE, 'R1', 'a')
        line = (
            r'has ended at a; J1 is stopped, since the vehicle was placed: its load L1 is now at'
            r' vehicle KIT/0001$'
        )
        self.assertRegex(self.turn()[0], line)

    def test_a_load_that_is_carried_on(self) -> None:
        """An order takes L1 to D and L2 to B on the way. L2 is carried on from B before the order
        ends: its job is done, if the dispatcher has seen the load at B; else that is not known."""
        for case, (first, second) in enumerate((('J1', 'J2'), ('J3', 'J4'))):
            with self.subTest(case):
                self.told(ONE, 'ab', mode='MANUAL')
                self.told(TWO, 'cb', mode='MANUAL')
                self.turn()
                self.desk.add_job(first, 'L1', 'D')
                self.turn()
                self.desk.add_job(second, 'L2', 'B')
                self.turn()
                self.dispatcher.chooser.detour = 4
                self.told(ONE, 'ab')
                self.assertRegex(self.turn()[0], f'takes {first} .*, {second} .*, 7 edges')
                self.told(ONE, 'b', 4, 'ff')
                self.turn()
                self.told(ONE, 'bb', 6, 'fff')
                if case == 0:
                    self.turn()
                self.desk.correct_load('L2', f'R{case}', 'C')
                self.turn()
                self.told(ONE, 'c', 10, 'fff')
                self.turn()
                self.told(ONE, 'db', 14, 'ffff')
                end = (
                    '' if case == 0 else '; J4 is done or stopped: its load L2 is now at station C'
                )
                self.assertRegex(self.turn()[0], fr'^KIT/0001: order \S+ has ended at db{end}$')
                self.desk.place(ONE, f'P{case}', 'ab')
                self.desk.correct_load('L1', f'Q{case}', 'A')
                self.desk.correct_load('L2', f'S{case}', 'A')

    def test_a_cancel_by_a_person(self) -> None:
        self.turn()
        self.desk.add_job('J1', 'L1', 'B')
        self.turn()
        self.told(ONE, 'ab', 0, 'r')
        name = self.desk.cancel(ONE)
        self.assertIn('KIT/0001: its order is being cancelled', self.turn())
        self.told(ONE, 'ab', 0, 'x', instant=[name])
        lines = self.turn()
        line = (
            r'^KIT/0001: order \S+ has ended at ab; J1 is stopped, since its order was cancelled:'
            r' its load L1 is now at station A$'
        )
        self.assertRegex(lines[0], line)
        self.assertEqual(
            lines[1:], ['KIT/0001: left its order on the way; look where it stands, and place it']
        )
        self.desk.add_job('J2', 'L3', 'B')
        self.assertEqual(
            self.turn(), []
        )  # KIT/0002 would have to pass the node that KIT/0001 holds
        self.desk.place(ONE, 'R', 'ab')
        lines = self.turn()
        self.assertEqual(lines[0], 'KIT/0001: goes on')
        self.assertRegex(lines[1], r'^KIT/0002: takes J2')

    def test_a_silent_vehicle(self) -> None:
        """KIT/0001 waits at b until KIT/0002 has left c, and is silent by then: it is released
        nothing until it is heard again."""
        self.turn()
        self.desk.add_job('J1', 'L1', 'C')
        self.turn()
        self.desk.add_job('J3', 'L3', 'D')
        self.turn()
        self.told(ONE, 'b', 4, 'f')
        self.told(TWO, 'c', 2, 'f')
        self.turn()
        self.told(TWO, 'c', 2, 'f')
        self.assertEqual(self.turn(20), ['KIT/0001 waits at b for node c, which KIT/0002 holds'])
        self.told(TWO, 'd', 4, 'f')
        self.assertEqual(self.turn(20), ['KIT/0001: has sent no state for 30 seconds'])
        self.assertEqual((self.held(ONE), self.held(TWO)), (['b'], ['d', 'db']))
        self.told(ONE, 'b', 4, 'f')
        self.assertEqual(self.turn(), ['KIT/0001: goes on'])
        self.assertEqual(self.held(ONE), ['b', 'c', 'cb'])

    def test_a_vehicle_that_does_not_go_on(self) -> None:
        """Nothing is released to one that is not ready, or paused, until it is again."""
        self.turn()
        self.desk.add_job('J1', 'L1', 'D')
        self.turn()
        why = (
            'KIT/0001: is not ready: it is not in automatic mode, has an emergency stop or an error'
        )
        self.told(ONE, 'a', 2, 'f', mode='MANUAL')
        self.assertEqual((self.turn(), self.turn(20), self.held(ONE)), ([why], [], ['a', 'b']))
        self.told(ONE, 'a', 2, 'f')
        self.assertEqual((self.turn(), self.held(ONE)), (['KIT/0001: goes on'], ['a', 'b', 'c']))
        self.told(ONE, 'b', 4, 'f', paused=True)
        self.assertEqual(
            (self.turn(), self.turn(20), self.held(ONE)), (['KIT/0001: is paused'], [], ['b', 'c'])
        )
        self.told(ONE, 'b', 4, 'f')
        self.assertEqual((self.turn(), self.held(ONE)), (['KIT/0001: goes on'], ['b', 'c', 'd']))

    def test_a_way_that_is_blocked(self) -> None:
        """A person puts KIT/0002 on the way of the other one, two nodes ahead: that one stays where
        it is."""
        self.turn()
        self.desk.add_job('J1', 'L1', 'D')
        self.turn()
        self.desk.place(TWO, 'R', 'd')
        self.told(ONE, 'b', 4, 'f')
        self.turn()
        self.told(ONE, 'b', 4, 'f')
        self.assertEqual(
            self.turn(20), ['KIT/0001 waits at b, since its way is blocked by KIT/0002 at d']
        )
        self.assertEqual(self.held(ONE), ['b'])

    def test_one_that_would_block_another(self) -> None:
        """A person gives both orders with no edge. KIT/0001 is to go to where KIT/0002 stands, and
        that one has not confirmed its order yet. It could not leave its bay if the first one stood
        before it."""
        self.turn()
        for order, key, job, load, target in (
            ('P1', ONE, 'J1', 'L1', 'C'),
            ('P3', TWO, 'J3', 'L3', 'D'),
        ):
            self.desk.add_job(job, load, target)
            self.desk.start_order(order, key, job=job, edges=0)
        self.turn()
        self.told(ONE, 'ab')
        self.turn()
        self.told(ONE, 'b', 4, 'f')
        self.turn()
        lines = self.turn(15)
        self.assertIn('KIT/0002 has not confirmed its order, until a state of it does', lines)
        self.assertIn(
            'KIT/0001 waits at b, since on b-c it would block others, or be blocked', lines
        )
        self.assertEqual((self.held(ONE), self.held(TWO)), (['b'], ['cb']))
        self.told(TWO, 'cb')
        self.turn()
        self.assertEqual((self.held(ONE), self.held(TWO)), (['b'], ['c', 'cb', 'd']))

    def test_no_vehicle_is_free(self) -> None:
        """It is said once that jobs wait, and of each vehicle without an order why it gets none;
        again where that changes, and after a restart."""
        self.turn()
        for key, node in ((ONE, 'ab'), (TWO, 'cb')):
            self.told(key, node, mode='MANUAL')
        self.desk.add_job('J1', 'L1', 'B')
        self.assertEqual(self.turn(), [])
        self.assertEqual(
            self.turn(20),
            ['1 job waits, no vehicle is free: KIT/0001 is not ready; KIT/0002 is not ready'],
        )
        self.assertEqual([line for _ in range(60) for line in self.turn(60)], [])
        self.desk.add_job('J3', 'L3', 'D')
        self.assertEqual(self.turn() + self.turn(60), [])
        self.told(TWO, 'cb')
        self.assertRegex(self.turn()[0], '^KIT/0002: takes J3')
        self.told(TWO, 'd', 4, 'f')
        self.assertEqual(
            self.turn() + self.turn(20), ['1 job waits, no vehicle is free: KIT/0001 is not ready']
        )
        self.told(TWO, 'db', 6, 'fx')
        self.assertRegex(self.turn()[0], 'J3 is stopped')
        line = (
            '1 job waits, no vehicle is free: KIT/0001 is not ready; KIT/0002 carries L3 in no job'
        )
        self.assertEqual(self.turn(20), [line])
        self.begin()
        self.assertEqual([self.turn(), self.turn(20)], [[], [line]])
        self.desk.stop_job('J1')
        self.turn()
        self.desk.add_job('J2', 'L2', 'B')
        self.told(TWO, 'db')
        self.assertEqual([self.turn(), self.turn(20)], [[], [line]])

    def test_a_refusal_is_told_once(self) -> None:
        refused = Refused('Spent', 44, 409, {}, 'It is spent', 'Nothing helps.')
        self.turn()
        self.told(TWO, 'cb', mode='MANUAL')
        self.desk.add_job('J1', 'L1', 'B')
        with mock.patch.object(self.dispatcher.desk, 'start_order_of_stops', side_effect=refused):
            self.assertEqual(self.turn(), ['KIT/0001: no order for J1: It is spent'])
            line = (
                '1 job waits, no vehicle is free: KIT/0001 was refused its order; KIT/0002 is not'
                ' ready'
            )
            self.assertEqual(self.turn() + self.turn(20), [line])
        self.turn()
        self.told(ONE, 'a', 2, 'f')
        with mock.patch.object(self.dispatcher.desk, 'advance', side_effect=refused):
            self.assertRegex(self.turn()[0], r'^KIT/0001: 1 edges of \S+ are refused: It is spent$')
            self.assertEqual(self.turn(), [])
        self.assertEqual(self.turn(), [])
        self.assertEqual(self.held(ONE), ['a', 'b', 'bb'])

    def test_a_fault_of_the_desk(self) -> None:
        """A request is answered 503, whichever it is: the turn ends there, and another one begins.
        A turn has the two reports, the exports of jobs and vehicles, and the order."""
        real, left = self.dispatcher.desk.ask, 0

        def ask(*words: Any) -> Answer:
            nonlocal left
            left -= 1
            return real(*words) if left else Answer(503, b'{"name":"Storage","refusal":91}')

        self.desk.add_job('J1', 'L1', 'B')
        answered = []
        with mock.patch.object(self.dispatcher.desk, 'ask', ask):
            for left in range(1, 7):
                self.now += 1
                answered.append(self.dispatcher.turn())
        self.assertEqual(answered, [False] * 5 + [True])
        self.assertRegex(self.lines[0], '^the desk does not answer: .*store')
        self.assertRegex(self.lines[1], '^KIT/0001: takes J1')
        self.assertEqual(self.lines[2:], ['the desk answers again'])

    def test_a_desk_that_is_away(self) -> None:
        self.turn()
        self.serving.process.kill()
        self.serving.process.wait(300)
        self.now += 1
        self.assertFalse(self.dispatcher.turn())
        self.assertFalse(self.dispatcher.turn())
        self.assertEqual(len(self.lines), 1)
        self.assertRegex(self.lines[0], r'^the desk does not answer: ')

    def test_a_layout_that_becomes_another_one(self) -> None:
        """Another desk takes the port: no order is given, and that is an alarm once, until the desk
        is there again."""
        self.desk.add_job('J1', 'L1', 'B')
        alarms: list[str] = []
        layout = self.dispatcher.layout
        self.dispatcher.alarm = alarms.append
        self.dispatcher.layout = read_layout(LAYOUT.replace(b'station,A,ab,3', b'station,A,ab,4'))
        self.assertEqual([self.dispatcher.turn() for _ in range(3)], [False] * 3)
        self.assertEqual((self.lines, len(alarms)), ([], 1))
        self.assertIn('it has another layout: station A', alarms[0])
        self.dispatcher.layout = layout
        self.assertRegex(self.turn()[0], '^KIT/0001: takes J1')
        self.assertEqual(self.lines[-1], 'the desk answers again')


if __name__ == '__main__':
    unittest.main()
