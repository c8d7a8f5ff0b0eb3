"""Shows, of each part of the simulated plant alone and without a desk, what it calls wrong, what a
vehicle does, why a job is stopped, and which vehicles wait for each other."""
import contextlib
import dataclasses
import random
import unittest
from collections.abc import Callable, Collection
from typing import Any

from nulvrader.desk.client import NoAnswer, Refused, Stop
from nulvrader.common.names import VehicleKey
from nulvrader.desk.questions import BlockedOrder as Wait
from simulation.clock import Clock
from simulation.day import Day
from simulation.floors import FLOORS
from simulation.plan import Nature
from simulation.reasons import BY_PERSON, Killed, Reasons
from simulation.truth import Given, Goods, Track, Wrong
from simulation.vehicles import Vehicle
from simulation.watch import Circles, circles


class WhatIsWrong(unittest.TestCase):
    """What the plant ends at. On the small floor N00 and N01 follow one another, and a siding leads
    from N00 to the bay N00b."""

    def setUp(self) -> None:
        self.track = Track(FLOORS['small']().layout().edges)
        self.track.put('a', 'N00')

    def wrong(self, text: str, call: Callable[..., object], *words: object) -> None:
        with self.assertRaisesRegex(Wrong, text):
            call(*words)

    def test_two_on_a_node(self) -> None:
        self.wrong('a and b are on the node N00', self.track.put, 'b', 'N00')
        self.track.put('b', 'N01')
        self.track.leave('a', 'N00.N01')
        self.wrong('b and a are on the node N01', self.track.arrive, 'a')

    def test_two_on_an_edge(self) -> None:
        """From both of its ends; and the node behind a vehicle is taken until it has arrived."""
        self.track.put('b', 'N00b')
        self.track.leave('a', 'N00.N00b')
        self.wrong('a and b are on the edge', self.track.leave, 'b', 'N00b.N00')
        self.wrong('a and c are on the node N00', self.track.put, 'c', 'N00')

    def test_an_edge_from_elsewhere(self) -> None:
        self.wrong('a drives along N01.N02, and is at N00', self.track.leave, 'a', 'N01.N02')

    def test_what_may_be(self) -> None:
        self.track.put('b', 'N01')
        self.track.leave('b', 'N01.N02')
        self.track.arrive('b')
        self.track.leave('a', 'N00.N01')
        self.assertEqual(self.track.arrive('a'), 'N01')
        self.track.put('c', 'N00')
        self.assertEqual(self.track.nodes, {'N02': 'b', 'N01': 'a', 'N00': 'c'})

    def test_loads(self) -> None:
        goods = Goods()
        goods.add('load', 'station A')
        self.wrong(
            'load is taken from station B', goods.move, 'load', 'station B', 'vehicle KIT/0001'
        )
        goods.move('load', 'station A', 'vehicle KIT/0001')
        self.assertEqual(goods.places(), {'load': 'vehicle KIT/0001'})
        goods.room['station B'] = 1
        goods.move('load', 'vehicle KIT/0001', 'station B')
        self.wrong(
            'other is put to station B, which has 2 loads then and room for 1',
            goods.add,
            'other',
            'station B',
        )
        goods.here['station B'].remove('other')
        goods.move('load', 'station B', 'vehicle KIT/0001')
        goods.add('load', 'station A')
        self.wrong(
            'load is at (vehicle KIT/0001 and at station A|station A and at vehicle KIT/0001)',
            goods.places,
        )

    def test_track_that_was_not_given(self) -> None:
        given = Given()
        edges = [
            {'edgeId': 'N00.N01', 'sequenceId': 1, 'released': True},
            {'edgeId': 'N01.N02', 'sequenceId': 3, 'released': False},
        ]
        given.note('a', {'orderId': 'one', 'edges': edges, 'nodes': []})
        given.check('a', 'one', 1, 'N00.N01')
        self.wrong('was not given', given.check, 'a', 'one', 3, 'N01.N02')
        self.wrong('was not given', given.check, 'a', 'one', 1, 'N01.N02')
        self.wrong('was not given', given.check, 'a', 'two', 1, 'N00.N01')
        self.wrong('was not given', given.check, 'b', 'one', 1, 'N00.N01')
        given.take_back('a', 'two')
        given.check('a', 'one', 1, 'N00.N01')
        given.take_back('a', 'one')
        given.note('a', {'orderId': 'one', 'edges': edges, 'nodes': []})
        self.wrong('was not given', given.check, 'a', 'one', 1, 'N00.N01')


class AVehicle(unittest.TestCase):
    """One at N00, which has an order to pick L there and to put it down at the end of an edge."""

    def setUp(self) -> None:
        floor = FLOORS['small']()
        self.clock, self.goods, self.given = Clock(), Goods(), Given()
        self.failed: set[str] = set()
        key = VehicleKey('KIT', 'a')
        self.vehicle = Vehicle(
            key,
            'N00',
            self.clock,
            Track(floor.layout().edges),
            self.goods,
            self.given,
            self.failed,
            floor.metres,
            Nature(failing=0),
            random.Random(1),
            lambda: None,
        )
        nodes = [
            {
                'nodeId': node,
                'sequenceId': 2 * n,
                'released': True,
                'actions': [action(f'o.{n}', kind, 'L', node + 's')],
            }
            for n, (node, kind) in enumerate((('N00', 'pick'), ('N01', 'drop')))
        ]
        edges = [{'edgeId': 'N00.N01', 'sequenceId': 1, 'released': True}]
        message: dict[str, Any] = {
            'headerId': 0,
            'orderId': 'o',
            'orderUpdateId': 0,
            'nodes': nodes,
            'edges': edges,
        }
        self.message = message
        self.given.note('KIT/a', message)
        self.vehicle.take_order(message)

    def run_all(self) -> None:
        self.clock.run(lambda: False)

    def test_a_load_that_is_not_there(self) -> None:
        with self.assertRaisesRegex(Wrong, '^KIT/a is to pick L at N00s, which is not there$'):
            self.run_all()

    def test_a_load_that_others_have_moved(self) -> None:
        """Where others tell the desk of loads too it is a pick that fails."""
        self.goods.alone = False
        self.run_all()
        self.assertEqual(self.failed, {'o.0', 'o.1'})

    def test_a_load_that_it_does_not_carry(self) -> None:
        """That its drop fails is right where its pick has failed, in the same order."""
        nodes = [{**self.message['nodes'][0], 'actions': []}, self.message['nodes'][1]]
        self.vehicle.nature = Nature(failing=1000)
        self.goods.add('L', 'station N00s')
        self.run_all()
        self.assertEqual(self.failed, {'o.0', 'o.1'})
        self.vehicle.clear()
        self.vehicle.node, self.vehicle.nature = 'N00', Nature(failing=0)
        self.vehicle.track.put('KIT/a', 'N00')
        message = {**self.message, 'headerId': 1, 'orderId': 'p', 'nodes': nodes}
        self.given.note('KIT/a', message)
        self.vehicle.take_order(message)
        with self.assertRaisesRegex(
            Wrong, '^KIT/a is to put down L at N01s, and does not carry it$'
        ):
            self.run_all()

    def test_a_restart(self) -> None:
        """It comes where the vehicle does nothing and the desk knows all, as here in a pause behind
        the pick. With it the order is lost."""
        self.goods.add('L', 'station N00s')
        self.vehicle.take_instant(
            {'headerId': 0, 'actions': [{'actionId': 'p', 'actionType': 'startPause'}]}
        )
        self.assertFalse(self.vehicle.may_restart())
        self.run_all()
        self.assertFalse(self.vehicle.may_restart())
        self.vehicle.posted = self.vehicle.state()['headerId']
        self.assertTrue(self.vehicle.may_restart())
        self.vehicle.restart()
        self.vehicle.take_order({**self.message, 'headerId': 1})
        state = self.vehicle.state()
        self.assertEqual(
            (state['headerId'], state['orderId'], state['lastNodeId'], state['actionStates']),
            (1, '', 'N00', []),
        )
        self.assertFalse(self.vehicle.goes_on())

    def test_a_load_that_is(self) -> None:
        """Its track is its own until the order has ended. What it does is told by a state of after
        that."""
        self.goods.add('L', 'station N00s')
        self.given.check('KIT/a', 'o', 1, 'N00.N01')
        self.assertEqual(self.vehicle.open_loads(), {'L'})
        self.vehicle.posted = self.vehicle.state()['headerId']
        self.assertTrue(self.vehicle.has_told('L'))
        self.run_all()
        self.assertEqual(self.goods.places(), {'L': 'station N01s'})
        self.assertEqual(
            (self.goods.drops, self.failed, self.vehicle.open_loads()),
            ({'o.1': ('L', 'N01s')}, set(), set()),
        )
        with self.assertRaisesRegex(Wrong, 'was not given'):
            self.given.check('KIT/a', 'o', 1, 'N00.N01')
        self.assertFalse(self.vehicle.has_told('L'))
        self.vehicle.posted = self.vehicle.state()['headerId']
        self.assertTrue(self.vehicle.has_told('L'))

    def test_an_order_that_is_cancelled(self) -> None:
        self.vehicle.take_instant(
            {'headerId': 0, 'actions': [{'actionId': 'c', 'actionType': 'cancelOrder'}]}
        )
        with self.assertRaisesRegex(Wrong, 'was not given'):
            self.given.check('KIT/a', 'o', 1, 'N00.N01')
        self.assertEqual(self.vehicle.open_loads(), set())


def action(name: str, kind: str, load: str, station: str) -> dict[str, Any]:
    said = {'loadId': load, 'stationName': station}
    return {
        'actionId': name,
        'actionType': kind,
        'actionParameters': [{'key': key, 'value': value} for key, value in said.items()],
    }


class WhyAJobIsStopped(unittest.TestCase):
    """The order o1 has two jobs, and o2 one of them again."""

    def setUp(self) -> None:
        self.reasons = Reasons()
        self.reasons.give(
            'o1', [Stop('pick', 'j1'), Stop('pick', 'j2'), Stop('drop', 'j2'), Stop('drop', 'j1')]
        )
        self.reasons.give('o2', [Stop('pick', 'j3'), Stop('drop', 'j3')])

    def none(self, job: str) -> None:
        with self.assertRaisesRegex(Wrong, f'^{job} is stopped, and nobody has a reason$'):
            self.reasons.why_stopped(job)

    def test_its_own_action(self) -> None:
        self.reasons.failed.add('o1.2')
        self.assertEqual(self.reasons.why_stopped('j2'), 'an action of it failed')
        self.none('j1')

    def test_its_order(self) -> None:
        """A call whose answer is lost may have been carried out; one that is refused was not."""
        refused = Refused('NoOrder', 1, 409, {}, '', '')
        for fault, is_kept in (
            (None, True),
            (NoAnswer('', True), True),
            (Killed(True), True),
            (NoAnswer('', False), False),
            (Killed(False), False),
            (refused, False),
        ):
            self.setUp()
            self.cancel(fault)
            for job in ('j1', 'j2'):
                if is_kept:
                    self.assertEqual(self.reasons.why_stopped(job), BY_PERSON)
                else:
                    self.none(job)
            self.none('j3')
            self.cancel(refused)
            self.assertEqual('o1' in self.reasons.orders, is_kept)

    def cancel(self, fault: Exception | None) -> None:
        with contextlib.suppress(Refused, NoAnswer, Killed), self.reasons.noted(
            self.reasons.orders, 'o1', BY_PERSON
        ):
            if fault is not None:
                raise fault

    def test_done(self) -> None:
        goods = Goods()
        goods.drops['o1.3'] = 'L1', 'A'
        self.reasons.check_done('j1', 'L1', 'A', goods)
        for job, load, target in (
            ('j1', 'L1', 'B'),
            ('j1', 'L2', 'A'),
            ('j2', 'L1', 'A'),
            ('j4', 'L1', 'A'),
        ):
            with self.assertRaisesRegex(
                Wrong, f'^{job} is done, and no vehicle has put {load} down at {target} for it$'
            ):
                self.reasons.check_done(job, load, target, goods)


class WaitsInCircles(unittest.TestCase):
    """At first a waits for b, b for c and c for b."""

    A, B, C = (VehicleKey('KIT', name) for name in 'abc')

    def setUp(self) -> None:
        self.circles = Circles(120.0)
        self.b, self.c = Wait(self.B, 'o2', 'N2', 'node N3', self.C, True), Wait(
            self.C, 'o3', 'N3', 'edge E', self.B, True
        )
        self.waits = [Wait(self.A, 'o1', 'N1', 'node N2', self.B, False), self.b, self.c]

    def look(self, now: float, excused: Collection[str] = ()) -> None:
        self.circles.look(self.waits, excused, now)

    def test_one_that_lasts(self) -> None:
        """KIT/a is not in it."""
        self.look(10.0, ['KIT/a'])
        self.look(130.0)
        told = (
            'KIT/b waits at N2 for node N3, which KIT/c holds; KIT/c waits at N3 for edge E, which'
            ' KIT/b holds'
        )
        with self.assertRaisesRegex(Wrong, f'^a circle from 10 s on, for 121 s: {told}$'):
            self.look(131.0)

    def test_one_that_is_excused(self) -> None:
        """As long as one in it is paused; then its time begins."""
        self.look(0.0)
        self.look(100.0, ['KIT/c'])
        self.look(110.0)
        self.look(230.0)
        self.assertEqual(self.circles.longest, 120.0)
        with self.assertRaises(Wrong):
            self.look(231.0)

    def test_one_that_ends(self) -> None:
        """Between the two c does not wait, so b does not wait for itself."""
        self.look(0.0)
        self.waits = [self.waits[0], dataclasses.replace(self.b, in_circle=False)]
        self.look(100.0)
        self.waits = [self.b, self.c]
        self.look(110.0)
        self.look(230.0)
        self.assertEqual(self.circles.longest, 120.0)

    def test_two(self) -> None:
        d, e = (VehicleKey('KIT', name) for name in 'de')
        others = [Wait(e, 'o5', 'N5', 'node N4', d, True), Wait(d, 'o4', 'N4', 'node N5', e, True)]
        self.assertEqual(circles([*self.waits, *others]), [(self.b, self.c), tuple(others[::-1])])


class LongWaits(unittest.TestCase):
    def test_why(self) -> None:
        """The longest has its reason, and so has each of more than 300 s."""
        day = Day()
        lines = []
        for vehicle, since, seconds in (
            ('a', 0.0, 40),
            ('b', 10.0, 60),
            ('c', 20.0, 50),
            ('d', 30.0, 310),
            ('a', 90.0, 301),
            ('b', 99.0, 299),
        ):
            for n in range(seconds + 1):
                day.has_waited(vehicle, since, since + n, f'for {n} s')
            lines.append(day.longest_waits())
        b, d = ['b waited for 60 s from 10 s on: for 60 s'], [
            'd waited for 310 s from 30 s on: for 310 s'
        ]
        a = ['a waited for 301 s from 90 s on: for 301 s']
        self.assertEqual(
            lines, [['a waited for 40 s from 0 s on: for 40 s'], b, b, d, d + a, d + a]
        )


class TheFloors(unittest.TestCase):
    def test_each_node_leads_to_each(self) -> None:
        for name, make in FLOORS.items():
            layout = make().layout()
            for target in layout.nodes:
                self.assertEqual(len(layout.distances(target)), len(layout.nodes), (name, target))
            self.assertLess(len(layout.csv()), 65536)


if __name__ == '__main__':
    unittest.main()
