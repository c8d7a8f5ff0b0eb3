"""Shows that the model of the rules answers a transport worked out by hand, and that random
traffic over it does work and meets each refusal."""
from __future__ import annotations

import collections
import random
import unittest
from unittest import mock
from typing import Any

from tests.model import tables
from tests.model.desk import Model
from tests.support import calls
from tests.support.records import broken
from tests.support.sight import told
from tests.support.streets import Streets, streets_for
from tests.support.traffic import Traffic


def acted(**statuses: Any) -> list[tuple[Any, Any]]:
    """The statuses of actions, `O1_0='FINISHED'` that of `O1.0`."""
    return [(name.replace('_', '.'), status) for name, status in statuses.items()]


class ByHand(unittest.TestCase):
    """The model itself, on this layout, whose streets are passed as the arrows say:

    N00-00 > N00-01 > N00-02       and the bays B00-00 between N00-00 and N00-01 (S00-00a and
    S00-00b, room for one
       ^                 v         load each), B01-01 between N01-02 and N01-01 (S01-01a and
       S01-01b, for three each),
    N01-00 < N01-01 < N01-02       B02-00 between N02-01 and N02-00 (S02-00a, for one)
       ^                 v
    N02-00 < N02-01 < N02-02
    """

    def setUp(self) -> None:
        self.model, self.streets = Model(), Streets(3, 3)
        self.done(calls.layout(self.streets.rows()))

    def ask(self, call: Any) -> Any:
        return told(self.model, call)

    def done(self, *asked: Any) -> None:
        for call in asked:
            self.assertEqual(self.ask(call)[0], 200, call)

    def refusal(self, call: Any) -> Any:
        """The name of the refusal that a call earns."""
        status, said = self.ask(call)
        self.assertGreaterEqual(status, 400, call)
        return said['name']

    def held(self) -> Any:
        return {f'{row[0]} {row[1]}': row[3] for row in self.model.rows()['hold']}

    def place(self, load: str) -> Any:
        return self.ask(calls.get_load(load))[1]['place']

    def test_the_layout(self) -> None:
        self.assertEqual(
            self.model.layout.stations,
            {
                'S00-00a': ('B00-00', 1),
                'S00-00b': ('B00-00', 1),
                'S01-01a': ('B01-01', 3),
                'S01-01b': ('B01-01', 3),
                'S02-00a': ('B02-00', 1),
            },
        )
        route = ['N01-01.N01-00', 'N01-00.N00-00', 'N00-00.B00-00']
        self.assertEqual(self.model.layout.route('N01-01', 'B00-00'), route)

    def test_layouts_for_so_many_vehicles(self) -> None:
        """They are within the limits of a desk and of a request, and each of their nodes leads to
        each."""
        for vehicles in (1, 2, 20, 63, 100):
            streets = streets_for(vehicles)
            self.assertGreater(len(streets.nodes), 4 * vehicles)
            self.assertGreaterEqual(len(streets.bays), vehicles)
            self.assertLessEqual(len(streets.nodes), 500)
            self.assertLessEqual(len(streets.edges), 1500)
            self.assertLessEqual(len(streets.stations), 500)
            self.assertLess(len(streets.rows()), 65536)
            for target in streets.nodes:
                self.assertEqual(len(streets.hops_to(target)), len(streets.nodes))

    def test_a_transport_by_hand(self) -> None:
        self.done(
            calls.vehicle('0001', 'N00-00'),
            calls.vehicle('0002', 'N00-02'),
            calls.load('L1', 'S00-00a'),
            calls.job('J1', 'L1', 'S01-01b'),
        )
        order = calls.order('O1', 'J1', 1)
        self.assertEqual(self.ask(order), (409, {'name': 'NotReady', 'refusal': 41}))
        first = calls.state(1, node='N00-00')
        self.assertEqual(self.ask(first), (200, {'accepted': True}))
        self.assertEqual(self.ask(first), (200, {'accepted': False}))
        self.assertEqual(self.ask(order), (200, {'orderUpdateId': 0}))
        nodes = self.ask(calls.get_order())[1]['nodes']
        way = ['N00-00', 'B00-00', 'N00-01', 'N00-02', 'N01-02', 'B01-01']
        self.assertEqual([node['nodeId'] for node in nodes], way)
        self.assertEqual([k for k, node in enumerate(nodes) if node['actions']], [1, 5])
        self.assertEqual(
            self.held(),
            {
                'node N00-00': '0001',
                'edge N00-00.B00-00': '0001',
                'node B00-00': '0001',
                'node N00-02': '0002',
            },
        )
        rest = [{'nodeId': node, 'sequenceId': 2 * k} for k, node in enumerate(way)]
        under_way = calls.state(2, 'O1', 0, 'B00-00', 2, nodeStates=rest)
        self.assertEqual(self.ask(under_way)[1], {'accepted': True})
        self.assertEqual(self.ask(calls.get_vehicle())[1]['node'], 'N00-00')
        picked = calls.state(3, 'O1', 0, 'B00-00', 2, acted(O1_0='FINISHED'), nodeStates=rest[2:])
        self.assertEqual(self.ask(picked)[1], {'accepted': True})
        self.assertEqual(self.place('L1'), 'vehicle KIT/0001')
        self.assertEqual(self.held(), {'node B00-00': '0001', 'node N00-02': '0002'})
        held = {'by': 'KIT/0002', 'name': 'Held', 'refusal': 33, 'what': 'node N00-02'}
        self.assertEqual(self.ask(calls.advance('O1', 1, 2)), (409, held))
        self.assertEqual(broken(self.model.rows()), [])

    def test_an_order_of_two_jobs_by_hand(self) -> None:
        """The loads are picked up at one bay and put down in another order; what is dropped first
        fails."""
        self.done(
            calls.vehicle('0001', 'N00-00', 2),
            calls.load('L1', 'S00-00a'),
            calls.load('L2', 'S00-00b'),
            calls.job('J1', 'L1', 'S01-01a'),
            calls.job('J2', 'L2', 'S02-00a'),
            calls.state(1, node='N00-00'),
            calls.order_of_stops(
                'O1', [('pick', 'J1'), ('pick', 'J2'), ('drop', 'J2'), ('drop', 'J1')], 14
            ),
        )
        nodes = self.ask(calls.get_order())[1]['nodes']
        ids = {
            k: [act['actionId'] for act in node['actions']]
            for k, node in enumerate(nodes)
            if node['actions']
        }
        self.assertEqual(ids, {1: ['O1.0', 'O1.1'], 7: ['O1.2'], 14: ['O1.3']})
        self.assertEqual([nodes[k]['nodeId'] for k in ids], ['B00-00', 'B02-00', 'B01-01'])
        self.assertEqual(
            [act['actionParameters'][3]['value'] for act in nodes[1]['actions']], ['L1', 'L2']
        )

        def at_the_first_drop(**statuses: Any) -> Any:
            return calls.state(2, 'O1', 0, 'B02-00', 14, acted(**statuses))

        self.assertEqual(
            self.refusal(at_the_first_drop(O1_0='FINISHED', O1_1='FAILED', O1_2='FINISHED')),
            'DropFirst',
        )
        self.done(at_the_first_drop(O1_0='FINISHED', O1_1='FINISHED', O1_2='FAILED'))
        self.assertEqual([self.place(load) for load in ('L1', 'L2')], ['vehicle KIT/0001'] * 2)
        self.done(calls.state(3, 'O1', 0, 'B01-01', 28, acted(O1_3='FINISHED')))
        self.assertIsNone(self.ask(calls.get_vehicle())[1]['order'])
        self.assertEqual(
            [self.place(load) for load in ('L1', 'L2')], ['station S01-01a', 'vehicle KIT/0001']
        )
        self.assertEqual([row[-1] for row in self.model.rows()['job']], ['done', 'stopped'])
        self.assertEqual([self.model.coming(station) for station in ('S01-01a', 'S02-00a')], [0, 0])
        self.assertEqual(broken(self.model.rows()), [])

    def test_orders_that_are_refused(self) -> None:
        self.done(calls.vehicle('0001', 'N00-00', 2))
        for number, station in enumerate(('S00-00a', 'S00-00b', 'S01-01a'), 1):
            self.done(
                calls.load(f'L{number}', station), calls.job(f'J{number}', f'L{number}', 'S01-01b')
            )
        pick, drop = ('pick', 'J1'), ('drop', 'J1')

        def refused(stops: Any) -> Any:
            return self.refusal(calls.order_of_stops('O1', stops, 0))

        for stops in (
            [],
            [pick],
            [drop, pick],
            [pick, pick, drop],
            [pick, drop, pick, drop],
            [pick, drop, ('drop', 'J2')],
        ):
            self.assertEqual(refused(stops), 'BadStops')
        self.assertEqual(refused([('pick', 'J9'), ('drop', 'J9')]), 'NoJob')
        every = [(kind, job) for job in ('J1', 'J2', 'J3') for kind in ('pick', 'drop')]
        self.assertEqual(refused(every), 'Loaded')
        self.assertEqual(refused(every[:4]), 'NotReady')
        for capacity in (0, 5):
            self.assertEqual(self.refusal(calls.vehicle('0002', 'N00-01', capacity)), 'Limit')
            self.assertEqual(self.refusal(calls.vehicle('0002', 'N00-00', capacity)), 'Held')

    def test_limits(self) -> None:
        """They are the last of the refusals of a call, and nothing is changed."""
        self.done(
            calls.vehicle('0001', 'N00-00'),
            calls.vehicle('0002', 'N00-01'),
            calls.state(1, node='N00-00'),
            calls.load('L1', 'S00-00a'),
            calls.load('L2', 'S01-01a'),
            calls.load('L3'),
            calls.job('J1', 'L2', 'S02-00a'),
        )
        before = self.model.rows()
        with mock.patch.object(tables, 'MOST', 0):
            for wanted, call in (
                ('Exists', calls.load('L1')),
                ('Full', calls.load('L4', 'S00-00a')),
                ('Limit', calls.load('L4', 'S01-01a')),
                ('Limit', calls.load('L4')),
                ('Full', calls.job('J2', 'L1', 'S02-00a')),
                ('Limit', calls.job('J2', 'L1', 'S01-01b')),
                ('Full', calls.correct('L3', 'R1', 'S00-00a')),
                ('Limit', calls.correct('L3', 'R1', 'S01-01a')),
                ('InJob', calls.leave('L2', 'R1')),
                ('Limit', calls.leave('L1', 'R1')),
                ('Held', calls.place('R1', 'N00-01')),
                ('Limit', calls.place('R1', 'N00-02')),
                ('Full', calls.stocktake('R1', [('S00-00a', 'L1'), ('S00-00a', 'L3')])),
                ('Limit', calls.stocktake('R1', [('S00-00a', 'L1')])),
                ('Beyond', calls.order('O1', 'J1', 99)),
                ('Held', calls.order('O1', 'J1', 1)),
                ('Limit', calls.order('O1', 'J1', 0)),
            ):
                self.assertEqual(self.refusal(call), wanted, call)
        self.assertEqual(self.model.rows(), before)
        with mock.patch.object(tables, 'MOST', 1):
            self.assertEqual(self.ask(calls.order('O1', 'J1', 0)), (200, {'orderUpdateId': 0}))


class AtRandom(unittest.TestCase):
    """The model and the traffic alone."""

    def requests(self, vehicles: int, number: int, seed: int = 1) -> tuple[Any, Any]:
        """So many requests behind the beginning, each with its answer; and the model after them,
        whose rows break no rule."""
        found = Model()
        traffic = Traffic(found, streets_for(vehicles), random.Random(seed))
        asked = [*traffic.begin(vehicles), *(traffic.next() for _ in range(number))]
        self.assertEqual(broken(found.rows()), [])
        return asked, found

    def test_work_flows(self) -> None:
        """Much of the work is done, although vehicles are in one another's way."""
        for vehicles, number, part, least in ((20, 4000, 0.3, 30), (100, 6000, 0.03, 5)):
            _, found = self.requests(vehicles, number)
            phases = collections.Counter(row[-1] for row in found.rows()['job'])
            self.assertGreater(phases['done'], phases.total() * part)
            self.assertGreater(phases['done'], least)

    def test_what_occurs(self) -> None:
        asked, found = self.requests(12, 10000)
        self.assertEqual({row[-1] for row in found.rows()['capacity']}, {1, 2, 3, 4})
        orders = [
            call.body for call, answer in asked if call.target == '/orders' and answer[0] == 200
        ]
        stops = [
            [(stop['action'], stop['job']) for stop in body['stops']]
            for body in orders
            if 'stops' in body
        ]
        self.assertTrue(any('job' in body for body in orders))
        self.assertEqual({len(one) for one in stops}, {2, 4, 6, 8})
        crossed = [
            one
            for one in stops
            if [job for kind, job in one if kind == 'pick']
            != [job for kind, job in one if kind == 'drop']
        ]
        self.assertGreater(len(crossed), 5)
        drives = [answer for call, answer in asked if call.target == '/drives']
        self.assertGreater(sum(answer[0] == 200 for answer in drives), 20)
        self.assertIn('Held', {answer[1].get('name') for answer in drives})
        told_of = [answer[1] for call, answer in asked if call.target.endswith('/phase')]
        self.assertEqual(
            {answer.get('phase', answer.get('name')) for answer in told_of},
            {'waiting', 'riding', 'done', 'stopped', 'NoJob'},
        )
        taken = [
            call.body
            for call, answer in asked
            if call.target.endswith('/state') and answer == (200, {'accepted': True})
        ]
        self.assertGreater(sum(body['nodeStates'] != [] for body in taken), len(taken) / 3)
        self.assertTrue(
            any(body['nodeStates'] and body['nodeStates'][0]['sequenceId'] == 0 for body in taken)
        )
        self.assertTrue(
            any(act['actionStatus'] == 'FAILED' for body in taken for act in body['actionStates'])
        )
        words = 'resync cancel pause resume advance place correct leave'
        for ends in [f'/{word}' for word in words.split()]:
            self.assertTrue(
                any(call.target.endswith(ends) and answer[0] == 200 for call, answer in asked), ends
            )
        self.assertTrue(any(answer == (200, {'accepted': False}) for _, answer in asked))
        self.check_refusals(asked)

    def check_refusals(self, asked: Any) -> None:
        """Each refusal that traffic can meet occurs, the rare ones at times."""
        refused = {answer[1]['name'] for _, answer in asked if answer[0] >= 400}
        often = (
            'ActionBackwards ActionEarly ActionTwice Backwards BadStops Beyond BeyondBase Busy'
            ' Elsewhere Exists Full Held InJob InstantPending LayoutSet Limit Loaded NoLoad'
            ' NoStation NoVehicle NotConfirmed NotOurNode NotReady NotThere OtherOrder RefUsed'
            ' SameStation UpdateBackwards UpdateNotSent WrongUpdate'
        )
        self.assertEqual(set(often.split()) - refused, set())
        rare = (
            'Astray CancelEarly CountTwice DropFirst JobState NoJob NoNode NoOrder OnVehicle'
            ' OrderKnown'
        )
        self.assertGreater(len(refused & set(rare.split())), 4)

    def test_a_seed_gives_the_same_requests(self) -> None:
        one, other = (self.requests(5, 500)[0] for _ in range(2))
        self.assertEqual(one, other)


if __name__ == '__main__':
    unittest.main()
