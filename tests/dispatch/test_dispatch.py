"""Shows what the dispatcher gives and releases, over the built program."""
from __future__ import annotations

import os
import re
import unittest
from collections.abc import Callable, Sequence
from typing import Any

from tests.support.dispatching import ONE, TWO, OverADesk, Told
from nulvrader.desk.client import Desk
from nulvrader.dispatch.dispatcher import Dispatcher
from nulvrader.dispatch.lanes import Way
from nulvrader.dispatch.shut_in import BY_ITSELF
from nulvrader.dispatch.judge import Judge
from nulvrader.dispatch.traffic import Traffic
from nulvrader.common.layouts import read_layout
from nulvrader.common.names import VehicleKey
from nulvrader.desk.questions import held
from tests.support.programs import PATIENCE
from tests.support.desks import Serving, over_sockets

# Why the orders of `cross` block one another.
SHUT_IN = 'since KIT/0001 goes on to d, KIT/0002 goes on to a'


class Careless(Judge):
    """Allows whatever is asked, and sees who can't finish then."""

    def may_release(self, traffic: Traffic, vehicle: str, nodes: int) -> bool:
        return True

    def plainly(self, traffic: Traffic, vehicle: str, way: Way) -> bool | None:
        return True

    def may_start(self, traffic: Traffic, vehicle: str, way: Way) -> bool:
        return True


@over_sockets
class Orders(OverADesk):
    def test_a_job_from_its_beginning_to_its_end(self) -> None:
        self.assertEqual(self.turn(), [])
        self.desk.add_job('J1', 'L1', 'B')
        self.assertRegex(
            self.turn()[0],
            r'^KIT/0001: takes J1 \(L1 from A to B\), 3 edges from ab, by order \S+$',
        )
        self.assertEqual(self.held(ONE), ['a', 'ab', 'b'])
        self.turn()
        self.assertEqual(self.held(ONE), ['a', 'ab', 'b'])  # it is not confirmed
        self.told(ONE, 'a', 2, 'f')
        self.turn()
        self.assertEqual(self.held(ONE), ['a', 'b', 'bb'])
        self.told(ONE, 'bb', 6, 'ff')
        self.assertRegex(self.turn()[0], r'^KIT/0001: order \S+ has ended at bb$')
        self.assertEqual((self.place('L1'), self.held(ONE)), ('station B', ['bb']))

    def test_the_nearest_vehicle_takes_it(self) -> None:
        self.turn()
        self.desk.add_job('J3', 'L3', 'D')
        self.assertRegex(self.turn()[0], '^KIT/0002: takes J3')

    def test_the_oldest_goes_first(self) -> None:
        """Where an order takes no detour for another job."""
        self.dispatcher.chooser.detour = 0
        self.turn()
        for key, node in ((ONE, 'ab'), (TWO, 'cb')):
            self.told(key, node, mode='MANUAL')
        self.desk.add_job('J9', 'L1', 'B')
        self.turn()
        self.desk.add_job('J1', 'L2', 'D')
        self.assertEqual(self.turn(), [])
        self.told(ONE, 'ab')
        self.assertRegex(self.turn()[0], r'^KIT/0001: takes J9 \(L1 from A to B\), 3 edges')

    def test_two_jobs_in_one_order(self) -> None:
        """Both lead from A to B; a third one, to D, would be a detour."""
        self.turn()
        for key, node in ((ONE, 'ab'), (TWO, 'cb')):
            self.told(key, node, mode='MANUAL')
        self.desk.add_job('J1', 'L1', 'B')
        self.turn()
        self.desk.add_job('J3', 'L3', 'D')
        self.turn()
        self.desk.add_job('J2', 'L2', 'B')
        self.turn()
        self.told(ONE, 'ab')
        self.assertRegex(
            self.turn()[0], r'takes J1 \(L1 from A to B\), J2 \(L2 from A to B\), 3 edges'
        )
        self.told(ONE, 'b', 4, 'ff')
        self.turn()
        self.told(ONE, 'bb', 6, 'ffff')
        self.turn()
        self.assertEqual((self.place('L1'), self.place('L2')), ('station B', 'station B'))

    def test_a_drop_where_another_vehicle_stands(self) -> None:
        """KIT/0001 stands at the pick, and KIT/0002 at the drop and is in manual mode: it is said
        why the job waits. Once KIT/0002 is ready it is led away, and the job begins."""
        self.told(TWO, 'cb', mode='MANUAL')
        self.turn()
        self.desk.add_job('J1', 'L1', 'C')
        self.assertEqual(self.turn(), [])
        self.assertEqual(
            self.turn(20),
            [
                'job J1 waits: KIT/0001 stands at the pick, at ab; KIT/0002 stands at the drop,'
                ' at cb, until they go on'
            ],
        )
        self.told(TWO, 'cb')
        self.assertRegex(self.turn()[0], r'^KIT/0002: drives to db, by order \S+$')
        self.assertRegex(self.turn()[0], '^KIT/0001: takes J1')

    def test_a_restart(self) -> None:
        """A dispatcher that is started anew goes on with the orders that are open."""
        self.turn()
        self.desk.add_job('J1', 'L1', 'B')
        self.turn()
        self.told(ONE, 'a', 2, 'f')
        self.begin()
        self.assertRegex(self.turn()[0], r'^KIT/0001: has order \S+, of J1$')
        self.assertEqual(self.held(ONE), ['a', 'b', 'bb'])
        self.told(ONE, 'bb', 6, 'ff')
        self.turn()
        self.assertEqual(self.place('L1'), 'station B')

    def test_age_after_a_restart(self) -> None:
        """Of two jobs from A the one that was seen first goes first. To a dispatcher that is
        started anew both are new: that of the lesser name goes first."""
        for key, node in ((ONE, 'ab'), (TWO, 'cb')):
            self.told(key, node, mode='MANUAL')
        for job, load, target in (('J2', 'L2', 'B'), ('J1', 'L1', 'D')):
            self.desk.add_job(job, load, target)
            self.turn()
            self.turn(100)
        self.assertEqual(
            [(one.job, one.target) for one in self.dispatcher.book.waiting.values()],
            [('J2', 'B'), ('J1', 'D')],
        )
        self.begin()
        self.turn()
        self.assertEqual(list(self.dispatcher.book.waiting), ['J1', 'J2'])

    def test_jobs_from_before_its_start(self) -> None:
        """Where they lead is known at once, however many were added before it began."""
        self.desk.add_job('J1', 'L1', 'B')
        self.desk.add_job('J2', 'L3', 'D')
        lines = self.turn()
        self.assertRegex(lines[0], r'^KIT/0001: takes J1 \(L1 from A to B\), 3 edges')
        self.assertRegex(lines[1], r'^KIT/0002: takes J2 \(L3 from C to D\), 3 edges')
        self.assertEqual((self.held(ONE), self.held(TWO)), (['a', 'ab', 'b'], ['c', 'cb', 'd']))

    def test_a_drive_of_a_person(self) -> None:
        """It is released further as any order, and has ended at its last node."""
        self.turn()
        self.desk.start_drive('G1', ONE, 'bb', 0)
        self.assertEqual(self.turn(), ['KIT/0001: has order G1, a drive to bb'])
        self.told(ONE, 'ab')
        self.assertEqual(self.turn(), [])
        self.assertEqual(self.held(ONE), ['a', 'ab', 'b'])
        self.told(ONE, 'b', 4)
        self.assertEqual(self.turn(), [])
        self.told(ONE, 'bb', 6)
        self.assertEqual(self.turn(), ['KIT/0001: order G1 has ended at bb'])
        self.assertEqual(self.held(ONE), ['bb'])

    def line(
        self, *more: str, judge: Judge | None = None, parking: Sequence[str] | None = None
    ) -> tuple[Desk, Dispatcher, Told, list[str]]:
        """A desk on whose line a, b, c, d one vehicle is at either end, where loads stand at A and
        D, with its dispatcher, its vehicles' states and its lines. `more` are further rows of the
        layout."""
        serving = Serving(os.path.join(self.folder.name, 'line.db'), 10**6)
        self.addCleanup(serving.__exit__)
        line = [f'edge,{pair},{pair[0]},{pair[1]}' for pair in ('ab', 'ba', 'bc', 'cb', 'cd', 'dc')]
        stations = [f'station,{name.upper()},{name},3' for name in 'abd']
        layout = (
            '\n'.join(
                ['kind,id,from,to', *(f'node,{name},,' for name in 'abcd'), *line, *stations, *more]
            ).encode()
            + b'\n'
        )
        desk = Desk(f'127.0.0.1:{serving.port}', timeout=PATIENCE)
        told = Told(desk)
        desk.set_layout(layout)
        for key, node in ((ONE, 'a'), (TWO, 'd')):
            desk.register_vehicle(key, node)
            told(key, node)
        for load, start in (('L1', 'A'), ('L2', 'D')):
            desk.register_load(load, start)
        lines: list[str] = []
        return (
            desk,
            Dispatcher(
                desk,
                read_layout(layout),
                judge=judge,
                parking=parking,
                say=lines.append,
                clock=lambda: self.now,
            ),
            told,
            lines,
        )

    def cross(self, desk: Desk, told: Told) -> None:
        """A person gives both vehicles orders, each to where the other one stands."""
        for order, key, node, job, load, target in (
            ('P1', ONE, 'a', 'J1', 'L1', 'D'),
            ('P2', TWO, 'd', 'J2', 'L2', 'A'),
        ):
            desk.add_job(job, load, target)
            desk.start_order(order, key, job=job, edges=0)
            told(key, node)

    def test_orders_that_shut_one_another_in(self) -> None:
        """Once nothing moves one of the orders is cancelled."""
        desk, dispatcher, told, lines = self.line()
        self.assertTrue(dispatcher.turn())
        self.cross(desk, told)
        for _ in range(8):
            self.assertTrue(dispatcher.turn())
            for key, node in ((ONE, 'a'), (TWO, 'd')):
                told(key, node)
        self.assertRegex(
            lines[2],
            f'^KIT/0001: cancels order P1, of J1: it and others block one another, {SHUT_IN}$',
        )
        self.assertEqual(
            (desk.vehicle(ONE).pending, desk.vehicle(TWO).pending), ('cancelOrder', None)
        )
        self.assertEqual(
            {node: str(key) for node, key in held(desk).nodes.items()},
            {'a': 'KIT/0001', 'd': 'KIT/0002'},
        )
        pending: Any = desk.instant_actions(ONE)
        assert pending is not None
        told(ONE, 'a', 0, 'x', instant=[pending['actions'][0]['actionId']])
        dispatcher.turn()
        self.assertRegex(
            '\n'.join(lines),
            '\nKIT/0001: order P1 has ended at a; J1 is stopped, since its order was cancelled: '
            'its load L1 ',
        )

    def test_orders_that_it_should_not_have_given(self) -> None:
        """One that starts whatever it can says that it has shut vehicles in by itself. In the same
        turn another vehicle is placed. No place is given where it could lead one away."""
        desk, dispatcher, told, lines = self.line(
            'node,p,,', 'node,q,,', judge=Careless(), parking=()
        )
        third = VehicleKey('KIT', '0003')
        desk.register_vehicle(third, 'p')
        told(third, 'p', mode='MANUAL')
        for job, load, target in (('J1', 'L1', 'D'), ('J2', 'L2', 'A')):
            self.assertTrue(dispatcher.turn())
            desk.add_job(job, load, target)
        desk.place(third, 'person-1', 'q')
        self.assertTrue(dispatcher.turn())
        self.assertEqual(
            dispatcher.shut_in(), {name: (0.0, BY_ITSELF) for name in ('KIT/0001', 'KIT/0002')}
        )
        told(ONE, 'c', 4, 'f')
        for _ in range(8):
            told(TWO, 'd')
            self.assertTrue(dispatcher.turn())
        self.assertRegex(
            lines[2],
            fr'^KIT/0002: cancels order \S+, of J2: it and others block one another, {BY_ITSELF}$',
        )

    def test_an_order_of_a_person_that_shuts_two_in(self) -> None:
        """KIT/0001 is under way from a to d and stands at c when a person places KIT/0002 at d and
        gives it an order to a."""

        def order(desk: Desk) -> None:
            desk.add_job('J2', 'L2', 'A')
            desk.start_order('person-1', TWO, job='J2', edges=0)

        self.check_cancels(order, 'of J2')

    def test_a_drive_of_a_person_that_shuts_two_in(self) -> None:
        """The person has it drive to a."""
        self.check_cancels(lambda desk: desk.start_drive('person-1', TWO, 'a', 0), 'a drive to a')

    def check_cancels(self, send: Callable[[Desk], object], told_of: str) -> None:
        """The order that a person sends to KIT/0002 is cancelled."""
        desk, dispatcher, told, lines = self.line('node,q,,')

        def place(node: str) -> None:
            told(TWO, desk.vehicle(TWO).node, mode='MANUAL')
            desk.place(TWO, 'person-' + node, node)
            told(TWO, node)

        place('q')
        self.assertTrue(dispatcher.turn())
        desk.add_job('J1', 'L1', 'D')
        self.assertTrue(dispatcher.turn())
        told(ONE, 'c', 4, 'f')
        place('d')
        send(desk)
        told(TWO, 'd')
        for _ in range(8):
            self.assertTrue(dispatcher.turn())
        cancels = [line for line in lines if 'cancels' in line]
        self.assertEqual(
            cancels,
            [
                f'KIT/0002: cancels order person-1, {told_of}: it and others block one another,'
                ' since KIT/0002 goes on to a'
            ],
        )

    def test_orders_that_shut_one_another_in_while_others_move(self) -> None:
        """A third vehicle goes round a ring beside the line all the while. One of the orders is
        cancelled after a minute, and only one."""
        ring = [f'edge,{pair},{pair[0]},{pair[1]}' for pair in ('pq', 'qr', 'rs', 'sp')]
        desk, dispatcher, told, lines = self.line(
            *(f'node,{name},,' for name in 'pqrs'), *ring, 'station,P,p,9', 'station,R,r,9'
        )
        third = VehicleKey('KIT', '0003')
        desk.register_vehicle(third, 'p')
        told(third, 'p')
        desk.register_load('M', 'P')
        reasons, moves, at = set[str | None](), 0, 0.0
        self.assertTrue(dispatcher.turn())
        self.cross(desk, told)
        while self.now < 150:
            self.now += 1
            self.assertTrue(dispatcher.turn())
            reasons.add(dispatcher.waits().get('KIT/0001'))
            at = at or self.now * any('cancels' in line for line in lines)
            for key, node in ((ONE, 'a'), (TWO, 'd')):
                pending: Any = desk.instant_actions(key)
                told(key, node, instant=[pending['actions'][0]['actionId']] if pending else ())
            moves += self.go_round(desk, told, third)
        self.assertGreater(moves, 50)
        self.assertIn(
            'waits at a, since its way is blocked by KIT/0002 (with an order at d)', reasons
        )
        cancels = [re.sub(' order.*:', '', line) for line in lines if 'cancels' in line]
        self.assertEqual(cancels, ['KIT/0001: cancels it and others block one another, ' + SHUT_IN])
        self.assertIn(at, range(61, 75))
        self.assertEqual(desk.vehicle(TWO).order, 'P2')

    def go_round(self, desk: Desk, told: Told, key: VehicleKey) -> bool:
        """Lets a vehicle drive to the end of what is released to it and do there what is to be
        done, and gives it the next job where it has none. Whether it drove."""
        message: Any = desk.order_message(key)
        row = desk.vehicle(key)
        if message is None:
            load = desk.load('M')
            if load.job is None:
                self.jobs = getattr(self, 'jobs', 0) + 1
                desk.add_job(f'M{self.jobs}', 'M', 'R' if load.place == 'station P' else 'P')
            return False
        last = [node for node in message['nodes'] if node['released']][-1]
        left = [act for node in message['nodes'] if not node['released'] for act in node['actions']]
        told(key, last['nodeId'], last['sequenceId'], 'f' * (2 - len(left)))
        return bool(last['nodeId'] != row.node)


if __name__ == '__main__':
    unittest.main()
