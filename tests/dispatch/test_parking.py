"""Shows which parking places are given and chosen, and who is to drive there, by hand, over the
built program, and over a sketch of a plant in which vehicles without an order would stand in the
way for good."""
from __future__ import annotations

import os
import re
import tempfile
import unittest
from collections.abc import Callable, Collection, Mapping
from unittest import mock

from nulvrader.common.names import VehicleKey
from nulvrader.common.plain_files import NotPlain
from nulvrader.desk.client import Desk, NoAnswer, Refused
from nulvrader.dispatch.drives import REST
from nulvrader.dispatch.judge import Judge
from nulvrader.dispatch.lanes import Way
from nulvrader.dispatch.parking import IDLE, BadParking, Parking, chosen, passed, read_parking
from nulvrader.dispatch.routes import Ways
from nulvrader.dispatch.traffic import Traffic
from simulation.floors import large, small
from simulation.sketch import Sketch
from simulation.sketched import Figures
from tests.support.bays import RING, layout, seen
from tests.support.desks import over_sockets
from tests.support.dispatching import ONE, TWO, OverADesk
from tests.support.programs import PATIENCE, TOOLS, module

assert TOOLS


class Places(unittest.TestCase):
    def test_what_a_file_names(self) -> None:
        for text, places in (
            ('node,behind\np,\n', ('p',)),
            ('\ufeffnode,behind\r\nq,1\r\n\r\n', ('q', 'p')),
            ('node,behind\np,0\nb\n', ('p', 'b')),
        ):
            self.assertEqual(read_parking(text, RING), places)

    def test_what_is_no_regular_file(self) -> None:
        """A FIFO and a device are not read, and nobody waits for them."""
        dispatch = module('dispatch')
        with tempfile.TemporaryDirectory() as folder:
            fifo = os.path.join(folder, 'fifo')
            os.mkfifo(fifo)
            for path in (fifo, '/dev/zero', folder):
                with self.subTest(path), self.assertRaises(NotPlain):
                    dispatch.places_of(path, RING)

    def test_what_is_no_file_of_places(self) -> None:
        for text, told in (
            ('', 'line 1: the header is not node,behind'),
            ('p,\n', 'line 1: the header'),
            ('node,behind\nx,\n', 'line 2: the layout has no node x'),
            ('node,behind\np,-1\n', 'line 2: -1 is no number from 0 to 99'),
            ('node,behind\np,\u0661\n', 'line 2: \u0661 is no number'),
            ('node,behind\np,100\n', 'line 2: 100 is no number'),
            ('node,behind\np,\np,\n', 'line 3: the node p is a place already'),
            ('node,behind\nq,1\np,\n', 'line 3: the node p is a place already'),
            ('node,behind\na,1\n', 'line 2: there is no single way to a'),
        ):
            with self.subTest(text), self.assertRaisesRegex(BadParking, f'^{told}'):
                read_parking(text, RING)

    def test_what_a_layout_has(self) -> None:
        """Over the ring lead ways, but none over the bay without a station, nor behind it."""
        self.assertEqual(passed(RING), set('abcd'))
        self.assertEqual(chosen(RING), ('p', 'q'))

    def test_no_place_without_a_way_out(self) -> None:
        """From q leads no edge, and to r none."""
        one = layout(('ab', 'bc', 'cd', 'da', 'bq', 'rb'), ('as', 'ct', 'bp'), 'st')
        self.assertEqual(chosen(one), ('p',))

    def test_stations_where_there_is_nothing_else(self) -> None:
        """On the floors of the simulated plants only bays are passed by nobody, and the ends of
        dead ends."""
        for floor in (small(), large()):
            places = chosen(floor.layout())
            ends = {node for node in floor.layout().nodes if node.endswith('x2')}
            self.assertEqual(set(places), {*floor.bays, *ends})


class Who(unittest.TestCase):
    def setUp(self) -> None:
        self.judge = Judge()
        self.judge.begin_turn()
        self.parking = Parking(Ways(RING), self.judge)

    def propose(
        self,
        at: str,
        wanted: Collection[str] = (),
        since: float = 0.0,
        now: float = 0.0,
        ways: Mapping[str, Way] | None = None,
    ) -> tuple[str, str] | None:
        idle = [seen(n, node) for n, node in enumerate(at)]
        traffic = Traffic(ways or {}, {}, {one.name: one.nodes for one in idle})
        times = {one.name: since for one in idle}
        found = self.parking.propose(idle, times, wanted, (), traffic, now)
        return None if found is None else (found.vehicle, ''.join(found.way))

    def test_one_that_stands_at_a_drop(self) -> None:
        self.assertEqual(self.propose('s', wanted='s'), ('KIT/0000', 'sabp'))
        self.assertIsNone(self.propose('s', wanted='t'))

    def test_one_that_stands_at_a_pick(self) -> None:
        """It would take the job itself if it could, so the one at the drop makes room."""
        idle = [seen(1, 's'), seen(2, 't')]
        traffic = Traffic({}, {}, {one.name: one.nodes for one in idle})
        for now, wanted in ((0.0, None), (IDLE, 'KIT/0001')):
            found = self.parking.propose(idle[:1], {'KIT/0001': 0.0}, 't', 's', traffic, now)
            self.assertEqual(None if found is None else found.vehicle, wanted)
        found = self.parking.propose(idle, {'KIT/0001': 0.0}, 't', 's', traffic, IDLE)
        self.assertEqual(None if found is None else found.vehicle, 'KIT/0002')

    def test_one_on_the_way_of_another(self) -> None:
        on = {'KIT/0009': ('a', 'b', 'c', 't')}
        self.assertEqual(self.propose('b', ways=on), ('KIT/0000', 'bp'))

    def test_one_that_is_idle(self) -> None:
        self.assertIsNone(self.propose('s', now=IDLE - 1))
        self.assertEqual(self.propose('s', now=IDLE), ('KIT/0000', 'sabp'))
        self.assertIsNone(self.propose('p', now=IDLE))

    def test_places_that_are_taken(self) -> None:
        """One stands at p: the other can't go by to q."""
        self.assertIsNone(self.propose('ps', wanted='s'))
        self.assertEqual(self.propose('qs', wanted='s'), ('KIT/0001', 'sabp'))

    def test_one_that_another_ends_at(self) -> None:
        """The bay p is the end of another's way, so it goes on to q, before that one comes."""
        on = {'KIT/0009': ('c', 'd', 'a', 'b', 'p')}
        self.assertEqual(self.propose('s', wanted='s', ways=on), ('KIT/0000', 'sabpq'))


class Run(unittest.TestCase):
    """Over a sketch of the small plant, with a dispatcher that checks its plan after each turn."""

    def run_with(self, drive: Callable[..., int] | None = None, jobs: int = 6) -> Figures:
        """A run in which one job waits at a time, until all are done, for 50 minutes at most. The
        desk's call for drives is this one, if one is named."""
        sketch, given = Sketch(small(), 7, 40, 2), list[int]()
        if drive is not None:
            mock.patch.object(sketch, 'start_drive', drive).start()
            self.addCleanup(mock.patch.stopall)

        def add() -> None:
            if not sketch.jobs_open and len(given) < jobs:
                sketch.add_jobs(1)
                given.append(1)

        sketch.clock.every(1.0, add, 2.0)
        sketch.run(3000.0, lambda: sketch.figures.done == jobs)
        return sketch.figures

    def test_one_job_at_a_time(self) -> None:
        """Each is done."""
        figures = self.run_with()
        self.assertEqual(figures.done, 6)
        self.assertGreater(figures.counts['drives'], 0)

    def test_a_desk_without_drives(self) -> None:
        """It is asked once; and a job waits for good for a vehicle that stands where it leads."""
        asked: list[object] = []

        def drive(*words: object) -> int:
            asked.append(words)
            raise Refused('NoPath', 0, 404, {}, 'there is no such path', '')

        self.assertLess(self.run_with(drive).done, 6)
        self.assertEqual(len(asked), 1)


class Raced(Desk):
    """A desk at which something happens just before a drive is asked for, or just after it."""

    def __init__(self, address: str) -> None:
        super().__init__(address, timeout=PATIENCE)
        self.before: Callable[[str], object] = lambda order: None
        self.after: Callable[[str], object] = lambda order: None
        self.asked: list[tuple[str, str, str]] = []
        self.refused: list[str] = []

    def start_drive(self, order: str, vehicle: VehicleKey, to: str, edges: int) -> int:
        self.asked.append((order, str(vehicle), to))
        self.before(order)
        try:
            update = super().start_drive(order, vehicle, to, edges)
        except Refused as refusal:
            self.refused.append(refusal.name)
            raise
        self.after(order)
        return update


class Older(Desk):
    """A desk that has no drives."""

    asked = 0

    def start_drive(self, order: str, vehicle: VehicleKey, to: str, edges: int) -> int:
        self.asked += 1
        return self._members('POST', '/drives-of-later', {}).number('orderUpdateId')


@over_sockets
class OverTheProgram(OverADesk):
    def a_desk(self) -> Desk:
        self.raced = Raced(self.address)
        return self.raced

    def names(self) -> list[str]:
        return [order for order, _, _ in self.raced.asked]

    def run_until(self, places: Mapping[str, str], most: int = 60) -> None:
        """Turns in which both vehicles drive what they are given, until these loads are there and
        no vehicle has an order. No person does anything."""
        for _ in range(most):
            self.turn()
            self.go_on(ONE)
            self.go_on(TWO)
            have_ended = all(self.desk.vehicle(key).order is None for key in (ONE, TWO))
            if have_ended and all(self.place(load) == place for load, place in places.items()):
                self.turn()
                return
        self.fail('\n'.join(self.lines))

    def test_two_that_change_places(self) -> None:
        """KIT/0001 stands in the bay of A and KIT/0002 in that of C, with a job from A to C and one
        back."""
        self.turn()
        self.desk.add_job('J1', 'L1', 'C')
        self.desk.add_job('J2', 'L3', 'A')
        self.run_until({'L1': 'station C', 'L3': 'station A'})
        self.assertGreater(len(self.names()), 0)
        self.assertEqual(len(set(self.names())), len(self.names()))

    def test_one_that_stands_at_a_drop(self) -> None:
        """It is led to the nearest bay that no job needs, edge by edge, while the job begins."""
        self.turn()
        self.desk.add_job('J1', 'L1', 'C')
        self.assertRegex(self.turn()[0], r'^KIT/0002: drives to db, by order \S+$')
        self.assertEqual(self.held(TWO), ['c', 'cb', 'd'])
        self.run_until({'L1': 'station C'})
        self.assertEqual(self.raced.asked[1:], [])
        ended = f'KIT/0002: order {self.names()[0]} has ended at db'
        self.assertIn(ended, self.lines)
        self.assertEqual(self.held(TWO), ['db'])

    def test_one_that_a_person_puts_in_the_way(self) -> None:
        """KIT/0001 is on its way from A to D when KIT/0002 is placed at d. It is led to the bay
        that KIT/0001 leaves: that of D is nearer, but KIT/0001 goes there."""
        self.turn()
        self.desk.add_job('J1', 'L1', 'D')
        self.turn()
        self.desk.place(TWO, 'person-1', 'd')
        self.told(TWO, 'd')
        self.assertRegex(self.turn()[0], r'^KIT/0002: drives to ab, by order \S+$')
        self.run_until({'L1': 'station D'})

    def test_one_that_is_idle_on_the_ring(self) -> None:
        self.turn()
        self.told(ONE, 'ab', mode='MANUAL')
        self.turn()
        self.desk.place(ONE, 'person-1', 'a')
        self.told(ONE, 'a')
        self.turn()
        self.told(ONE, 'a')
        self.turn(IDLE - 1)
        self.assertEqual(self.raced.asked, [])
        self.assertRegex(self.turn()[0], r'^KIT/0001: drives to ab, by order \S+$')
        self.go_on(ONE)
        self.turn()
        self.assertEqual(self.held(ONE), ['ab'])
        for _ in range(10):
            self.told(ONE, 'ab')
            self.turn(IDLE)
        self.assertEqual(len(self.raced.asked), 1)

    def test_what_comes_between(self) -> None:
        """The desk refuses the drive, since something happens after the look and before the call:
        it is said once. Another drive is asked for after a while, by another name."""
        for name, happens in (
            ('Busy', lambda order: self.desk.start_drive('P1', TWO, 'c', 0)),
            ('NotReady', lambda order: self.told(TWO, 'cb', mode='MANUAL')),
            ('Held', lambda order: self.desk.start_drive('P1', ONE, 'd', 3)),
            ('OrderKnown', lambda order: self.told(TWO, 'cb', named=order)),
            ('Exists', lambda order: self.desk.start_drive(order, ONE, 'b', 0)),
        ):
            with self.subTest(name):
                self.setUp()
                self.turn()
                self.desk.add_job('J1', 'L1', 'C')
                self.raced.before = happens
                said = self.turn()
                told = [line for line in said if line.startswith('KIT/0002: it does not drive')]
                self.assertEqual((self.raced.refused, len(told)), ([name], 1), said)
                self.raced.before = lambda order: None
                self.turn()
                self.turn(REST - 2)
                self.assertEqual(len(self.raced.asked), 1)
                self.assertNotRegex('\n'.join(self.lines), 'alarm|does not answer')
                self.run_until({'L1': 'station C'})
                self.assertEqual(len(set(self.names())), len(self.names()))
                self.doCleanups()

    def test_no_answer_to_a_drive(self) -> None:
        """The desk has started it all the same: it is seen in the next turn, and no second one is
        asked for."""
        self.turn()
        self.desk.add_job('J1', 'L1', 'C')

        def cut(order: str) -> None:
            raise NoAnswer('the connection was closed', True)

        self.raced.after = cut
        self.now += 1
        self.assertFalse(self.dispatcher.turn())
        self.raced.after = lambda order: None
        self.run_until({'L1': 'station C'})
        self.assertEqual(len(self.raced.asked), 1)
        told = f'KIT/0002: has order {self.names()[0]}, a drive to db'
        self.assertIn(told, self.lines)
        self.assertEqual([line for line in self.lines if 'cancels' in line], [])

    def test_a_desk_without_drives(self) -> None:
        """It is asked once, and that is said."""
        self.older = Older(self.address, timeout=PATIENCE)
        with mock.patch.object(self, 'a_desk', lambda: self.older):
            self.begin()
        self.turn()
        self.desk.add_job('J1', 'L1', 'C')
        for _ in range(50):
            self.turn()
        self.assertEqual(self.older.asked, 1)
        told = [line for line in self.lines if re.search('drive', line)]
        self.assertEqual(
            told, ['the desk has no drives: a vehicle without an order stays where it is']
        )


class Swap(unittest.TestCase):
    def test_two_that_change_places(self) -> None:
        """One at s and one at t, with a job from each to the other: the first makes room at p."""
        idle = [seen(1, 's'), seen(2, 't')]
        judge = Judge()
        judge.begin_turn()
        traffic = Traffic({}, {}, {one.name: one.nodes for one in idle})
        self.assertFalse(judge.may_start(traffic, 'KIT/0001', tuple('sabct')))
        parking = Parking(Ways(RING), judge)
        found = parking.propose(idle, {}, {'s', 't'}, ['s', 't'], traffic, 0.0)
        assert found is not None
        self.assertEqual((found.vehicle, found.to), ('KIT/0001', 'p'))
        after = traffic.started('KIT/0001', found.way)
        self.assertTrue(judge.may_start(after, 'KIT/0002', tuple('tcdas')))


if __name__ == '__main__':
    unittest.main()
