"""Shows that jobs of a truck are given and put down in their order, even where one vehicle takes
several, and how urgent they are, over the built program and a sketch."""
from __future__ import annotations

import random
import unittest
from collections.abc import Sequence

from nulvrader.common.instructions import Instructions, NoInstructions, Urgency, read
from nulvrader.desk.client import Job
from nulvrader.dispatch.choose import Chooser
from nulvrader.dispatch.job_book import LEAD, JobBook, Waiting
from nulvrader.dispatch.judge import Judge
from nulvrader.dispatch.routes import Ways
from nulvrader.dispatch.traffic import Traffic
from simulation.floors import small
from simulation.sketch import Sketch
from tests.support.bays import RING, seen
from tests.support.desks import over_sockets
from tests.support.dispatching import ONE, OverADesk

HEADER = 'kind,name,due,priority,truck,place\n'


def of_truck(*places: int, truck: str = 'T7') -> dict[str, Urgency]:
    """Jobs A, B, .. with these places in a truck."""
    return {chr(65 + n): Urgency(None, 0, truck, place) for n, place in enumerate(places)}


class Files(unittest.TestCase):
    def test_what_is_written_is_read(self) -> None:
        said = Instructions(
            {'J1': Urgency(86400, 2, 'T7', 3), 'J2': Urgency(truck='T7', place=999)}
        )
        self.assertIn('job,J1,1970-01-02T00:00:00Z,2,T7,3\n', said.text())
        self.assertEqual(read(said.text()), said)

    def test_a_file_from_before(self) -> None:
        old = 'kind,name,due,priority\njob,J1,,2\nnode,N7,,\n'
        self.assertEqual(read(old), Instructions({'J1': Urgency(None, 2)}, frozenset(['N7'])))

    def test_what_is_no_truck(self) -> None:
        for fields in (
            'T7,',
            ',3',
            'T7,0',
            'T7,1000',
            'T7,-1',
            'T7,1e400',
            'T7,NaN',
            'T7,\u0663',
            'T 7,3',
            '\x1b[2J,3',
            'T7,3,4',
            'T' * 33 + ',1',
        ):
            with self.subTest(fields), self.assertRaisesRegex(NoInstructions, '^line 2: '):
                read(f'{HEADER}job,J1,,,{fields}\n')
        for line in ('node,N7,,,T7,3', 'job,J1,,'):
            with self.subTest(line), self.assertRaisesRegex(NoInstructions, '^line 2: '):
                read(f'{HEADER}{line}\n')


class Book(unittest.TestCase):
    """Which jobs come before which."""

    def behind(self, said: dict[str, Urgency], riding: str = '', gone: str = '') -> dict[str, str]:
        live = {
            name: Job(name, f'L{name}', 'S', 'T', ONE if name in riding else None, None)
            for name in 'ABCDE'
            if name not in gone
        }
        live |= {
            name: Job(name, f'L{name}', 'S', 'T', ONE, 'O1') for name in riding if name in live
        }
        book = JobBook()
        book.look(live, 0.0, said)
        return {one.job: ''.join(sorted(one.behind)) for one in book.waiting.values()}

    def test_which_come_before(self) -> None:
        said = of_truck(1, 2, 2, 5)
        self.assertEqual(self.behind(said), {'A': '', 'B': 'A', 'C': 'A', 'D': 'BC', 'E': ''})
        self.assertEqual(self.behind(said, riding='A')['B'], 'A')
        self.assertEqual(self.behind(said, gone='A'), {'B': '', 'C': '', 'D': 'BC', 'E': ''})
        self.assertEqual(self.behind(said, gone='BC'), {'A': '', 'D': 'A', 'E': ''})

    def test_other_trucks(self) -> None:
        said = {**of_truck(2, 1), **{'C': Urgency(truck='T8', place=1)}}
        self.assertEqual(self.behind(said), {'A': 'B', 'B': '', 'C': '', 'D': '', 'E': ''})

    def test_what_is_taken_back(self) -> None:
        book = JobBook()
        live = {name: Job(name, f'L{name}', 'S', 'T') for name in 'AB'}
        rows: tuple[tuple[dict[str, Urgency], set[str]], ...] = (
            (of_truck(1, 2), {'A'}),
            ({}, set()),
            (of_truck(2, 1), set()),
        )
        for said, behind in rows:
            book.look(live, 0.0, said)
            self.assertEqual(book.waiting['B'].behind, behind)

    def test_how_urgent_the_first_is(self) -> None:
        """As those that wait for it: a late one at the end of a truck pulls all before it."""
        said = of_truck(1, 2, 3)
        said['C'] = Urgency(0, 4, 'T7', 3)
        live = {name: Job(name, f'L{name}', 'S', 'T') for name in 'ABCD'}
        book = JobBook()
        book.look(live, LEAD, said, LEAD)
        near = {one.job: one.nearer(LEAD) for one in book.waiting.values()}
        self.assertEqual(near['A'], near['C'])
        self.assertEqual(near['B'], near['C'])
        self.assertGreater(near['A'], near['D'])
        self.assertIsNone(book.waiting['A'].due)


class Choosing(unittest.TestCase):
    """A vehicle in the bay s of a ring, and jobs from there."""

    def propose(self, waiting: Sequence[Waiting], capacity: int = 4) -> list[str]:
        judge = Judge()
        judge.begin_turn()
        vehicle = seen(1, 's')
        row = vehicle.row
        vehicle = type(vehicle)(
            type(row)(row.key, row.node, capacity, *list(vars(row).values())[3:]),
            (),
            None,
            vehicle.nodes,
            0,
        )
        chooser = Chooser(Ways(RING), judge, 8)
        chooser.begin_turn(0.0)
        traffic = Traffic({}, {}, {vehicle.name: vehicle.nodes})
        found = chooser.propose([vehicle], waiting, traffic)
        return [] if found is None else [f'{one.action} {one.job}' for one in found.stops]

    def test_one_that_comes_behind(self) -> None:
        """It is never the first of an order; where that has what comes before, it is put down
        behind it."""
        last = Waiting('B', 'L2', 'S', 'T', behind=frozenset('A'))
        self.assertEqual(self.propose([last]), [])
        first = Waiting('A', 'L1', 'S', 'T')
        stops = self.propose([last, first])
        self.assertLess(stops.index('drop A'), stops.index('drop B'))
        self.assertEqual(self.propose([last, first], 1), ['pick A', 'drop A'])

    def test_any_number_of_them(self) -> None:
        """At random: all of an order are put down by their places."""
        chance = random.Random(7)
        for _ in range(300):
            names = 'ABCDEF'
            places = {name: chance.randint(1, 4) for name in names}
            said = {name: Urgency(truck='T7', place=places[name]) for name in names}
            live = {}
            for name in names:
                origin, target = chance.sample('ST', 2)
                live[name] = Job(name, f'L{name}', origin, target)
            book = JobBook()
            book.look(live, 0.0, said)
            stops = self.propose(list(book.waiting.values()))
            drops = [stop[-1] for stop in stops if stop.startswith('drop')]
            self.assertTrue(drops)
            self.assertEqual([places[job] for job in drops], sorted(places[job] for job in drops))
            least = min(places.values())
            self.assertEqual(places[drops[0]], least)


class OverASketch(unittest.TestCase):
    def test_all_trucks_are_loaded_in_their_order(self) -> None:
        """Five vehicles, a backlog of jobs of which each four are of one truck: all are done, and
        each truck in its order."""
        sketch, done = Sketch(small(), 5, 30, near=0.5), list[str]()
        said: dict[str, Urgency] = {}
        sketch.dispatcher._read = lambda: Instructions(said)
        before: set[str] = set()

        def look() -> None:
            nonlocal before
            live = set(sketch.jobs_open)
            done.extend(sorted(before - live))
            before = live
            for n, job in enumerate(sorted(live - said.keys())):
                number = int(job[4:]) - 1
                said[job] = Urgency(truck=f'T{number // 4}', place=1 + number % 4)

        sketch.add_jobs(20)
        look()
        sketch.clock.every(0.1, look)
        sketch.run(7200, lambda: not sketch.jobs_open)
        look()
        self.assertEqual(len(done), 20)
        for n in range(5):
            row = [job for job in done if said[job].truck == f'T{n}']
            self.assertEqual(row, sorted(row), row)


@over_sockets
class OverTheProgram(OverADesk):
    def setUp(self) -> None:
        self.said = Instructions()
        super().setUp()

    def instructions(self) -> Instructions:
        return self.said

    def test_a_job_that_comes_behind(self) -> None:
        """The free vehicle does not take it; it is told what it waits for; and it goes once that is
        stopped."""
        self.desk.add_job('J1', 'L3', 'B')
        self.desk.add_job('J2', 'L1', 'D')
        urgent = {'J1': Urgency(truck='T7', place=1), 'J2': Urgency(truck='T7', place=2)}
        self.said = Instructions(urgent)
        self.told(ONE, 'ab', mode='MANUAL')
        lines = self.turn()
        self.assertRegex(lines[0], '^KIT/0002: takes J1 ')
        self.told(ONE, 'ab')
        self.assertFalse([line for line in self.turn() if 'takes' in line])
        why = 'it comes behind J1 of truck T7, until these are done or stopped'
        self.assertEqual(self.dispatcher.waits()['job J2'], why)
        self.said = Instructions()
        self.assertRegex(self.turn()[0], '^KIT/0001: takes J2 ')


if __name__ == '__main__':
    unittest.main()
