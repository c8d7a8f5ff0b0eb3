"""Shows which job goes first, by its age, its priority and its due time, that none starves, and
what is said of those that wait, over the built program."""
from __future__ import annotations

import unittest

from nulvrader.desk.client import Job
from nulvrader.dispatch.choose import Chooser
from nulvrader.common.instructions import MOST_PRIORITY, Instructions, NoInstructions, Urgency
from nulvrader.dispatch.job_book import LEAD, JobBook, Waiting
from nulvrader.dispatch.judge import Judge
from nulvrader.dispatch.routes import MOST_EDGES, Ways
from nulvrader.dispatch.traffic import Traffic
from tests.support.bays import RING, seen
from tests.support.desks import over_sockets
from tests.support.dispatching import ONE, TWO, OverADesk

WALL = 1_798_122_600.0
"""A moment in seconds since 1970."""

STARVES = 45 * 60.0
"""A job that has waited for so long comes before all that are added then."""


def jobs(*names: str) -> dict[str, Job]:
    return {name: Job(name, f'L{name}', 'S', 'T') for name in names}


class Book(unittest.TestCase):
    def order(self, urgent: dict[str, Urgency], now: float = 0.0) -> str:
        """The order of jobs A to D that are all new."""
        book = JobBook()
        book.look(jobs(*'ABCD'), 0.0)
        book.look(jobs(*'ABCD'), now, urgent, WALL)
        return ''.join(book.waiting)

    def test_what_comes_first(self) -> None:
        """Where jobs are of the same age: the higher priority, or the earlier due time, once that
        is near."""
        self.assertEqual(self.order({}), 'ABCD')
        self.assertEqual(self.order({'C': Urgency(None, 1), 'D': Urgency(None, 2)}), 'DCAB')
        late, near = int(WALL - 60), int(WALL + LEAD / 2)
        self.assertEqual(self.order({'B': Urgency(near), 'C': Urgency(late)}), 'CBAD')
        far = int(WALL + 10 * LEAD)
        self.assertEqual(self.order({'D': Urgency(far)}), 'ABCD')

    def test_what_is_said_later(self) -> None:
        """What was said of a job may change, or be taken back."""
        book = JobBook()
        rows: list[tuple[dict[str, Urgency], str]] = [
            ({}, 'AB'),
            ({'B': Urgency(None, 3)}, 'BA'),
            ({'B': Urgency(None, 3), 'A': Urgency(int(WALL - LEAD), 3)}, 'AB'),
            ({'B': Urgency(None, 1)}, 'BA'),
            ({}, 'AB'),
        ]
        for urgent, wanted in rows:
            book.look(jobs(*'AB'), 0.0, urgent, WALL)
            self.assertEqual(''.join(book.waiting), wanted)

    def test_a_clock_that_is_set(self) -> None:
        """The due time is of the wall's clock, and the age is not."""
        book = JobBook()
        book.look(jobs('A'), 0.0, {'A': Urgency(int(WALL))}, WALL - 100)
        self.assertEqual(book.waiting['A'].due, 100.0)
        book.look(jobs('A'), 10.0, {'A': Urgency(int(WALL))}, WALL + 3600)
        self.assertEqual((book.waiting['A'].due, book.waiting['A'].since), (-3590.0, 0.0))

    def test_a_late_one_comes_first(self) -> None:
        """One that is due comes before all that have waited for a quarter of an hour without a due
        time, and are no more than three edges nearer."""
        late = Waiting('A', 'L', 'S', 'T', 0.0, 0.0)
        other = Waiting('B', 'L', 'S', 'T', -15 * 60.0)
        self.assertGreater(late.nearer(0.0), other.nearer(0.0) + 3)

    def test_none_starves(self) -> None:
        """One without a due time and a priority that has waited for 45 minutes comes before any
        that is new then, however urgent and near that is."""
        old = Waiting('A', 'L', 'S', 'T', 0.0)
        for wait in (STARVES, 2 * STARVES, 24 * 3600.0):
            for added in (wait, wait - 1):
                for due in (added - 10 * LEAD, added, added + LEAD):
                    new = Waiting('B', 'L', 'S', 'T', added, due, MOST_PRIORITY)
                    self.assertGreater(old.nearer(wait), new.nearer(wait) + MOST_EDGES)

    def test_the_number_that_may_pass_is_bounded(self) -> None:
        """Urgent jobs come every ten seconds, each nearer by ten edges, and a vehicle takes one
        each ten seconds: one that is not urgent is taken in the end."""
        rows = [Waiting('old', 'L', 'S', 'T', 0.0)]
        for turn in range(100_000):
            now = 10.0 * turn
            rows.append(Waiting(f'J{turn}', 'L', 'S', 'T', now, now, MOST_PRIORITY))
            far = {'old': 10.0}
            first = min(rows, key=lambda one: far.get(one.job, 0.0) - one.nearer(now))
            rows.remove(first)
            if first.job == 'old':
                break
        self.assertLess(now, STARVES)


class Choosing(unittest.TestCase):
    def test_the_chooser(self) -> None:
        """KIT/0001 stands at the pick of one job, and the other's is two edges farther: that goes
        first where it is urgent."""
        judge = Judge()
        judge.begin_turn()
        vehicle = seen(1, 'b')
        traffic = Traffic({}, {}, {vehicle.name: vehicle.nodes})
        near = Waiting('near', 'L1', 'T', 'S')
        for far, wanted in (
            (Waiting('far', 'L2', 'S', 'T'), 'near'),
            (Waiting('far', 'L2', 'S', 'T', 0.0, None, 1), 'far'),
            (Waiting('far', 'L2', 'S', 'T', 0.0, 0.0), 'far'),
            (Waiting('far', 'L2', 'S', 'T', 0.0, 2 * LEAD), 'near'),
        ):
            chooser = Chooser(Ways(RING), judge)
            chooser.begin_turn(0.0)
            found = chooser.propose([vehicle], [near, far], traffic)
            assert found is not None
            self.assertEqual(found.jobs[0].job, wanted)


@over_sockets
class OverTheProgram(OverADesk):
    """What people say comes from a text that the test sets, or from a fault."""

    places = ()

    def setUp(self) -> None:
        self.said: Instructions | NoInstructions = Instructions()
        super().setUp()

    def instructions(self) -> Instructions:
        if isinstance(self.said, NoInstructions):
            raise self.said
        return self.said

    def wall(self) -> float:
        return WALL + self.now

    def wait(self, *added: tuple[str, str, str]) -> None:
        """Both vehicles are in manual mode, and these jobs wait."""
        for key, node in ((ONE, 'ab'), (TWO, 'cb')):
            self.told(key, node, mode='MANUAL')
        for job, load, target in added:
            self.desk.add_job(job, load, target)
        self.turn()

    def test_the_urgent_one_goes_first(self) -> None:
        """Of two jobs from A that of the higher priority goes, though the other one was first."""
        self.wait(('J1', 'L1', 'B'))
        self.turn(100)
        self.wait(('J2', 'L2', 'D'))
        self.dispatcher.chooser.detour = 0
        self.said = Instructions({'J2': Urgency(None, 1)})
        self.told(ONE, 'ab')
        self.assertRegex(self.turn()[0], '^KIT/0001: takes J2')

    def test_a_late_one_is_told(self) -> None:
        """Once, and with the reason."""
        self.wait(('J1', 'L1', 'B'))
        self.said = Instructions({'J1': Urgency(int(WALL + 60)), 'J9': Urgency(1)})
        self.assertEqual(self.turn(), [])
        self.assertIn('job J1 is late, and waits: no vehicle is free', self.turn(60))
        self.assertEqual([line for line in self.turn(60) if 'late' in line], [])
        self.told(ONE, 'ab')
        self.assertRegex(self.turn()[0], '^KIT/0001: takes J1')

    def test_instructions_that_are_wrong(self) -> None:
        """They are told once; the last ones that were right hold."""
        self.wait(('J1', 'L1', 'B'))
        self.said = Instructions({}, frozenset('b'))
        self.told(ONE, 'ab')
        self.assertEqual(self.turn(), [])
        self.said = NoInstructions('f: line 2: it is wrong')
        self.assertEqual(self.turn(), ['alarm: f: line 2: it is wrong; the last ones hold'])
        self.assertEqual(self.turn(), [])
        self.said = Instructions()
        lines = self.turn()
        self.assertEqual(lines[0], 'the instructions can be read again')
        self.assertRegex(lines[1], '^KIT/0001: takes J1')

    def test_none_that_were_right(self) -> None:
        """At the start nothing is given or released, until they can be read."""
        self.said = NoInstructions('f: it is a folder')
        self.begin()
        self.desk.add_job('J1', 'L1', 'B')
        self.assertEqual(self.turn(), ['alarm: f: it is a folder; nothing is released'])
        self.assertEqual(self.turn(), [])
        self.said = Instructions()
        self.assertRegex(self.turn()[1], '^KIT/0001: takes J1')


if __name__ == '__main__':
    unittest.main()
