"""Shows what a file of chargers may have, who drives to one and who leaves it, over the built
program and over sketches of plants in which batteries drain and some vehicles say what is not
so."""
from __future__ import annotations

import unittest
from collections.abc import Mapping, Sequence

from nulvrader.dispatch.chargers import BadChargers, Chargers, Marks, read_chargers
from nulvrader.dispatch.charging import FLAT, IDLE, Charging
from nulvrader.dispatch.dispatcher import Dispatcher
from nulvrader.dispatch.judge import Judge
from nulvrader.dispatch.routes import Ways
from nulvrader.dispatch.shared import Settings
from nulvrader.dispatch.snapshot import Seen
from nulvrader.dispatch.traffic import Traffic
from nulvrader.common.layouts import read_layout
from simulation.charged import Charged
from simulation.floors import small
from tests.support.bays import RING, seen
from tests.support.desks import over_sockets
from tests.support.dispatching import LAYOUT, ONE, TWO, OverADesk

ALL: frozenset[str] = frozenset()


class Files(unittest.TestCase):
    def test_what_a_file_names(self) -> None:
        for text, chargers in (
            ('node,vehicles\np,\n', {'p': ALL}),
            ('\ufeffnode,vehicles\r\nq,KIT/0001 KIT/0002\r\n\r\n', {'q': {'KIT/0001', 'KIT/0002'}}),
            ('node,vehicles\np\ns,KIT/0001\n', {'p': ALL, 's': {'KIT/0001'}}),
            ('node,vehicles\n', {}),
        ):
            self.assertEqual(read_chargers(text, RING), chargers)

    def test_what_is_no_file_of_chargers(self) -> None:
        for text, told in (
            ('', 'line 1: the header is not node,vehicles'),
            ('node,behind\np,\n', 'line 1: the header'),
            ('node,vehicles\nx,\n', 'line 2: the layout has no node x'),
            ('node,vehicles\n\x1b[2J,\n', r'line 2: the layout has no node \\x1b\[2J'),
            ('node,vehicles\np,KIT\n', 'line 2: KIT is no list of vehicles'),
            ('node,vehicles\np,KIT/1,KIT/2\n', 'line 2: KIT/1,KIT/2 is no list'),
            ('node,vehicles\np,' + 'K' * 99 + '/1\n', r'line 2: K+.* is no list'),
            ('node,vehicles\np,\np,\n', 'line 3: the node p is a charger already'),
        ):
            with self.subTest(text), self.assertRaisesRegex(BadChargers, f'^{told}'):
                read_chargers(text, RING)


class Who(unittest.TestCase):
    """Vehicles at nodes of a ring, with a charger in the bay p and one behind it, at q."""

    def begin(
        self,
        at: str,
        charges: Sequence[float | None],
        chargers: Chargers,
        *,
        busy: bool = True,
    ) -> None:
        judge = Judge()
        judge.begin_turn()
        self.charging = Charging(Ways(RING), judge, chargers, Marks(20, 80))
        self.idle = [seen(n, node) for n, node in enumerate(at)]
        self.traffic = Traffic({}, {}, {one.name: one.nodes for one in self.idle})
        self.turn(charges, busy=busy)

    def turn(self, charges: Sequence[float | None], *, busy: bool = True, now: float = 0.0) -> None:
        told = {one.name: charge for one, charge in zip(self.idle, charges) if charge is not None}
        self.charging.begin_turn({one.name: one for one in self.idle}, told, busy, now)

    def first(self) -> list[str]:
        return [one.name[-1] for one in self.charging.first(self.idle, self.traffic)]

    def later(self, since: float = 0.0) -> list[str]:
        times = {one.name: since for one in self.idle}
        return [one.name[-1] for one in self.charging.later(self.idle, times, self.traffic)]

    def resting(self) -> str:
        return ''.join(one.name[-1] for one in self.idle if self.charging.rests(one.name))

    def propose(self, wanting: Sequence[Seen]) -> tuple[str | None, str | None]:
        drive, leaves = self.charging.propose(wanting, self.idle, self.traffic)
        found = None if drive is None else drive.vehicle[-1] + ''.join(drive.way)
        return found, None if leaves is None else leaves.name[-1]

    def test_below_the_lower_mark(self) -> None:
        """It takes no job and goes, the one with the least charge first; the others don't."""
        self.begin('abs', (19.0, 5.0, 20.0), {'p': ALL}, busy=False)
        self.assertEqual((self.first(), self.resting()), (['1', '0'], '01'))
        self.assertEqual(self.propose(self.idle[1:2]), ('1bp', None))
        self.assertEqual(self.charging.rests('KIT/0000'), 'has a battery below 20 %')

    def test_where_nothing_is_told(self) -> None:
        self.begin('abs', (None, None, None), {'p': ALL})
        self.turn((None,) * 3, now=2 * IDLE)
        self.assertEqual((self.first(), self.later(), self.resting()), ([], [], ''))

    def test_where_there_are_no_chargers(self) -> None:
        self.begin('abs', (1.0, 2.0, 3.0), {})
        self.turn((1.0, 2.0, 3.0), now=2 * IDLE)
        self.assertEqual((self.first(), self.later(), self.resting()), ([], [], ''))

    def test_between_the_marks(self) -> None:
        """It goes when it has had no order for a while. With its battery at the upper mark it does
        not."""
        self.begin('abs', (50.0, 79.0, 80.0), {'p': ALL}, busy=False)
        self.assertEqual(self.later(), [])
        self.turn((50.0, 79.0, 80.0), busy=False, now=IDLE)
        self.assertEqual((self.first(), self.later(), self.resting()), ([], ['0', '1'], ''))

    def test_never_all_at_once(self) -> None:
        """While jobs wait a quarter goes of its own accord, those with the least charge; nobody
        above the middle goes before it is offered a job."""
        charges = (49.0, 45.0, 30.0, 35.0, 60.0, 70.0, 25.0, 48.0)
        self.begin('abcdstpq', charges, {'p': ALL, 'q': ALL, 'x': ALL})
        self.idle = self.idle[:6]
        self.assertEqual(self.first(), [])  # two stand at chargers
        self.assertEqual(self.resting(), '')
        self.begin('abcdst', charges, {'p': ALL, 'q': ALL})
        self.assertEqual(self.first(), ['2'])
        self.turn(charges, now=IDLE)
        self.assertEqual(self.later(), ['2'])
        self.turn(charges, now=IDLE, busy=False)
        self.assertEqual(self.later(), ['2', '3', '1', '0', '4', '5'])

    def test_at_a_charger(self) -> None:
        """It takes no job below the middle, nor below the upper mark while it is one of the quarter
        that may charge, but where another one is low and has no place."""
        for charge, resting in ((49.0, '0'), (51.0, '0'), (79.0, '0'), (80.0, '')):
            self.begin('pab', (charge, 90.0, 90.0), {'p': ALL})
            self.assertEqual(self.resting(), resting)
        self.begin('pqab', (51.0, 52.0, 90.0, 90.0), {'p': ALL, 'q': ALL})
        self.assertEqual(self.resting(), '0')
        for charge, resting in ((49.0, '01'), (51.0, '1')):
            self.begin('pab', (charge, 10.0, 90.0), {'p': ALL})
            self.assertEqual(self.resting(), resting)

    def test_who_leaves(self) -> None:
        """One that is at the upper mark, where another one wants its place; one at the middle,
        where that is low; nobody where there is another charger."""
        for charges, leaves in (
            ((79.0, 60.0), None),
            ((80.0, 60.0), '0'),
            ((49.0, 10.0), None),
            ((50.0, 10.0), '0'),
        ):
            self.begin('pa', charges, {'p': ALL}, busy=False)
            self.assertEqual(self.propose(self.idle[1:]), (None, leaves))
        self.begin('sa', (80.0, 60.0), {'s': ALL, 'p': ALL}, busy=False)
        self.assertEqual(self.propose(self.idle[1:]), ('1abp', None))

    def test_who_may(self) -> None:
        """A charger that is not for a vehicle is none for it: it goes to another one, and nobody
        leaves it."""
        own = frozenset(['KIT/0001'])
        self.begin('ba', (10.0, 10.0), {'p': own, 't': ALL}, busy=False)
        self.assertEqual(self.propose(self.idle[:1]), ('0bct', None))
        self.begin('bp', (10.0, 90.0), {'p': own}, busy=False)
        self.assertEqual(self.propose(self.idle[:1]), (None, None))
        told = 'has a battery below 20 %, and gets to no charger, until a person charges it'
        self.assertEqual(self.charging.why_not(self.idle[0], self.traffic), told)

    def test_one_that_does_not_charge(self) -> None:
        """It says 5 % for ever, or ever less: after a while it is told, and leaves where another
        one wants its place. One whose battery rises does not."""
        for later, is_flat in ((5.0, True), (4.0, True), (6.0, False)):
            self.begin('pa', (5.0, 10.0), {'p': ALL}, busy=False)
            self.turn((later, 10.0), now=FLAT - 1, busy=False)
            self.assertEqual(self.charging.flat(), {})
            self.turn((later, 10.0), now=FLAT, busy=False)
            self.assertEqual(list(self.charging.flat()), ['KIT/0000'] if is_flat else [])
            wanted = (None, '0' if is_flat else None)
            self.assertEqual(self.propose(self.idle[1:]), wanted)
            self.assertEqual(self.resting(), '01')


@over_sockets
class OverTheProgram(OverADesk):
    """The bay of B, which is a station, has a charger; the vehicles say what the test sets."""

    def setUp(self) -> None:
        self.charges: dict[str, float] = {}
        super().setUp()

    def begin(self) -> None:
        self.dispatcher = Dispatcher(
            self.a_desk(),
            read_layout(LAYOUT),
            Settings(ahead=2),
            parking=('db', 'cb'),
            chargers={'bb': frozenset()},
            batteries=lambda known: {name: self.charges[name] for name in self.charges},
            say=self.lines.append,
            clock=lambda: self.now,
        )

    def at_charger(self, key: object) -> None:
        for _ in range(8):
            self.turn()
            self.go_on(key)
        self.assertEqual(self.held(key), ['bb'])

    def test_a_battery_that_is_low(self) -> None:
        """It drives to charge though a job waits where it stands, which the other one takes."""
        self.charges = {'KIT/0001': 12.0}
        self.desk.add_job('J1', 'L1', 'D')
        lines = self.turn()
        self.assertRegex(lines[0], '^KIT/0001: drives to bb to charge, by order ')
        self.assertRegex(lines[1], '^KIT/0002: takes J1 ')
        self.at_charger(ONE)

    def test_it_takes_jobs_again(self) -> None:
        """Once it has the upper mark; until then it is told that it charges."""
        self.charges = {'KIT/0001': 12.0}
        self.told(TWO, 'cb', mode='MANUAL')
        self.at_charger(ONE)
        self.desk.add_job('J1', 'L1', 'D')
        for charge in (12.0, 30.0, 79.0):
            self.charges = {'KIT/0001': charge}
            self.told(ONE, 'bb')
            self.assertFalse([line for line in self.turn(20) if 'takes' in line])
        self.assertIn('KIT/0001 charges', '; '.join(self.lines))
        self.charges = {'KIT/0001': 80.0}
        self.assertRegex(self.turn()[0], '^KIT/0001: takes J1')

    def test_one_that_is_full_leaves(self) -> None:
        """Where the other one is low: it drives to a parking place, and then that one comes."""
        self.charges = {'KIT/0001': 12.0}
        self.at_charger(ONE)
        self.charges = {'KIT/0001': 60.0, 'KIT/0002': 10.0}
        why = 'since another vehicle is to charge'
        self.assertRegex(self.turn()[0], f'^KIT/0001: drives to db {why}, by order ')
        for _ in range(12):
            self.go_on(ONE)
            self.go_on(TWO)
            self.turn()
        self.assertEqual(self.held(TWO), ['bb'])

    def test_a_low_one_that_finds_no_place(self) -> None:
        """It is told what it waits for, and what ends that."""
        self.charges = {'KIT/0001': 12.0}
        self.at_charger(ONE)
        self.charges = {'KIT/0001': 15.0, 'KIT/0002': 10.0}
        self.turn()
        why = 'has a battery below 20 %, and finds no charger free, until a vehicle leaves one'
        self.assertEqual(self.dispatcher.waits()['KIT/0002'], why)
        self.assertIn(f'KIT/0002 {why}', self.turn(20))


class OverASketch(unittest.TestCase):
    """Five vehicles whose batteries last for twenty minutes, and two chargers."""

    def run_with(
        self, knows: bool = True, lies: Mapping[str, float] = {}, minutes: float = 40.0
    ) -> Charged:
        sketch = Charged(small().with_chargers(2), 5, 30, lies, knows)
        sketch.clock.every(1.0, lambda: sketch.keep_backlog(10))
        sketch.run(60 * minutes)
        return sketch

    def test_no_battery_is_empty(self) -> None:
        """Without what it knows of chargers, batteries get empty."""
        with_it, without = self.run_with(), self.run_with(False)
        self.assertEqual(with_it.figures.counts['empty'], 0)
        self.assertGreater(without.figures.counts['empty'], 3)
        self.assertGreater(with_it.figures.done, 0.8 * without.figures.done)

    def test_vehicles_that_lie(self) -> None:
        """One says 1 % for ever, one 100 % for ever: the others charge and work on."""
        lies = {'KIT/0001': 1.0, 'KIT/0002': 100.0}
        sketch = self.run_with(lies=lies, minutes=60.0)
        self.assertGreater(min(sketch.least[f'KIT/{n:04d}'] for n in (3, 4, 5)), 0)
        self.assertGreater(sketch.figures.done, 80)


if __name__ == '__main__':
    unittest.main()
