"""Shows that the simulated plant over the built program finds nothing wrong in a part of a day with
kills and people, and finds what is wrong with a dispatcher that does not look."""
import contextlib
import dataclasses
import os
import subprocess
import sys
import unittest
from collections.abc import Sequence
from unittest import mock

from nulvrader.desk.client import NoAnswer
from nulvrader.dispatch.shut_in import BEFORE, BY_ITSELF
from tests.support.programs import ROOT, module, within
from simulation.day import TIME_OVER, Day
from simulation.desks import Wire
from simulation.plan import CALM, Habits, Line, Nature, Plan, Trouble
from simulation.plant import Plant
from simulation.reasons import BY_DISPATCHER, BY_PERSON, Killed
from simulation.truth import Wrong
from simulation.vehicles import Vehicle
from simulation.words import run, told
from tests.support.desks import DESK, over_sockets

JOBS = int(os.environ.get('PLANT_JOBS', '200'))
SMALL = Plan(
    'small',
    7,
    40,
    40,
    1,
    CALM,
    Nature(failing=0, battery=1e9),
    Line(0, 0, 0.4, 0.4),
    Habits(backlog=8),
    stands=300.0,
)
HAPPENS = (
    'kills of the desk',
    'restarts of gateways',
    'restarts of vehicles',
    'times that a vehicle is silent',
    'actions failed',
    'empty batteries',
    'orders cancelled',
    'stocktakes',
    'loads carried by hand',
    'vehicles placed',
    'audits',
)
SEEDS = 1, 2
WHY = 'since KIT/0002 stands at N1'
CIRCLE = (
    r'^a circle from \d+ s on, for 1[23]\d s: (KIT/\d+ waits at \S+ for (node|edge) \S+, which'
    r' KIT/\d+ holds(; )?){2,}$'
)


def run_with_kills(seconds: float) -> None:
    """Runs the small plant, in which the desk is killed every so many seconds."""
    trouble = Trouble(seconds, None, None, False, None)
    run(DESK, dataclasses.replace(SMALL, trouble=trouble), 'look')


@over_sockets
class APartOfADay(unittest.TestCase):
    def test_all_goes_wrong_that_can(self) -> None:
        """Each job is done, or stopped for a reason; the file is lawful; nothing collided: else the
        run itself ends with a fault. And nothing stands."""
        quick = Nature(speed=2.5, action=(3.0, 8.0), failing=20, battery=3000.0)
        plan = Plan(
            'large',
            12,
            100,
            JOBS,
            66,
            nature=quick,
            habits=Habits(backlog=16, chance=60.0),
            every=2.0,
        )
        day = run(DESK, plan, 'look')
        print('\n'.join(told(day)))
        self.assertIsNone(day.stands)
        self.assertEqual(day.done + len(day.stopped), JOBS)
        self.assertGreater(day.done, JOBS * 0.75)
        self.assertEqual([line for line in day.made() if line.endswith(BY_ITSELF)], [])
        if JOBS <= 200:
            self.assertLess(day.real, 600)
        for what in HAPPENS:
            self.assertGreater(day.counts[what], 0, what)
        self.assertGreater(day.counts['starts of the desk'], 1)
        self.assertGreater(day.counts['starts of the dispatcher'], 1)


@over_sockets
class Compared(unittest.TestCase):
    """The same jobs in the same plant, in which nothing else goes wrong."""

    def test_without_the_look_vehicles_wait_for_each_other(self) -> None:
        """The look alone is left out: whatever is seen without one holds there too."""
        for seed in SEEDS:
            with self.subTest(seed=seed), self.assertRaisesRegex(Wrong, CIRCLE):
                run(DESK, dataclasses.replace(SMALL, seed=seed), 'free')

    def test_so_they_do_in_the_plant_of_a_day(self) -> None:
        """Where nothing else goes wrong there; with the look no circle lasts."""
        plan = Plan(jobs=3000).calm()
        with self.assertRaisesRegex(Wrong, CIRCLE):
            run(DESK, plan, 'free')
        day = run(DESK, dataclasses.replace(plan, limit=600.0), 'look')
        self.assertEqual(day.stands, TIME_OVER)
        self.assertGreater(day.done, 0)

    def test_with_it_they_do_not(self) -> None:
        for seed in SEEDS:
            with self.subTest(seed=seed):
                day = run(DESK, dataclasses.replace(SMALL, seed=seed), 'look')
                self.assertIsNone(day.stands)
                self.assertEqual((day.done, day.stopped), (SMALL.jobs, {}))

    def test_whole_ways_at_once(self) -> None:
        """In the same time fewer jobs are done where each order has its whole way from the
        beginning."""
        plan = dataclasses.replace(SMALL, vehicles=5, jobs=1000, limit=900.0)
        ours, theirs = (run(DESK, plan, kind) for kind in ('look', 'whole'))
        print(
            f'jobs an hour: {ours.per_hour():.0f}, and {theirs.per_hour():.0f} where whole ways are'
            ' released'
        )
        self.assertGreater(theirs.done, 0)
        self.assertGreater(ours.done, theirs.done)


@over_sockets
class Faulty(unittest.TestCase):
    """A run ends at the moment at which something is wrong in it."""

    def test_a_vehicle_that_drives_on(self) -> None:
        """Each vehicle goes on over what its order announces, be it released or not."""
        with mock.patch.object(Vehicle, 'is_released', lambda self, number: number in self.nodes):
            with self.assertRaisesRegex(
                Wrong,
                r'^KIT/\d+ drives along \S+, edge \d+ of the order \S+, which was not given to it$',
            ):
                run(DESK, SMALL, 'look')

    def test_a_load_that_is_elsewhere(self) -> None:
        """One is carried away, and nobody tells the desk."""

        def stolen(plant: Plant) -> None:
            load, place = next(
                (load, place)
                for load, place in plant.goods.places().items()
                if place.startswith('station ')
            )
            plant.goods.move(load, place, 'checking')

        with mock.patch.object(Plant, 'kill_desk', stolen):
            with self.assertRaisesRegex(
                Wrong,
                r'^load-\d+ is at checking, and the desk has it at (station \S+|vehicle KIT/\d+)$',
            ):
                run_with_kills(20.0)

    def test_a_load_in_two_orders(self) -> None:
        """A vehicle takes another's load along."""

        def taken(plant: Plant) -> None:
            one, other = [one for one in plant.vehicles.values() if one.open_loads()][:2]
            other.nodes.update({at + 100: node for at, node in one.nodes.items()})
            other.statuses.update(one.statuses)

        with mock.patch.object(Plant, 'kill_desk', taken):
            with self.assertRaisesRegex(
                Wrong, r'^load-\d+ is in an order of KIT/\d+ and in one of KIT/\d+$'
            ):
                run_with_kills(60.0)

    def test_a_vehicle_that_is_elsewhere(self) -> None:
        """One is moved by hand, and nobody tells the desk."""

        def pushed(plant: Plant) -> None:
            vehicle = next(one for one in plant.vehicles.values() if not one.node_is_left())
            free = next(node for node in plant.floor.bays if node not in plant.track.nodes)
            plant.track.put(vehicle.name, free)

        with mock.patch.object(Plant, 'kill_desk', pushed):
            with self.assertRaisesRegex(
                Wrong, r'^KIT/\d+ is on the node \S+, which the desk holds for (None|KIT/\d+)$'
            ):
                run_with_kills(20.0)


@over_sockets
class Demo(unittest.TestCase):
    def test_the_demo(self) -> None:
        """The dispatcher is a program of its own there."""
        words = [
            sys.executable,
            os.path.join(ROOT, 'examples', 'demo'),
            '--program',
            DESK,
            '--jobs',
            '2',
            '--pace',
            '20',
        ]
        done = subprocess.run(words, capture_output=True, text=True, timeout=1800)
        self.assertEqual(done.returncode, 0, done.stdout + done.stderr)
        self.assertRegex(done.stdout, r'(?m)^\d\d:\d\d:\d\d KIT/\d+: takes job-1 ')
        self.assertRegex(done.stdout, r'(?m)^[12] jobs done and [01] stopped, in ')


class WhyShutIn(unittest.TestCase):
    def test_one_that_was_so_before_a_start(self) -> None:
        """A dispatcher that was started anew says what the one before has said, also where the desk
        does not answer its first turn."""
        made = mock.Mock(**{'plans.return_value': ()})
        plant = Plant(SMALL, mock.Mock(address='127.0.0.1:1', wire=Wire(1)), lambda *_: made)
        for turn, why, wanted in (
            (True, WHY, WHY),
            (Killed(True), None, WHY),
            (False, None, WHY),
            (True, BEFORE, WHY),
            (True, None, None),
            (True, BEFORE, BEFORE),
        ):
            made.turn.side_effect = [turn]
            made.shut_in.return_value = {} if why is None else {'KIT/0001': (1.0, why)}
            plant.dispatch()
            self.assertEqual(plant.shut_by.get('KIT/0001'), wanted)


class Pauses(unittest.TestCase):
    def test_a_pause_that_comes_late(self) -> None:
        """The gateway of a vehicle is away for longer than a person wants it to be paused. It goes
        on nevertheless: once the pause has reached it, it is told so; also where the desk did not
        answer the person."""
        for answer in (None, NoAnswer('no answer', True)):
            with self.subTest(answer=answer):
                plant = Plant(SMALL, mock.Mock(address='127.0.0.1:1'), None)
                vehicle, row, desk = (
                    mock.Mock(paused=False),
                    mock.Mock(pending='startPause'),
                    mock.Mock(),
                )
                plant.people.desk = desk
                self.enterContext(
                    mock.patch.object(plant.people, 'some_vehicle', lambda with_order: vehicle)
                )
                desk.vehicle.return_value, desk.pause.side_effect = row, answer
                desk.resume.side_effect = lambda key: vehicle.configure_mock(paused=False)
                plant.clock.after(200, lambda: vehicle.configure_mock(paused=True))
                plant.clock.after(200, lambda: row.configure_mock(pending=None))
                with contextlib.suppress(NoAnswer):
                    plant.people.pause()
                plant.clock.run(lambda: plant.clock.now > 1000)
                self.assertEqual((vehicle.paused, desk.resume.call_count), (False, 1))
                self.assertLess(plant.clock.now, 221)


class TheBench(unittest.TestCase):
    """`bench/day` over runs of an hour that are made up: in two days 9 jobs are done, and in the
    calm runs as many as are named."""

    def bench(
        self,
        ours: int,
        theirs: int,
        second: str | Wrong | None = None,
        cancels: Sequence[str] = (),
    ) -> tuple[int, str]:
        def run(_: str, plan: Plan, kind: str, say: object) -> Day:
            if plan.limit == 7200.0:
                return Day(3600.0, done=ours if kind == 'look' else theirs, stands=TIME_OVER)
            if plan.seed == 2 and isinstance(second, Wrong):
                raise second
            stands = None if plan.seed != 2 or isinstance(second, Wrong) else second
            return Day(
                3600.0,
                done=9,
                stopped={'a': BY_DISPATCHER, 'b': BY_PERSON},
                stands=stands,
                cancels=list(cancels),
            )

        program = module('day', 'bench')
        with mock.patch.multiple(program, run=run, end_by_signal=lambda: None):
            status, said, _ = within(program, '--program', sys.executable, '--seeds', '1', '2')
        return status, said

    def test_its_status(self) -> None:
        for ours, theirs, second, status in (
            (5, 4, None, 0),
            (5, 5, None, 1),
            (4, 5, None, 1),
            (5, 4, TIME_OVER, 1),
            (5, 4, Wrong('so'), 1),
        ):
            with self.subTest((ours, theirs, second)):
                self.assertEqual(self.bench(ours, theirs, second)[0], status)

    def test_vehicles_that_the_dispatcher_has_shut_in(self) -> None:
        """An order that the dispatcher cancels is no fault, unless nothing but the dispatcher has
        led to it."""
        for why, status in ((WHY, 0), (BEFORE, 1), (BY_ITSELF, 1)):
            line = 'KIT/0001: cancels order O1, of J1: it and others block one another, ' + why
            with self.subTest(why):
                found, said = self.bench(5, 4, None, [line])
                self.assertEqual(
                    (found, said.count('the dispatcher: ' + line), said.count('nobody knows why')),
                    (status, 2, status),
                )

    def test_waves(self) -> None:
        """A calm run and one in which all goes wrong for each seed and size, and no other. They end
        with their time, and have the jobs at once."""
        plans = []

        def run(_: str, plan: Plan, kind: str, say: object) -> Day:
            plans.append((plan.trouble == CALM, plan.seed, plan.habits.wave, plan.habits.jobs))
            return Day(plan.limit, done=9, stands=TIME_OVER)

        program = module('day', 'bench')
        with mock.patch.multiple(program, run=run, end_by_signal=lambda: None):
            words = ('--waves', '60', '300', '--every', '240', '--seeds', '4', '--hours', '1')
            status, said = within(program, '--program', sys.executable, *words)[:2]
        self.assertEqual(status, 0, said)
        self.assertEqual(
            plans, [(calm, 4, wave, 240.0) for wave in (60, 300) for calm in (True, False)]
        )
        self.assertEqual(said.count('| calm, waves of 300, seed 4 | 9 |'), 2)

    def test_how_long_vehicles_were_shut_in(self) -> None:
        """For a while nobody knows whether the look was only too short."""
        for seconds, why, wanted in (
            (60.0, BY_ITSELF, 0),
            (70.0, BY_ITSELF, 1),
            (70.0, BEFORE, 1),
            (70.0, WHY, 0),
        ):
            day = Day(shut={('KIT/0001', 5.0): (seconds, why)})
            with self.subTest((seconds, why)):
                self.assertEqual(len(day.made()), wanted)
                self.assertIn(
                    f'KIT/0001 was shut in for {seconds:.0f} s from 5 s on, {why}',
                    told(dataclasses.replace(day, seconds=1.0)),
                )

    def test_its_rows(self) -> None:
        """Each is printed when its run ends, and all at the end."""
        row = '| day, seed 1 | 9 | 2 | 1 | 9 | 0 % | 0 s | 1.0 | 0 s |\n'
        self.assertEqual(
            [self.bench(5, 4, second)[1].count(row) for second in (None, Wrong('so'))], [2, 1]
        )


if __name__ == '__main__':
    unittest.main()
