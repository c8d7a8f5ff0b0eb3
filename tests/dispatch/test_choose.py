"""Shows that what may be released and started, and which pairs of a job and a vehicle get a look,
are those that the look itself would let pass, on the random cases of test_deadlock."""
import collections
import random
import time
import unittest
from collections.abc import Callable, Iterable

from nulvrader.desk.client import Vehicle
from nulvrader.dispatch import choose
from nulvrader.dispatch.choose import Chooser, Proposal
from nulvrader.dispatch.job_book import Waiting
from nulvrader.dispatch.deadlock import finishing, look
from nulvrader.dispatch.lanes import Way
from nulvrader.dispatch.snapshot import Seen
from nulvrader.dispatch.judge import Judge
from nulvrader.dispatch.traffic import Still, Traffic
from nulvrader.dispatch.routes import Ways
from nulvrader.common.layouts import Edge, Station, of_parts
from nulvrader.common.names import VehicleKey
from tests.support.programs import TOOLS
from tests.support.ways import CASES, PLENTY, random_case

assert TOOLS


def random_traffic(chance: random.Random) -> tuple[Traffic, str, Way]:
    """Vehicles with orders, perhaps one that does not go on, and one without an order, with a way
    that it may be given."""
    while True:
        ways, walls = random_case(chance)
        names = sorted(ways)
        idle, moving = names[-1], names[:-1]
        still = (
            {moving.pop(): Still(frozenset(ways[names[-2]][:1]), ways[names[-2]])}
            if len(moving) > 1 and chance.random() < 0.2
            else {}
        )
        parked = {
            idle: frozenset(ways[idle][:1]),
            **{f'wall {node}': frozenset((node,)) for node in walls},
        }
        nodes = sorted({node for way in ways.values() for node in way})
        out = {
            node: tuple(chance.sample(nodes, chance.randint(1, 2)))
            for node in nodes
            if chance.random() < 0.2
        }
        if len(ways[idle]) > 1:
            return (
                Traffic({name: ways[name] for name in moving}, still, parked, out),
                idle,
                ways[idle],
            )


def keeps(judge: Judge, before: Traffic, after: Traffic, more: Iterable[str] = ()) -> bool:
    """Whether all that the judge says to finish before do after, and these, by looks with states
    enough."""
    for (ways, walls), found in zip(after.views(), judge.outlook(before).found):
        wanted = found.finishing.union(more)
        if not wanted <= look(ways, walls, PLENTY, wanted).finishing:
            return False
    return True


def makes_room(traffic: Traffic, name: str, finish: Iterable[str]) -> bool:
    """Whether a vehicle is in the way of one that finishes, over others that go on."""
    found = set(finish)
    while more := {
        one
        for one in traffic.ways
        if one not in found and not found.isdisjoint(traffic.in_the_way(one))
    }:
        found |= more
    return name in found


class Judged(unittest.TestCase):
    """What a judge says that has seen other traffic before, and one that has seen none: what it
    allows is what looks say with states enough, and so is nearly all that it does not."""

    def test_what_may_be_started(self) -> None:
        chance, old = random.Random(72), Judge(PLENTY, PLENTY)
        counts: collections.Counter[str] = collections.Counter()
        for case in range(CASES // 3):
            traffic, idle, way = random_traffic(chance)
            for judge in (Judge(PLENTY, PLENTY), old):
                true = traffic.is_open(idle, way) and keeps(
                    judge, traffic, traffic.started(idle, way), (idle,)
                )
                plainly = judge.plainly(traffic, idle, way)
                told = judge.may_start(traffic, idle, way)
                self.assertIn(plainly, (true, None), (case, traffic, way))
                self.assertTrue(true or not told, (case, traffic, way))
                counts['without one plan for all'] += told != true
                counts[f'{true}, plainly {plainly}'] += 1
        print('start: ' + ', '.join(f'{what}: {count}' for what, count in counts.items()))
        for kind in (
            'True, plainly True',
            'True, plainly None',
            'False, plainly False',
            'False, plainly None',
        ):
            self.assertGreater(counts[kind], CASES // 300, kind)
        self.assertLess(20 * counts['without one plan for all'], counts['True, plainly None'])

    def test_what_may_be_released(self) -> None:
        """Release after release: what could finish at first does at the end."""
        chance, judge = random.Random(73), Judge(PLENTY, PLENTY)
        counts: collections.Counter[object] = collections.Counter()
        for case in range(CASES // 6):
            traffic, _, _ = random_traffic(chance)
            could = judge.finish_now(traffic)
            if finishing(traffic.ways, traffic.walls, PLENTY) == traffic.ways.keys():
                self.assertEqual(could, traffic.ways.keys(), (case, traffic))
                counts['all'] += 1
            for _ in range(6):
                names = [name for name, way in traffic.ways.items() if self.is_free(traffic, name)]
                if not names:
                    break
                name = chance.choice(names)
                finish = judge.finish_now(traffic)
                goes = name in finish or makes_room(traffic, name, finish)
                true = goes and keeps(judge, traffic, traffic.released(name, 1))
                told = judge.may_release(traffic, name, 1)
                self.assertTrue(true or not told, (case, traffic, name))
                counts['without one plan for all'] += told != true
                counts[true] += 1
                traffic = traffic.released(name, 1) if told else traffic
            self.assertLessEqual(could, judge.finish_now(traffic), (case, traffic))
        print('release: ' + ', '.join(f'{what}: {count}' for what, count in counts.items()))
        for kind in (True, False, 'all'):
            self.assertGreater(counts[kind], CASES // 60, kind)
        self.assertLess(20 * counts['without one plan for all'], counts[True])

    def test_with_the_states_of_the_program(self) -> None:
        """What a judge with its own numbers of states allows is right by looks with states enough.
        These cases are small, so it allows nearly all that may be."""
        chance, judge = random.Random(75), Judge()
        counts: collections.Counter[str] = collections.Counter()
        for case in range(CASES // 6):
            traffic, idle, way = random_traffic(chance)
            judge.begin_turn()
            told = judge.may_start(traffic, idle, way)
            true = traffic.is_open(idle, way) and keeps(
                judge, traffic, traffic.started(idle, way), (idle,)
            )
            self.assertTrue(true or not told, (case, traffic, way))
            counts[f'start: {told}, in truth {true}'] += 1
            could = judge.finish_now(traffic)
            for name in [name for name in traffic.ways if self.is_free(traffic, name)]:
                if self.is_free(traffic, name) and judge.may_release(traffic, name, 1):
                    traffic = traffic.released(name, 1)
                    counts['released'] += 1
            self.assertLessEqual(
                could, look(traffic.ways, traffic.walls, PLENTY, could).finishing, (case, traffic)
            )
        print(
            'the states of the program: '
            + ', '.join(f'{what}: {count}' for what, count in counts.items())
        )
        self.assertGreater(counts['released'], CASES // 40)
        self.assertGreater(
            counts['start: True, in truth True'], 20 * counts['start: False, in truth True']
        )

    def is_free(self, traffic: Traffic, name: str) -> bool:
        """Whether the next node of a vehicle is."""
        way = traffic.ways[name]
        taken = traffic.walls.union(other[0] for one, other in traffic.ways.items() if one != name)
        return len(way) > 1 and way[1] not in taken


# A one-way ring of forty nodes with a bay at each second one, and a station in each bay.
RING = [f'r{n:02d}' for n in range(40)]
BAYS = RING[::2]
LAYOUT = of_parts(
    [*RING, *('b' + node for node in BAYS)],
    [
        Edge('.'.join(ends), *ends)
        for ends in (
            *zip(RING, RING[1:] + RING[:1]),
            *((node, 'b' + node) for node in BAYS),
            *(('b' + node, node) for node in BAYS),
        )
    ],
    [Station('S' + node, 'b' + node, 9) for node in BAYS],
)


def seen(number: int, node: str, capacity: int = 1) -> Seen:
    row = Vehicle(
        VehicleKey('KIT', f'{number:04d}'),
        node,
        capacity,
        True,
        False,
        False,
        *(None, None, None, None),
        1,
    )
    return Seen(row, (), None, frozenset((node,)), 0)


class Choosing(unittest.TestCase):
    """Which pairs of a job and a vehicle get a look."""

    def chooser(
        self,
        says: Callable[[str, Way], bool],
        plainly: Callable[[Way], bool | None] = lambda way: None,
    ) -> tuple[Chooser, list[tuple[str, Way]]]:
        """One whose judge says this by looks, and `plainly` without one, which is nothing unless it
        is given; and the list of what was looked at."""
        asked: list[tuple[str, Way]] = []

        class Asked(Judge):
            def plainly(self, traffic: Traffic, vehicle: str, way: Way) -> bool | None:
                return plainly(way)

            def may_start(self, traffic: Traffic, vehicle: str, way: Way) -> bool:
                self.looks += 1
                asked.append((vehicle, way))
                return says(vehicle, way)

        return Chooser(Ways(LAYOUT), Asked()), asked

    def setUp(self) -> None:
        self.idle = [seen(n, 'b' + BAYS[n]) for n in range(3)]
        self.traffic = Traffic({}, {}, {one.name: one.nodes for one in self.idle})
        self.turns = -(-3 * 30 // choose.LOOKS)  # until each pair had its look

    def test_each_gets_its_look(self) -> None:
        """Of 3 vehicles and 30 jobs no pair may be started. In a turn so many get a look, the
        nearest first, and none a second one before all had one. A job without one is put off."""
        chooser, asked = self.chooser(lambda vehicle, way: False)
        jobs = [
            Waiting(f'J{n:02}', f'L{n}', 'S' + BAYS[4 + n % 15], 'S' + BAYS[3 - n // 15])
            for n in range(30)
        ]
        for turn in range(1, self.turns + 1):
            chooser.begin_turn()
            self.assertIsNone(chooser.propose(self.idle, jobs, self.traffic))
            self.assertIsNone(chooser.propose(self.idle, jobs, self.traffic))
            self.assertEqual(len(asked), turn * choose.LOOKS)
            if turn == 1:
                self.assertEqual(
                    asked[0],
                    ('KIT/0002', chooser.ways.way(('b' + BAYS[2], 'b' + BAYS[4], 'b' + BAYS[3]))),
                )
                self.assertTrue(chooser.is_put_off(jobs[14]))
        most = (self.turns - 1) * choose.LOOKS
        self.assertEqual((len(set(asked[:most])), len(set(asked))), (most, 90))
        self.assertEqual([one.job for one in jobs if chooser.is_put_off(one)], [])

    def test_one_that_passes_late(self) -> None:
        """One pair alone may be started, one of the farthest: it is, some turns later."""
        far = 'b' + BAYS[0], 'b' + BAYS[-1]
        chooser, _ = self.chooser(lambda vehicle, way: (way[0], way[-1]) == far)
        jobs = [
            Waiting(f'J{n:02}', f'L{n}', 'S' + BAYS[4 + n % 15], 'S' + BAYS[3]) for n in range(29)
        ]
        jobs.append(Waiting('J29', 'L29', 'S' + BAYS[18], 'S' + BAYS[-1]))
        found: Proposal | None = None
        turns = 0
        while found is None:
            turns += 1
            self.assertLessEqual(turns, self.turns)
            chooser.begin_turn()
            found = chooser.propose(self.idle, jobs, self.traffic)
        self.assertEqual((found.vehicle, [one.job for one in found.jobs]), ('KIT/0000', ['J29']))
        self.assertGreater(turns, 1)

    def test_one_behind_many(self) -> None:
        """Of 100 jobs the newest alone may be started: it is, three turns later at most, and the
        others are not put off for good."""
        chooser, _ = self.chooser(
            lambda vehicle, way: way[-1] == 'b' + BAYS[-1],
            lambda way: None if way[-1] == 'b' + BAYS[-1] else False,
        )
        jobs = [
            Waiting(
                f'J{n:02}',
                f'L{n}',
                'S' + BAYS[4 + n % 15],
                'S' + BAYS[3 if n < 99 else -1],
                float(n),
            )
            for n in range(100)
        ]
        turns = []
        for turn in range(1, 10):
            chooser.begin_turn()
            found = chooser.propose(self.idle, jobs, self.traffic)
            if found is not None:
                self.assertEqual([one.job for one in found.jobs], ['J99'])
                turns.append(turn)
        self.assertTrue(turns and turns[0] <= 3 and len(turns) >= 3, turns)
        self.assertEqual(
            [one.job for one in jobs if not chooser.is_put_off(one)], [one.job for one in jobs[:30]]
        )

    def more(
        self, jobs: Iterable[tuple[str, int, int]], detour: int, capacity: int = 2
    ) -> list[str]:
        """The jobs of the order that is proposed for a vehicle at the first bay of the ring, where
        the first of these is alone near: each a name, and the numbers of two nodes of the ring."""
        chooser = Chooser(Ways(LAYOUT), Judge(), detour)
        rows = [Waiting(name, 'L' + name, f'Sr{a:02d}', f'Sr{b:02d}') for name, a, b in jobs]
        one = seen(1, 'br00', capacity)
        chooser.begin_turn()
        found = chooser.propose([one], rows, Traffic({}, {}, {one.name: one.nodes}))
        assert found is not None
        legs = [found.way[n : n + 2] for n in range(len(found.way) - 1)]
        self.assertTrue(all('.'.join(leg) in LAYOUT.edges for leg in legs), found.way)
        return [job.job for job in found.jobs]

    def test_further_jobs_that_save_a_way(self) -> None:
        """From r04 to r20 a vehicle passes r06 and r18, so that a job between these costs it four
        edges, in and out of two bays, and alone would have fourteen."""
        along, long = ('along', 6, 18), ('first', 4, 20)
        self.assertEqual(self.more([long, along], 8), ['first', 'along'])
        self.assertEqual(self.more([long, along], 3), ['first'])
        self.assertEqual(self.more([long, along], 8, 1), ['first'])

    def test_the_one_that_saves_most(self) -> None:
        short, along, long = ('short', 6, 10), ('along', 6, 18), ('first', 4, 20)
        self.assertEqual(self.more([long, short, along], 8), ['first', 'along'])
        self.assertEqual(sorted(self.more([long, short, along], 8, 3)), ['along', 'first', 'short'])

    def test_one_that_saves_nothing(self) -> None:
        """Behind the end of the first a job makes the way as much longer as it is, and more."""
        self.assertEqual(self.more([('first', 4, 20), ('behind', 22, 26)], 40), ['first'])

    def test_waiting_counts_by_its_square(self) -> None:
        """Of a job that is 18 edges farther the vehicle takes the nearer one, unless the other has
        waited for long."""
        jobs = [Waiting('near', 'L1', 'Sr02', 'Sr10', 580.0), Waiting('far', 'L2', 'Sr20', 'Sr30')]
        one = seen(1, 'br00')
        traffic = Traffic({}, {}, {one.name: one.nodes})
        for now, told in ((480.0, 'near'), (600.0, 'far')):
            chooser = Chooser(Ways(LAYOUT), Judge())
            chooser.begin_turn(now)
            found = chooser.propose([one], jobs, traffic)
            assert found is not None
            self.assertEqual(found.jobs[0].job, told, now)

    def test_many_jobs(self) -> None:
        """With 3,000 jobs and 20 vehicles orders are proposed until no vehicle is left, in little
        time."""
        chance = random.Random(74)
        chooser = Chooser(Ways(LAYOUT), Judge())
        idle = {
            one.name: one for one in (seen(n, 'b' + node, 2) for n, node in enumerate(BAYS[:18]))
        }
        traffic = Traffic(
            {},
            {},
            {name: one.nodes for name, one in idle.items()},
            {'b' + node: (node,) for node in BAYS},
        )
        jobs = []
        for n in range(3000):
            pick, drop = chance.sample(BAYS, 2)
            jobs.append(Waiting(f'J{n:04}', f'L{n}', 'S' + pick, 'S' + drop, float(n)))
        begun = time.process_time()
        turns = given = 0
        while turns < 20:
            turns += 1
            chooser.begin_turn()
            while (
                idle and (found := chooser.propose(list(idle.values()), jobs, traffic)) is not None
            ):
                self.assertTrue(Judge(PLENTY, PLENTY).may_start(traffic, found.vehicle, found.way))
                traffic = traffic.started(found.vehicle, found.way)
                del idle[found.vehicle]
                jobs = [one for one in jobs if one not in found.jobs]
                given += 1
        self.assertGreater(given, 0)
        self.assertEqual(finishing(traffic.ways, traffic.walls), set(traffic.ways))
        print(
            f'choose: {given} orders, {1000 * (time.process_time() - begun) / turns:.0f} ms a turn'
        )


if __name__ == '__main__':
    unittest.main()
