"""Shows that a judge has a standing plan behind whatever happens, whose first move is always
allowed, by the plain check of plans."""
from __future__ import annotations

import collections
import random
import unittest
from collections.abc import Collection
from unittest import mock

from nulvrader.dispatch.closures import Closures
from nulvrader.dispatch.deadlock import look
from nulvrader.dispatch.plan import Moves, Plan
from nulvrader.dispatch.judge import Judge
from nulvrader.dispatch.traffic import Still, Traffic
from simulation.floors import small
from simulation.plan import Plan as Plans
from simulation.plant import Plant
from simulation.sketch import Sketch
from simulation.truth import Wrong
from tests.support.programs import TOOLS
from tests.support.ways import CASES, PLENTY, random_case

assert TOOLS


class Check(unittest.TestCase):
    """A plan is refused where its moves can't be made, or lead nobody to the end."""

    WAYS = {'ends': tuple('abc'), 'passes': tuple('xcd')}
    BOTH = frozenset(WAYS)

    def fault(
        self, moves: Moves, finishing: Collection[str] = BOTH, walls: Collection[str] = ()
    ) -> str | None:
        return Plan(self.WAYS, walls, moves, frozenset(finishing)).fault()

    def test_one_that_can_be_carried_out(self) -> None:
        self.assertIsNone(self.fault([('passes', 0), ('ends', 0)]))
        self.assertIsNone(self.fault([('passes', 1), ('passes', 0), ('ends', 1), ('ends', 0)]))

    def test_what_is_wrong(self) -> None:
        rows: tuple[tuple[Moves, Collection[str], Collection[str], str], ...] = (
            ([('ends', 0), ('passes', 0)], self.BOTH, (), 'passes is to go to c, where ends is'),
            ([('passes', 1), ('ends', 0)], self.BOTH, (), 'ends is to go to c, where passes is'),
            ([('passes', 0), ('ends', 1)], self.BOTH, (), 'ends does not finish'),
            ([('passes', 0), ('ends', 0)], self.BOTH, 'b', 'ends is to go to b, where a wall is'),
            ([], {'strange'}, (), 'strange does not finish'),
        )
        for moves, finishing, walls, told in rows:
            with self.subTest(told):
                self.assertRegex(self.fault(moves, finishing, walls) or '', '^' + told)

    def test_whether_something_can_move(self) -> None:
        for ways, finishing, told in (
            ({'a': tuple('xy')}, 'a', True),
            ({'a': tuple('xy')}, '', False),
            ({'a': tuple('y')}, 'a', False),
        ):
            self.assertIs(Plan(ways, (), (), frozenset(finishing)).can_move(), told)


class Floor:
    """Vehicles on small ways, of which each holds one node at a time and goes on as a judge allows
    it. People pause and place them."""

    def __init__(self, chance: random.Random, judge: Judge) -> None:
        self.chance, self.judge = chance, judge
        while True:
            self.ways, walls = random_case(chance)
            if len(self.ways) > 1:
                break
        nodes = sorted({node for way in self.ways.values() for node in way})
        self.out = {node: tuple(chance.sample(nodes, 1)) for node in nodes if chance.random() < 0.1}
        self.nodes = nodes
        self.still, self.begun = set[str](), set(self.ways)
        self.walls = {f'wall {node}': frozenset([node]) for node in walls}
        self.pairs = sorted({pair for way in self.ways.values() for pair in zip(way, way[1:])})
        self.closed = Closures()

    def traffic(self) -> Traffic:
        going = {name: way for name, way in self.ways.items() if name in self.begun}
        return Traffic(
            {name: way for name, way in going.items() if name not in self.still},
            {
                name: Still(frozenset(way[:1]), way)
                for name, way in going.items()
                if name in self.still
            },
            {
                **self.walls,
                **{
                    name: frozenset(way[:1])
                    for name, way in self.ways.items()
                    if name not in self.begun
                },
            },
            self.out,
            self.closed,
        )

    def taken(self) -> frozenset[str]:
        return frozenset().union(*(way[:1] for way in self.ways.values()), *self.walls.values())

    def pause(self) -> None:
        name = self.chance.choice(sorted(self.ways))
        self.still ^= {name}

    def place(self) -> None:
        """A person places one, whose order has ended."""
        free = [node for node in self.nodes if node not in self.taken()]
        if free:
            name = self.chance.choice(sorted(self.ways))
            self.ways[name] = (self.chance.choice(free),)
            self.begun.discard(name)
            self.still.discard(name)

    def close(self) -> None:
        """A person closes a node or an edge, or opens it."""
        nodes, edges = {*self.closed.nodes}, {**self.closed.edges}
        if self.pairs and self.chance.random() < 0.5:
            pair = self.chance.choice(self.pairs)
            if edges.pop(pair, None) is None:
                edges[pair] = '-'.join(pair)
        else:
            nodes ^= {self.chance.choice(self.nodes)}
        self.closed = Closures(frozenset(nodes), edges)

    def someone_has_to_come_first(self) -> bool:
        """Whether one stands that has to go on before others may: with an order, or without one in
        a dead end or on the way of others; or something is closed."""
        traffic = self.traffic()
        ahead = {node for way in traffic.ways.values() for node in way[1:]}
        stand = frozenset().union(*traffic.parked.values())
        return bool(self.closed.names or traffic.still or stand & ahead or stand & self.out.keys())

    def end(self) -> None:
        self.begun -= {name for name, way in self.ways.items() if len(way) == 1}

    def may_go(self, name: str) -> bool:
        way = self.ways[name]
        goes = name in self.begun - self.still and len(way) > 1
        is_closed = self.closed.first_on(way[:2]) is not None
        return goes and not is_closed and way[1] not in self.taken()

    def can_finish(self, number: int) -> set[str]:
        """Who finishes by a look with states enough, one by one, in a view."""
        ways, walls = self.traffic().views()[number]
        return {
            name for name in ways if name in look(ways, walls, PLENTY, frozenset([name])).finishing
        }


class Kept(unittest.TestCase):
    """A judge over many turns, in which vehicles go on, stand and are placed."""

    def check(self, judge: Judge, traffic: Traffic, where: object) -> None:
        for plan in judge.outlook(traffic).plans():
            self.assertIsNone(plan.fault(), (where, traffic))

    def test_there_always_is_a_plan(self) -> None:
        """Each plan can be carried out as it stands; whoever finishes by it does by the next one
        too, unless a person has done something; and while one can move by it, a move is allowed.
        None can where one that stands has to go on before."""
        chance, counts = random.Random(90), collections.Counter[str]()
        for case in range(CASES // 10):
            judge = Judge()
            floor = Floor(chance, judge)
            before = None
            for turn in range(12):
                judge.begin_turn()
                act = chance.random()
                if act < 0.15:
                    floor.pause()
                elif act < 0.2:
                    floor.place()
                elif act < 0.25:
                    floor.close()
                floor.end()
                traffic = floor.traffic()
                self.check(judge, traffic, (case, turn))
                finish = judge.finish_now(traffic)
                if before is not None and act >= 0.25:
                    self.assertLessEqual(before & traffic.ways.keys(), finish, (case, turn))
                moved = self.release(floor, judge, (case, turn), counts)
                plan = judge.outlook(traffic).plans()[0]
                self.assertTrue(moved or not plan.can_move(), (case, turn, traffic))
                if not plan.is_joined:
                    counts['waits for one that stands'] += not moved
                    self.assertTrue(floor.someone_has_to_come_first(), (case, turn, traffic))
                before = judge.finish_now(floor.traffic())
                counts['can move' if plan.can_move() else 'stands'] += 1
        print('plan: ' + ', '.join(f'{what}: {count}' for what, count in counts.items()))
        self.assertGreater(counts['granted'], CASES // 15)
        self.assertGreater(counts['can move'], CASES // 15)

    def release(
        self, floor: Floor, judge: Judge, where: object, counts: collections.Counter[str]
    ) -> int:
        """Lets vehicles go on by a node each, in any order, as the judge allows it."""
        moved = 0
        for name in floor.chance.sample(sorted(floor.ways), len(floor.ways)):
            traffic = floor.traffic()
            if floor.may_go(name) and judge.may_release(traffic, name, 1):
                floor.ways[name] = floor.ways[name][1:]
                self.check(judge, floor.traffic(), where)
                counts['granted'] += 1
                moved += 1
            elif floor.may_go(name):
                counts['refused'] += 1
        return moved

    def test_nobody_is_shut_in_behind_a_pause_or_a_placement(self) -> None:
        """Against looks with states enough, in the turn in which a person has done something and
        in those behind it: each grant leaves all able to finish whom the judge's plan names, and
        it names all of whom there is one that finishes at all where all do."""
        chance, counts = random.Random(91), collections.Counter[str]()
        for case in range(CASES // 15):
            judge = Judge()
            floor = Floor(chance, judge)
            for turn in range(10):
                judge.begin_turn()
                if chance.random() < 0.4:
                    chance.choice((floor.pause, floor.place, floor.close))()
                floor.end()
                for number, one in enumerate(judge.outlook(floor.traffic()).found):
                    ways, walls = floor.traffic().views()[number]
                    if ways.keys() <= look(ways, walls, PLENTY, ways.keys()).finishing:
                        self.assertEqual(one.finishing, ways.keys(), (case, turn, number))
                        counts['all finish'] += 1
                for name in chance.sample(sorted(floor.ways), len(floor.ways)):
                    traffic = floor.traffic()
                    could = [found.finishing for found in judge.outlook(traffic).found]
                    if not floor.may_go(name) or not judge.may_release(traffic, name, 1):
                        continue
                    floor.ways[name] = floor.ways[name][1:]
                    counts['granted'] += 1
                    for (ways, walls), wanted in zip(floor.traffic().views(), could):
                        self.assertLessEqual(
                            wanted, look(ways, walls, PLENTY, wanted).finishing, (case, turn, name)
                        )
        print('behind people: ' + ', '.join(f'{what}: {count}' for what, count in counts.items()))
        self.assertGreater(counts['granted'], CASES // 30)
        self.assertGreater(counts['all finish'], CASES // 30)


class ByHand(unittest.TestCase):
    def test_the_bay_of_one_that_is_paused(self) -> None:
        """KIT/0001 is paused on its way to the bay d. No other one is sent there, since both could
        not end there; once it goes on, all is as it was."""
        still = {'KIT/0001': Still(frozenset('b'), tuple('bcd'))}
        parked = {'KIT/0002': frozenset('x')}
        judge = Judge()
        judge.begin_turn()
        for way, told in (('xcd', False), ('xcdcy', True), ('xcy', True)):
            traffic = Traffic({}, still, parked, {'d': ('c',)})
            self.assertIs(judge.may_start(traffic, 'KIT/0002', tuple(way)), told, way)

    def test_room_over_others(self) -> None:
        """c can finish, b is in its way, and a in that of b; a and b end where a wall is. All that
        are in the way over others make room; the one that is in nobody's way stays."""
        ways = {
            'a': tuple('456w'),
            'b': tuple('345w'),
            'c': ('2', '3', 'z'),
            'd': tuple('89w'),
        }
        traffic = Traffic(ways, {}, {'wall': frozenset('w')})
        judge = Judge()
        judge.begin_turn()
        self.assertEqual(judge.finish_now(traffic), {'c'})
        self.assertEqual([judge.may_release(traffic, name, 1) for name in 'ad'], [True, False])
        after = traffic.released('a', 2)
        self.assertTrue(judge.may_release(after, 'b', 1))

    def test_a_resumed_vehicle_is_not_waited_for_some_turns(self) -> None:
        """Who finishes is looked for at once where one goes on that stood: by moves that were good
        before it alone would not be seen to finish."""
        ways = {'KIT/0001': tuple('abc'), 'KIT/0002': tuple('xby')}
        judge = Judge()
        stands = Traffic(
            {'KIT/0002': ways['KIT/0002']}, {'KIT/0001': Still(frozenset('b'), tuple('bc'))}
        )
        judge.begin_turn()
        self.assertEqual(judge.finish_now(stands), frozenset())
        judge.begin_turn()
        goes = Traffic({'KIT/0002': ways['KIT/0002'], 'KIT/0001': tuple('bc')})
        self.assertEqual(judge.finish_now(goes), ways.keys())


class InAPlant(unittest.TestCase):
    """The simulated plant ends where the dispatcher's plan is wrong, or is not followed."""

    def setUp(self) -> None:
        self.plant = Plant(Plans('small'), mock.Mock(address='127.0.0.1:1'), None)
        self.plant.vehicles['KIT/0001'] = mock.Mock(last_moved=100.0)

    def check(self, now: float, plan: Plan) -> None:
        self.plant.clock.now = now
        self.plant.check_plans([plan])

    def test_one_that_can_not_be_carried_out(self) -> None:
        with self.assertRaisesRegex(Wrong, r'carried out: KIT/0001 is to go to b, where a wall is'):
            self.check(1.0, Plan({'KIT/0001': 'ab'}, 'b', [('KIT/0001', 0)], frozenset()))

    def test_one_that_is_not_followed(self) -> None:
        """Once nothing has moved for long since something could."""
        can = Plan({'KIT/0001': 'ab'}, '', [('KIT/0001', 0)], frozenset(['KIT/0001']))
        stands = Plan({'KIT/0001': 'ab'}, 'b', [], frozenset())
        self.check(100.0 + Plans().follows, can)
        self.check(1000.0, stands)
        self.check(1000.0 + Plans().follows, can)
        with self.assertRaisesRegex(Wrong, r'nothing has moved for 1081 s, though'):
            self.check(1001.0 + Plans().follows, can)


class Waves(unittest.TestCase):
    def test_many_jobs_at_once(self) -> None:
        """On a sketch of the small plant as many jobs come at once as it has room for, and are
        done; the plan is checked after each turn."""
        sketch = Sketch(small(), 5, 40, 1)
        sketch.clock.after(5.0, lambda: sketch.add_jobs(40))
        figures = sketch.run(3600.0, lambda: sketch.number > 0 and not sketch.jobs_open)
        print('waves: ' + figures.line())
        self.assertEqual(figures.done, sketch.number)
        self.assertGreater(figures.done, 20)
        self.assertLess(figures.still, 60)

    def test_one_that_is_wrong_ends_it(self) -> None:
        sketch = Sketch(small(), 5, 40, 1)
        wrong = Plan({'a': 'xy'}, 'y', [('a', 0)], frozenset())
        with mock.patch.object(Judge, 'plans', lambda self, traffic: [wrong]):
            with self.assertRaisesRegex(Wrong, 'a is to go to y, where a wall is then'):
                sketch.run(5.0)


if __name__ == '__main__':
    unittest.main()
