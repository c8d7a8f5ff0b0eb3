"""Shows that the look keeps a dispatcher from deadlocks, against a search of all states on small
layouts, by cases worked out by hand, and by vehicles that are released at random and all have to
finish."""
from __future__ import annotations

import collections
import random
import time
import unittest
from collections.abc import Collection, Mapping, Sequence
from typing import Any

from nulvrader.dispatch.lanes import Ground, Way
from nulvrader.dispatch.deadlock import after_release, along, finishing, look
from nulvrader.dispatch.search_space import SearchSpace
from nulvrader.dispatch.judge import Judge
from nulvrader.dispatch.traffic import Traffic
from nulvrader.dispatch.routes import Ways
from simulation.floors import Floor as Plant
from simulation.floors import large
from tests.support.ways import CASES, PLENTY, random_case


def can_all_finish(ways: Mapping[str, Way], walls: Collection[str]) -> bool:
    """By a search of all states: each vehicle stands on one node, and goes on where the next one is
    free."""
    names = sorted(ways)
    first, seen = (0,) * len(names), set()
    row = [first]
    while row:
        state = row.pop()
        if state in seen:
            continue
        seen.add(state)
        on = [ways[name][at] for name, at in zip(names, state)]
        if all(at == len(ways[name]) - 1 for name, at in zip(names, state)):
            return True
        for n, (name, at) in enumerate(zip(names, state)):
            if at + 1 < len(ways[name]):
                after = ways[name][at + 1]
                if after not in walls and all(node != after for m, node in enumerate(on) if m != n):
                    row.append(state[:n] + (at + 1,) + state[n + 1 :])
    return False


SMALL = 20_000
"""So many small cases are looked at, or LOOKS of the environment, such as 100,000."""


class AgainstAllStates(unittest.TestCase):
    def test_small_layouts(self) -> None:
        """With states enough the look says what the search of all states says. With few it never
        says yes where the search says no."""
        chance = random.Random(66)
        counts, most = collections.Counter[str](), max(CASES, SMALL)
        for case in range(most):
            ways, walls = random_case(chance)
            true = can_all_finish(ways, walls)
            counts['cases'] += 1
            counts['all can finish'] += true
            self.assertEqual(finishing(ways, walls, PLENTY) == set(ways), true, (case, ways, walls))
            for budget in (0, 5, 300):
                says = finishing(ways, walls, budget) == set(ways)
                self.assertFalse(says and not true, (case, budget, ways, walls))
                counts[f'refused, with {budget} states'] += true and not says
        print('look: ' + ', '.join(f'{what}: {count}' for what, count in counts.items()))
        self.assertGreater(counts['all can finish'], most * 0.3)
        self.assertGreater(most - counts['all can finish'], most * 0.1)
        self.assertLess(counts['refused, with 300 states'], counts['all can finish'] * 0.01)

    def test_who_finishes_can(self) -> None:
        """The vehicles that are said to finish do so in some order, the others staying or making
        room: it is the best state's order, so the others may be taken to go no further than
        there."""
        chance = random.Random(67)
        some = 0
        for case in range(CASES // 3):
            ways, walls = random_case(chance)
            told = finishing(ways, walls)
            if told == set(ways):
                continue
            cuts: list[dict[str, Any]] = [{}]
            for name in sorted(set(ways) - told):
                cuts = [
                    {**cut, name: ways[name][:end]}
                    for cut in cuts
                    for end in range(1, len(ways[name]) + 1)
                ]
            self.assertTrue(
                any(can_all_finish({**ways, **cut}, walls) for cut in cuts),
                (case, ways, walls, told),
            )
            some += 1
        self.assertGreater(some, CASES // 60)

    def test_the_order_of_names_is_nothing(self) -> None:
        """Moves that take nothing from anybody lead to one state, in whichever order they are
        made."""
        chance = random.Random(68)
        for _ in range(CASES // 3):
            ways, walls = random_case(chance)
            settled = self.settled(ways, walls)
            names = list(ways)
            chance.shuffle(names)
            renamed = {f'x{n}': name for n, name in enumerate(names)}
            again = self.settled({new: ways[old] for new, old in renamed.items()}, walls)
            self.assertEqual(settled, {renamed[new]: at for new, at in again.items()})

    def settled(self, ways: Mapping[str, Way], walls: Collection[str]) -> dict[str, int]:
        space = SearchSpace(ways, walls)
        state = space.start()
        space.settle(state)
        return dict(zip(space.names, state.at))

    def test_moves_that_are_tried_first(self) -> None:
        """Whoever is said to finish by moves of any kind can; and where the moves of a look are
        tried again, after a release by its first one too, all finish by them that did. One ground
        serves for all of it."""
        chance, ground = random.Random(69), Ground()
        counts = collections.Counter[str]()
        for case in range(CASES // 3):
            ways, walls = random_case(chance)
            true = can_all_finish(ways, walls)
            any_moves = [
                (name, chance.randrange(len(ways[name])))
                for name in chance.choices(sorted(ways), k=6)
            ]
            says = along(ways, walls, any_moves, ground).finishing == set(ways)
            self.assertFalse(says and not true, (case, ways, walls, any_moves))
            counts['by any moves'] += says
            found = look(ways, walls, ground=ground)
            self.assertEqual(
                found.finishing, {name for name, left in found.left.items() if left == 0}
            )
            self.assertLessEqual(
                found.finishing,
                along(ways, walls, found.moves, ground).finishing,
                (case, ways, walls, found),
            )
            if found.moves:
                name, left = found.moves[0]
                released = after_release(ways, name, len(ways[name]) - 1 - left)
                self.assertLessEqual(
                    found.finishing,
                    along(released, walls, found.moves, ground).finishing,
                    (case, ways, walls, found),
                )
                counts['after a release'] += 1
        self.assertGreater(counts['by any moves'], CASES // 30)
        self.assertGreater(counts['after a release'], CASES // 10)

    def test_those_that_are_wanted(self) -> None:
        """Some vehicles are asked for alone: with states enough they are said to finish where they
        do in some order, the others going as far as they have to."""
        chance = random.Random(71)
        counts = collections.Counter[bool]()
        for case in range(CASES // 6):
            ways, walls = random_case(chance)
            wanted = set(chance.sample(sorted(ways), chance.randint(1, len(ways))))
            cuts: list[dict[str, Any]] = [{}]
            for name in sorted(set(ways) - wanted):
                cuts = [
                    {**cut, name: ways[name][:end]}
                    for cut in cuts
                    for end in range(1, len(ways[name]) + 1)
                ]
            true = any(can_all_finish({**ways, **cut}, walls) for cut in cuts)
            self.assertEqual(
                wanted <= look(ways, walls, PLENTY, wanted).finishing,
                true,
                (case, ways, walls, wanted),
            )
            counts[true] += 1
        self.assertGreater(counts[True], CASES // 20)
        self.assertGreater(counts[False], CASES // 60)


class ByHand(unittest.TestCase):
    def test_two_that_face_each_other(self) -> None:
        line = 'abcd'
        self.assertEqual(
            finishing({'east': tuple(line), 'west': tuple(reversed(line))}), frozenset()
        )

    def test_a_passing_place(self) -> None:
        """East waits at p, beside the track, while west goes by."""
        self.assertEqual(
            finishing({'east': tuple('abpcd'), 'west': tuple('dcba')}, budget=0), {'east', 'west'}
        )

    def test_both_in_the_stretch(self) -> None:
        self.assertEqual(finishing({'east': tuple('bcde'), 'west': tuple('dcba')}), frozenset())

    def test_a_full_ring(self) -> None:
        ring = {'a': tuple('abcx'), 'b': tuple('bcay'), 'c': tuple('cabz')}
        self.assertEqual(finishing(ring), frozenset())
        self.assertEqual(finishing({name: ring[name] for name in 'ab'}), {'a', 'b'})

    def test_an_end_on_the_way_of_another(self) -> None:
        """One ends where the other has to pass, so the other goes first."""
        ways = {'ends': tuple('abc'), 'passes': tuple('xcd')}
        self.assertEqual(finishing(ways), {'ends', 'passes'})
        self.assertEqual(finishing(after_release(ways, 'ends', 2)), {'ends'})

    def test_a_wall(self) -> None:
        ways = {'shut': tuple('abc'), 'open': tuple('xyz')}
        self.assertEqual(finishing(ways, {'c'}), {'open'})

    def test_one_that_is_shut_in_makes_room(self) -> None:
        """It can't reach its end behind a wall, but may leave the node that the other needs."""
        self.assertEqual(finishing({'shut': tuple('bpq'), 'open': tuple('abc')}, {'q'}), {'open'})

    def test_a_node_that_is_passed_twice(self) -> None:
        self.assertEqual(finishing({'there and back': tuple('abcba')}), {'there and back'})

    def test_a_large_layout(self) -> None:
        """Forty vehicles in bays of one ring of eighty nodes, of which each goes to the bay of the
        one before it: one has to wait on the ring. With eighty on the ring besides, none can leave
        its bay. Neither takes long."""
        ring = [f'r{n:02d}' for n in range(80)]
        ways = {}
        for n in range(0, 80, 2):
            ways[f'v{n:02d}'] = (
                f'b{n:02d}',
                *(ring[(n + k) % 80] for k in range(79)),
                f'b{(n + 78) % 80:02d}',
            )
        begun = time.process_time()
        self.assertEqual(finishing(ways), frozenset(ways))
        self.assertEqual(finishing(ways, ring), frozenset())
        round_and_round = {
            f'w{n:02d}': (*(ring[(n + k) % 80] for k in range(80)), f'out{n}') for n in range(80)
        }
        self.assertEqual(finishing({**ways, **round_and_round}), frozenset())
        self.assertLess(time.process_time() - begun, 20)


class Released(unittest.TestCase):
    def test_vehicles_that_are_released_by_the_look_finish(self) -> None:
        """Vehicles hold one to three nodes ahead, and go on at random; a release is made where all
        can finish after it. Each finishes from every state where all can. Released where the next
        node is free alone, some stand for good.
        """
        chance = random.Random(70)
        stuck = collections.Counter[bool]()
        for case in range(CASES // 3):
            ways, walls = random_case(chance)
            if not can_all_finish(ways, walls):
                continue
            for looks in (True, False):
                left = self.run_out(ways, walls, chance, looks)
                self.assertFalse(left and looks, (case, ways, walls, left))
                stuck[looks] += bool(left)
        print(f'look: without it {stuck[False]} of these cases stand for good')
        self.assertGreater(stuck[False], CASES // 300)

    def run_out(
        self,
        ways: Mapping[str, Way],
        walls: Collection[str],
        chance: random.Random,
        looks: bool,
    ) -> list[str]:
        """The vehicles that do not finish."""
        seen = {name: 0 for name in ways}
        base = {name: 0 for name in ways}
        while True:
            held = {
                node: name
                for name, way in ways.items()
                for node in way[seen[name] : base[name] + 1]
            }
            options = [('go', name) for name in ways if seen[name] < base[name]]
            rest = {name: way[base[name] :] for name, way in ways.items()}
            for name, way in rest.items():
                if (
                    len(way) > 1
                    and base[name] - seen[name] < 3
                    and way[1] not in walls
                    and held.get(way[1], name) == name
                ):
                    if not looks or finishing(after_release(rest, name, 1), walls, PLENTY) == set(
                        ways
                    ):
                        options.append(('release', name))
            if not options:
                return [name for name, way in ways.items() if base[name] < len(way) - 1]
            what, name = chance.choice(options)
            if what == 'go':
                seen[name] += 1
            else:
                base[name] += 1


class AfterAStart(unittest.TestCase):
    def test_a_judge_that_knows_no_moves(self) -> None:
        """Twenty vehicles on the floor of the simulated plant are started and released as a judge
        allows it, so that all can finish all the while. One that has just begun, and knows none of
        the moves, finds how. (A search in one order alone does not in turns 10, 15 and 40 of
        these.)"""
        for seed in (3, 5, 7):
            with self.subTest(seed):
                self.drive(random.Random(seed), large(), 45)

    def drive(self, chance: random.Random, floor: Plant, turns: int) -> None:
        layout = floor.layout()
        ways = Ways(layout)
        stations = [station.node for station in layout.stations.values()]
        names = [f'v{n:02d}' for n in range(20)]
        parked = {name: frozenset([bay]) for name, bay in zip(names, chance.sample(floor.bays, 20))}
        traffic = Traffic({}, {}, parked, {node: ways.way_out(node) for node in layout.nodes})
        judge = Judge()
        for turn in range(turns):
            judge.begin_turn()
            everyone = traffic.ways_later().keys()
            self.assertEqual(judge.finish_later(traffic), everyone)
            if turn % 5 == 0:
                self.assertEqual(Judge().finish_later(traffic), everyone, turn)
            traffic = self.started(
                self.ended(self.released(traffic, judge, chance), chance),
                judge,
                chance,
                ways,
                stations,
            )
        self.assertGreater(len(traffic.ways), 10)

    def released(self, traffic: Traffic, judge: Judge, chance: random.Random) -> Traffic:
        for name in chance.sample(sorted(traffic.ways), len(traffic.ways)):
            way = traffic.ways[name]
            taken = traffic.walls | {other[0] for key, other in traffic.ways.items() if key != name}
            if (
                len(way) > 1
                and way[1] not in taken
                and chance.random() < 0.85
                and judge.may_release(traffic, name, 1)
            ):
                traffic = traffic.released(name, 1)
        return traffic

    def ended(self, traffic: Traffic, chance: random.Random) -> Traffic:
        """Some of those at the end of their way have no order then."""
        for name, way in list(traffic.ways.items()):
            if len(way) == 1 and chance.random() < 0.1:
                others = {key: other for key, other in traffic.ways.items() if key != name}
                traffic = Traffic(others, {}, {**traffic.parked, name: frozenset(way)}, traffic.out)
        return traffic

    def started(
        self,
        traffic: Traffic,
        judge: Judge,
        chance: random.Random,
        ways: Ways,
        stations: Sequence[str],
    ) -> Traffic:
        for name, held in list(traffic.parked.items()):
            for _ in range(3):
                way = ways.way((*held, chance.choice(stations), chance.choice(stations)))
                if (
                    way is not None
                    and len(way) > 1
                    and name in traffic.parked
                    and judge.may_start(traffic, name, way)
                ):
                    traffic = traffic.started(name, way)
        return traffic


if __name__ == '__main__':
    unittest.main()
