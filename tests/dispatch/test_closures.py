"""Shows that what is closed is not released, nor planned through, nor waited for in front of it."""
from __future__ import annotations

import unittest

from nulvrader.common.layouts import Edge, of_parts
from nulvrader.dispatch.closures import Closures
from nulvrader.common.instructions import Instructions
from nulvrader.dispatch.judge import Judge
from nulvrader.dispatch.parking import Parking
from nulvrader.dispatch.routes import Ways
from nulvrader.dispatch.traffic import LATER, NOW, Still, Traffic
from tests.support.bays import RING, seen
from tests.support.desks import over_sockets
from tests.support.dispatching import ONE, TWO, OverADesk

NODE = Closures(frozenset('c'))
EDGE = Closures(frozenset(), {('b', 'c'): 'bc'})


def judged() -> Judge:
    judge = Judge()
    judge.begin_turn()
    return judge


class Pure(unittest.TestCase):
    def test_the_first_on_a_way(self) -> None:
        """Where a vehicle stands is not before it, and an edge is closed in its direction alone."""
        for closed, way, told in (
            (NODE, 'abcd', 'node c'),
            (NODE, 'cd', None),
            (NODE, 'cdc', 'node c'),
            (EDGE, 'abcd', 'edge bc'),
            (EDGE, 'cb', None),
            (EDGE, 'acb', None),
            (Closures(frozenset('d'), EDGE.edges), 'abcd', 'edge bc'),
            (Closures(), 'abcd', None),
        ):
            self.assertEqual(closed.first_on(way), told)

    def test_of_two_edges_the_one_that_ways_take(self) -> None:
        """A way takes that of the lesser name."""
        edges = [Edge(name, 'a', 'b') for name in ('e2', 'e1', 'e3')]
        self.assertEqual(Ways(of_parts(['a', 'b'], edges, [])).edges, {('a', 'b'): 'e1'})

    def test_who_finishes(self) -> None:
        """Not one whose way leads over what is closed, before that is opened; others do, also
        those that come against it, or stand on it."""
        for closed, finish in (
            (NODE, {'east', 'on'}),
            (EDGE, {'east', 'west', 'on'}),
            (Closures(), {'through', 'east', 'west', 'on'}),
        ):
            ways = {
                'through': tuple('abcd'),
                'east': tuple('efg'),
                'west': tuple('xcy'),
                'on': tuple('cz'),
            }
            traffic = Traffic(ways, {}, {}, {}, closed)
            judge = judged()
            self.assertEqual(judge.finish_now(traffic), finish)
            self.assertEqual(judge.finish_later(traffic), ways.keys())
            for plan in judge.plans(traffic):
                self.assertIsNone(plan.fault())

    def test_none_waits_in_front_of_it(self) -> None:
        """A vehicle that is in nobody's way stays where it is; one that is in the way of another
        goes up to what is closed."""
        for closed in (NODE, EDGE):
            alone = Traffic({'KIT/0001': tuple('abcd')}, {}, {}, {}, closed)
            self.assertFalse(judged().may_release(alone, 'KIT/0001', 1))
            both = {'KIT/0001': tuple('abcd'), 'KIT/0002': tuple('xay')}
            crossed = Traffic(both, {}, {}, {}, closed)
            judge = judged()
            self.assertTrue(judge.may_release(crossed, 'KIT/0001', 1))
            self.assertEqual(judge.outlook(crossed).ends[NOW]['KIT/0001'], 'b')

    def test_no_order_over_it(self) -> None:
        for closed in (NODE, EDGE):
            traffic = Traffic({}, {}, {'KIT/0001': frozenset('a')}, {}, closed)
            self.assertFalse(judged().may_start(traffic, 'KIT/0001', tuple('abcd')))
            self.assertTrue(judged().may_start(traffic, 'KIT/0001', tuple('abx')))
        on = Traffic({}, {}, {'KIT/0001': frozenset('c')}, {}, NODE)
        self.assertTrue(judged().may_start(on, 'KIT/0001', tuple('cd')))

    def test_one_that_stands(self) -> None:
        """Once a paused one goes on, what is closed is still closed to it."""
        still = {'KIT/0001': Still(frozenset('a'), tuple('abcd'))}
        traffic = Traffic({'KIT/0002': tuple('xy')}, still, {}, {}, EDGE)
        judge = judged()
        finish = judge.outlook(traffic).finishing
        self.assertEqual([len(one) for one in finish], [1, 1, 2])

    def test_it_is_seen_at_once(self) -> None:
        """Who finishes is looked for anew in the turn in which something is closed or opened."""
        ways = {'KIT/0001': tuple('abcd')}
        judge = Judge()
        for closed, finish in (
            (Closures(), ways.keys()),
            (EDGE, set()),
            (Closures(), ways.keys()),
            (NODE, set()),
            (Closures(), ways.keys()),
        ):
            judge.begin_turn()
            self.assertEqual(judge.finish_now(Traffic(ways, {}, {}, {}, closed)), finish)

    def test_views(self) -> None:
        """Ways have as many nodes with what is closed as without."""
        ways = {'KIT/0001': tuple('abcbc')}
        views = Traffic(ways, {}, {}, {}, EDGE).views()
        self.assertEqual(len(views[NOW][0]['KIT/0001']), 5)
        self.assertEqual(views[LATER][0]['KIT/0001'][:5], ways['KIT/0001'])

    def test_no_parking_there(self) -> None:
        """A vehicle is led to q, over p, and not to p, and to none where the way there is
        closed."""
        vehicle = seen(1, 's')
        for closed, wanted in (
            (Closures(frozenset('q')), 'p'),
            (Closures(frozenset('p')), None),
            (Closures(frozenset(), {('p', 'q'): 'pq'}), 'p'),
            (Closures(frozenset(), {('b', 'p'): 'bp'}), None),
        ):
            judge = judged()
            parking = Parking(Ways(RING), judge)
            traffic = Traffic({}, {}, {vehicle.name: vehicle.nodes}, {}, closed)
            found = parking.propose([vehicle], {}, 's', (), traffic, 0.0)
            self.assertEqual(None if found is None else found.to, wanted)


@over_sockets
class OverTheProgram(OverADesk):
    places = ()

    def setUp(self) -> None:
        self.said = Instructions()
        super().setUp()

    def instructions(self) -> Instructions:
        return self.said

    def close(self, nodes: str = '', *edges: str) -> None:
        self.said = Instructions({}, frozenset(nodes), frozenset(edges))

    def test_it_is_not_released(self) -> None:
        """KIT/0001 is on its way from A over b and c to D, and holds a and b. It comes to b, and
        goes on once c is opened."""
        self.turn()
        self.desk.add_job('J1', 'L1', 'D')
        self.turn()
        for nodes, edges, why in (
            ('c', (), 'node c'),
            ('', ('b-c',), 'edge b-c'),
            ('d', (), 'node d'),
        ):
            self.close(nodes, *edges)
            self.told(ONE, 'b', 4, 'f')
            self.turn()
            self.told(ONE, 'b', 4, 'f')
            self.assertRegex(self.turn(20)[0], f'^KIT/0001 waits at b, since .*{why}.* closed')
            self.assertEqual(self.held(ONE), ['b'])
        self.close()
        self.turn()
        self.assertEqual(self.held(ONE), ['b', 'c', 'd'])

    def test_no_order_leads_over_it(self) -> None:
        """A job from A to B waits while a-b is closed, and says so. One from C to D begins."""
        self.turn()
        self.close('', 'a-b')
        self.desk.add_job('J1', 'L1', 'B')
        self.desk.add_job('J2', 'L3', 'D')
        lines = self.turn()
        self.assertRegex(lines[0], r'^KIT/0002: takes J2 \(L3 from C to D\)')
        self.assertEqual(
            self.turn(20),
            [
                'job J1 waits: the ways of the free vehicles lead over edge a-b, which is closed,'
                ' until that is opened'
            ],
        )
        self.close()
        self.assertRegex(self.turn()[0], '^KIT/0001: takes J1')

    def test_a_drive_of_a_person(self) -> None:
        """It is not released further than to what is closed."""
        self.turn()
        self.close('c')
        self.desk.start_drive('G1', ONE, 'cb', 1)
        self.told(ONE, 'a', 2)
        self.turn()
        self.turn(20)
        told = '^KIT/0001 waits at a, since its way is blocked by .*node c, which is closed$'
        self.assertRegex(self.lines[-1], told)
        self.assertEqual(self.held(ONE), ['a'])

    def test_others_go_by(self) -> None:
        """KIT/0001 waits at b for c, and KIT/0002 comes behind it on its way to A, over d: it gets
        there."""
        self.turn()
        self.desk.add_job('J1', 'L1', 'D')
        self.turn()
        self.told(ONE, 'b', 4, 'f')
        self.close('', 'b-c')
        self.desk.add_job('J2', 'L3', 'A')
        self.turn()
        for _ in range(8):
            self.told(ONE, 'b', 4, 'f')
            self.go_on(TWO)
            self.turn()
        self.assertEqual((self.place('L3'), self.held(ONE)), ('station A', ['b']))

    def test_names_that_the_layout_does_not_have(self) -> None:
        """They are told once, and the others hold."""
        self.turn()
        self.said = Instructions({}, frozenset({'zz', 'c'}), frozenset({'b-z'}))
        self.assertEqual(
            self.turn(), ['the layout has no edge b-z, node zz, which people have closed']
        )
        self.desk.add_job('J1', 'L1', 'D')
        self.assertEqual(self.turn(), [])
        self.close()
        self.assertRegex(self.turn()[0], '^KIT/0001: takes J1')


if __name__ == '__main__':
    unittest.main()
