"""Shows what the dispatcher may release and start, without a desk."""
from __future__ import annotations

import unittest

from tests.support.dispatching import LAYOUT
from nulvrader.dispatch.memory import Memory
from nulvrader.dispatch.shut_in import Course, ShutIn, is_on_course
from nulvrader.dispatch.judge import Judge
from nulvrader.dispatch.traffic import Still, Traffic
from nulvrader.dispatch.routes import Ways
from nulvrader.common.layouts import read_layout


class Pure(unittest.TestCase):
    """What may be released and started, without a desk."""

    def test_what_was_to_be(self) -> None:
        """Whether a vehicle does what it was to do at the end of the turn before."""
        way, end = tuple('abcd'), tuple('d')
        for before, asked, order, left, wanted in (
            (Course('O1', way, 3), None, 'O1', way[1:], True),
            (Course('O1', way, 3), None, 'O1', tuple('abx'), False),
            (Course('O1', way, 3), None, None, way[1:], False),  # it was cancelled
            (Course('O1', way, 3), None, None, end, False),  # somebody has placed it at its end
            (Course('O1', end), None, None, end, True),
            (Course(None, end), None, None, end, True),
            (Course(None, end), None, None, tuple('c'), False),
            (Course(None, end), None, 'O2', tuple('dc'), False),  # a person's order
            (
                Course(None, end),
                'O2',
                'O2',
                tuple('dc'),
                True,
            ),  # this dispatcher's, though no answer came
            (Course(None, end), 'O3', 'O2', tuple('dc'), False),
            (None, None, None, end, False),
        ):
            with self.subTest(before=before, asked=asked, order=order):
                self.assertEqual(is_on_course(before, Course(order, left), asked), wanted)

    def test_what_a_short_look_misses_in_the_first_turn(self) -> None:
        """Three vehicles on a ring of four nodes can all finish. A look at one state does not find
        how; the first one of a dispatcher is longer, and the moves that it has found are kept."""
        ways = {
            'v0': ('r2', 'r3', 'r0'),
            'v1': ('r1', 'r2', 'r3', 'r0'),
            'v2': ('r0', 'r1', 'r2', 'r3'),
        }
        traffic, judge = Traffic(ways), Judge(deep=1)
        self.assertLess(judge.finish_later(traffic), ways.keys())
        for first in (True, False):
            judge = Judge(deep=1)
            shut_in = ShutIn(judge, {name: Memory(order='O') for name in ways})
            if first:
                judge.begin_turn()
                shut_in.begin_turn(traffic)
            self.assertEqual(shut_in.end_turn(traffic, 0.0), [])
            self.assertEqual(shut_in.told() == {}, first)

    def test_one_that_stands_still_is_not_shut_in(self) -> None:
        """KIT/0001 is paused at b and goes to e by the single track c, d. KIT/0002 comes from e and
        ends at c: it waits, since the other one could not get by; though it could go while that one
        stands."""
        traffic = Traffic(
            {'KIT/0002': tuple('edc')}, {'KIT/0001': Still(frozenset('b'), tuple('bcdz'))}
        )
        judge = Judge()
        self.assertEqual(judge.finish_now(traffic), {'KIT/0002'})
        self.assertFalse(
            judge.may_release(Traffic({'KIT/0002': tuple('edcbz')}, traffic.still), 'KIT/0002', 1)
        )

    def test_one_that_cannot_finish_stays(self) -> None:
        """Another one without an order stands at its end. It stays where it is, unless it is in the
        way."""
        traffic = Traffic({'KIT/0001': tuple('abc')}, {}, {'KIT/0002': frozenset('c')})
        judge = Judge()
        self.assertFalse(judge.may_release(traffic, 'KIT/0001', 1))
        crossed = Traffic({'KIT/0001': tuple('abc'), 'KIT/0003': tuple('xay')}, {}, traffic.parked)
        self.assertTrue(judge.may_release(crossed, 'KIT/0001', 1))

    def test_the_way_out_of_a_dead_end(self) -> None:
        """KIT/0002 stands at the end of the dead end b, c, without an order, and gets out by a.
        KIT/0001 goes there and would shut it in, so it is not let to a, though it is in the way of
        a third one."""
        out = {'b': ('a',), 'c': ('b', 'a')}
        ways = {'KIT/0001': tuple('qabc'), 'KIT/0003': tuple('xqy')}
        self.assertFalse(
            Judge().may_release(Traffic(ways, {}, {'KIT/0002': frozenset('c')}, out), 'KIT/0001', 1)
        )
        self.assertTrue(
            Judge().may_release(Traffic(ways, {}, {'KIT/0002': frozenset('d')}, out), 'KIT/0001', 1)
        )
        layout = read_layout(LAYOUT)
        self.assertEqual(
            {node: Ways(layout).way_out(node) for node in ('a', 'ab')}, {'a': (), 'ab': ('a',)}
        )

    def test_no_order_to_where_another_stands(self) -> None:
        traffic = Traffic({}, {}, {'KIT/0001': frozenset('a'), 'KIT/0002': frozenset('c')})
        self.assertFalse(Judge().may_start(traffic, 'KIT/0001', tuple('abc')))
        self.assertTrue(Judge().may_start(traffic, 'KIT/0001', tuple('ab')))
        self.assertTrue(Judge().may_start(traffic, 'KIT/0002', tuple('cbc')))

    def test_no_order_by_which_two_shut_one_another_in(self) -> None:
        traffic = Traffic({'KIT/0001': tuple('abcd')}, {}, {'KIT/0002': frozenset('d')})
        self.assertFalse(Judge().may_start(traffic, 'KIT/0002', tuple('dcba')))

    def test_ways_are_those_of_the_layout(self) -> None:
        layout = read_layout(LAYOUT)
        ways = Ways(layout)
        for start in layout.nodes:
            for target in layout.nodes:
                route = layout.route(start, target) or []
                nodes = (start, *(layout.edges[edge].finish for edge in route))
                self.assertEqual(
                    (ways.way((start, target)), ways.hops(start, target)), (nodes, len(route))
                )


if __name__ == '__main__':
    unittest.main()
