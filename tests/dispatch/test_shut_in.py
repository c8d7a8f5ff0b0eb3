"""Shows whom the vehicles shut in, and what has led to it, without a desk."""
import unittest
from collections.abc import Iterable, Mapping

from nulvrader.dispatch.lanes import Way
from nulvrader.dispatch.memory import Memory
from nulvrader.dispatch.shut_in import BY_ITSELF, ShutIn
from nulvrader.dispatch.judge import Judge
from nulvrader.dispatch.traffic import Still, Traffic

OUT: dict[str, Way] = {'s1': ('s0',), 's2': ('s1', 's0'), 's3': ('s2', 's1', 's0')}
AHEAD, BEHIND, OTHER = ('s2', 's3', 'x'), ('s1', 's2', 's3', 'y'), ('z', 's3', 's2', 's1', 's0')
WHY = 'since ahead stands at s2'


class Why(unittest.TestCase):
    """`ahead` and `behind` go one behind the other along the single track s0, s1, s2, s3; `other`
    is to go the other way. Whoever stands there without an order is to get out at s0."""

    def setUp(self) -> None:
        self.memory = {name: Memory(order=name, left=2) for name in ('ahead', 'behind', 'other')}
        self.shut_in = ShutIn(Judge(), self.memory)
        self.now = 0.0

    def turn(
        self,
        ways: Mapping[str, Way],
        still: Mapping[str, Way] | None = None,
        *,
        parked: Mapping[str, str] | None = None,
        released: Iterable[str] = (),
    ) -> dict[str, tuple[float, str]]:
        """A turn in which one edge each is released to some. Who is shut in at its end: since when,
        and why."""
        stand = {name: Still(frozenset(way[:1]), way) for name, way in (still or {}).items()}
        traffic = Traffic(
            ways, stand, {name: frozenset([node]) for name, node in (parked or {}).items()}, OUT
        )
        self.now += 1
        self.shut_in.judge.begin_turn()
        self.shut_in.begin_turn(traffic)
        for name in released:
            traffic = traffic.released(name, 1)
        self.shut_in.end_turn(traffic, self.now)
        return self.shut_in.told()

    def test_one_that_stood_still_when_it_was_shut_in(self) -> None:
        """A person cancels the order of `ahead` while `behind` is paused. That is why `behind` is
        shut in, from then on: also once it goes on, and is paused again, and goes on."""
        self.assertEqual(self.turn({'ahead': AHEAD}, {'behind': BEHIND}), {})
        for goes_on in (False, True, False, True):
            told = self.turn(
                *([{'behind': BEHIND}] if goes_on else [{}, {'behind': BEHIND}]),
                parked={'ahead': 's2'},
            )
            self.assertEqual(told, dict.fromkeys(('ahead', 'behind'), (2.0, WHY)), self.now)

    def test_one_whose_order_ends_when_it_is_shut_in(self) -> None:
        """The one that is behind has come to its end, s1, when the other one is placed at s0, from
        where it is to get out at s1."""
        self.memory['behind'].left = 0
        out: dict[str, Way] = {'s0': ('s1',), **OUT}
        for ahead, has_order, wanted in (
            ('q', True, {}),
            ('s0', True, 2.0),
            ('s0', False, 2.0),
            ('s0', False, 2.0),
        ):
            self.now += 1
            if not has_order:
                self.memory['behind'].begin(None)
            ways, parked = {'behind': ('s1',)} if has_order else {}, {'ahead': frozenset([ahead])}
            traffic = Traffic(
                ways, {}, parked if has_order else {**parked, 'behind': frozenset(['s1'])}, out
            )
            self.shut_in.judge.begin_turn()
            self.shut_in.begin_turn(traffic)
            self.shut_in.end_turn(traffic, self.now)
            told = {name: why for name, (_, why) in self.shut_in.told().items()}
            self.assertEqual(
                told,
                wanted and dict.fromkeys(('ahead', 'behind'), 'since ahead stands at s0'),
                self.now,
            )

    def test_what_the_dispatcher_releases(self) -> None:
        """It lets `other` into the track: that is its own doing, whether `behind` stands still then
        or not, and so it is told later."""
        for still in (False, True):
            with self.subTest(still=still):
                self.setUp()
                ways: list[dict[str, Way]] = (
                    [{'other': OTHER}, {'behind': BEHIND}]
                    if still
                    else [{'other': OTHER, 'behind': BEHIND}]
                )
                self.assertEqual(self.turn(*ways), {})
                told = self.turn(*ways, released=['other'])
                self.assertEqual(told, dict.fromkeys(('behind', 'other'), (2.0, BY_ITSELF)))
                self.assertEqual(self.turn({'other': OTHER[1:], 'behind': BEHIND}), told)

    def test_what_it_releases_where_others_are_shut_in(self) -> None:
        """So it is where, in the same turn or before it, others were shut in by a person."""
        for turns in (1, 2):
            with self.subTest(turns=turns):
                self.setUp()
                ways: dict[str, Way] = {'behind': BEHIND, 'one': tuple('abc'), 'two': tuple('dba')}
                self.memory.update({name: Memory(order=name) for name in ('one', 'two')})
                self.assertEqual(self.turn({'ahead': AHEAD, **ways}), {})
                told: dict[str, tuple[float, str]] = {}
                for n in range(turns):
                    told = self.turn(
                        ways, parked={'ahead': 's2'}, released=['two'] if n == turns - 1 else []
                    )
                wanted = {'ahead': (2.0, WHY), 'behind': (2.0, WHY)}
                self.assertEqual(
                    told,
                    {**wanted, 'one': (1.0 + turns, BY_ITSELF), 'two': (1.0 + turns, BY_ITSELF)},
                )

    def test_a_release_that_the_desk_refuses(self) -> None:
        """C finishes where X goes ahead, and D where Z does, but not both: X and Y face one
        another, and so do Z and W. D came first. Z may go ahead and does not: D still finishes by
        the moves that were known before."""
        ways = {'D': 'dpm1', 'W': 'sqp2', 'X': 'nmt3', 'Y': 'tmn4', 'Z': 'pqs5', 'C': 'cnq6'}
        before, traffic = (
            Traffic({name: tuple(ways[name]) for name in names}) for names in ('DWXYZ', 'CDWXYZ')
        )
        self.assertEqual(Judge().finish_later(traffic), {'C'})
        judge = Judge()
        for one in (before, traffic):
            judge.begin_turn()
            self.assertEqual(judge.finish_later(one), {'D'})
        self.assertTrue(judge.may_release(traffic, 'Z', 1))
        judge.begin_turn()
        self.assertEqual(judge.finish_later(Traffic(traffic.ways)), {'D'})


if __name__ == '__main__':
    unittest.main()
