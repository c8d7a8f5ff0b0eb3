"""A board that looks for alarms by clocks that the test sets."""

from __future__ import annotations

from collections.abc import Callable
from typing import Any
from unittest import mock

from tests.support.board_follow import Followed, vehicle
from nulvrader.board import alarms as module
from nulvrader.board.alarms import Alarms
from nulvrader.board.vehicle_words import Words
from nulvrader.board.words_keeper import Keeper
from nulvrader.board.shown_rows import ALARM, DESK, ShownDesk

LATE = 600_000


class Clocked:
    """The clocks that alarms are looked for by, both set by the test."""

    def __init__(self, at: int):
        self.at, self.jumped = at, 0.0

    def monotonic(self) -> float:
        return self.at / 1000

    def time(self) -> float:
        return self.at / 1000 + self.jumped

    def time_ns(self) -> int:
        return self.at * 1_000_000


class Alarmed(Followed):
    """A board that has looked at a desk with L1 at A and KIT/0001 at N1, and has no alarm."""

    def setUp(self) -> None:
        super().setUp()
        self.clock = Clocked(self.news.at)
        self.enterContext(mock.patch.object(module, 'time', self.clock))
        self.enterContext(mock.patch.object(module, 'free_of', lambda path: self.free))
        self.free: str | None = None
        self.fleet.silent_after = 10**9
        self.alarms, self.keeper = Alarms(self.news, LATE), Keeper(self.news)
        self.news.shown.put(DESK, '', ShownDesk(up=True, since=1, fault=None, other=False))
        self.turn()
        self.assertEqual(self.kinds(), {})

    def turn(self, later: int = 3000) -> None:
        """Some seconds later alarms are looked for."""
        self.clock.at += later
        self.news.at = self.clock.at
        self.alarms.turn(self.stores, self.fleet, self.keeper, self.layout)
        self.news.commit()

    def kinds(self) -> dict[str, str]:
        """The open alarms: of each kind its sentence."""
        found = self.news.shown.all(ALARM).values()
        return {alarm['kind']: alarm['words'] for alarm in found}

    def raised(
        self, make: Callable[[], None], kind: str, words: str, end: Callable[[], None]
    ) -> None:
        """What makes it so raises one alarm; it is over once it is so no more."""
        make()
        self.turn()
        self.turn()
        self.assertEqual(self.kinds(), {kind: words})
        (alarm,) = self.news.shown.all(ALARM).values()
        self.assertTrue(alarm['todo'])
        rows = self.record.rows('SELECT kind, words, ended FROM alarms ORDER BY n DESC LIMIT 1')
        self.assertEqual(rows, [(kind, words, None)])
        end()
        self.turn()
        self.turn()
        self.assertEqual(self.kinds(), {})
        rows = self.record.rows('SELECT count(*) FROM alarms WHERE ended IS NULL')
        self.assertEqual(rows, [(0,)])

    def is_so(self, **values: Any) -> None:
        """The vehicle is so."""
        self.row = vehicle(header=self.header_after(), **values)
        self.look()
        self.clock.at = self.news.at

    def header_after(self) -> int:
        return (self.row.header or 0) + 1

    def says(self, words: Words) -> None:
        self.keeper.take({'KIT/0001': [words]}, ['KIT/0001'], self.news.at)
