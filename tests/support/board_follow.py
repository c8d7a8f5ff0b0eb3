"""The followers of a board over a desk that is made up, with what they have put into a record."""

from __future__ import annotations

import unittest
from dataclasses import replace
from typing import Any

from tests.support.board_run import LAYOUT, ONE
from nulvrader.board.fleet import Fleet
from nulvrader.board.news import News
from nulvrader.board.page_state import Shown
from nulvrader.board.progress import PlacedAct, Way
from nulvrader.board.record import EVENT, Record
from nulvrader.board.stock import Stores
from nulvrader.common.layouts import read_layout
from nulvrader.desk.client import Job, ExportedVehicle
from nulvrader.desk.reports import StationStock, Stock

BEGUN = 1_700_000_000_000
CLIENT, VEHICLE, UNSEEN = ('client', None), ('vehicle', None), ('unseen', None)


def vehicle(**values: Any) -> ExportedVehicle:
    """KIT/0001 as the desk tells of it: at N1, ready, with no order."""
    no_order = None, None, None
    row = ExportedVehicle(
        ONE, 'N1', 1, True, False, False, None, *no_order, 1, None, None, None, None
    )
    return replace(row, **values)


ORDER: dict[str, Any] = {'order': 'O1', 'sent': 0, 'released': 1, 'edges': 2, 'seen': 0}
ACTS = (PlacedAct(0, 'pick', 'L1', 'A', 0), PlacedAct(1, 'drop', 'L1', 'B', 2))
WAY = Way('O1', 0, ('N1', 'N2', 'N3'), ('E12', 'E23'), ACTS)


class Followed(unittest.TestCase):
    """A board that has looked at a desk with L1 at A and KIT/0001 at N1."""

    def setUp(self) -> None:
        self.record = Record(':memory:')
        self.addCleanup(self.record.close)
        self.news = News(Shown(), self.record)
        self.layout = read_layout(LAYOUT.encode())
        self.stores, self.fleet = Stores(self.news), Fleet(self.news, 10_000)
        self.news.at = BEGUN
        self.places, self.jobs, self.row = {'L1': 'station A'}, dict[str, Job](), vehicle()
        self.look()
        self.header = 1
        self.assertEqual(self.entries(), [])

    def start_again(self) -> None:
        """The board is started again on the same record."""
        at, self.news = self.news.at, News(Shown(), self.record)
        self.news.at = at
        self.stores, self.fleet = Stores(self.news), Fleet(self.news, 10_000)

    def look(self, later: int = 1000, **places: str) -> None:
        """The board looks so many milliseconds later: vehicles, then jobs, then the stock."""
        self.news.at += later
        self.places = {name: at for name, at in {**self.places, **places}.items() if at != 'left'}
        self.fleet.take_vehicles({ONE: self.row})
        if self.row.order == 'O1' and self.fleet.seen['KIT/0001'].way is None:
            self.fleet.take_order(ONE, WAY)
        self.news.at += 1
        self.stores.take_jobs(self.jobs)
        self.news.at += 1
        self.stores.take_stock(self.stock())
        self.news.at += 1
        self.fleet.take_vehicles({ONE: self.row})
        self.stores.take_stock(self.stock())
        self.fleet.take_stock(self.stock())

    def stock(self) -> Stock:
        """The stock report of these places."""

        def at(place: str) -> list[str]:
            return [load for load, where in self.places.items() if where == place]

        stations = {
            name: StationStock(name, one.node, one.capacity, 0, at(f'station {name}'))
            for name, one in self.layout.stations.items()
        }
        left = 10 - len(self.places)
        return Stock(stations, at('checking'), {ONE: at('vehicle KIT/0001')}, left)

    def entries(self) -> list[dict[str, Any]]:
        """What the record has, each entry by the columns."""
        self.news.commit()
        rows = self.record.rows(f'SELECT {", ".join(EVENT)} FROM events ORDER BY n')
        return [dict(zip(EVENT, row)) for row in rows]

    def told(self, *wanted: tuple[str, str, tuple[str, str | None]]) -> None:
        """The record has these entries since it was last asked, and no others: of each what, its
        sentence, and its cause with the call."""
        found = [(row['what'], row['words'], (row['cause'], row['call'])) for row in self.entries()]
        self.assertEqual(sorted(found), sorted(wanted))
        self.record._put('DELETE FROM events')

    def person(self, name: str, **values: str) -> int:
        """Anna gives a command by this board, and the desk does it. Its number."""
        self.header += 1
        self.news.sent_commands.note_sending(self.header, 'anna', name, values, self.news.at)
        self.news.sent_commands.note_outcome(self.header, True, self.news.at)
        return self.header

    def begin_order(self) -> None:
        self.jobs = {'J1': Job('J1', 'L1', 'A', 'B', ONE, 'O1')}
        self.row = vehicle(**ORDER)
        self.look()
