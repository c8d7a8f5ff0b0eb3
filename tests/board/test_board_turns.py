"""Shows what the board asks when, over a desk that is made up and a clock that is set, so that each
second has its 20 requests."""

from __future__ import annotations

import unittest
from dataclasses import replace
from types import SimpleNamespace
from typing import Any
from unittest import mock

from tests.support.board_run import ONE
from nulvrader.board import poller, shown_rows
from nulvrader.board.fleet import Fleet
from nulvrader.board.shown_layout import ShownLayout
from nulvrader.board.news import News
from nulvrader.board.page_state import Shown
from nulvrader.board.record import Record
from nulvrader.board.same_desk import SameDesk
from nulvrader.board.stock import Stores
from nulvrader.common.layouts import Layout, read_layout
from nulvrader.common.names import VehicleKey
from nulvrader.desk.client import Job, ExportedVehicle

COUNT = 100
BEGUN = 1_700_000_000.0
EACH = {'vehicles': 0.5, 'holds': 0.5, 'jobs': 0.7, 'stock': 0.7}
ROWS = ['kind,id,from,to', *(f'node,N{number:03d},,' for number in range(COUNT))]
ROWS += [f'edge,E{at:03d},N{at:03d},N{at + 1:03d}' for at in range(COUNT - 1)]
LAYOUT = read_layout('\n'.join([*ROWS, 'station,A,N000,999', 'station,B,N001,999', '']).encode())


class MadeUp:
    """A desk of vehicles in a row, of which each holds its node. `asked` has the moment and the
    name of each question, and `takes` how many seconds an answer to it takes."""

    def __init__(self, clock: Clock):
        self.clock, self.asked = clock, list[tuple[float, str]]()
        self.takes: dict[str, float] = {}
        keys = [VehicleKey(ONE.manufacturer, f'{number:03d}') for number in range(COUNT)]
        self.rows = {key: row_of(key, f'N{at:03d}') for at, key in enumerate(keys)}

    def note(self, name: str) -> None:
        self.asked.append((self.clock.at, name))
        self.clock.at += self.takes.get(name, 0.0)

    def vehicles(self) -> dict[VehicleKey, ExportedVehicle]:
        self.note('vehicles')
        return self.rows

    def hold_report(self) -> bytes:
        self.note('holds')
        lines = [f'node {row.node} {key}' for key, row in self.rows.items()]
        return '\n'.join([*lines, f'held {COUNT} of {2 * COUNT - 1}', '']).encode()

    def jobs(self) -> dict[str, Job]:
        self.note('jobs')
        return {}

    def stock_report(self) -> bytes:
        self.note('stock')
        lines = [f'station {name}: 0 of 999, reserved 0' for name in ('A at N000', 'B at N001')]
        vehicles = (f'vehicle {key}: 0' for key in self.rows)
        return '\n'.join([*lines, 'checking: 0', *vehicles, 'left: 0', '']).encode()

    def loads_export(self) -> bytes:
        self.note('loads')
        return b'load,place,at\n'

    def layout(self) -> Layout:
        self.note('layout')
        return LAYOUT

    def order_message(self, key: VehicleKey) -> dict[str, Any]:
        self.note(f'order of {key}')
        return message(key, str(self.rows[key].order), self.rows[key].node)


def row_of(key: VehicleKey, node: str) -> ExportedVehicle:
    """A vehicle that is ready, and has no order."""
    no_order = None, None, None
    return ExportedVehicle(
        key, node, 1, True, False, False, None, *no_order, 1, None, None, None, None
    )


def message(key: VehicleKey, order: str, node: str) -> dict[str, Any]:
    """An order that picks a load up and puts it down at a node."""
    names = {'stationType': 'station', 'stationName': 'A', 'loadType': 'load', 'loadId': 'L1'}
    pairs = [{'key': name, 'value': value} for name, value in names.items()]
    acts = [
        {'actionId': f'{order}.{number}', 'actionType': kind, 'actionParameters': pairs}
        for number, kind in enumerate(('pick', 'drop'))
    ]
    at = {'nodeId': node, 'sequenceId': 0, 'released': True, 'actions': acts}
    vehicle = {'manufacturer': key.manufacturer, 'serialNumber': key.serial}
    return {'orderId': order, 'orderUpdateId': 0, **vehicle, 'nodes': [at], 'edges': []}


class Clock:
    """A clock that is set."""

    def __init__(self) -> None:
        self.at = BEGUN

    def module(self) -> SimpleNamespace:
        """What is asked for the time in place of `time`."""
        return SimpleNamespace(
            monotonic=lambda: self.at, time_ns=lambda: round(self.at * 1e9), time=lambda: self.at
        )


class Turns(unittest.TestCase):
    """An asker that has asked for all once."""

    def setUp(self) -> None:
        self.clock = Clock()
        patched = mock.patch.object(poller, 'time', self.clock.module())
        patched.start()
        self.addCleanup(patched.stop)
        record = Record(':memory:')
        self.addCleanup(record.close)
        news = News(Shown(), record)
        self.desk, self.fleet = MadeUp(self.clock), Fleet(news, 10_000)
        followers = poller.Followers(Stores(news), self.fleet, SameDesk(record))
        desk: Any = self.desk
        self.asker = poller.Asker(desk, news, ShownLayout(news), lambda: followers, 30)
        self.run_for(2)
        self.assertEqual(self.times('layout'), [BEGUN])
        self.desk.asked.clear()

    def run_for(self, seconds: float) -> None:
        """Lets the asker ask for so long, as often as it may."""
        ends = self.clock.at + seconds
        while self.clock.at < ends:
            begun = self.clock.at
            rest = self.asker.turn(begun)
            self.clock.at = round(max(begun + rest, self.clock.at), 3)

    def times(self, name: str) -> list[float]:
        """When this was asked."""
        return [at for at, asked in self.desk.asked if asked == name]

    def orders(self) -> list[str]:
        return [name for _, name in self.desk.asked if name.startswith('order of ')]

    def begin(self, *keys: VehicleKey) -> None:
        """These vehicles have orders."""
        for key in keys:
            order = dict(order=f'O{key.serial}', sent=0, released=0, edges=0, seen=0)
            self.desk.rows[key] = replace(self.desk.rows[key], **order)

    def test_a_round(self) -> None:
        """Where nothing changes each question has its turn, and nothing else is asked."""
        self.run_for(20)
        for name, every in EACH.items():
            self.assertAlmostEqual(len(self.times(name)), 20 / every, delta=2, msg=name)
        self.assertEqual({name for _, name in self.desk.asked}, set(EACH))

    def test_all_have_new_orders(self) -> None:
        """Each message is asked for once, and all within eight seconds: 13 of 20 requests a second
        are left for them. The questions that have turns come as they did."""
        self.begin(*self.desk.rows)
        self.run_for(8)
        self.assertEqual(sorted(self.orders()), [f'order of {key}' for key in self.desk.rows])
        self.assertLessEqual(len(self.desk.asked), 20 * 8 + 1)
        for name, every in EACH.items():
            self.assertAlmostEqual(len(self.times(name)), 8 / every, delta=1, msg=name)

    def test_what_is_seen_of_new_orders_first(self) -> None:
        """Within two seconds each vehicle has its order, the update of it that was sent, and how
        long its way is, by the export of vehicles; the ways come after it."""
        self.begin(*self.desk.rows)
        self.run_for(2)
        seen = self.asker.news.shown
        wanted: dict[str, object] = {'seen': 0, 'base': 0, 'edges': 0, 'sent': 0}
        for key in self.desk.rows:
            row: Any = seen.get(shown_rows.VEHICLE, str(key))
            wanted['order_name'] = f'O{key.serial}'
            self.assertEqual({name: row[name] for name in wanted}, wanted)
        self.assertLess(len(seen.all(shown_rows.WAY)), COUNT // 2)

    def test_a_message_of_another_order(self) -> None:
        """The vehicle has another order by the time at which its message is asked for: it is asked
        for again once the vehicles have told of it, and only then."""
        key = next(iter(self.desk.rows))
        self.begin(key)
        right = self.desk.order_message

        def later(of: VehicleKey) -> dict[str, Any]:
            return {**right(of), 'orderId': 'O-next'}

        with mock.patch.object(self.desk, 'order_message', later):
            self.run_for(3)
        self.assertAlmostEqual(len(self.orders()), 6, delta=1)
        self.assertIsNone(self.fleet.seen[str(key)].way)
        self.run_for(1)
        way = self.fleet.seen[str(key)].way
        self.assertEqual(way and way.order, f'O{key.serial}')

    def test_an_answer_that_takes_long(self) -> None:
        """A stock report that takes a second is asked for again after ten; the others go on."""
        self.desk.takes['stock'] = 1.0
        self.run_for(22)
        self.assertEqual(len(self.times('stock')), 2)
        self.assertGreater(len(self.times('vehicles')), 36)

    def test_an_answer_that_the_board_takes_long_to_read(self) -> None:
        """What the board takes for itself makes the questions rarer only where it is much: a fifth
        of a second of each leaves the stock report its turn, a whole one in every three."""
        taken = self.asker.stores.take_stock
        for own, every in ((0.2, EACH['stock']), (1.0, 3.0)):

            def take(stock: Any, own: float = own) -> None:
                taken(stock)
                self.clock.at += own

            self.desk.asked.clear()
            with mock.patch.object(self.asker.stores, 'take_stock', take):
                self.run_for(30)
            self.assertAlmostEqual(len(self.times('stock')), 30 / every, delta=3, msg=own)

    def test_a_board_that_is_slow(self) -> None:
        """Where the board takes a second to read each answer, so that one is always due by its
        turn, each has its turn still, and so have the messages of orders."""
        slow: list[tuple[Any, str]] = [(self.fleet, 'take_vehicles'), (self.fleet, 'take_holds')]
        slow += [(self.asker.stores, 'take_jobs'), (self.asker.stores, 'take_stock')]
        for follower, name in slow:

            def take(rows: Any, then: Any = getattr(follower, name)) -> None:
                then(rows)
                self.clock.at += 1.0

            patched = mock.patch.object(follower, name, take)
            patched.start()
            self.addCleanup(patched.stop)
        self.begin(*list(self.desk.rows)[:5])
        self.run_for(40)
        self.assertEqual(len(self.orders()), 5)
        for name in EACH:
            self.assertAlmostEqual(len(self.times(name)), 10, delta=1, msg=name)

    def test_a_command(self) -> None:
        """All that has turns is asked right after it."""
        self.run_for(1.3)
        self.desk.asked.clear()
        self.asker._all_are_due()
        self.run_for(0.2)
        self.assertEqual([name for _, name in self.desk.asked], list(EACH))


if __name__ == '__main__':
    unittest.main()
