"""Shows that the figures of a day are those of what was put into a record, and that their page
shows and prints them."""
from __future__ import annotations

import base64
import json
import os
import time
import unittest
from typing import Any

from tests.support.board_page import Page
from tests.support.board_record import Recorded
from tests.support.board_run import ONE, Watching, until
from tests.support.programs import ROOT

from nulvrader.board.fleet import Fleet
from nulvrader.board.figures import HOUR, BadDay, figures_of
from nulvrader.board.news import News
from nulvrader.board.page_state import Shown
from nulvrader.board.record import moment_of, text_of
from nulvrader.board.uses import EVERY, Uses
from nulvrader.board import shown_rows as rows
from nulvrader.board.shown_rows import DESK, WAIT, ShownDesk

DAY = moment_of('2026-11-29T23:00:00.000Z')  # where the page is, a day may begin so
VEHICLE = {'silent': None, 'astray': 0, 'ready': 1, 'paused': 0, 'order_name': None}
CHECKS = os.path.join(ROOT, 'tests', 'support', 'page_checks.js')


def at(hours: float) -> int:
    """A moment, so many hours after the day has begun."""
    return DAY + round(hours * HOUR)


class Kept(Recorded):
    """A record in a file."""

    def figures(self, begin: int = DAY, end: int = at(24)) -> dict[str, Any]:
        self.record.commit()
        return figures_of(self.path, {'begin': str(begin), 'end': str(end)})

    def job(self, name: str, outcome: str, vehicle: str | None, *hours: float | None) -> None:
        """A job that was added, began and ended at these hours of the day."""
        moments = [None if hour is None else text_of(at(hour)) for hour in hours]
        row = {'job': name, 'load': f'L-{name}', 'origin': 'A', 'target': 'B', 'vehicle': vehicle}
        phase = 'done' if outcome == 'done' else 'stopped'
        times = dict(zip(('added', 'began', 'ended'), moments))
        self.record.job({**row, 'phase': phase, 'outcome': outcome, **times})

    def vehicles(self, *names: str) -> None:
        columns = 'vehicle, node, ready, paused, astray, capacity, since'
        values = ', '.join(f"('{name}', 'N1', 1, 0, 0, 1, '')" for name in names)
        self.record.rows(f'INSERT INTO vehicles ({columns}) VALUES {values}')


class Counts(Kept):
    def test_jobs(self) -> None:
        """What ends in the day counts, its first moment with it and its last one not."""
        self.job('J1', 'done', 'KIT/1', 0.5, 1, 1.5)
        self.job('J2', 'done', 'KIT/2', 1, 1.25, 3.25)
        self.job('J3', 'done', 'KIT/1', None, 2.5, 3.5)
        self.job('J4', 'failed', 'KIT/1', 3, 4, 5)
        self.job('J5', 'stopped', None, 5, None, 6)
        self.job('J6', 'done', 'KIT/1', -2, -1, 0)
        self.job('J7', 'done', 'KIT/1', -2, -1, -0.001)
        self.job('J8', 'done', 'KIT/1', 23, 23.5, 24)
        told = self.figures()
        self.assertEqual(told['registered'], 5)
        wanted = {'done': 4, 'failed': 1, 'stopped': 1, 'cancelled': 0, 'placed': 0, 'unseen': 0}
        self.assertEqual(told['outcomes'], wanted)
        self.assertEqual(told['hours'], [1, 1, 0, 2, *[0] * 20])
        self.assertEqual(told['waited'], 2700)  # of 900, 1800, 3600 and 3600 seconds
        self.assertEqual(told['took'], 3600)  # of 1800, 3600, 3600 and 7200 seconds
        ways = [(way['job'], way['vehicle'], way['seconds']) for way in told['ways']]
        first = [('J2', 'KIT/2', 7200), ('J3', 'KIT/1', 3600), ('J6', 'KIT/1', 3600)]
        self.assertEqual(ways, [*first, ('J1', 'KIT/1', 1800)])

    def test_a_day_without_anything(self) -> None:
        told = self.figures()
        self.assertEqual((told['registered'], told['waited'], told['took']), (0, None, None))
        self.assertEqual((told['places'], told['causes'], told['vehicles']), ([], [], []))

    def test_a_day_of_25_hours(self) -> None:
        self.job('J1', 'done', None, 1, 24, 24.5)
        self.assertEqual(self.figures(end=at(25))['hours'], [0] * 24 + [1])
        self.assertEqual(len(self.figures(end=at(23))['hours']), 23)

    def test_waits(self) -> None:
        """Each counts as long as it lies in the day, by place and by what its holder did."""
        self.record.use(at(0), 'KIT/2', 'busy')
        self.record.use(at(2), 'KIT/2', 'free')
        for vehicle, thing, holder, began, ended in (
            ('KIT/1', ('node', 'N1'), 'KIT/2', -0.5, 0.5),
            ('KIT/1', ('node', 'N1'), 'KIT/2', 1, 1.25),
            ('KIT/1', ('edge', 'E1'), 'KIT/2', 3, 4.5),
            ('KIT/3', ('node', 'N2'), 'KIT/9', 23.75, 25),
            ('KIT/3', ('node', 'N3'), 'KIT/9', 26, 27),
            ('KIT/1', ('node', 'N3'), 'KIT/9', -3, -2),
        ):
            self.record.wait(at(began), vehicle, thing, holder)
            self.record.wait(at(ended), vehicle, None, None)
        told = self.figures()
        places = [
            (row['kind'], row['name'], row['count'], row['seconds']) for row in told['places']
        ]
        self.assertEqual(
            places, [('edge', 'E1', 1, 5400), ('node', 'N1', 2, 2700), ('node', 'N2', 1, 900)]
        )
        causes = [(row['state'], row['count'], row['seconds']) for row in told['causes']]
        self.assertEqual(causes, [('free', 1, 5400), ('unseen', 2, 2700), ('busy', 1, 900)])

    def test_what_vehicles_did(self) -> None:
        self.vehicles('KIT/1', 'KIT/2', 'KIT/3')
        for hour, vehicle, state in (
            (-2, 'KIT/1', 'free'),
            (-1, 'KIT/1', 'busy'),
            (6, 'KIT/1', 'waiting'),
            (6.5, 'KIT/1', 'busy'),
            (12, 'KIT/2', 'free'),
            (30, 'KIT/2', 'busy'),
        ):
            self.record.use(at(hour), vehicle, state)
        self.job('J1', 'done', 'KIT/1', 1, 2, 3)
        told = {row['vehicle']: (row['seconds'], row['jobs']) for row in self.figures()['vehicles']}
        wanted = {
            'KIT/1': ({'busy': 84_600, 'waiting': 1800}, 1),
            'KIT/2': ({'unseen': 43_200, 'free': 43_200}, 0),
            'KIT/3': ({'unseen': 86_400}, 0),
        }
        self.assertEqual(told, wanted)

    def test_what_is_no_day(self) -> None:
        begin = str(DAY)
        no_days: tuple[dict[str, str], ...] = (
            {},
            {'begin': begin},
            {'begin': begin, 'end': begin},
            {'begin': begin, 'end': str(at(26) + 1)},
            {'begin': str(at(1)), 'end': begin},
            {'begin': '-1', 'end': '5'},
            {'begin': '٣', 'end': '9'},
            {'begin': '4102444800000', 'end': '4102444800001'},
            {'begin': f'{begin} ', 'end': str(at(1))},
        )
        for asked in no_days:
            with self.subTest(asked), self.assertRaises(BadDay):
                figures_of(self.path, asked)


class Does(Kept):
    """What vehicles do, as it is kept."""

    def setUp(self) -> None:
        super().setUp()
        self.begin()

    def begin(self) -> None:
        """The board is started."""
        self.news = News(Shown(), self.record)
        self.uses = Uses(self.news)
        self.show(up=True)

    def show(self, up: bool, other: bool = False, **vehicle: object) -> None:
        row: Any = {**VEHICLE, **vehicle}
        self.news.shown.put(DESK, '', ShownDesk(up=up, since=1, fault=None, other=other))
        self.news.shown.put(rows.VEHICLE, 'KIT/1', row)

    def kept(self) -> list[tuple[Any, ...]]:
        rows = self.record.rows('SELECT at, state FROM vehicle_uses ORDER BY at, n')
        return [((moment_of(moment) - DAY) / 1000, state) for moment, state in rows]

    def test_each_change(self) -> None:
        """Only changes are kept, and nothing is known while the desk is away or another one."""
        waits = {'stands': True}
        steps: tuple[tuple[dict[str, Any], Any], ...] = (
            ({'up': True}, None),
            ({'up': True}, None),
            ({'up': True, 'order_name': 'O1'}, None),
            ({'up': True, 'order_name': 'O1'}, waits),
            ({'up': True, 'ready': 0}, waits),
            ({'up': False, 'ready': 0}, None),
            ({'up': False, 'other': True}, None),
            ({'up': True, 'silent': 5}, None),
        )
        for second, (shown, wait) in enumerate(steps):
            self.show(**shown)
            self.news.shown.put(WAIT, 'KIT/1', wait)
            self.uses.turn(DAY + 1000 * second)
        states = ['free', 'busy', 'waiting', 'not_ready', 'unseen', 'silent']
        self.assertEqual(self.kept(), list(zip((0, 2, 3, 4, 5, 7), states)))

    def test_a_board_that_is_started_again(self) -> None:
        """What was so at its last look lasts until then: neither a vehicle's state nor a wait goes
        on while nobody looks."""
        self.vehicles('KIT/1')
        for second in range(0, EVERY // 1000 + 8):
            self.uses.turn(DAY + 1000 * second)
        self.record.wait(DAY + 5000, 'KIT/1', ('node', 'N1'), 'KIT/2')
        self.begin()
        Fleet(self.news, 10_000)
        self.assertEqual(self.kept(), [(0, 'free'), (EVERY / 1000, 'unseen')])
        ended = [moment_of(end) - DAY for (end,) in self.record.rows('SELECT ended FROM waits')]
        self.assertEqual(ended, [EVERY])
        self.uses.turn(at(1))
        self.assertEqual(self.kept()[-1], (3600, 'free'))
        told = self.figures(end=at(2))['vehicles'][0]['seconds']
        self.assertEqual(told, {'free': 3610.0, 'unseen': 3590.0})

    def test_a_wait_that_began_later(self) -> None:
        """It ends no earlier than it began."""
        self.record.wait(DAY + 5000, 'KIT/1', ('node', 'N1'), 'KIT/2')
        Fleet(self.news, 10_000)
        ((began, ended),) = self.record.rows('SELECT began, ended FROM waits')
        self.assertEqual(ended, began)


class Asked(Watching):
    def test_by_the_board(self) -> None:
        """Today has the vehicle, and a job that was carried out."""
        self.desk.add_job('J1', 'L1', 'B')
        self.wait('job', 'J1', phase='waiting')
        self.desk.start_order('O1', ONE, job='J1', edges=2)
        self.wait('job', 'J1', phase='riding')
        picked, dropped = ('O1.0', 'FINISHED'), ('O1.1', 'FINISHED')
        self.plant.state(ONE, 'N3', 'O1', 0, 4, (picked, dropped))
        self.rows("SELECT outcome FROM jobs WHERE job = 'J1'", [('done',)])
        now = time.time_ns() // 1_000_000
        target = f'/day?begin={now - 6 * HOUR}&end={now + 6 * HOUR}'
        told = json.loads(self.board.ask('GET', target)[2])
        self.assertEqual((told['registered'], told['outcomes']['done']), (1, 1))
        self.assertEqual([row['jobs'] for row in told['vehicles']], [1])
        self.assertEqual([way['job'] for way in told['ways']], ['J1'])
        status, _, body = self.board.ask('GET', '/day?begin=5&end=4')
        self.assertEqual((status, json.loads(body)['says'][0][0]), (400, 'figures.day'))


class OnThePage(Page):
    def test_it_is_shown_and_printed(self) -> None:
        """The page leads to it; the day before is a click away, and paper has all of it."""
        self.desk.add_job('J1', 'L1', 'B')
        self.desk.stop_job('J1')
        self.board.said('Job J1 is stopped: L1 to B')
        self.browser.click('header a[href="figures.html"]')
        self.sees('.figures main', 'Jobs done by the hour', 'KIT/0001', 'Waits by cause')
        self.check_eyes()
        day = self.browser.run('return document.getElementById("day").value')
        self.browser.click('#earlier')
        until(lambda: day not in self.browser.run('return location.hash'), 'the day before')
        self.sees('.figures main', 'KIT/0001')
        until(lambda: 'is not over' not in self.browser.text('#told'), 'that day is over')
        paper = base64.b64decode(self.browser._ask('POST', self.browser.session + '/print', {}))
        self.assertEqual(paper[:5], b'%PDF-')
        self.assertGreater(len(paper), 10_000)

    def check_eyes(self) -> None:
        """Each text has contrast, and all that can be used a name and a size."""
        with open(CHECKS, encoding='utf-8') as file:
            found = self.browser.run(file.read())
        self.assertLessEqual(found.pop('wide'), 0)
        wrong = 'pale', 'nameless', 'small', 'twice', 'cut'
        self.assertEqual(found, {name: [] for name in wrong})


if __name__ == '__main__':
    unittest.main()
