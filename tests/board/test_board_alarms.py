"""Shows that each kind of alarm is raised by what makes it so, says what is so and what to do, is
kept with who has taken it on, and is over once it is no longer so."""

from __future__ import annotations

import json
import unittest
from typing import Any

from tests.support.board_alarms import LATE, Alarmed
from tests.support.board_follow import ACTS, ORDER, vehicle
from tests.support.board_run import ONE, Watching, until
from nulvrader.board.alarms import Alarms, free_of
from nulvrader.board.events import Cause
from nulvrader.board.messages import table
from nulvrader.board.news import OrderEnd
from nulvrader.board.page_state import Shown
from nulvrader.board.news import News
from nulvrader.board.vehicle_words import Error, FailedAction, Words
from nulvrader.board.waits import Wait
from nulvrader.board.shown_rows import ALARM, DESK, ShownDesk
from nulvrader.desk.client import Job


class OfVehicles(Alarmed):
    def test_not_ready(self) -> None:
        """In its own words, where they are known."""
        words = 'KIT/0001 is not ready, at N1; no reason was told here yet'
        self.raised(
            lambda: self.is_so(ready=False),
            'unready.unknown',
            words,
            lambda: self.is_so(ready=True),
        )
        self.turn(60_000)
        self.says(Words(stop='MANUAL', errors=(Error('scanner', 'FATAL', 'front scanner dirty'),)))
        words = 'KIT/0001 is not ready, at N1: emergency stop MANUAL, FATAL scanner: front scanner'
        self.raised(
            lambda: self.is_so(ready=False),
            'unready',
            f'{words} dirty',
            lambda: self.is_so(ready=True),
        )

    def test_astray(self) -> None:
        words = 'KIT/0001 left its order on the way, and may have gone on from N2: place it'
        self.raised(
            lambda: self.is_so(astray=True, node='N2'),
            'astray',
            words,
            lambda: self.is_so(node='N2'),
        )

    def test_silent(self) -> None:
        def is_silent() -> None:
            self.fleet.silent_after = 10_000
            for _ in range(12):
                self.look()

        words = 'KIT/0001 sends no state; it was at N1'
        self.raised(is_silent, 'silent', words, self.is_so)

    def test_no_state_ever(self) -> None:
        """A minute after the vehicle was first seen, also where the board was started meanwhile. It
        is over with the first state; who was heard once is silent, and no alarm of this kind."""
        for rows in ('vehicles', 'vehicle_states'):
            self.record._put(f'DELETE FROM {rows}')
        words = 'KIT/0001 has sent no state yet; it is registered at N1'

        def begin(later: int) -> None:
            self.row = vehicle(header=None)
            self.start_again()
            self.news.shown.put(DESK, '', ShownDesk(up=True, since=1, fault=None, other=False))
            self.alarms = Alarms(self.news, LATE)
            self.look()
            self.look(later)
            self.clock.at = self.news.at
            self.turn()

        def waits() -> None:
            begin(50_000)
            self.assertEqual(self.kinds(), {})
            begin(3_000)

        self.raised(waits, 'unheard', words, self.is_so)
        begin(70_000)
        self.assertEqual(list(self.kinds()), ['silent'])

    def test_a_load_aboard_without_a_job(self) -> None:
        """After a cancel the vehicle is ready, and takes no order: it is an alarm."""
        self.jobs = {'J1': Job('J1', 'L1', 'A', 'B', ONE, 'O1')}
        self.is_so(**ORDER)
        self.look(L1='vehicle KIT/0001')
        self.turn()
        self.turn()
        self.assertEqual(self.kinds(), {})

        def cancelled() -> None:
            self.jobs = {}
            self.is_so()

        words = 'KIT/0001 carries L1 in no job, at N1, and may take no order'
        self.raised(cancelled, 'aboard', words, lambda: self.look(L1='station B'))

    def test_a_failed_action(self) -> None:
        """Until its vehicle lists it no more; not of an order that was cancelled."""
        self.news.ends_order('O0', OrderEnd('cancelled', Cause('client')))
        self.says(Words(failed=(FailedAction('O0.0', 'pick', ''),)))
        self.turn()
        self.turn()
        self.assertEqual(self.kinds(), {})
        words = 'KIT/0001 says that its action O1.0 has failed, at N1: pick: no grip'
        self.raised(
            lambda: self.says(Words(failed=(FailedAction('O1.0', 'pick', 'no grip'),))),
            'action',
            words,
            lambda: self.says(Words(failed=())),
        )

    def test_a_failed_action_of_an_order(self) -> None:
        """What it was is said by the order's way; where the vehicle does not say why, that is said
        too."""
        self.jobs = {'J1': Job('J1', 'L1', 'A', 'B', ONE, 'O1')}
        self.is_so(**ORDER)
        words = 'KIT/0001 says that its action O1.1 has failed, at N1: drop L1: it does not say why'
        self.raised(
            lambda: self.says(Words(failed=(FailedAction('O1.1', '', ''),))),
            'action',
            words,
            lambda: self.says(Words(failed=())),
        )

    def test_an_error_of_a_failed_action(self) -> None:
        """Where the action itself has no result, the error that refers to it says why; one of
        another action does not."""
        other = Error('actionFailed', 'WARNING', 'too heavy', refers=('actionId O1.1',))
        own = Error('actionFailed', 'WARNING', 'no grip', refers=('nodeId N1', 'actionId O1.0'))
        why = 'WARNING actionFailed: no grip'
        self.raised(
            lambda: self.says(
                Words(failed=(FailedAction('O1.0', 'pick', ''),), errors=(other, own))
            ),
            'action',
            f'KIT/0001 says that its action O1.0 has failed, at N1: pick: {why}',
            lambda: self.says(Words(failed=(), errors=())),
        )

    def test_a_low_battery(self) -> None:
        words = 'The battery of KIT/0001 is low, 12 %, at N1, and does not charge'
        self.raised(
            lambda: self.says(Words(battery=12.0, charging=False)),
            'battery',
            words,
            lambda: self.says(Words(battery=12.0, charging=True)),
        )

    def test_who_waits_for_long(self) -> None:
        """For one that has no order a minute, for another one five; and at once in a circle."""
        wait = Wait('KIT/0002', ('node', 'N1'), 'KIT/0001', True)

        def waits() -> None:
            self.fleet.waits = {'KIT/0002': wait}
            self.fleet.waits_since = {'KIT/0002': self.news.at}
            self.turn(50_000)
            self.assertEqual(self.kinds(), {})
            self.turn(15_000)

        def goes_on() -> None:
            self.fleet.waits = {}

        words = 'KIT/0002 can not go on: KIT/0001 holds node N1 and has no order'
        self.raised(waits, 'shut', words, goes_on)
        for holder, todo in (
            ('KIT/0001', 'Send KIT/0001 to a free node (Drive to a node)'),
            ('KIT/0002', 'KIT/0001 can not pass it. Cancel the order of KIT/0002'),
        ):
            self.fleet.holders = {('node', 'N1'): 'KIT/0001', ('node', 'N2'): holder}
            waits()
            (alarm,) = self.news.shown.all(ALARM).values()
            self.assertIn(todo, alarm['todo'])
            goes_on()
            self.turn()
        self.is_so(**ORDER)
        self.fleet.waits, self.fleet.waits_since = {'KIT/0002': wait}, {'KIT/0002': self.news.at}
        self.turn(290_000)
        self.assertEqual(self.kinds(), {})
        self.turn(20_000)
        words = 'KIT/0002 has waited for long for KIT/0001, which holds node N1'
        self.assertEqual(self.kinds(), {'blocked': words})
        self.fleet.waits = {}

        def meet() -> None:
            self.fleet.circles = [['KIT/0001', 'KIT/0002']]

        def part() -> None:
            self.fleet.circles = []

        self.raised(meet, 'circle', 'They wait for one another: KIT/0001, KIT/0002', part)


class OfThePlant(Alarmed):
    def test_a_job_that_waits(self) -> None:
        self.jobs = {'J1': Job('J1', 'L1', 'A', 'B')}
        self.look()
        self.turn(LATE - 20_000)
        self.assertEqual(self.kinds(), {})

        def is_stopped() -> None:
            self.jobs = {}
            self.look(1000)

        words = 'Job J1 has waited for long: L1 to B'
        self.raised(lambda: self.turn(30_000), 'late', words, is_stopped)

    def test_a_full_station(self) -> None:
        words = 'No place is free at C'
        self.raised(
            lambda: self.look(L2='station C'), 'full', words, lambda: self.look(L2='station A')
        )

    def test_the_desk(self) -> None:
        """While it is away the alarms of vehicles stay as they are."""
        fault = 'no program listens there'
        down = ShownDesk(up=False, since=5, fault=fault, other=False)
        self.is_so(astray=True)
        self.turn()
        self.news.shown.put(DESK, '', down)
        self.row = vehicle(header=9)
        self.turn()
        words = 'The desk has not answered: what is seen here is old. no program listens there'
        self.assertEqual(self.kinds()['desk'], words)
        self.assertEqual(self.kinds().keys(), {'desk', 'astray'})
        other = ShownDesk(up=False, since=5, fault='It is another one.', other=True)
        self.news.shown.put(DESK, '', other)
        self.turn()
        self.assertEqual(self.kinds().keys(), {'other', 'astray'})

    def test_the_disk_and_the_clock(self) -> None:
        def fill() -> None:
            self.free = '12 MB'

        def empty() -> None:
            self.free = None

        words = 'The disk of board.db is nearly full: 12 MB are free'
        self.raised(fill, 'disk', words, empty)

        def jump() -> None:
            self.clock.jumped += 3600

        words = 'The clock of this machine was set by 3600 s'
        self.raised(jump, 'clock', words, lambda: self.turn(600_000))
        self.assertTrue(free_of('/no/such/folder/board.db') is None)


class Kept(Alarmed):
    def test_a_board_that_is_started_again(self) -> None:
        """It has the alarm with its moment and who has taken it on, and raises it once."""
        self.is_so(astray=True)
        self.turn()
        (before,) = self.news.shown.all(ALARM).values()
        self.record._put(
            "UPDATE alarms SET taken_by = 'anna', taken_at = '2026-11-28T06:15:00.123Z'"
        )
        self.news.commit()
        self.news = News(Shown(), self.record)
        self.news.shown.put(DESK, '', ShownDesk(up=True, since=1, fault=None, other=False))
        self.alarms = Alarms(self.news, LATE)
        self.turn()
        (after,) = self.news.shown.all(ALARM).values()
        self.assertEqual((after['n'], after['since']), (before['n'], before['since']))
        assert after['taken'] is not None
        self.assertEqual(after['taken']['who'], 'anna')
        self.assertEqual(self.record.rows('SELECT count(*) FROM alarms'), [(1,)])

    def test_each_kind_has_its_texts(self) -> None:
        """What is so, and what to do."""
        kinds = {name[6:] for name in table() if name.startswith('alarm.')}
        for kind in kinds:
            other = kind.removesuffix('.do') if kind.endswith('.do') else f'{kind}.do'
            self.assertIn(other, kinds)
        self.assertEqual(ACTS[0].load, 'L1')


class Taken(Watching):
    """Who has taken an alarm on, by the real program."""

    words = ('--user-header', 'X-User', '--silent', '600')

    def take(self, who: str | None = 'nina', **said: Any) -> tuple[int, dict[str, Any]]:
        headers = self.board.headers()
        headers = {**headers, 'X-User': who} if who is not None else headers
        status, _, told = self.board.ask('POST', '/take', json.dumps(said).encode(), headers)
        return status, json.loads(told)

    def setUp(self) -> None:
        super().setUp()
        self.plant.state(ONE, 'N1', operatingMode='MANUAL')
        alarm = self.wait('alarm', 'unready KIT/0001', kind='unready.unknown')
        self.number = alarm['n']

    def test_it_is_kept_who_has_taken_it_on(self) -> None:
        self.assertEqual(self.take('anna', alarm=self.number), (200, {'done': True}))
        until(
            lambda: (self.board.get('alarm', 'unready KIT/0001')['taken'] or {}).get('who')
            == 'anna',
            'who has taken it on',
        )
        about = 'KIT/0001 is not ready, at N1; no reason was told here yet'
        self.said(f'anna has taken on: {about}')
        self.board.stop(9)
        self.board = self.plant.board(*self.words)
        alarm = self.wait('alarm', 'unready KIT/0001', n=self.number)
        self.assertEqual(str(alarm['taken'])[:16], "{'who': 'anna', "[:16])
        self.assertEqual(self.take('bob', alarm=self.number, take=False)[0], 200)
        self.said(f'Nobody has it on any more: {about}')
        self.plant.state(ONE, 'N1')
        until(lambda: not self.board.get('alarm', 'unready KIT/0001'), 'it is over')
        told = self.take('bob', alarm=self.number)[1]
        self.assertEqual(told['fault'], 'This alarm is over.')

    def test_who_may(self) -> None:
        """As with a command: the origin, the token, and a user whom the proxy names."""
        body = json.dumps({'alarm': self.number}).encode()
        good = self.board.headers()
        cases: tuple[dict[str, str], ...] = (
            {},
            {**good, 'Origin': 'https://evil.example'},
            {**good, 'X-Board-Token': 'x'},
            {**good, 'X-User': ''},
            {**good, 'Host': 'evil.example'},
        )
        for headers in cases:
            status, _, _ = self.board.ask('POST', '/take', body, headers)
            self.assertIn(status, (403, 421), headers)
        self.assertEqual(self.board.rows('SELECT taken_by FROM alarms'), [(None,)])

    def test_what_is_no_alarm(self) -> None:
        cases: tuple[dict[str, Any], ...] = ({}, {'alarm': 'x'}, {'alarm': -1}, {'alarm': 2**70})
        for said in (*cases, {'alarm': None}):
            self.assertEqual(self.take(**said)[1]['fault'], 'There is no such alarm.', said)
        for number in (True, 1.5, [], 999_999):
            self.assertIn('fault', self.take(alarm=number)[1])
        nasty = '\x1b[2J<b>' + 'x' * 300
        self.assertEqual(self.take(nasty.replace('\x1b', ''), alarm=self.number)[0], 200)
        ((who,),) = self.board.rows('SELECT taken_by FROM alarms')
        self.assertTrue(who.isprintable() and len(who) <= 80, who)


class WithoutAProxy(Watching):
    def test_a_name_is_asked_for(self) -> None:
        self.plant.state(ONE, 'N1', operatingMode='MANUAL')
        number = self.wait('alarm', 'unready KIT/0001', kind='unready.unknown')['n']

        def take(**said: Any) -> dict[str, Any]:
            body = json.dumps({'alarm': number, **said}).encode()
            told: dict[str, Any] = json.loads(
                self.board.ask('POST', '/take', body, self.board.headers())[2]
            )
            return told

        self.assertEqual(take()['fault'], 'Say your name first.')
        self.assertEqual(take(name='  ')['fault'], 'Say your name first.')
        self.assertEqual(take(name='anna\x1b[31m'), {'done': True})
        self.rows('SELECT taken_by FROM alarms', [('anna\\x1b[31m',)])


if __name__ == '__main__':
    unittest.main()
