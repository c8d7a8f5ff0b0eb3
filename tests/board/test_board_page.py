"""Shows, in a real browser over the real program, what the page has of a desk at work, of what
vehicles say and of one that falls silent."""
from __future__ import annotations

import json
import os
import re
import signal
import socket
import tempfile
import unittest

from tests.support.board_run import ONE, TWO, until
from tests.support.board_page import Page

PICKED = ('O1.0', 'FINISHED')


class AtWork(Page):
    def test_a_pick_and_a_drop(self) -> None:
        self.on_the_map('station', 'Station A at N1', '2 of 3 taken')
        self.on_the_map('vehicle', 'KIT/0001', 'at N1', 'Ready')
        self.desk.add_job('J1', 'L1', 'B')
        self.on_the_map('station', 'Station B', '0 of 2 taken, 1 reserved')
        self.desk.start_order('O1', ONE, job='J1', edges=1)
        self.sees(
            '.vehicle-card', 'Order O1', '0 of 2 edges, released to 1', 'L1: A → B', 'Not confirmed'
        )
        for name in ('Node N1', 'Node N2'):
            self.on_the_map('node', name, 'held by KIT/0001')
        self.on_the_map('hold', 'Edge E12', 'held by KIT/0001')
        until(
            lambda: self.classes('#plan .hold') >= {'hold', 'c0'},
            'the edge has the colour of its vehicle',
        )
        until(
            lambda: self.browser.run('return document.querySelectorAll("#plan .way").length'),
            'the way is drawn',
        )
        self.plant.state(ONE, 'N2', 'O1', 0, 2, (PICKED,))
        self.on_the_map('vehicle', 'KIT/0001', 'at N2', 'Waits for a release')
        self.sees('.vehicle-card', '1 of 2 edges, released to 1', 'L1: A → B, on it')
        self.sees('#plan .cargo text', '1')
        self.browser.click('#tab-jobs')
        self.sees('#jobs', 'J1', 'L1', 'From A to B, on KIT/0001 by order O1', 'Rides')
        self.desk.advance(ONE, 'O1', 1, 1)
        self.plant.state(ONE, 'N2', 'O1', 1, 2, (PICKED,))
        self.on_the_map('vehicle', 'KIT/0001', 'at N2', 'On its way')
        self.plant.state(ONE, 'N3', 'O1', 1, 4, (PICKED,))
        self.on_the_map('vehicle', 'KIT/0001', 'at N3', 'Drops')
        self.plant.state(ONE, 'N3', 'O1', 1, 4, (PICKED, ('O1.1', 'FINISHED')))
        self.on_the_map('station', 'Station B', '1 of 2 taken')
        self.on_the_map('vehicle', 'KIT/0001', 'at N3', 'Ready')
        self.sees('#jobs', 'No job waits or rides.')
        self.browser.click('#tab-events')
        self.sees(
            '#events',
            'KIT/0001 picked L1 up at A',
            'KIT/0001 dropped L1 at B',
            'Job J1 is done: L1 to B',
        )
        self.browser.keys('/')
        self.browser.keys('l', '1')
        self.sees('#stock', 'L1', 'at B')
        self.misses('#stock .rows', 'L2')
        self.browser.click('#stock .rows:last-of-type .rowhead')
        self.sees('.detail', 'At B, since', 'at A → on KIT/0001', 'on KIT/0001 → at B')
        until(lambda: 'picked' in self.classes('#plan .station.picked'), 'the station is marked')

    def test_an_order_without_its_way_yet(self) -> None:
        """Until the way has come, what the order carries is told by its jobs."""
        script = (
            'return import(`${location.origin}/vehicles.js`).then(({ carriedWords }) =>'
            ' carriedWords(undefined, ["L2"], arguments[0]))'
        )
        jobs = [
            {'load': 'L1', 'origin': 'A', 'target': 'B'},
            {'load': 'L2', 'origin': 'A', 'target': 'C'},
        ]
        self.assertEqual(self.browser.run(script, jobs), 'L1: A → B · L2: A → C, on it')

    def test_a_cancel_with_its_rest(self) -> None:
        self.desk.add_job('J1', 'L1', 'B')
        self.desk.start_order('O1', ONE, job='J1', edges=1)
        self.sees('.vehicle-card', 'Order O1')
        self.desk.cancel(ONE)
        self.sees('.vehicle-card', 'Told to cancel its order')
        self.plant.state(
            ONE,
            'N1',
            'O1',
            0,
            0,
            (('O1.0', 'FAILED'), ('O1.1', 'FAILED'), ('instant-1', 'FINISHED')),
        )
        self.sees('.vehicle-card', 'Has to be placed', 'Still holds edge E12 and node N2')
        self.sees('#alarms', 'KIT/0001 left its order on the way', 'Look where it stands')
        until(lambda: '▲ 1' in self.browser.run('return document.title'), 'the title says so')
        self.assertEqual(self.browser.value('link[rel=icon]', 'href'), 'alarm.svg')
        self.on_the_map('hold', 'Edge E12', 'held by KIT/0001')
        self.desk.place(ONE, 'R1', 'N1')
        self.misses('.vehicle-card', 'Has to be placed')
        self.misses('#alarms', 'KIT/0001 left')
        self.assertEqual(self.browser.run('return document.title'), 'Nulvrader board')
        self.assertEqual(self.browser.value('link[rel=icon]', 'href'), 'icon.svg')

    def test_who_waits_for_whom(self) -> None:
        self.plant.vehicle(TWO, 'N2')
        self.desk.add_job('J1', 'L1', 'B')
        self.desk.start_order('O1', ONE, job='J1', edges=0)
        self.plant.state(ONE, 'N1', 'O1', 0, 0, (PICKED,))
        self.sees('.waits', 'KIT/0001 waits for KIT/0002, which holds node N2')
        self.sees('.vehicle-card', 'Waits for KIT/0002', 'In the way of KIT/0001')

    def test_a_desk_that_is_stopped_and_comes_back(self) -> None:
        self.plant.served.stop(signal.SIGKILL)
        self.sees('#desk', 'The desk has not answered for')
        self.sees('#alarms', 'The desk has not answered: what is seen here is old')
        self.plant.replay(('POST', '/loads/L2/correct', {'ref': 'R1', 'station': 'C'}))
        self.plant.start_desk()
        self.sees('#desk', 'The desk answers')
        self.on_the_map('station', 'Station C', '1 of 1 taken')
        self.misses('#alarms', 'The desk has not')

    def test_another_desk(self) -> None:
        """The same program on a new file: it is an alarm, and no command is sent to it."""
        self.browser.click('.vehicle-card .head')
        self.plant.served.stop()
        for end in ('', '-wal'):
            os.rename(self.plant.path('warehouse.db' + end), self.plant.path('aside.db' + end))
        self.plant.start_desk()
        self.sees('#desk', 'Another desk answers')
        self.sees('#alarms', 'Another desk answers: nothing is recorded', 'move board.db away')
        self.browser.press('Pause', '.vehicle-card')
        self.sees('#command', 'The desk does not answer: nothing can be done now')
        self.browser.press('Do it', '#command')
        self.sees(
            '#command .answer', 'Nothing was sent: it is not the desk of board.db that answers.'
        )
        self.browser.open('about:blank')  # the page asks no more
        lines = [line for line in self.browser.console() if line.startswith('SEVERE')]
        self.assertEqual([line for line in lines if '503' not in line], [])

    def test_a_desk_that_hangs(self) -> None:
        """It is connected to, and does not answer: the page says for how long it waits, until the
        answer has come."""
        self.plant.served.process.send_signal(signal.SIGSTOP)
        self.sees('#desk', 'Waiting for the desk for')
        until(lambda: 'stale' in (self.browser.value('body', 'class') or ''), 'what is seen is old')
        self.plant.served.process.send_signal(signal.SIGCONT)
        self.sees('#desk', 'The desk answers')

    def test_a_board_that_stops_before_a_look(self) -> None:
        """A look sends the desk nothing, and the page says so."""
        self.browser.click('.vehicle-card .head')
        self.browser.press('Pause', '.vehicle-card')
        self.sees('#command', 'KIT/0001 is told to pause.')
        self.browser.press('Back', '#command')
        self.sees('#command', 'What will it do?')
        self.board.stop()
        self.sees('#alarms', 'The board has not answered for')
        self.browser.press('What will it do?', '#command')
        self.sees('#command .answer', 'The board does not answer: nothing was done.')
        self.only_unanswered()

    def test_a_board_that_is_stopped(self) -> None:
        """The page says so, and to commands too; the questions that nobody answers are the only
        errors of the console. Once the board was started again the page goes on, and gives
        commands."""
        self.browser.click('.vehicle-card .head')
        self.browser.press('Pause', '.vehicle-card')
        self.sees('#command', 'KIT/0001 is told to pause.')
        self.board.stop()
        self.sees('#alarms', 'The board has not answered for')
        self.browser.press('Do it', '#command')
        self.sees('#command .answer', 'Check whether the command was carried out')
        self.browser.press('Close', '#command')
        self.browser.press('Pause', '.vehicle-card')
        self.sees('#command', 'The board does not answer: nothing was done.')
        self.browser.press('Close', '#command')
        self.plant.board(*self.words, port=self.board.port)
        self.misses('#alarms', 'The board has not')
        self.browser.press('Pause', '.vehicle-card')
        self.sees('#command', 'KIT/0001 is told to pause.')
        self.browser.press('Do it', '#command')
        self.sees('#command .answer', 'KIT/0001 is told to pause (instant-1).')
        self.only_unanswered()

    def only_unanswered(self) -> None:
        """The questions that nobody answers are the only errors of the console."""
        self.browser.open('about:blank')  # the page asks no more
        lines = [line for line in self.browser.console() if line.startswith('SEVERE')]
        self.assertGreater(len(lines), 0)
        self.assertEqual(
            [
                line
                for line in lines
                if not re.search(r'net::ERR_(CONNECTION|EMPTY_RESPONSE)', line)
            ],
            [],
        )


class Says(Page):
    """A board that is told what vehicles say."""

    words = (*Page.words, '--words', 'WORDS')

    def setUp(self) -> None:
        self.folder = tempfile.TemporaryDirectory()
        self.addCleanup(self.folder.cleanup)
        self.path = os.path.join(self.folder.name, 'words.sock')
        self.words = (*Page.words, '--words', self.path)
        super().setUp()
        self.out = socket.socket(socket.AF_UNIX, socket.SOCK_DGRAM)
        self.addCleanup(self.out.close)

    def say(self, **members: object) -> None:
        told: dict[str, object] = {'manufacturer': 'KIT', 'serialNumber': '0001', **members}
        self.out.sendto(json.dumps(told).encode(), self.path)

    def test_why_it_is_not_ready(self) -> None:
        """In the vehicle's own words, which are text, whatever they are; and since when."""
        error = {
            'errorType': 'scannerDirty',
            'errorLevel': 'FATAL',
            'errorDescription': '<img src=x onerror=alert(1)> front scanner dirty',
        }
        safety = {'eStop': 'MANUAL', 'fieldViolation': True}
        self.say(
            operatingMode='MANUAL',
            safetyState=safety,
            errors=[error],
            batteryState={'batteryCharge': 12, 'charging': False},
        )
        self.plant.state(ONE, 'N1', operatingMode='MANUAL')
        for words in (
            'Emergency stop MANUAL (to be acknowledged at the vehicle)',
            'FATAL scannerDirty: <img src=x onerror=alert(1)> front scanner dirty',
            'Operating mode MANUAL',
            'Something is in its protective field',
            'Its battery is low: 12 %',
        ):
            self.sees('.vehicle-card .saying', words, 'since')
        words = 'KIT/0001 is not ready, at N1: emergency stop MANUAL'
        self.sees('#alarms', words, 'acknowledge it')
        self.browser.click('#tab-events')
        self.sees('#events', 'KIT/0001 says: operating mode MANUAL, it was AUTOMATIC')
        self.assertEqual(self.browser.run('return document.querySelectorAll("img").length'), 1)

    def test_who_has_taken_an_alarm_on(self) -> None:
        """The name is asked for once, by keyboard too, and is kept by the board."""
        self.plant.state(ONE, 'N1', operatingMode='MANUAL')
        self.browser.press('I take it on', '#alarms')
        self.sees('#alarms', 'Say your name first.')
        self.has_focus('id', 'my-name')
        self.browser.keys('a', 'n', 'n', 'a')
        self.browser.press('I take it on', '#alarms')
        self.sees('#alarms', 'seen by anna')
        self.misses('#alarms', 'Say your name')
        self.browser.open(f'http://127.0.0.1:{self.board.port}/')
        self.sees('#alarms', 'seen by anna')
        self.browser.press('Not any more', '#alarms')
        self.misses('#alarms', 'seen by anna')

    def test_a_load_aboard_after_a_cancel(self) -> None:
        """It is no green Ready, but an alarm."""
        self.desk.add_job('J1', 'L1', 'B')
        self.desk.start_order('O1', ONE, job='J1', edges=0)
        self.sees('.vehicle-card', 'Order O1')
        self.plant.state(ONE, 'N1', 'O1', 0, 0, (PICKED,))
        self.sees('.vehicle-card', 'L1: A → B, on it')
        action = self.desk.cancel(ONE)
        self.plant.state(ONE, 'N1', 'O1', 0, 0, (PICKED, ('O1.1', 'FAILED'), (action, 'FINISHED')))
        self.sees('.vehicle-card .badges', 'Carries L1 in no job')
        self.sees('#alarms', 'KIT/0001 carries L1 in no job, at N1', 'Take it off')
        self.misses('.vehicle-card .badges', 'Ready')
        self.on_the_map('vehicle', 'KIT/0001', 'Carries L1 in no job')
        self.desk.correct_load('L1', 'R1', 'A')
        self.sees('.vehicle-card .badges', 'Ready')
        self.misses('#alarms', 'carries L1')


class FallsSilent(Page):
    words = ('--silent', '8')

    def test_a_vehicle_that_falls_silent(self) -> None:
        self.sees('.vehicle-card', 'No state for')
        self.sees('#alarms', 'KIT/0001 sends no state')

        def is_heard(mode: str = 'AUTOMATIC') -> bool:
            self.plant.state(ONE, 'N1', operatingMode=mode)
            return 'No state for' not in self.browser.text('.vehicle-card')

        until(is_heard, 'its states are seen again')
        why = 'an emergency stop, or an error of the level FATAL: the desk does not keep which, and'

        def is_not_ready() -> bool:
            is_heard('MANUAL')
            told = self.browser.text('.vehicle-card')
            return 'Not ready' in told and why in told

        until(is_not_ready, 'it is not ready, and why')


if __name__ == '__main__':
    unittest.main()
