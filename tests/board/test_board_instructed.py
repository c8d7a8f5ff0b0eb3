"""Shows that what the dispatcher is told by the board, on its page and by HTTP, is shown, changed,
recorded, and refused to who may not, and that the page has what the dispatcher says."""
from __future__ import annotations

import json
import os
import time
import unittest
from typing import Any

from nulvrader.common.instructions import Instructions, Urgency
from nulvrader.common.instructions_file import read_file
from nulvrader.common.reasons import Reasons, write_file
from tests.support import board_document
from tests.support.board_run import Watching, until

DUE = 1_798_122_600  # 2026-12-24T14:30:00Z


class Instructed(Watching):
    words = ('--user-header', 'X-User')

    def setUp(self) -> None:
        super().setUp()
        self.path = self.plant.path('instructions.csv')
        self.waits = self.plant.path('waits.json')
        self.board.stop()
        more = ('--instructions', self.path, '--waits', self.waits)
        self.board = self.plant.board(*self.words, *more)
        self.plant.desk.add_job('J1', 'L1', 'B')
        self.wait('job', 'J1', phase='waiting')

    def told(self, told: dict[str, Any], words: str) -> None:
        self.assertEqual((told.get('done'), told.get('text')), (True, words), told)

    def test_how_urgent_a_job_is(self) -> None:
        """It is in the file, on the page and in the record; what is left out is none."""
        values = {'job': 'J1', 'due': '2026-12-24T14:30Z', 'priority': '2'}
        values |= {'truck': 'T7', 'place': '3'}
        done = 'The dispatcher is told about job J1.'
        self.told(self.board.do('urgency', **values), done)
        self.assertEqual(read_file(self.path).jobs, {'J1': Urgency(DUE, 2, 'T7', 3)})
        self.wait('urgency', 'J1', due=DUE, priority=2, truck='T7', place=3)
        said = 'due 2026-12-24T14:30Z, priority 2, truck T7, place 3'
        told = f'Say how urgent job J1 is, {said}: {done}'
        until(lambda: self.board.said(told), 'it is recorded')
        self.told(self.board.do('urgency', job='J1', priority='1'), done)
        self.wait('urgency', 'J1', due=None, priority=1, truck=None)
        told = f'Say how urgent job J1 is, due –, priority 1, truck –, place –: {done}'
        until(lambda: self.board.said(told), 'what is left out is none')
        self.told(self.board.do('urgency', job='J1'), done)
        until(lambda: not self.board.get('urgency', 'J1'), 'nothing is said of it')

    def test_what_is_closed(self) -> None:
        self.told(self.board.do('close', thing='node N4'), 'Closed: node N4.')
        self.told(self.board.do('close', thing='edge E12'), 'Closed: edge E12.')
        both = Instructions({}, frozenset(['N4']), frozenset(['E12']))
        self.assertEqual(read_file(self.path), both)
        until(lambda: set(self.board.all('closed')) == {'node N4', 'edge E12'}, 'it is shown')
        self.told(self.board.do('open', thing='edge E12'), 'Open: edge E12.')
        self.assertEqual(read_file(self.path), Instructions({}, frozenset(['N4'])))

    def test_what_is_wrong(self) -> None:
        """Nothing is changed."""
        job = {'job': 'J1'}
        rows: tuple[tuple[str, dict[str, str], str], ...] = (
            ('urgency', {'job': 'J9', 'priority': '1'}, 'The desk has no live job J9.'),
            ('urgency', {**job, 'due': 'soon'}, "'soon' is no time such as 14:30"),
            ('urgency', {**job, 'due': '9999999-01-01'}, 'is no time'),
            ('urgency', {**job, 'priority': '10'}, 'is no number from 0 to 9'),
            ('urgency', {**job, 'priority': 'NaN'}, 'is no number from 0 to 9'),
            ('urgency', {**job, 'priority': '1e0'}, 'is no number from 0 to 9'),
            ('urgency', {**job, 'truck': 'T7'}, 'A truck and a place belong together'),
            ('urgency', {**job, 'place': '7'}, 'A truck and a place belong together'),
            ('urgency', {**job, 'truck': 'T 7', 'place': '1'}, 'is no name'),
            ('urgency', {**job, 'truck': 'T7,1\njob,J2,,9', 'place': '1'}, 'is no name'),
            ('urgency', {**job, 'truck': 'T7', 'place': '1000'}, 'is no number from 0 to 999'),
            ('close', {'thing': 'node X'}, 'There is no node X'),
            ('close', {'thing': 'N4'}, 'There is no N4'),
            ('close', {'thing': 'node N4\nnode N1'}, 'There is no node N4'),
        )
        for command, values, told in rows:
            with self.subTest(values):
                found = self.board.do(command, **values)
                self.assertIn(told, str(found.get('fault') or found.get('text')))
                self.assertFalse(found.get('done'))
        self.assertFalse(os.path.exists(self.path))

    def test_a_file_that_is_wrong(self) -> None:
        """It is not overwritten, and what was wrong is told."""
        with open(self.path, 'w') as file:
            file.write('something else\n')
        found = self.board.do('close', thing='node N4')
        self.assertFalse(found['done'])
        self.assertIn('The dispatcher can not be told: ', found['text'])
        with open(self.path) as file:
            self.assertEqual(file.read(), 'something else\n')
        os.unlink(self.path)
        os.mkfifo(self.path)
        self.assertFalse(self.board.do('close', thing='node N4')['done'])

    def test_by_http(self) -> None:
        """As docs/DISPATCHER.md says: a token, and a command; each answer is as the document of the
        board has it."""
        status, _, data = self.board.ask('GET', '/api/token', None, self.board.who)
        self.assertEqual(status, 200)
        token = json.loads(data)
        self.assertEqual(token, {'token': self.board.token()})
        body = {'command': 'urgency', 'values': {'job': 'J1', 'priority': '3'}}
        headers = self.board.headers()
        wrong: tuple[dict[str, str], ...] = (
            {},
            {**headers, 'X-Board-Token': 'x' * 32},
            {**headers, 'Origin': 'http://evil.example'},
        )
        for lacking in wrong:
            status = self.board.ask('POST', '/do', json.dumps(body).encode(), lacking)[0]
            self.assertEqual(status, 403, lacking)
        status, _, data = self.board.ask('POST', '/do', json.dumps(body).encode(), headers)
        self.assertEqual((status, json.loads(data)['done']), (200, True))
        self.assertEqual(read_file(self.path).jobs, {'J1': Urgency(None, 3)})
        if board_document.CAN_CHECK:
            self.assertEqual(board_document.faults('/api/token', 200, token), [])

    def test_who_may_not(self) -> None:
        """A user whom the proxy does not name as a dispatcher gets no token; nor does a page of
        another site."""
        self.assertEqual(self.board.ask('GET', '/api/token')[0], 403)
        foreign = {**self.board.who, 'Sec-Fetch-Site': 'cross-site', 'Sec-Fetch-Mode': 'cors'}
        self.assertEqual(self.board.ask('GET', '/api/token', None, foreign)[0], 403)

    def test_what_the_dispatcher_says(self) -> None:
        """It is shown of jobs and vehicles; what is no file of it, or hostile, changes nothing."""
        at = 4_000_000_000
        write_file(self.waits, Reasons(at, {'job J1': 'no vehicle is free'}))
        with open(self.waits) as file:
            text = file.read()
        self.assertFalse(self.board.all('why'))  # it is of another time
        write_file(self.waits, Reasons(time.time(), {'job J1': 'no vehicle is free'}))
        until(lambda: self.board.all('why') == {'job J1': 'no vehicle is free'}, 'it is shown')
        for data in ('[' * 100_000, '{"at":1e400,"waits":{}}', text, ''):
            with open(self.waits, 'w') as file:
                file.write(data)
            until(lambda: not self.board.all('why'), 'nothing is said')
        self.assertTrue(self.board.get('desk')['up'])


class Without(Watching):
    def test_there_is_no_file(self) -> None:
        """There are no such commands, and the page does not offer them."""
        listed = json.loads(self.board.ask('GET', '/commands')[2])
        names = {one['command'] for one in listed}
        self.assertIn('pause', names)
        self.assertFalse(names & {'urgency', 'close', 'open'})
        found = self.board.do('close', thing='node N4')
        self.assertEqual(found['fault'], 'There is no such command.')


if __name__ == '__main__':
    unittest.main()
