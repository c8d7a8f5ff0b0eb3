"""Shows that the board tells other programs what became of a job, a load and a vehicle, and the
events behind a number."""
from __future__ import annotations

import json
import os
import socket
import sqlite3
import tempfile
import unittest
from typing import Any
from unittest import mock

from tests.support import board_document
from tests.support.board_run import ONE, Watching, until
from tests.support.event_client import Stream

from nulvrader.board.api import queries
from nulvrader.board.api.events import EventQuery, OtherRecord, last_number, read_events
from nulvrader.board.api.feed import Feed
from nulvrader.board.api.reading import Reading
from nulvrader.board.api.routes import name_record
from nulvrader.board.events import Cause, Event
from nulvrader.board.record import Record

PICKED, DROPPED = ('O1.0', 'FINISHED'), ('O1.1', 'FINISHED')


class Asks(Watching):
    """Asks the board as a program does."""

    words = ('--user-header', 'X-User', '--silent', '3000')

    def ask(self, target: str, status: int = 200) -> Any:
        """What is answered, as JSON."""
        told = self.board.ask('GET', target)
        self.assertEqual(told[0], status, told)
        self.assertEqual(told[1]['Content-Type'], 'application/json')
        found = json.loads(told[2])
        self.assertEqual(board_document.faults(target, status, found), [])
        return found

    def ended(self, job: str) -> Any:
        """The job, once it has ended."""
        until(lambda: 'ended' in self.ask(f'/api/jobs/{job}'), f'{job} has ended')
        return self.ask(f'/api/jobs/{job}')

    def given(self) -> None:
        """L1 is to be carried to B, and KIT/0001 has the order for it."""
        self.desk.add_job('J1', 'L1', 'B')
        self.wait('job', 'J1', phase='waiting')
        self.desk.start_order('O1', ONE, job='J1', edges=2)
        self.wait('job', 'J1', phase='riding')


class Histories(Asks):
    def test_a_job_that_is_done(self) -> None:
        """Each step has its time, and what was done with which vehicle and order."""
        self.given()
        self.plant.state(ONE, 'N2', 'O1', 0, 2, (PICKED,))
        self.wait('load', 'L1', place='vehicle KIT/0001')
        self.plant.state(ONE, 'N3', 'O1', 0, 4, (PICKED, DROPPED))
        job = self.ended('J1')
        about = ('job', 'load', 'from', 'to', 'phase', 'order', 'vehicle')
        self.assertEqual(
            [job[name] for name in about], ['J1', 'L1', 'A', 'B', 'done', 'O1', 'KIT/0001']
        )
        steps = [job[name] for name in ('registered', 'given', 'picked', 'dropped')]
        times = [step['at'] for step in steps]
        self.assertEqual(times, sorted(times))
        self.assertEqual(steps[0]['cause'], 'client')
        for step in steps[1:]:
            self.assertEqual((step['vehicle'], step['order']), ('KIT/0001', 'O1'))
        self.assertEqual(job['ended']['outcome'], 'done')
        self.assertEqual(job['ended']['vehicle'], 'KIT/0001')
        load = self.ask('/api/loads/L1')
        self.assertEqual((load['load'], load['place']), ('L1', 'station B'))
        ways = [(move['from'], move['to']) for move in load['moves']]
        on_vehicle = 'vehicle KIT/0001'
        self.assertEqual(ways, [('station A', on_vehicle), (on_vehicle, 'station B')])

    def test_who_has_stopped_a_job(self) -> None:
        """A person by the page, who is named, and another client of the desk."""
        for job, load in (('J1', 'L1'), ('J2', 'L2')):
            self.desk.add_job(job, load, 'B')
            self.wait('job', job, phase='waiting')
            self.assertEqual(self.ask(f'/api/loads/{load}')['job'], job)
        self.board.do('stop', job='J1')
        self.desk.stop_job('J2')
        ends = [self.ended(job)['ended'] for job in ('J1', 'J2')]
        self.assertEqual([end['outcome'] for end in ends], ['stopped', 'stopped'])
        self.assertEqual((ends[0]['cause'], ends[0]['who']), ('person', 'nina'))
        self.assertEqual((ends[1]['cause'], ends[1].get('who')), ('client', None))
        self.assertNotIn('given', self.ask('/api/jobs/J1'))
        self.assertNotIn('job', self.ask('/api/loads/L1'))

    def test_a_job_whose_order_is_cancelled(self) -> None:
        self.given()
        action = self.desk.cancel(ONE)
        self.wait('vehicle', 'KIT/0001', pending='cancelOrder')
        ends = (('O1.0', 'FAILED'), ('O1.1', 'FAILED'), (action, 'FINISHED'))
        self.plant.state(ONE, 'N1', 'O1', 0, 0, ends)
        end = self.ended('J1')['ended']
        self.assertEqual((end['outcome'], end['order']), ('cancelled', 'O1'))

    def test_a_vehicle(self) -> None:
        self.given()
        until(lambda: len(self.vehicle()['holds']) == 5, 'it holds its way')
        told = self.vehicle()
        wanted = {'vehicle': 'KIT/0001', 'node': 'N1', 'order': 'O1', 'edges': 2, 'base': 2}
        wanted |= {'ready': True, 'paused': False, 'astray': False, 'capacity': 1, 'loads': []}
        self.assertEqual({name: told[name] for name in wanted}, wanted)
        held = {(hold['kind'], hold['name']) for hold in told['holds']}
        edges, nodes = {('edge', 'E12'), ('edge', 'E23')}, {('node', f'N{n}') for n in (1, 2, 3)}
        self.assertEqual(held, edges | nodes)
        self.plant.state(ONE, 'N2', 'O1', 0, 2, (PICKED,))
        self.wait('load', 'L1', place='vehicle KIT/0001')
        until(lambda: self.vehicle()['loads'] == ['L1'], 'it has the load')

    def vehicle(self) -> Any:
        """KIT/0001, as the board tells it."""
        return self.ask('/api/vehicles/KIT/0001')

    def test_alarms_and_what_a_vehicle_says(self) -> None:
        """A vehicle whose emergency stop is pressed: it says so, and so does its alarm, until
        somebody has taken it on, and then by whom."""
        said = {'eStop': 'MANUAL', 'fieldViolation': True}
        battery = {'batteryCharge': 12.5, 'charging': False}
        error = {'errorType': 'scanner', 'errorLevel': 'FATAL', 'errorDescription': 'It is dirty'}
        about = {'manufacturer': 'KIT', 'serialNumber': '0001'}
        words = {**about, 'safetyState': said, 'batteryState': battery, 'errors': [error]}
        path = self.plant.path('words.sock')
        self.board.stop()
        self.board = self.plant.board(*self.words, '--words', path)
        self.board.has_looked(2)
        self.assertEqual(self.ask('/api/alarms'), {'alarms': []})
        self.plant.state(ONE, 'N1', safetyState=said)
        with socket.socket(socket.AF_UNIX, socket.SOCK_DGRAM) as plain:
            plain.sendto(json.dumps(words).encode(), path)
        until(lambda: 'stop' in self.vehicle()['says'], 'it says so')
        says = self.vehicle()['says']
        self.assertEqual((says['stop'], says['field'], says['battery']), ('MANUAL', True, 12.5))
        self.assertEqual([one['type'] for one in says['errors']], ['scanner'])

        def alarm() -> Any:
            found = self.ask('/api/alarms')['alarms']
            return next((one for one in found if one['kind'] == 'unready'), None)

        until(lambda: alarm() is not None, 'the alarm')
        self.assertEqual((alarm()['vehicle'], alarm()['level']), ('KIT/0001', 'bad'))
        self.assertNotIn('taken_by', alarm())
        body = json.dumps({'alarm': alarm()['id'], 'take': True}).encode()
        self.board.ask('POST', '/take', body, self.board.headers())
        until(lambda: 'taken_by' in alarm(), 'it is taken on')
        self.assertEqual(alarm()['taken_by'], 'nina')
        told = self.board.ask('GET', '/metrics')[2].decode()
        self.assertIn('nulvrader_alarms{kind="unready",taken="yes"} 1\n', told)
        self.assertIn('nulvrader_vehicle_battery_percent{vehicle="KIT/0001"} 12.5\n', told)
        self.plant.state(ONE, 'N1')
        until(lambda: alarm() is None, 'it is over')
        raised = self.ask('/api/events?kinds=alarm')['events']
        self.assertIn('alarm.raised', [event['what'] for event in raised])

    def test_what_there_is_not(self) -> None:
        """Names that nothing has, paths that are none, and other methods."""
        for path in ('jobs/J9', 'loads/L9', 'vehicles/KIT/9', 'jobs/', 'jobs', '', 'loads/L1/x'):
            self.assertIn('fault', self.ask(f'/api/{path}', 404), path)
        for path in ('loads/L%31', 'loads/L1;', 'loads/../loads/L1', 'jobs/' + 'J' * 33):
            self.ask(f'/api/{path}', 404)
        for path in ('/api/loads/L1?x=1', '/metrics?x=1', '/health?x', '/api/alarms?a=b'):
            self.ask(path, 400)
        told = self.board.ask('POST', '/api/events', b'{}', self.board.headers())
        self.assertEqual(told[0], 405)

    def test_other_pages(self) -> None:
        """A page of another site reads nothing, and nothing is answered under another name."""
        for path in ('/api/events', '/api/events/stream', '/api/loads/L1', '/metrics', '/health'):
            told = self.board.ask('GET', path, None, {'Host': 'evil.example'})
            self.assertEqual(told[0], 421, path)
            told = self.board.ask('GET', path, None, {'Sec-Fetch-Site': 'cross-site'})
            self.assertEqual(told[0], 403, path)
            self.assertNotIn('Access-Control-Allow-Origin', told[1])


class Events(Asks):
    def test_behind_a_number(self) -> None:
        """Whole, or in parts, each event comes once and in order."""
        self.given()
        self.desk.correct_load('L2', 'R1', 'C')
        self.wait('load', 'L2', place='station C')
        until(lambda: 'load.moved' in self.whats(), 'all of it')
        whole = self.ask('/api/events')
        self.assertIn('job.added', self.whats())
        self.assertEqual((whole['missed'], whole['more'], whole['first']), (False, False, 1))
        parts, after = [], 0
        while True:
            told = self.ask(f'/api/events?after={after}&limit=1')
            parts += told['events']
            self.assertTrue(told['after'] > after or not told['events'])
            after = told['after']
            if not told['more']:
                break
        self.assertEqual(parts[: len(whole['events'])], whole['events'])
        self.assertGreaterEqual(after, whole['last'])
        of_loads = self.ask('/api/events?kinds=load')
        self.assertEqual([event['load'] for event in of_loads['events']], ['L2'])
        self.assertGreaterEqual(of_loads['after'], whole['last'])
        self.assertEqual(self.ask('/api/events?kinds=nothing')['events'], [])

    def whats(self) -> list[str]:
        """What has happened."""
        return [event['what'] for event in self.ask('/api/events')['events']]

    def test_another_record(self) -> None:
        """Numbers that this record has not given, and another name, are told apart."""
        told = self.ask('/api/events')
        self.assertRegex(told['record'], '^[0-9a-f]{16}$')
        self.ask(f'/api/events?record={told["record"]}')
        self.ask('/api/events?record=0123456789abcdef', 409)
        self.ask(f'/api/events?after={told["last"] + 1}', 409)
        self.ask(f'/api/events/stream?after={told["last"] + 1}', 409)
        headers = {'Last-Event-ID': str(told['last'] + 1)}
        self.assertEqual(self.board.ask('GET', '/api/events/stream', None, headers)[0], 409)

    def test_queries(self) -> None:
        """What is no number or no list, and what nobody knows."""
        for query in (
            'after=-1',
            'after=',
            'after=1e3',
            'after=99999999999999999',
            'after=%31',
            'after=1&after=2',
            'limit=0',
            'limit=1001',
            'kinds=',
            'kinds=a,',
            'kinds=a%2Cb',
            "kinds=a'b",
            'kinds=A',
            'record=x',
            'since=1',
            'x',
            '&',
        ):
            self.ask(f'/api/events?{query}', 400)
            self.ask(f'/api/events/stream?{query}', 400)
        for last in ('x', '-1', '1 2', '9' * 17):
            told = self.board.ask('GET', '/api/events/stream', None, {'Last-Event-ID': last})
            self.assertEqual(told[0], 400, last)
        self.assertEqual(queries.read_event_query('after=7', ''), EventQuery(7))

    def test_a_stream(self) -> None:
        """It has what was, and then what comes, at once; who connects again goes on where it
        was."""
        self.given()
        kinds = 'kinds=job,order,load'
        stream = Stream(self.board.port, f'/api/events/stream?{kinds}')
        self.addCleanup(stream.close)
        self.assertEqual(stream.status, 200)
        self.assertEqual(stream.head['content-type'], 'text/event-stream; charset=utf-8')
        self.assertEqual(stream.head['x-accel-buffering'], 'no')
        self.assertNotIn('content-length', stream.head)
        first = stream.events(3)
        self.assertEqual(sorted(event['kind'] for event in first), ['job', 'job', 'order'])
        self.assertEqual(first, self.ask(f'/api/events?{kinds}')['events'])
        self.desk.correct_load('L2', 'R1', 'C')
        (told,) = stream.events(1)
        self.assertEqual((told['kind'], told['load'], told['after']), ('load', 'L2', 'station C'))
        stream.close()
        last = str(first[1]['id'])
        again = Stream(self.board.port, f'/api/events/stream?{kinds}', Last_Event_ID=last)
        self.addCleanup(again.close)
        self.assertEqual(again.events(2), [first[2], told])
        of_loads = Stream(self.board.port, '/api/events/stream?kinds=load&after=1')
        self.addCleanup(of_loads.close)
        self.assertEqual(of_loads.events(1), [told])

    def test_a_head_alone(self) -> None:
        told = self.board.ask('HEAD', '/api/events/stream')
        self.assertEqual((told[0], told[2]), (200, b''))


class Numbers(unittest.TestCase):
    """The numbers of events, by a file without a board."""

    def setUp(self) -> None:
        folder = tempfile.TemporaryDirectory()
        self.addCleanup(folder.cleanup)
        self.path = os.path.join(folder.name, 'board.db')
        self.open()

    def open(self) -> None:
        self.record = Record(self.path)
        self.addCleanup(self.record.close)
        name_record(self.record)
        self.reading = Reading(self.path)

    def put(self, *moments: int) -> list[int]:
        """Puts an event at each of these moments, and returns their numbers."""
        event = Event('desk', 'desk.up', Cause('board'))
        numbers = [self.record.event(at, event) for at in moments]
        self.record.commit()
        return numbers

    def ids(self, **asked: Any) -> list[int]:
        batch = read_events(self.reading, EventQuery(**asked), last_number(self.reading))
        return [event['id'] for event in batch.events]

    def test_they_never_go_back(self) -> None:
        """Not where all events were removed, nor after a restart."""
        self.assertEqual(self.put(1, 2, 3), [1, 2, 3])
        self.record.remove_old(10)
        self.assertEqual((self.ids(), last_number(self.reading)), ([], 3))
        self.record.close()
        self.open()
        self.assertEqual(self.put(20), [4])
        batch = read_events(self.reading, EventQuery(after=2), 4)
        self.assertEqual(([event['id'] for event in batch.events], batch.missed), ([4], True))
        for after, missed in ((0, False), (1, True), (3, False), (4, False)):
            self.assertEqual(
                read_events(self.reading, EventQuery(after=after), 4).missed, missed, after
            )
        self.record.remove_old(30)
        batch = read_events(self.reading, EventQuery(after=1), 4)
        self.assertEqual((batch.events, batch.missed, batch.after), ((), True, 4))

    def test_what_is_not_committed(self) -> None:
        """Nobody is told of it, and its number is given to what comes in its place."""
        self.put(1)
        self.record.event(2, Event('desk', 'desk.down', Cause('board')))
        self.assertEqual(self.ids(), [1])
        self.record.roll_back()
        self.assertEqual(self.put(3), [2])
        self.assertEqual(self.ids(after=1), [2])

    def test_it_is_on_the_disk_first(self) -> None:
        """An event is told once the log of the file was synchronized behind its commit."""
        done: list[Any] = []
        feed = Feed(self.reading, lambda _, last: done.append(last))
        feed.look()
        with mock.patch.object(os, 'fdatasync', side_effect=lambda _: done.append('sync')):
            self.put(1, 2)
            feed.look()
            feed.look()
        self.assertEqual((done, feed.last), ([0, 'sync', 2], 2))
        with mock.patch.object(os, 'fdatasync', side_effect=OSError('the disk fails')):
            self.put(3)
            feed.look()
            self.assertEqual(feed.last, 2)
            self.assertIn('the disk fails', str(feed.fault))
        feed.look()
        self.assertEqual((feed.last, feed.fault), (3, None))

    def test_it_reads_alone(self) -> None:
        """What reads can't write, whatever it is asked."""
        with self.assertRaises(sqlite3.OperationalError):
            self.reading.rows('DELETE FROM events')

    def test_another_file(self) -> None:
        """A new file has another name, and numbers of its own."""
        self.put(1, 2)
        name = self.reading.meta('record')
        self.record.close()
        for ending in ('', '-wal', '-shm'):
            if os.path.exists(self.path + ending):
                os.remove(self.path + ending)
        self.open()
        self.assertNotEqual(self.reading.meta('record'), name)
        self.put(1)
        with self.assertRaises(OtherRecord):
            self.ids(after=2)
        with self.assertRaises(OtherRecord):
            self.ids(record=name)


if __name__ == '__main__':
    unittest.main()
