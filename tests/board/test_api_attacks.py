"""Shows that readers that take nothing, crowds of them, and texts of others that would be lines of
a stream or of metrics keep no other program from what the board answers."""
from __future__ import annotations

import contextlib
import functools
import json
import os
import re
import resource
import socket
import sqlite3
import tempfile
import threading
import time
import unittest
from unittest import mock

from tests.support.attacked_board import connections
from tests.support.board_run import ONE, Plant, has_loopback, until
from tests.support.event_client import Stream, messages

from nulvrader.board.api import share as share_module
from nulvrader.board.api.events import EventQuery, Batch, Kept, event_of, last_number, read_events
from nulvrader.board.api.meters import Counter, gauge
from nulvrader.board.api.reading import Reading
from nulvrader.board.api.share import Share
from nulvrader.board.api.streams import MOST, part_of
from nulvrader.board.record import Record

OF_LOADS = '/api/events/stream?kinds=load'
EVENTS, TEXT = 3_000, 2_000
HOSTILE = 'a\n\ndata: {"id":7}\r\nid: 9\r\revent: missed\u2028\u2029\x00\x85"\\\ud800 ä'


@unittest.skipUnless(has_loopback(), 'no sockets on 127.0.0.1 here')
class Crowd(unittest.TestCase):
    """Many streams of one program, of a record with many events."""

    def setUp(self) -> None:
        self.plant = Plant()
        self.addCleanup(self.plant.close)
        self.plant.vehicle(ONE, 'N1')
        board = self.plant.board()
        board.has_looked(0)
        board.stop()
        base = sqlite3.connect(board.db, isolation_level=None)
        row = (
            "INSERT INTO events (at, kind, what, words, cause) VALUES (?, 'load', 'x', ?, 'board')"
        )
        base.execute('BEGIN')
        base.executemany(row, [('2999-01-01T00:00:00.000Z', 'x' * TEXT)] * EVENTS)
        base.execute('COMMIT')
        base.close()
        self.board = self.plant.board('--silent', '3000')
        self.board.has_looked(0)  # a load that is there at the first look has no event
        resource.prlimit(self.board.process.pid, resource.RLIMIT_NOFILE, (1024, 1024))

    def crowd(self, count: int) -> list[socket.socket]:
        """So many streams from the first event on, of which nobody reads a byte."""
        request = f'GET /api/events/stream HTTP/1.1\r\nHost: 127.0.0.1:{self.board.port}\r\n\r\n'
        found = list(connections(self.board.port, count, request.encode()))
        for plain in found:
            self.addCleanup(plain.close)
        return found

    def status(self, name: str) -> int:
        """A number of the board's process."""
        with open(f'/proc/{self.board.process.pid}/status', encoding='utf-8') as file:
            found = re.search(rf'^{name}:\s*(\d+)', file.read(), re.M)
        assert found is not None
        return int(found[1])

    def is_seen(self, load: str) -> None:
        """A load that comes is seen by the page, and by who follows the events from here on."""
        last = int(self.board.rows('SELECT max(n) FROM events')[0][0])
        self.plant.desk.register_load(load)
        until(lambda: self.board.get('load', load), 'the page sees it')

        def has() -> bool:
            with contextlib.suppress(OSError), contextlib.closing(
                Stream(self.board.port, OF_LOADS, Last_Event_ID=str(last))
            ) as stream:
                return any(event['load'] == load for event in stream.events(1))
            return False

        until(has, 'a stream has it')

    def test_1000_streams(self) -> None:
        """They take nothing: the page is answered, who connects again gets what happens, and the
        board has no more threads and little more memory."""
        threads, memory = self.status('Threads'), self.status('VmRSS')
        self.crowd(1000)
        self.is_seen('X1')
        self.assertEqual(self.board.ask('GET', '/health')[0], 200)
        told = self.board.ask('GET', '/metrics')[2].decode()
        found = re.search(r'^nulvrader_event_streams (\d+)$', told, re.M)
        assert found is not None
        self.assertLessEqual(int(found[1]), MOST)
        self.assertEqual(self.status('Threads'), threads)
        self.assertLess(self.status('VmRSS') - memory, 60_000)

    def test_60_streams(self) -> None:
        """At an event all of them want to read at once: each gets it, on the connection that it
        has."""
        last = int(self.board.rows('SELECT max(n) FROM events')[0][0])
        streams = [
            Stream(self.board.port, OF_LOADS, Last_Event_ID=str(last)) for _ in range(MOST - 4)
        ]
        for stream in streams:
            self.addCleanup(stream.close)
        self.assertEqual({stream.status for stream in streams}, {200})
        for load in ('X1', 'X2'):
            self.plant.desk.register_load(load)
            for stream in streams:
                self.assertEqual([event['load'] for event in stream.events(1)], [load])

    def test_a_reader_that_takes_nothing(self) -> None:
        """It is ended, and gets no more than its socket holds."""
        (plain,) = self.crowd(1)
        time.sleep(1)
        self.is_seen('X1')
        until(lambda: self.streams() == 0, 'its stream is ended')
        plain.settimeout(60)
        taken = 0
        with contextlib.suppress(OSError):
            while data := plain.recv(1_048_576):
                taken += len(data)
        self.assertLess(taken, EVENTS * TEXT)

    def streams(self) -> int:
        told = self.board.ask('GET', '/metrics')[2].decode()
        found = re.search(r'^nulvrader_event_streams (\d+)$', told, re.M)
        assert found is not None
        return int(found[1])

    def test_a_reader_that_talks(self) -> None:
        """What comes behind the request is thrown away, and no second request."""
        stream = Stream(self.board.port, OF_LOADS)
        self.addCleanup(stream.close)
        self.assertEqual(len(stream.events(EVENTS)), EVENTS)
        memory = self.status('VmRSS')
        again = f'GET /data HTTP/1.1\r\nHost: 127.0.0.1:{self.board.port}\r\n\r\n'.encode()
        for _ in range(200):
            stream.plain.sendall(again * 1000)
        self.plant.desk.register_load('X1')
        (event,) = stream.events(1)
        self.assertEqual(event['load'], 'X1')
        self.assertLess(self.status('VmRSS') - memory, 20_000)

    def test_those_who_ask_for_much(self) -> None:
        """Twenty programs ask for many events again and again: the board takes less than half
        a processor for that, and follows the desk."""
        over = threading.Event()

        def ask() -> None:
            while not over.is_set():
                with contextlib.suppress(OSError, AssertionError):
                    self.board.ask('GET', '/api/events?limit=200')

        asking = [threading.Thread(target=ask, daemon=True) for _ in range(20)]
        for one in asking:
            one.start()
        time.sleep(2)
        begun, before = time.monotonic(), self.seconds()
        self.is_seen('X1')
        time.sleep(5)
        used = (self.seconds() - before) / (time.monotonic() - begun)
        over.set()
        for one in asking:
            one.join(60)
        self.assertLess(used, 0.7)

    def seconds(self) -> float:
        """How many seconds of a processor the board has taken."""
        with open(f'/proc/{self.board.process.pid}/stat', encoding='utf-8') as file:
            user, system = file.read().rsplit(')', 1)[1].split()[11:13]
        return (int(user) + int(system)) / os.sysconf('SC_CLK_TCK')


class Texts(unittest.TestCase):
    """Texts of others, as a vehicle's errors, that would be something else."""

    def test_lines_of_a_stream(self) -> None:
        """Such a text is told whole, within the one line of its event."""
        more = json.dumps({'text': HOSTILE})
        row = {'n': 5, 'at': 'x', 'kind': 'said', 'words': HOSTILE, 'more': more, 'who': None}
        batch = Batch(Kept('ab', 5, 5), (event_of(row),), 5, missed=False, more=False)
        data = part_of(batch).data
        self.assertTrue(data.isascii())
        (sent,) = messages(iter(data.splitlines(keepends=True)))
        self.assertEqual((sent.id, sent.event, len(sent.lines)), (5, 'message', 2))
        told = json.loads(str(sent.data))
        self.assertEqual((told['text'], told['more']['text']), (HOSTILE, HOSTILE))
        self.assertNotIn('who', told)

    def test_long_events(self) -> None:
        """Events of long texts come in batches that a client takes, in order and each once."""
        with tempfile.TemporaryDirectory() as folder:
            path = os.path.join(folder, 'board.db')
            Record(path).close()
            row = ('2026-12-01T06:00:00.000Z', 'said', 'said.error', '\U0001f600' * 2000, 'vehicle')
            with contextlib.closing(sqlite3.connect(path)) as base:
                words = 'INSERT INTO events (at, kind, what, words, cause) VALUES (?, ?, ?, ?, ?)'
                base.executemany(words, [row] * 70)
                base.commit()
            reading = Reading(path)
            found: list[int] = []
            after, more = 0, True
            while more:
                batch = read_events(reading, EventQuery(after, 100), last_number(reading))
                told = json.dumps(batch.told(), separators=(',', ':'))
                self.assertLess(len(told), 1_000_000)
                found += [event['id'] for event in batch.events]
                after, more = batch.after, batch.more
        self.assertEqual(found, list(range(1, 71)))

    def test_kinds_that_there_are_not(self) -> None:
        """A question for them looks through a part of the record, and says where to go on."""
        with tempfile.TemporaryDirectory() as folder:
            path = os.path.join(folder, 'board.db')
            Record(path).close()
            rows = [
                (n, '2026-12-01T06:00:00.000Z', 'load', 'x', 'x', 'board') for n in range(1, 50_000)
            ]
            with contextlib.closing(sqlite3.connect(path)) as base:
                words = (
                    'INSERT INTO events (n, at, kind, what, words, cause) VALUES (?, ?, ?, ?, ?, ?)'
                )
                base.executemany(words, rows)
                base.execute('DELETE FROM events WHERE n < 10000')
                base.execute("UPDATE events SET kind = 'failed' WHERE n = 45000")
                base.commit()
            reading = Reading(path)
            found: list[list[int]] = []
            ends, after, more = [], 0, True
            while more:
                batch = read_events(
                    reading, EventQuery(after, 1, frozenset(['failed', 'zzz'])), 49_999
                )
                found.append([event['id'] for event in batch.events])
                after, more = batch.after, batch.more
                ends.append(after)
        self.assertEqual(found, [[], [45_000]])
        self.assertEqual(ends, [29_999, 49_999])

    def test_lines_of_metrics(self) -> None:
        counter = Counter('x', 'y')
        counter.add(kind='a"} 7\nb{c="\\')
        self.assertEqual(counter.family().lines, ('nulvrader_x{kind="a\\"} 7\\nb{c=\\"\\\\"} 1',))
        self.assertEqual(gauge('x', 'y', 0.5).lines, ('nulvrader_x 0.5',))

    def test_a_share(self) -> None:
        """Work that takes a while is followed by a pause, whoever wants more."""

        clock = mock.Mock()
        passed = {'monotonic': 100.0, 'thread_time': 7.0}
        clock.monotonic.side_effect = lambda: passed['monotonic']
        clock.thread_time.side_effect = lambda: passed['thread_time']

        def burn(seconds: float) -> None:
            for name in passed:
                passed[name] += seconds

        def sleep(seconds: float) -> None:
            passed['monotonic'] += seconds

        clock.sleep.side_effect = sleep
        share = Share(0.25)
        with mock.patch.object(share_module, 'time', clock):
            for seconds in (0.5, 0.1, 0.4):
                share.run(functools.partial(burn, seconds))
            share.run(lambda: None)
        self.assertAlmostEqual(passed['monotonic'], 104.0)
        with self.assertRaises(ZeroDivisionError):
            share.run(lambda: 1 // 0)


if __name__ == '__main__':
    unittest.main()
