"""Shows that the board goes on under many connections and pages, and stops commands where its
disk is full."""
from __future__ import annotations

import contextlib
import http.client
import json
import os
import re
import resource
import socket
import sqlite3
import subprocess
import sys
import threading
import time
import unittest
from typing import Any
from unittest import mock

from nulvrader.board import page_state as shown_module
from nulvrader.board.page_state import Shown
from nulvrader.board.shown_rows import LOAD, ShownLoad
from tests.support.attacked_board import STATUS, connections, read_all
from tests.support.board_run import ONE, Plant, Watching, has_loopback, until

POLLS = '''
import socket, sys, threading

def poll(port):
    request = b'GET /data?since=0 HTTP/1.1\\r\\nHost: 127.0.0.1:%d\\r\\n' % port
    request += b'Connection: close\\r\\n\\r\\n'
    while True:
        try:
            with socket.create_connection(('127.0.0.1', port), timeout=60) as plain:
                plain.sendall(request)
                while plain.recv(1048576):
                    pass
        except OSError:
            pass

for _ in range(int(sys.argv[2])):
    threading.Thread(target=poll, args=(int(sys.argv[1]),), daemon=True).start()
sys.stdin.read()
'''


@unittest.skipUnless(has_loopback(), 'no sockets on 127.0.0.1 here')
class Crowd(unittest.TestCase):
    """Many connections of one program."""

    LOADS = 300
    RATE = 200  # the most answers that the board gives in a second, on average

    def setUp(self) -> None:
        self.plant = Plant()
        self.addCleanup(self.plant.close)
        self.plant.vehicle(ONE, 'N1')
        self.plant.served.stop()
        base = sqlite3.connect(self.plant.path('warehouse.db'), isolation_level=None)
        rows = [(f'L{number}',) for number in range(self.LOADS)]
        base.execute('BEGIN')
        base.executemany("INSERT INTO load VALUES (?, 'checking', NULL, NULL, NULL)", rows)
        base.execute('COMMIT')
        base.close()
        self.plant.start_desk()
        self.board = self.plant.board()
        self.board.has_looked(self.LOADS)
        self.plain: list[socket.socket] = []
        # as many files as a program has that asks for no more
        resource.prlimit(self.board.process.pid, resource.RLIMIT_NOFILE, (1024, 1024))

    def crowd(self, count: int, data: bytes = b'') -> list[socket.socket]:
        """So many connections, or as many as are taken, which send these bytes."""
        for plain in connections(self.board.port, count, data):
            self.addCleanup(plain.close)
            self.plain.append(plain)
        return self.plain

    def drip(self) -> None:
        """Sends a byte by each of the connections every two seconds, in a thread."""
        over = threading.Event()

        def drip() -> None:
            while not over.wait(2):
                for plain in list(self.plain):
                    with contextlib.suppress(OSError):
                        plain.send(b'a')

        drips = threading.Thread(target=drip)
        drips.start()
        self.addCleanup(drips.join)
        self.addCleanup(over.set)

    def answers(self) -> None:
        """A new client has the page, and what it shows, within seconds."""
        for target in ('/', '/data', '/main.js'):
            connection = http.client.HTTPConnection('127.0.0.1', self.board.port, timeout=45)
            try:
                connection.request('GET', target)
                self.assertEqual(connection.getresponse().status, 200)
            finally:
                connection.close()

    def test_1020_connections(self) -> None:
        """They say next to nothing, for as long as they may: the page is answered still."""
        self.drip()
        self.crowd(1020, b'GET / HTTP/1.1\r\nX: ')
        for _ in range(3):
            self.answers()

    def test_heads_that_drip(self) -> None:
        """A byte of each request comes in every two seconds: each is ended within a minute, and
        meanwhile the page is answered."""
        self.drip()
        dripping = self.crowd(150, b'GET / HTTP/1.1\r\nX: ')
        self.answers()
        for plain in dripping:
            plain.settimeout(60)
            self.assertIn(STATUS.findall(read_all(plain)), ([b'408'], []))
        self.answers()

    def test_bodies_that_drip(self) -> None:
        """A command whose body does not come is ended too."""
        headers = ''.join(f'{name}: {value}\r\n' for name, value in self.board.headers().items())
        head = f'POST /do HTTP/1.1\r\nHost: 127.0.0.1:{self.board.port}\r\n'
        head += f'{headers}Content-Length: 9\r\n\r\n'
        for plain in self.crowd(20, head.encode()):
            plain.settimeout(60)
            self.assertEqual(STATUS.findall(read_all(plain)), [b'408'])

    def test_lines_of_blanks(self) -> None:
        """A line of a head is 32 kB of blanks, and ends in a byte that no header has: each is
        refused at once, and meanwhile the page is answered."""
        for line in (b'X:' + b' ' * 32_000, b'X:' + b' a' * 16_000, b'X:a' + b'\t' * 32_000):
            for plain in self.crowd(20, b'GET / HTTP/1.1\r\n%s\x01\r\n\r\n' % line):
                plain.settimeout(60)
                self.assertEqual(STATUS.findall(read_all(plain)), [b'400'])
            self.plain.clear()
            self.answers()

    def test_answers_that_nobody_takes(self) -> None:
        """Each asks for all that there is, and reads nothing."""
        request = b'GET /data HTTP/1.1\r\nHost: 127.0.0.1:%d\r\n\r\n' % self.board.port
        self.crowd(1020, request)
        for _ in range(3):
            self.answers()

    def test_40_pollers(self) -> None:
        """Forty clients ask for all that there is, again and again: a load that moves is seen by a
        page still, the board takes at most half a processor for them, or twice what its answers
        take on a slower machine, and starts no thread for a client."""
        before = self.seconds()
        for _ in range(100):
            self.board.ask('GET', '/data?since=0')
        cost = (self.seconds() - before) / 100
        polls = subprocess.Popen(
            [sys.executable, '-c', POLLS, str(self.board.port), '40'], stdin=subprocess.PIPE
        )
        self.addCleanup(polls.wait)
        self.addCleanup(polls.kill)
        self.board.refresh()
        begun, before = time.monotonic(), self.seconds()
        for turn, station in enumerate('BC'):
            self.plant.desk.correct_load('L7', f'R{turn}', station)
            until(
                lambda: self.board.get('load', 'L7').get('place') == f'station {station}',
                'it is seen',
            )
        time.sleep(5)
        took, passed = self.seconds() - before, time.monotonic() - begun
        self.assertLess(took, passed * max(0.5, 2 * cost * self.RATE))
        with open(f'/proc/{self.board.process.pid}/status') as file:
            threads = re.search('Threads:\t([0-9]+)', file.read())
        assert threads is not None
        self.assertLess(int(threads.group(1)), 20)
        assert polls.stdin is not None
        polls.stdin.close()

    def seconds(self) -> float:
        """How many seconds of a processor the board has taken."""
        with open(f'/proc/{self.board.process.pid}/stat') as file:
            user, system = file.read().rsplit(')', 1)[1].split()[11:13]
        return (int(user) + int(system)) / os.sysconf('SC_CLK_TCK')


class MadeOnce(unittest.TestCase):
    """What pages are told is written as JSON once, however many ask."""

    def test_40_pages(self) -> None:
        """Forty pages ask for 1,000 values, and again once one has changed: 1,001 are written."""
        with mock.patch.object(shown_module, 'json_of', wraps=shown_module.json_of) as written:
            shown = Shown()
            for number in range(1000):
                shown.put(LOAD, f'L{number}', ShownLoad(place='checking', since=None))
            first = {shown.newer('', 0) for _ in range(40)}
            shown.put(LOAD, 'L7', ShownLoad(place='left', since=None))
            second = {shown.newer(shown.run, 1000) for _ in range(40)}
        self.assertEqual(written.call_count, 1001)
        told = [json.loads(b'{%s}' % text) for text in (*first, *second)]
        self.assertEqual([len(one['values']) for one in told], [1000, 1])
        self.assertEqual(told[1]['values'], [['load', 'L7', {'place': 'left', 'since': None}]])


class FullDisk(Watching):
    """The disk under board.db is full: files of the board can't be written, as `setrlimit` has
    it."""

    def full(self, is_full: bool = True) -> None:
        """Lets the board write nothing more, or all again."""
        most = 0 if is_full else resource.RLIM_INFINITY
        resource.prlimit(
            self.board.process.pid, resource.RLIMIT_FSIZE, (most, resource.RLIM_INFINITY)
        )

    def leave(self, load: str, ref: str) -> tuple[int, dict[str, Any]]:
        """A command, and what it is answered."""
        body = json.dumps({'command': 'leave', 'values': {'load': load, 'ref': ref}}).encode()
        status, _, told = self.board.ask('POST', '/do', body, self.board.headers())
        return status, json.loads(told)

    def test_a_command_that_can_not_be_recorded(self) -> None:
        """It is not sent, and the person is told why. The page goes on, and commands are done once
        there is room."""
        self.full()
        status, told = self.leave('L1', 'R1')
        self.assertEqual(status, 503)
        self.assertRegex(told['fault'], r'^Nothing was sent: board\.db can not be written \(.+\)')
        self.assertEqual(self.desk.load('L1').place, 'station A')
        self.desk.correct_load('L2', 'R2', 'B')
        until(
            lambda: 'board.db can not be written' in str(self.board.get('fault', 'record')),
            'the alarm',
        )
        self.assertIsNone(self.board.process.poll())
        self.full(False)
        until(lambda: not self.board.get('fault', 'record'), 'the alarm is over')
        self.wait('load', 'L2', place='station B')
        self.assertEqual(self.leave('L1', 'R3')[0], 200)
        self.rows('SELECT command, done FROM commands', [('leave', 1)])
        self.rows("SELECT load, to_place FROM load_moves WHERE load = 'L2'", [('L2', 'station B')])
        self.assertEqual(self.board.rows('PRAGMA integrity_check'), [('ok',)])

    def test_a_disk_that_fills_at_any_byte(self) -> None:
        """With some bytes of room after the other: each command is recorded and done, or
        neither."""
        done = 0
        wal = self.board.db + '-wal'
        for turn in range(12):
            load = f'M{turn}'
            self.desk.register_load(load)
            self.wait('load', load, place='checking')
            size = os.path.getsize(wal)
            limit = size + turn * 1500
            resource.prlimit(
                self.board.process.pid, resource.RLIMIT_FSIZE, (limit, resource.RLIM_INFINITY)
            )
            status, told = self.leave(load, f'R{turn}')
            self.full(False)
            left = self.desk.load(load).place == 'left'
            recorded = self.board.rows(
                f"SELECT count(*) FROM commands WHERE said LIKE '%\"{load}\"%'"
            ) == [(1,)]
            self.assertEqual(
                (status, left), (200, True) if recorded else (503, False), (turn, told)
            )
            done += recorded
        self.leave('L1', 'R99')
        self.rows('SELECT count(*), count(answer) FROM commands', [(done + 1, done + 1)])

    def test_a_file_of_version_1(self) -> None:
        """A file of before, whose commands all have an answer, is taken up with all that it has."""
        self.board.stop()
        base = sqlite3.connect(self.board.db, isolation_level=None)
        base.executescript(
            'DROP TABLE commands; DROP TABLE events; DROP TABLE jobs; '
            'CREATE TABLE events (n INTEGER PRIMARY KEY, at TEXT NOT NULL, kind TEXT NOT NULL, '
            'words TEXT NOT NULL, vehicle TEXT, load TEXT) STRICT; '
            'CREATE INDEX events_at ON events (at); '
            "INSERT INTO events VALUES (5, '2026-11-28T06:15:00.123Z', 'load', 'L9 is gone', NULL, "
            "'L9'); "
            'CREATE TABLE jobs (job TEXT NOT NULL PRIMARY KEY, load TEXT NOT NULL, origin TEXT, '
            'target TEXT, phase TEXT NOT NULL, order_name TEXT, vehicle TEXT, added TEXT, '
            'began TEXT, ended TEXT) STRICT; '
            'CREATE TABLE commands (n INTEGER PRIMARY KEY, at TEXT NOT NULL, who TEXT NOT NULL, '
            'command TEXT NOT NULL, said TEXT NOT NULL, done INT NOT NULL, '
            'answer TEXT NOT NULL) STRICT; INSERT INTO commands VALUES '
            "(7, '2026-11-28T06:15:00.123Z', 'anna', 'leave', '{}', 1, 'L9 has left.'); "
            "UPDATE meta SET value = '1' WHERE name = 'version'"
        )
        base.close()
        self.board = self.plant.board()
        self.board.has_looked(2)
        self.assertEqual(self.leave('L1', 'R1')[0], 200)
        rows = [(7, 'anna', 1, 'L9 has left.'), (8, '', 1, 'L1 has left.')]
        self.assertEqual(
            self.board.rows('SELECT n, who, done, answer FROM commands ORDER BY n'), rows
        )
        events = self.board.rows('SELECT n, cause, words, load FROM events WHERE n <= 5')
        self.assertEqual(events, [(5, 'unknown', 'L9 is gone', 'L9')])
