"""Shows that the board commands nothing, and says so, where no desk, another desk or an older
file answers."""
from __future__ import annotations

import contextlib
import http.client
import json
import os
import re
import socket
import sqlite3
import threading
import time
from collections.abc import Callable
from typing import Any

from nulvrader.desk.client import Desk
from tests.support.board_run import LAYOUT, ONE, PROGRAM, Process, Watching, until


class Fake:
    """Answers on the port of a desk in its place. `answer` gives the bytes that a request is
    answered, by its method and target; None drips bytes that never end. `asked` has the
    requests."""

    def __init__(self, port: int, answer: Callable[[str, str], bytes | None]):
        self.answer, self.asked = answer, list[tuple[str, str]]()
        self.over = threading.Event()
        self.listener = socket.create_server(('127.0.0.1', port))
        threading.Thread(target=self._serve, daemon=True).start()

    def _serve(self) -> None:
        with contextlib.suppress(OSError):  # it was closed
            while True:
                plain = self.listener.accept()[0]
                threading.Thread(target=self._one, args=(plain,), daemon=True).start()

    def _one(self, plain: socket.socket) -> None:
        with plain, contextlib.suppress(OSError, ValueError):
            method, target, _ = plain.recv(65536).decode().split(' ', 2)
            self.asked.append((method, target))
            answer = self.answer(method, target)
            if answer is not None:
                plain.sendall(answer)
                return
            plain.sendall(b'HTTP/1.1 200 OK\r\nContent-Length: 1000000\r\n\r\n')
            while not self.over.wait(0.2):
                plain.sendall(b'x')

    def close(self) -> None:
        """Stops it."""
        self.over.set()
        with contextlib.suppress(OSError):  # it is stopped already
            self.listener.shutdown(socket.SHUT_RDWR)
        self.listener.close()


def ok(body: bytes) -> bytes:
    """An answer with a body."""
    return b'HTTP/1.1 200 OK\r\nContent-Length: %d\r\n\r\n%s' % (len(body), body)


class NoDesk(Watching):
    """A program that is no desk answers on its port. The board says so, records nothing of it and
    goes on."""

    words = ('--timeout', '3')

    def fake(self, answer: Callable[[str, str], bytes | None]) -> Fake:
        """Stops the desk, and has something else answer in its place."""
        self.plant.served.stop()
        made = Fake(self.plant.port, answer)
        self.addCleanup(made.close)
        return made

    def check(
        self,
        answer: Callable[[str, str], bytes | None],
        words: str = 'What answers there is no desk: ',
        but: str = '',
    ) -> None:
        """The board says these words, keeps what it has, but for one table, and follows the desk
        again once that is back."""
        before = self.kept(but)
        made = self.fake(answer)
        until(lambda: words in str(self.board.get('desk').get('fault')), words)
        self.assertEqual(self.board.get('desk')['up'], False)
        self.assertEqual(self.kept(but), before)
        self.assertIsNone(self.board.process.poll())
        made.close()
        self.plant.start_desk()
        self.wait('desk', '', up=True)
        self.assertEqual(self.kept(but), before)

    def kept(self, but: str = '') -> list[list[tuple[Any, ...]]]:
        """What the record says of loads, vehicles and holds, but for one table."""
        tables = ['load_moves', 'loads', 'vehicles', 'holds', 'jobs', 'hold_changes', 'stations']
        question = 'SELECT * FROM {} ORDER BY 1'
        return [self.board.rows(question.format(table)) for table in tables if table != but]

    def by_path(self, path: str, answer: bytes) -> Callable[[str, str], bytes]:
        """As the desk answers, but for one path."""
        answers: dict[str, bytes] = {}
        for target in (
            '/report/stock',
            '/report/holds',
            '/export/loads',
            '/export/jobs',
            '/export/vehicles',
            '/export/layout',
        ):
            answers[target] = ok(self.desk.ask('GET', target).body)

        def told(_: str, target: str) -> bytes:
            return (
                answer
                if target.startswith(path)
                else answers.get(target, b'HTTP/1.1 204 No Content\r\n\r\n')
            )

        return told

    def test_empty_reports(self) -> None:
        """All is answered by an empty 200: no load has left by it."""
        self.check(lambda *_: ok(b''))

    def test_reports_that_are_cut(self) -> None:
        """A stock report that ends before its last line, with a length that fits."""
        self.check(
            self.by_path('/report/stock', ok(b'station A at N1: 1 of 3, reserved 0\n  L1\n'))
        )
        self.check(self.by_path('/report/holds', ok(b'node N1 KIT/0001\n')))

    def test_exports_that_are_none(self) -> None:
        """Of the vehicles: nothing, another header, a row that is cut, values that no desk
        writes, a number of 5,000 digits, and many commas. Of the jobs: bytes that are no row."""
        whole = self.desk.ask('GET', '/export/vehicles').body
        for path, body in (
            ('/export/vehicles', b''),
            ('/export/vehicles', b'vehicle' + whole),
            ('/export/vehicles', whole[:-1]),
            ('/export/vehicles', whole.replace(b',true,', b',yes,')),
            ('/export/vehicles', whole.replace(b'N1', b'\xff\xfe')),
            ('/export/vehicles', whole.replace(b',N1,1', b',N1,' + b'9' * 5000)),
            ('/export/vehicles', whole.partition(b'\n')[0] + b'\n' + b',' * 100_000),
            ('/export/jobs', b'job,load,from,to,phase,manufacturer,serialNumber,order\nJ1\n'),
        ):
            with self.subTest(path, body=body[-30:]):
                self.check(self.by_path(path, ok(body)))

    def test_order_messages_that_are_none(self) -> None:
        """A vehicle that had no order has one, by the desk's export, but its message is no way.
        What the export says of the vehicle is kept."""
        idle = self.desk.ask('GET', '/export/vehicles').body
        busy = idle.replace(b',,,,,,,,,', b',,O1,0,,0,2,0,,')
        self.assertNotEqual(busy, idle)
        for body in (
            b'{}',
            b'{"nodes":[],"edges":[]}',
            b'{"orderId":{"a":1},"orderUpdateId":0,"nodes":[{}],"edges":[]}',
        ):
            rest = self.by_path('/export/vehicles', ok(busy))

            def told(method: str, target: str, body: bytes = body) -> bytes:
                return ok(body) if target.endswith('/order') else rest(method, target)

            self.check(told, but='vehicles')

    def test_no_http(self) -> None:
        """Bytes that are no answer of HTTP, and an answer that says no length."""
        self.check(lambda *_: b'SSH-2.0-OpenSSH_9.2\r\n')
        self.check(lambda *_: b'HTTP/1.1 200 OK\r\n\r\n')

    def test_escapes(self) -> None:
        """An answer with line ends and escapes of a terminal: they stand in no record and no log as
        they are."""
        self.check(lambda *_: b'HTTP/1.1 500 No\r\nContent-Length: 16\r\n\r\n\x1b[2J\nboard: lie\n')
        told = self.board.rows('SELECT words FROM events') + self.board.rows(
            'SELECT fault FROM desk_times'
        )
        status, said = self.board.stop()
        self.assertEqual(status, 0)
        for text in (*(str(row[0]) for row in told), *said.splitlines()):
            self.assertTrue(text.isprintable(), text)
        self.assertNotIn('board: lie', [line.strip() for line in said.splitlines()])

    def test_an_answer_that_drips(self) -> None:
        """It comes byte by byte without end: the board says that none has come, and SIGTERM ends it
        at once."""
        self.check(lambda *_: None, 'no whole answer came')

    def test_sigterm_while_an_answer_drips(self) -> None:
        """SIGTERM ends the board while it waits for an answer, for which it has ten minutes."""
        self.board.stop()
        made = self.fake(lambda *_: None)
        board = self.plant.board('--timeout', '600')
        until(lambda: made.asked, 'it is asked')
        begun = time.monotonic()
        self.assertEqual(board.stop(), (0, ''))
        self.assertLess(time.monotonic() - begun, 60)

    def test_sigterm_while_a_command_drips(self) -> None:
        """The same while a command is on its way: at the next start it is told that its outcome is
        not known."""
        self.board.stop()
        rest = self.by_path('/nothing', b'')
        self.fake(lambda method, target: None if method == 'POST' else rest(method, target))
        board = self.plant.board('--timeout', '600')
        board.has_looked(2)
        values = {'command': 'leave', 'values': {'load': 'L1', 'ref': 'R1'}}
        data, headers = json.dumps(values).encode(), board.headers()

        def give() -> None:
            with contextlib.suppress(OSError, http.client.HTTPException):
                board.ask('POST', '/do', data, headers)

        gives = threading.Thread(target=give)
        gives.start()
        self.addCleanup(gives.join)
        until(
            lambda: board.rows('SELECT done, answer FROM commands') == [(None, None)],
            'it is recorded before',
        )
        begun = time.monotonic()
        board.stop()
        self.assertLess(time.monotonic() - begun, 60)
        again = self.plant.board('--timeout', '600')
        words = 'Whether it was done is not known, as the board ended before the answer came: '
        words += 'look first.'
        self.assertEqual(again.rows('SELECT done, answer FROM commands'), [(None, words)])
        self.assertTrue(again.said(f'Load L1 leaves: {words}'))

    def test_an_endless_answer(self) -> None:
        """An answer that goes on: the board takes at most 300 MB for it."""
        block = b'x' * 1_000_000

        def answer(*_: str) -> bytes:
            return (
                b'HTTP/1.1 200 OK\r\nTransfer-Encoding: chunked\r\n\r\n'
                + b'f4240\r\n%s\r\n' % block * 100
            )

        self.check(answer)
        with open(f'/proc/{self.board.process.pid}/status') as file:
            most = re.search('VmHWM:[ \t]*([0-9]+) kB', file.read())
        assert most is not None
        self.assertLess(int(most.group(1)), 300_000)


class OtherDesk(Watching):
    """Another desk answers on the port, or this one with an older or an empty file."""

    def other(self, db: str, layout: str = LAYOUT, *loads: str) -> Desk:
        """Stops the desk, and starts one on another file."""
        self.plant.served.stop()
        line = [PROGRAM, 'serve', '--db', self.plant.path(db), '--port', str(self.plant.port)]
        self.plant.served = Process([*line, '--connections', '4294967295'])
        self.plant.running.append(self.plant.served)
        if layout:
            self.desk.set_layout(layout.encode())
        for load in loads:
            self.desk.register_load(load, 'A')
        return self.desk

    def check(self, words: str) -> None:
        """It is an alarm on the page and in the log; nothing is recorded, and no command is
        sent."""
        until(lambda: self.board.get('desk').get('other'), 'another desk')
        until(lambda: words in self.board.get('desk')['fault'], words)
        self.assertEqual(self.board.rows('SELECT * FROM load_moves'), [])
        self.assertEqual(
            self.board.rows('SELECT load, place FROM loads'),
            [('L1', 'station A'), ('L2', 'station A')],
        )
        self.assertEqual(
            self.board.rows('SELECT vehicle, node FROM vehicles'), [('KIT/0001', 'N1')]
        )
        body = json.dumps({'command': 'leave', 'values': {'load': 'L1', 'ref': 'R1'}}).encode()
        status, _, answer = self.board.ask('POST', '/do', body, self.board.headers())
        self.assertEqual(
            (status, json.loads(answer)['fault'].split(':')[0]), (503, 'Nothing was sent')
        )
        self.assertEqual(self.board.rows('SELECT * FROM commands'), [])

    def test_an_empty_warehouse(self) -> None:
        """The same layout, but no vehicle and no load: the loads have not left. The desk itself is
        followed again."""
        self.other('other.db')
        self.check('Vehicle KIT/0001 is missing')
        self.plant.served.stop()
        self.plant.start_desk()
        self.wait('desk', '', up=True, other=False)
        status, said = self.board.stop()
        self.assertEqual(status, 0)
        self.assertIn('board: Another desk answers: ', said)

    def test_a_desk_without_a_layout(self) -> None:
        """A new file that has nothing yet."""
        self.other('other.db', '')
        self.check('Station A is another one than it was, or is missing')

    def test_a_warehouse_with_other_loads(self) -> None:
        """The same layout and the same vehicle, other loads: those that were there can't have left,
        as none has."""
        self.other('other.db', LAYOUT, 'L1', 'X9')
        self.plant.headers.clear()
        self.plant.vehicle(ONE, 'N1')
        self.check('1 load of those that were here are missing, as L2, and only 0 have left since')
        self.assertEqual(self.desk.load('L1').place, 'station A')

    def test_an_older_file(self) -> None:
        """A copy from before a load came is put back: that load is missing. With board.db moved
        away it is followed."""
        self.plant.served.stop()
        before = self.plant.path('before.db')
        base, copy = sqlite3.connect(self.plant.path('warehouse.db')), sqlite3.connect(before)
        base.backup(copy)
        base.close()
        copy.close()
        self.plant.start_desk()
        self.desk.register_load('L3', 'A')
        self.wait('load', 'L3', place='station A')
        self.rows("SELECT place FROM loads WHERE load = 'L3'", [('station A',)])
        self.plant.served.stop()
        for end in ('', '-wal', '-shm'):
            with contextlib.suppress(FileNotFoundError):
                os.remove(self.plant.path('warehouse.db') + end)
        os.rename(before, self.plant.path('warehouse.db'))
        self.plant.start_desk()
        until(lambda: self.board.get('desk').get('other'), 'another desk')
        self.assertEqual(
            self.board.rows("SELECT place FROM loads WHERE load = 'L3'"), [('station A',)]
        )
        self.board.stop()
        for end in ('', '-wal', '-shm'):
            with contextlib.suppress(FileNotFoundError):
                os.remove(self.board.db + end)
        self.board = self.plant.board()
        self.board.has_looked(2)
        self.wait('desk', '', up=True, other=False)
