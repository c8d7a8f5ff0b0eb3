"""Shows that readers of the board, whose questions may last, keep its commands and its other
readers from nothing."""
from __future__ import annotations

import contextlib
import re
import socket
import sqlite3
import struct
import threading
import unittest
from typing import cast

from nulvrader.board.answers import Reply, refused, told
from nulvrader.board.pages import Pages
from nulvrader.board.request import Head
from nulvrader.board.server import Server, listening_at
from nulvrader.board.workers import Busy, Workers
from tests.support.board_run import Watching, has_loopback, until

MANY = 64  # questions at a time: as many as nginx passes on for all readers
ROWS = """INSERT INTO {into} WITH RECURSIVE counted(n) AS
  (SELECT 1 UNION ALL SELECT n + 1 FROM counted WHERE n < {count}) SELECT {values} FROM counted"""
AT = "'2026-12-01T10:00:00.000Z'"


def asked(port: int, target: str) -> socket.socket:
    """A connection on which something is asked."""
    line = socket.create_connection(('127.0.0.1', port), timeout=300)
    line.sendall(f'GET {target} HTTP/1.1\r\nHost: 127.0.0.1:{port}\r\n\r\n'.encode())
    return line


def reset(line: socket.socket) -> None:
    """Resets a connection."""
    line.setsockopt(socket.SOL_SOCKET, socket.SO_LINGER, struct.pack('ii', 1, 0))
    line.close()


class OldBoard(Watching):
    """A board that has recorded for long."""

    def fill(self, into: str, count: int, values: str) -> None:
        """Adds so many rows to a table of the record."""
        base = sqlite3.connect(self.board.db, timeout=300, isolation_level=None)
        base.execute(ROWS.format(into=into, count=count, values=values))
        base.close()

    def processor(self) -> float:
        """The seconds of a processor that the board has taken."""
        told = self.board.ask('GET', '/metrics')[2].decode()
        found = re.search('^nulvrader_board_cpu_seconds_total (.*)$', told, re.M)
        assert found is not None
        return float(found[1])


class Histories(OldBoard):
    """Readers want no command to be given by the page."""

    def test_a_look_meanwhile(self) -> None:
        """They ask for the history of a load that was moved 150,000 times, so often at once that
        some are refused; a person's look at a command must be answered."""
        moves = 'load_moves (at, load, from_place, to_place)'
        self.fill(moves, 150_000, f"{AT}, 'L1', 'station A', 'station B'")
        body = b'{"command":"pause","values":{"vehicle":"KIT/0001"}}'
        headers = self.board.headers()
        lines = [asked(self.board.port, '/history?load=L1') for _ in range(MANY)]
        for line in lines:
            self.addCleanup(line.close)
        status, _, told = self.board.ask('POST', '/look', body, headers)
        self.assertEqual(status, 200, told)
        until(lambda: any(self.is_refused(line) for line in lines), 'one is refused')

    @staticmethod
    def is_refused(line: socket.socket) -> bool:
        """Whether the board has answered that it is busy."""
        line.settimeout(0.01)
        try:
            return line.recv(12, socket.MSG_PEEK) == b'HTTP/1.1 503'
        except TimeoutError:
            return False


class Questions(OldBoard):
    """A reader wants others to have no answers of the board's API."""

    def test_of_a_vehicle(self) -> None:
        """It asks 32 times for a vehicle, of which the record has 200,000 waits that are over; each
        must take a few milliseconds of a processor."""
        waits = 'waits (vehicle, kind, name, holder, began, ended)'
        self.fill(waits, 200_000, f"'KIT/0001', 'node', 'N2', 'KIT/0002', {AT}, {AT}")
        before = self.processor()
        for _ in range(32):
            self.assertEqual(self.board.ask('GET', '/api/vehicles/KIT/0001')[0], 200)
        self.assertLess(self.processor() - before, 1.0)


class SlowPages:
    """In the place of the board's pages: each answer lasts until it may come."""

    def __init__(self) -> None:
        self.command_workers, self.searches = Workers(1), Workers(2)
        self.may, self.begun = threading.Event(), 0

    def refusal(self, head: Head) -> None:
        """Refuses nothing."""

    async def answer(self, head: Head, body: bytes) -> Reply:
        """Answers by one of two threads."""
        try:
            return await self.searches.run(self.search)
        except Busy:
            return refused(503, 'busy')

    def search(self) -> Reply:
        """Waits."""
        self.begun += 1
        self.may.wait(600)
        return told({})


@unittest.skipUnless(has_loopback(), 'no sockets on 127.0.0.1 here')
class GoneReaders(unittest.TestCase):
    """A reader asks for what lasts, and doesn't wait for it, so that others have no answers."""

    def test_many_searches(self) -> None:
        """It resets 100 connections before the answer; another one's search must be taken, and be
        done before all those of whom nobody waits."""
        pages, listener = SlowPages(), listening_at(0)
        server = Server(listener, cast(Pages, pages))
        server.start()
        self.addCleanup(server.stop)
        self.addCleanup(pages.may.set)
        port = listener.getsockname()[1]
        for _ in range(100):
            with asked(port, '/record') as line:
                reset(line)
        found: list[socket.socket] = []

        def is_taken() -> bool:
            line = asked(port, '/record')
            self.addCleanup(line.close)
            line.settimeout(0.5)
            with contextlib.suppress(TimeoutError):
                self.assertIn(b' 503 ', line.recv(65536))
                return False
            found.append(line)
            return True

        until(is_taken, 'a search is taken')
        pages.may.set()
        found[0].settimeout(300)
        self.assertIn(b' 200 ', found[0].recv(65536))
        self.assertLess(pages.begun, 20)
