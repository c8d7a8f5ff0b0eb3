"""Shows that readers, and those without a password, keep the desk, its disk and nginx from
nobody."""
from __future__ import annotations

import contextlib
import glob
import os
import socket
import ssl
import statistics
import struct
import subprocess
import sys
import threading
import time
import unittest

from tests.support import proxies
from tests.support.behind_nginx import FLOOD, ThroughNginx, asking
from tests.support.board_run import Plant, has_loopback, until
from tests.support.programs import free_port
from tests.support.proxies import Proxy

SECOND, SLOWER = 1.0, 100.0  # how long a call may take, and how many times as long as elsewhere
LARGE = 10_000_000  # bytes of a report: more than waits in memory, and in the kernel


class LargeDesk:
    """In the desk's place: answers each request with a report of LARGE bytes, one after another."""

    def __init__(self) -> None:
        self.listener = socket.create_server(('127.0.0.1', 0), backlog=100)
        self.port = self.listener.getsockname()[1]
        threading.Thread(target=self._serve, daemon=True).start()

    def _serve(self) -> None:
        head = f'HTTP/1.1 200 OK\r\nContent-Length: {LARGE}\r\nConnection: close\r\n\r\n'
        with contextlib.suppress(OSError):
            while True:
                line, _ = self.listener.accept()
                with line, contextlib.suppress(OSError):
                    line.recv(65536)
                    line.sendall(head.encode() + bytes(LARGE))

    def close(self) -> None:
        """Ends it."""
        with contextlib.suppress(OSError):
            self.listener.shutdown(socket.SHUT_RDWR)
        self.listener.close()


@unittest.skipUnless(has_loopback(), 'no sockets on 127.0.0.1 here')
@unittest.skipIf(proxies.MISSING, proxies.WHY)
class UnreadReports(unittest.TestCase):
    """Readers ask for reports and don't read them, so that nginx keeps them in files."""

    def setUp(self) -> None:
        self.desk = LargeDesk()
        self.addCleanup(self.desk.close)
        self.proxy = Proxy(self.desk.port, 1)
        self.addCleanup(self.proxy.close)

    def waits(self, address: str, user: str) -> int:
        """Asks for the export, and reads only the status. The connection stays."""
        line = asking(self.proxy, address, 'GET /export/loads', user)
        self.addCleanup(line.close)
        kept = b''
        while len(kept) < 12:
            kept += line.recv(12 - len(kept))
        return int(kept.split()[1])

    def kept(self, count: int) -> None:
        """So many whole reports wait in files."""
        until(lambda: self.bytes_kept() >= count * LARGE, f'{count} reports in files')

    def bytes_kept(self) -> int:
        """The bytes of the files of reports that nginx has open."""
        found, folders = 0, (self.proxy.path('proxied'), self.proxy.path('kept'))
        for folder in glob.glob('/proc/[0-9]*'):
            with contextlib.suppress(OSError):
                with open(os.path.join(folder, 'stat'), encoding='utf-8') as file:
                    if int(file.read().rpartition(')')[2].split()[1]) != self.proxy.process.pid:
                        continue
                for name in glob.glob(os.path.join(folder, 'fd', '*')):
                    with contextlib.suppress(OSError):
                        if os.readlink(name).startswith(folders):
                            found += os.stat(name).st_size
        return found

    def test_of_a_reader(self) -> None:
        """It asks at 3 addresses; 2 reports must wait, and another reader have its own."""
        for number in range(2):
            self.assertEqual(self.waits(f'127.0.0.{1 + number}', 'otto'), 200)
            self.kept(number + 1)
        for number in range(6):
            self.assertEqual(self.waits(f'127.0.0.{1 + number % 3}', 'otto'), 429)
        told = self.proxy.ask('GET /export/loads', user='ANNA')
        self.assertEqual((told.status, len(told.body)), (200, LARGE))
        self.assertLess(self.bytes_kept(), 3 * LARGE)

    def test_of_many_readers(self) -> None:
        """Nine of them ask for two reports each; 16 must wait, and a dispatcher have its own."""
        for reader in range(9):
            self.proxy.add_user(f'reader{reader}', '')
        for number in range(16):
            self.assertEqual(self.waits('127.0.0.1', f'reader{number // 2}'), 200)
            self.kept(number + 1)
        self.assertEqual(self.waits('127.0.0.2', 'reader8'), 429)
        told = self.proxy.ask('GET /export/loads', user='anna')
        self.assertEqual((told.status, len(told.body)), (200, LARGE))

    def test_by_a_claimed_name(self) -> None:
        """Without a password somebody asks for reports in the name of a reader, on 60 connections;
        the reader must have its own."""
        for _ in range(60):
            self.addCleanup(asking(self.proxy, '127.0.0.2', 'GET /export/loads', 'otto:x').close)
        told = self.proxy.ask('GET /export/loads', user='otto')
        self.assertEqual((told.status, len(told.body)), (200, LARGE))


class BusyBoard:
    """In the board's place: answers dispatchers, and keeps all others waiting."""

    def __init__(self, port: int) -> None:
        self.listener = socket.create_server(('127.0.0.1', port), backlog=300)
        self.waiting: list[socket.socket] = []
        threading.Thread(target=self._serve, daemon=True).start()

    def _serve(self) -> None:
        with contextlib.suppress(OSError):
            while True:
                line, _ = self.listener.accept()
                if b'X-User: anna\r\n' in line.recv(65536):
                    line.sendall(b'HTTP/1.1 200 OK\r\nContent-Length: 0\r\n\r\n')
                    line.close()
                else:
                    self.waiting.append(line)

    def close(self) -> None:
        """Ends it."""
        with contextlib.suppress(OSError):
            self.listener.shutdown(socket.SHUT_RDWR)
        for line in [self.listener, *self.waiting]:
            line.close()


@unittest.skipUnless(has_loopback(), 'no sockets on 127.0.0.1 here')
@unittest.skipIf(proxies.MISSING, proxies.WHY)
class PagesOfReaders(unittest.TestCase):
    """Readers ask for pages of the board from many addresses, so that it has no connection for
    others."""

    def setUp(self) -> None:
        self.board = BusyBoard(free_port())
        self.addCleanup(self.board.close)
        self.proxy = Proxy(1, self.board.listener.getsockname()[1])
        self.addCleanup(self.proxy.close)
        self.asked = 0

    def status(self, user: str, target: str = '', leaves: bool = False) -> int | None:
        """Asks for a page, or for a target, from an address that changes; what is answered, or None
        once it waits at the board. Who leaves resets the connection then."""
        self.asked += 1
        before = len(self.board.waiting)
        plain = socket.socket()
        plain.bind((f'127.0.0.{2 + self.asked % 20}', 0))
        plain.connect(('127.0.0.1', self.proxy.tls_port))
        context = ssl.create_default_context(cafile=self.proxy.path('server.pem'))
        line = context.wrap_socket(plain, server_hostname='127.0.0.1')
        self.addCleanup(line.close)
        target = target or ('/board/data?run=&since=0', '/board/commands')[self.asked % 2]
        head = [f'GET {target} HTTP/1.1', f'Host: {self.proxy.host(True)}']
        head += [proxies.basic(user, f'{user}!'), 'Connection: close', '', '']
        line.sendall('\r\n'.join(head).encode())
        line.settimeout(0.05)
        found: list[int] = []

        def is_over() -> bool:
            with contextlib.suppress(TimeoutError):
                found.append(int(line.recv(12).split()[1]))
            return bool(found) or len(self.board.waiting) > before

        until(is_over, 'the request is answered, or waits at the board')
        if leaves:
            line.setsockopt(socket.SOL_SOCKET, socket.SO_LINGER, struct.pack('ii', 1, 0))
            line.close()
        return found[0] if found else None

    def test_from_many_addresses(self) -> None:
        """A reader has 32 pages under way from all addresses together, and all readers 64: another
        reader has its own, and a dispatcher is answered."""
        self.proxy.add_user('reader', '')
        self.assertEqual({self.status('otto') for _ in range(32)}, {None})
        self.assertEqual({self.status('otto') for _ in range(3)}, {429})
        self.assertEqual({self.status('ANNA') for _ in range(32)}, {None})
        self.assertEqual(self.status('reader'), 502)
        self.assertEqual(self.status('anna'), 200)
        self.assertEqual(len(self.board.waiting), 64)

    def test_without_waiting(self) -> None:
        """A reader asks for pages, searches and histories, and resets each connection before the
        answer; 32 of these must be at the board, 2 of them searches, and another reader be
        served."""
        asked = [self.status('otto', '/board/record?text=x', leaves=True) for _ in range(10)]
        asked += [self.status('otto', '/board/history?load=L1', leaves=True) for _ in range(10)]
        asked += [self.status('otto', leaves=True) for _ in range(30)]
        self.assertEqual(asked[:3] + asked[-3:], [None, None, 429, 429, 429, 429])
        self.assertEqual(len(self.board.waiting), 32)
        self.assertIsNone(self.status('ANNA'))

    def test_streams_without_waiting(self) -> None:
        """A reader opens streams of events and resets each; their connections to the board must
        end, and its next one be served."""
        for _ in range(8):
            self.assertIsNone(self.status('otto', '/board/api/events/stream', leaves=True))
        for line in self.board.waiting:
            line.settimeout(60)
            self.assertEqual(line.recv(1), b'')
        self.assertIsNone(self.status('otto', '/board/api/events/stream'))


class SilentConnections(ThroughNginx):
    """Who has no password opens connections and keeps them."""

    def test_without_a_whole_head(self) -> None:
        """It sends nothing, a byte, or a part of a head, and waits, or another Host; each
        connection must be ended long before a minute."""
        part = b'GET / HTTP/1.1\r\nHost: '
        kept = []
        for tls in (False, True):
            for data in (b'', b'G', part, part + b'evil.example\r\n\r\n'):
                kept.append(self.proxy.connect(tls))
                kept[-1].sendall(data)
        for data in (b'', b'\x16', b'\x16\x03\x01'):
            kept.append(socket.create_connection(('127.0.0.1', self.proxy.tls_port)))
            kept[-1].sendall(data)
        end = time.monotonic() + 45
        for one in kept:
            with one:
                one.settimeout(max(end - time.monotonic(), 0.1))
                with contextlib.suppress(ConnectionResetError, ssl.SSLError):
                    while one.recv(65536):
                        pass

    def test_on_this_machine(self) -> None:
        """A program of the machine keeps 80 connections to the server without TLS waiting, under
        other names; a dispatcher must be answered there."""
        kept = []
        for number in range(80):
            head = ['GET /report/stock HTTP/1.1', f'Host: {self.proxy.host(False)}']
            head += [proxies.basic(f'u{number}', 'x'), '', '']
            kept.append(self.proxy.connect(False))
            kept[-1].sendall('\r\n'.join(head).encode())
        told = self.proxy.ask('GET /report/stock', user='anna')
        for one in kept:
            one.close()
        self.assertEqual(told.status, 200)


class Starvation(ThroughNginx):
    """A reader wants the desk to have no time for others."""

    def test_600_connections(self) -> None:
        """It asks for the export on 600 connections without a pause; a call of a dispatcher must
        take less than a second."""
        for number in range(2, 400):
            self.plant.desk.register_load(f'X{number}')
        other = Plant()
        self.addCleanup(other.close)
        beside = Proxy(other.port, self.board_port)
        self.addCleanup(beside.close)
        lines = ['GET /export/loads HTTP/1.1', f'Host: {self.proxy.host(False)}']
        request = '|'.join([*lines, proxies.basic('otto', 'otto!'), '', ''])
        line = [sys.executable, '-c', FLOOD, str(self.proxy.port), '600', request]
        with subprocess.Popen(line, stdout=subprocess.PIPE) as flood:
            try:
                assert flood.stdout is not None
                flood.stdout.readline()
                time.sleep(1)
                calls = [(self.call(self.proxy, at), self.call(beside, at)) for at in range(15)]
                self.assertIsNone(flood.poll())
            finally:
                flood.kill()
        took, elsewhere = (statistics.median(times) for times in zip(*calls))
        # where the machine has no time for its programs, a call of a desk beside takes long, too
        self.assertLess(took, max(SECOND, SLOWER * elsewhere))

    def call(self, proxy: Proxy, number: int) -> float:
        """The seconds that a command of a dispatcher takes."""
        begun = time.monotonic()
        told = proxy.ask('POST /loads', user='anna', body=f'{{"load":"Y{number}"}}')
        self.assertEqual(told.status, 200)
        return time.monotonic() - begun
