"""Attacks by the reports whose time grows with the loads: readers keep the desk at them, and want
what nginx keeps of them to be old, or to reach others."""
from __future__ import annotations

import concurrent.futures
import contextlib
import os
import socket
import stat
import struct
import threading
import time
import unittest

from tests.support import proxies
from tests.support.board_run import has_loopback, until
from tests.support.proxies import Proxy

REPORTS = '/export/loads', '/report/stock', '/export/jobs'
OTHERS = '/report/holds', '/export/vehicles', '/export/layout', '/loads/L1'
READERS = [f'reader{number}' for number in range(20)]
PERIOD = 2  # seconds for which nginx keeps a report


class DeskOfReports:
    """In the desk's place: answers each report by its number and the time at which it was asked
    for, once it may, and all others at once."""

    def __init__(self) -> None:
        self.may, self.status = threading.Event(), 200
        self.asked: list[str] = []
        self.listener = socket.create_server(('127.0.0.1', 0), backlog=100)
        self.port = self.listener.getsockname()[1]
        threading.Thread(target=self._serve, daemon=True).start()

    def _serve(self) -> None:
        with contextlib.suppress(OSError):
            while True:
                line, _ = self.listener.accept()
                threading.Thread(target=self._answer, args=(line,), daemon=True).start()

    def _answer(self, line: socket.socket) -> None:
        with line, contextlib.suppress(OSError):
            target = line.recv(65536).split(b' ')[1].decode()
            body = '{}'
            if target in REPORTS:
                self.asked.append(target)
                body = f'{len(self.asked)} {time.time()}'
                self.may.wait(600)
            head = f'HTTP/1.1 {self.status} Told\r\nContent-Length: {len(body)}\r\n'
            line.sendall(f'{head}Connection: close\r\n\r\n{body}'.encode())

    def close(self) -> None:
        """Ends it."""
        self.may.set()
        with contextlib.suppress(OSError):
            self.listener.shutdown(socket.SHUT_RDWR)
        self.listener.close()


@unittest.skipUnless(has_loopback(), 'no sockets on 127.0.0.1 here')
@unittest.skipIf(proxies.MISSING, proxies.WHY)
class BeforeReports(unittest.TestCase):
    """nginx with 20 readers, before something in the desk's place."""

    def setUp(self) -> None:
        self.desk = DeskOfReports()
        self.addCleanup(self.desk.close)
        self.proxy = Proxy(self.desk.port, 1)
        self.addCleanup(self.proxy.close)
        for reader in READERS:
            self.proxy.add_user(reader, '')

    def dispatches(self) -> None:
        """A dispatcher's call is answered."""
        self.assertEqual(self.proxy.ask('POST /loads', user='anna', body='{}').status, 200)

    def report(self, target: str, *lines: str, user: str = 'otto') -> str:
        """A report, which is answered."""
        told = self.proxy.ask(f'GET {target}', *lines, user=user)
        self.assertEqual(told.status, 200, (target, lines))
        return told.body.decode()


class ReportsOfReaders(BeforeReports):
    """Readers want the desk to have no time but for their reports."""

    def leave(self, target: str, user: str) -> None:
        """Asks for a report, and resets the connection at once."""
        head = [f'GET {target} HTTP/1.1', f'Host: {self.proxy.host(False)}']
        head += [proxies.basic(user, f'{user}!'), '', '']
        with self.proxy.connect(False) as line:
            line.setsockopt(socket.SOL_SOCKET, socket.SO_LINGER, struct.pack('ii', 1, 0))
            line.sendall('\r\n'.join(head).encode())
            self.dispatches()

    def test_without_a_pause(self) -> None:
        """Twenty of them ask 200 times for the same report; the desk must be asked once in two
        seconds, and the readers be answered."""
        self.desk.may.set()
        begun = time.time()
        with concurrent.futures.ThreadPoolExecutor(len(READERS)) as pool:
            asked = [
                pool.submit(self.proxy.ask, 'GET /export/loads', user=reader)
                for reader in READERS * 10
            ]
        statuses = [one.result().status for one in asked]
        self.assertLessEqual(len(self.desk.asked), (time.time() - begun) / PERIOD + 2)
        self.assertGreater(statuses.count(200), 150)

    def test_without_waiting(self) -> None:
        """Each closes its connection before the answer, and others ask for other reports; one of
        all these must be at the desk at a time."""
        for number, reader in enumerate(READERS):
            self.leave(REPORTS[number % 3 if number > 9 else 0], reader)
        self.assertEqual(self.desk.asked, ['/export/loads'])
        self.desk.may.set()

        def is_answered() -> bool:
            return self.proxy.ask('GET /report/stock', user='otto').status == 200

        until(is_answered, 'a reader has its report')

    def test_who_holds_the_others(self) -> None:
        """Eight of them have two reports under way each; another reader must be answered what is
        short, and a gateway which vehicles there are."""
        with concurrent.futures.ThreadPoolExecutor(16) as pool:
            for reader in READERS[:8] * 2:
                pool.submit(self.proxy.ask, 'GET /export/loads', user=reader)
            until(lambda: bool(self.desk.asked), 'a report is at the desk')
            told = [
                self.proxy.ask(f'GET {target}', user=user).status
                for target in OTHERS
                for user in ('otto', 'gate')
            ]
            self.desk.may.set()
        self.assertEqual(set(told), {200})


class KeptReports(BeforeReports):
    """Somebody wants what nginx keeps of a report to reach others, or to be old or wrong."""

    def setUp(self) -> None:
        super().setUp()
        self.desk.may.set()

    def numbers(self, user: str, target: str = '/export/loads') -> set[str]:
        """Which reports a user gets who asks four times."""
        return {self.report(target, user=user).split()[0] for _ in range(4)}

    def test_without_a_right(self) -> None:
        """Who has no password, or comes from another site, asks for a report that is kept; it must
        get nothing of it."""
        host, foreign = self.proxy.host(False), 'Origin: https://evil.example'
        for user, line, name, wanted in (
            (None, 'Accept: */*', host, 401),
            ('otto:x', 'Accept: */*', host, 401),
            ('otto', foreign, host, 403),
            ('otto', 'Sec-Fetch-Site: cross-site', host, 403),
            ('otto', 'Accept: */*', 'evil.example', 421),
        ):
            kept = self.report('/export/loads').encode()
            told = self.proxy.ask('GET /export/loads', line, user=user, host=name)
            self.assertEqual(told.status, wanted)
            self.assertNotIn(kept, told.body)
        self.assertEqual(stat.S_IMODE(os.stat(self.proxy.path('kept')).st_mode), 0o700)

    def test_of_a_dispatcher(self) -> None:
        """A dispatcher and a gateway look at what they did, while readers ask; each answer must be
        the desk's own."""
        for user in ('anna', 'gate'):
            for target in REPORTS:
                self.report(target)
                self.assertEqual(len(self.numbers(user, target)), 4)

    def test_other_bytes(self) -> None:
        """A reader asks by other targets, methods and lines; the desk must not be asked more often
        by them, and no other reader get a part of a report."""
        for target in ('/export/loads?x', '/export/loads/', '/Export/loads', '/export//loads'):
            self.assertIn(self.proxy.ask(f'GET {target}', user='otto').status, (400, 403))
        self.assertEqual(self.proxy.ask('HEAD /export/loads', user='otto').status, 405)
        self.assertEqual(self.desk.asked, [])
        begun, found = time.time(), set()
        for line in (
            'Range: bytes=0-0',
            'Range: bytes=0-,0-,0-',
            'If-Modified-Since: Thu, 01 Jan 2099 00:00:00 GMT',
            'Cache-Control: no-cache, no-store, max-age=0',
            'Pragma: no-cache',
            'Accept-Encoding: gzip',
            'Cookie: a=b',
            'X-Forwarded-Host: evil.example',
        ):
            found |= {self.report('/export/loads', line), self.report('/export/loads')}
        self.assertLessEqual(len(self.desk.asked), (time.time() - begun) / PERIOD + 2)
        self.assertEqual(len(found), len(self.desk.asked))

    def test_an_old_report(self) -> None:
        """A reader asks until three reports were kept; none may be older than two seconds."""
        found: set[str] = set()

        def have_been() -> bool:
            asked_at = time.time()
            number, made_at = self.report('/export/loads').split()
            found.add(number)
            self.assertLess(asked_at - float(made_at), PERIOD)
            return len(found) == 3

        until(have_been, 'three reports were kept')

    def test_a_fault(self) -> None:
        """The desk answers a fault, or is down for a moment; that must not be kept."""
        for status in (404, 500, 503):
            self.desk.status = status
            told = self.proxy.ask('GET /report/stock', user='otto')
            self.assertEqual(told.status, status)
        self.desk.status = 200
        self.report('/report/stock')


if __name__ == '__main__':
    unittest.main()
