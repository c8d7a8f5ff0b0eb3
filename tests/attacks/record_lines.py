"""Shows that no command goes unrecorded by nginx, and that no user fills its log."""
from __future__ import annotations

import concurrent.futures
import contextlib
import itertools
import os
import socket
import time

from tests.support import proxies
from tests.support.behind_nginx import BODY, PLACE, ThroughNginx, asking, client_hello
from tests.support.programs import until
from tests.support.proxies import Told


class Record(ThroughNginx):
    """Who wants the record to lack a command, or to fill the disk."""

    def test_a_body_in_chunks(self) -> None:
        """A dispatcher sends a command in chunks, which nginx writes to a file, so that the record
        would lack it; it must be refused."""
        for tls in (False, True):
            for coding in ('chunked', 'CHUNKED', 'gzip, chunked'):
                head = [f'POST {PLACE} HTTP/1.1', f'Host: {self.proxy.host(tls)}']
                head += [proxies.basic('anna', 'anna!'), f'Transfer-Encoding: {coding}']
                parts = [*head, 'Connection: close', '', f'{len(BODY):x}', BODY, '0', '', '']
                with self.proxy.connect(tls) as connection:
                    connection.sendall('\r\n'.join(parts).encode())
                    self.assertIn(proxies.answered(connection).status, (411, 501), coding)
        self.goes_on()

    def test_by_nobody(self) -> None:
        """Without a password it sends long targets, claims long users, and comes from other sites;
        nothing of that must be kept in a file."""
        before = self.size()
        targets = ['/;' + '"' * 3000, '/x?' + '"' * 3000, PLACE]
        lines = ['Accept: */*', 'Origin: https://evil.example', 'Sec-Fetch-Site: cross-site']
        users = [None, '\x01' * 3000 + ':x']
        with concurrent.futures.ThreadPoolExecutor(6) as pool:
            asked = [
                pool.submit(self.proxy.ask, f'POST {target}', line, user=user, tls=tls, host=host)
                for target, line, user in itertools.product(targets, lines, users)
                for tls in (False, True)
                for host in (None, 'evil.example')
            ]
        self.assertLessEqual({one.result().status for one in asked}, {400, 401, 421, 429})
        # A command of a dispatcher is recorded after all these.
        self.assertEqual(self.proxy.ask(f'POST {PLACE}', user='anna', body=BODY).status, 200)
        self.recorded((PLACE, 'anna', '200'))
        self.assertEqual(len(self.proxy.records()), 1)
        self.assertLess(self.size() - before, 1000)

    def size(self) -> int:
        """The bytes of what nginx has written to files."""
        return sum(os.path.getsize(self.proxy.path(name)) for name in ('desk.log', 'error.log'))

    def test_by_tls_that_is_none(self) -> None:
        """Without a password it sends beginnings of TLS with one wrong byte, of which nginx would
        log many; nothing of that must be kept in a file, nor be told to the journal."""
        before, told = self.size(), len(self.proxy.errors())
        good = client_hello()
        for at in (9, *range(100, len(good), 13)):
            hello = bytearray(good)
            hello[at] = 2 if at == 9 else hello[at] ^ 0xFF
            with socket.create_connection(('127.0.0.1', self.proxy.tls_port), timeout=60) as line:
                line.sendall(hello)
                line.shutdown(socket.SHUT_WR)
                with contextlib.suppress(ConnectionResetError):
                    while line.recv(65536):
                        pass
        self.assertEqual(self.proxy.ask(f'POST {PLACE}', user='anna', body=BODY).status, 200)
        self.recorded((PLACE, 'anna', '200'))
        self.assertLess(self.size() - before, 1000)
        self.assertEqual(self.proxy.errors()[told:], '')

    def test_by_long_methods(self) -> None:
        """A reader sends requests with methods of 7,900 letters, and with others that no call has;
        none must be in the record."""
        before = self.size()
        for method in ('M' * 7900, 'PATCH', 'OPTIONS', 'HEAD'):
            self.assertEqual(self.statuses(f'{method} /', user='otto'), [405, 405], method[:9])
        self.assertEqual(self.proxy.ask(f'POST {PLACE}', user='anna', body=BODY).status, 200)
        self.recorded((PLACE, 'anna', '200'))
        self.assertEqual(len(self.proxy.records()), 1)
        self.assertLess(self.size() - before, 1000)

    def test_by_long_names(self) -> None:
        """Without a password it claims a name that is too long to be counted; it must be refused
        unlooked, and nothing be told to the journal."""
        told = len(self.proxy.errors())
        self.assertEqual(self.statuses('GET /report/stock', user='n' * 300 + ':x'), [400, 400])
        self.assertEqual(self.proxy.errors()[told:], '')

    def test_from_many_addresses(self) -> None:
        """A reader sends commands from three addresses without a pause; the record must grow by
        some fifty lines, and then by one in ten seconds."""
        begun = time.monotonic()
        with concurrent.futures.ThreadPoolExecutor(12) as pool:
            asked = [
                pool.submit(self.ask_from, f'127.0.0.{1 + number % 3}', f'POST {PLACE}')
                for number in range(120)
            ]
        statuses = [one.result().status for one in asked]
        self.assertEqual(set(statuses), {403, 429})
        most = 51 + (time.monotonic() - begun) / 10
        self.assertLessEqual(statuses.count(403), most)
        until(lambda: len(self.proxy.records()) >= statuses.count(403), 'all in the record')
        self.assertLessEqual(len(self.proxy.records()), most)

    def ask_from(self, address: str, request: str, user: str = 'otto') -> Told:
        """A request of a reader from one of the addresses of this machine."""
        with asking(self.proxy, address, request, user) as line:
            return proxies.answered(line)

    def test_by_a_user(self) -> None:
        """A reader sends commands and long targets; the record must have 300 characters of each
        target."""
        target = '/x?' + '"' * 3000
        with concurrent.futures.ThreadPoolExecutor(10) as pool:
            asked = [pool.submit(self.statuses, f'GET {target}', user='otto') for _ in range(15)]
        self.assertEqual({status for one in asked for status in one.result()}, {403})
        self.recorded((target[:300], 'otto', '403'))
