"""Attacks on the record of commands, and on the disk that it is on: on nginx as Debian has it, set
up by docs/OPERATE.md."""
from __future__ import annotations

import collections
import concurrent.futures
import contextlib
import json
import os
import re
import signal
import socket
import subprocess
import tempfile
import unittest

from tests.support import installed_nginx, proxies
from tests.support.board_run import has_loopback, until
from tests.support.desks import Serving
from tests.support.installed_nginx import InstalledNginx
from tests.support.programs import ROOT, free_port

OTHER_SITE = """server {{
    listen 127.0.0.1:{port};
    return 204;
}}
"""
LONG = '"' * 7000  # nginx writes each of them as four bytes


@unittest.skipUnless(has_loopback(), 'no sockets on 127.0.0.1 here')
@unittest.skipIf(proxies.MISSING, proxies.WHY)
@unittest.skipUnless(installed_nginx.IS_DEBIAN, 'no nginx of Debian here')
class OfDebian(unittest.TestCase):
    """A desk behind nginx as Debian has it, after the steps of the page."""

    def setUp(self) -> None:
        folder = tempfile.TemporaryDirectory()
        self.addCleanup(folder.cleanup)
        desk = Serving(os.path.join(folder.name, 'warehouse.db'))
        self.enterContext(desk)
        self.nginx = InstalledNginx(desk.port)
        self.addCleanup(self.nginx.close)

    def recorded(self, load: str) -> bool:
        """Whether the command that registers a load is in the record."""
        with open(self.nginx.path('record/desk.log'), encoding='utf-8') as file:
            bodies = [json.loads(line)['body'] for line in file]
        return json.dumps({'load': load}) in bodies


class OtherSites(OfDebian):
    """Who has no password wants to fill the disk by a site of nginx that is not the desk's."""

    def setUp(self) -> None:
        super().setUp()
        self.other = free_port()
        self.nginx.add_site(OTHER_SITE.format(port=self.other))
        self.nginx.start()

    def test_ports(self) -> None:
        """It looks for the site that Debian has on port 80; nginx must listen on the ports of the
        desk's sites alone, and on that of the site which was added."""
        ports = {port for _, port in self.nginx.listens()}
        self.assertEqual(ports, {self.nginx.port, self.nginx.tls_port, self.other})

    def test_long_requests(self) -> None:
        """It sends requests of 14 kB to each port on which nginx listens; no file of the logs may
        grow by them."""
        before = self.nginx.sizes()
        for family, port in self.nginx.listens():
            for head in (f'GET /{LONG} HTTP/1.1', 'GET / HTTP/1.1', 'GET /'):
                self.send(family, port, f'{head}\r\nHost: x\r\nUser-Agent: {LONG}\r\n\r\n')
        told = self.nginx.ask('POST', '/loads', {'load': 'L1'}, 'anna')
        self.assertEqual(told, (200, b'{}'))
        until(lambda: self.recorded('L1'), 'the command in the record')
        after = self.nginx.sizes()
        self.assertLess(after.pop('record/desk.log'), 1000)
        self.assertEqual(after, {name: before[name] for name in after})

    @staticmethod
    def send(family: int, port: int, request: str) -> None:
        """Sends a request, and waits for the end of the answer."""
        address = '127.0.0.1' if family == socket.AF_INET else '::1'
        with socket.create_connection((address, port), timeout=60) as line:
            line.sendall(request.encode())
            with contextlib.suppress(ConnectionResetError):
                line.shutdown(socket.SHUT_WR)
                while line.recv(65536):
                    pass


class RefusedReader(OfDebian):
    """A reader wants to fill the disk by the record of what is refused to its role."""

    def test_many_commands(self) -> None:
        """It asks for what it may not as fast as it can, by long targets: some are recorded, and
        the others are refused without a line; a dispatcher's command is in the record."""
        self.nginx.add_user('rick', '')
        self.nginx.start()
        self.assertEqual(self.nginx.ask('GET', '/report/holds', user='rick')[0], 200)
        target = '/x?' + '"' * 290

        def ask(number: int) -> int:
            return self.nginx.ask('POST', f'{target}{number}', {}, 'rick')[0]

        with concurrent.futures.ThreadPoolExecutor(8) as pool:
            statuses = collections.Counter(pool.map(ask, range(400)))
        self.assertLessEqual(set(statuses), {403, 404, 429})
        self.assertGreaterEqual(statuses[429], 250)
        self.assertEqual(self.nginx.ask('POST', '/loads', {'load': 'L1'}, 'anna'), (200, b'{}'))
        until(lambda: self.recorded('L1'), 'the command in the record')
        self.assertLess(self.nginx.sizes()['record/desk.log'], 120_000)


class OddBytes(OfDebian):
    """A dispatcher wants a line of the record that no program reads, or that steers the terminal of
    who reads it."""

    def test_by_the_command_of_the_page(self) -> None:
        """The body of a command that is refused has bytes that are no UTF-8, and controls of
        terminals; read as the page says, each line is JSON, without such bytes."""
        self.nginx.start()
        for odd in (b'\xff', b'\xc2\x9b31m', b'\x7f', b'\xe2\x80\xae', b'\x1b[2J', b'\0', b'\n"'):
            told = self.nginx.ask_with('POST', '/loads', b'{"load":"' + odd + b'"}', 'anna')
            self.assertEqual(told[0], 400)
        self.nginx.ask('POST', '/loads', {'load': 'L1'}, 'anna')
        with open(os.path.join(ROOT, 'docs', 'OPERATE.md'), encoding='utf-8') as page:
            (command,) = re.findall("read the log by `([^`]*)`", page.read())
        record = self.nginx.path('record')

        def lines() -> list[str]:
            done = subprocess.run(
                ['sh', '-c', command], cwd=record, capture_output=True, check=True
            )
            return done.stdout.decode('ascii').splitlines()

        until(lambda: len(lines()) == 8, 'all commands in the record')
        for line in lines():
            self.assertTrue(line.isprintable())
            self.assertEqual(json.loads(line)['user'], 'anna')
        self.assertEqual(json.loads(json.loads(lines()[-1])['body']), {'load': 'L1'})


@unittest.skipIf(os.geteuid(), 'only root starts nginx with workers of another user')
class RotatedRecord(OfDebian):
    """A dispatcher gives commands after the record was rotated, and denies them later."""

    def test_after_a_rotation(self) -> None:
        """The record is rotated as by logrotate, while nginx goes on; commands must be in the new
        file, and not in the old one."""
        self.nginx.start()
        record = self.nginx.path('record/desk.log')
        found = os.stat(record)
        for number in range(3):
            load = f'L{number}'
            told = self.nginx.ask('POST', '/loads', {'load': load}, 'anna')
            self.assertEqual(told, (200, b'{}'))
            until(lambda: self.recorded(load), 'the command in the new record')
            os.rename(record, f'{record}.{number}')
            os.close(os.open(record, os.O_CREAT | os.O_EXCL, 0o640))
            os.chown(record, found.st_uid, found.st_gid)
            self.rotate()

    def rotate(self) -> None:
        """Has nginx open its files anew, and waits until each of its processes has."""
        os.kill(self.nginx.process.pid, signal.SIGUSR1)
        until(lambda: not self.old_files(), 'no process of nginx has a rotated file')

    def old_files(self) -> list[str]:
        """Rotated files that a process of nginx still has open."""
        found = []
        for pid in self.nginx.processes():
            folder = f'/proc/{pid}/fd'
            for name in os.listdir(folder):
                with contextlib.suppress(FileNotFoundError):
                    link = os.readlink(os.path.join(folder, name))
                    found += [link] * ('desk.log.' in link)
        return found
