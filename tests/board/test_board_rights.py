"""Shows who may ask the board and command by it, and how it starts and is stopped."""
from __future__ import annotations

import json
import os
import signal
import socket
import subprocess
import sys
import unittest

from tests.support.board_run import TOOLS, Plant, Watching, has_loopback


class MayAsk(Watching):
    def test_another_name(self) -> None:
        """A page of another site whose name leads to this machine is refused, whatever it asks
        for."""
        for host in ('evil.example', '127.0.0.1', f'localhost:{self.board.port}.evil.example'):
            for method, target in (('GET', '/'), ('GET', '/data'), ('POST', '/do')):
                status, _, told = self.board.ask(
                    method, target, b'{}' if method == 'POST' else None, {'Host': host}
                )
                self.assertEqual(status, 421, (host, target))
                self.assertNotIn(b'token', told)
        self.assertEqual(
            self.board.ask('GET', '/data', None, {'Host': f'localhost:{self.board.port}'})[0], 200
        )

    def test_commands_of_another_page(self) -> None:
        body = json.dumps({'command': 'leave', 'values': {'load': 'L1', 'ref': 'R1'}}).encode()
        good = self.board.headers()
        wrong: tuple[dict[str, str], ...] = (
            {},
            {**good, 'Origin': 'https://evil.example'},
            {**good, 'Origin': 'null'},
            {'X-Board-Token': good['X-Board-Token']},
            {'Origin': good['Origin']},
            {**good, 'X-Board-Token': 'x'},
        )
        for headers in wrong:
            for path in ('/do', '/look', '/may'):
                self.assertEqual(
                    self.board.ask('POST', path, body, headers)[0], 403, (headers, path)
                )
        self.assertEqual(self.desk.load('L1').place, 'station A')
        self.assertEqual(self.board.ask('POST', '/may', b'{}', good)[0], 200)

    def test_nothing_from_elsewhere(self) -> None:
        """Every answer has the policy, and the page names nothing of another site and has no script
        or style in it."""
        for target in (
            '/',
            '/main.js',
            '/board.css',
            '/icon.svg',
            '/commands',
            '/data',
            '/nothing',
        ):
            _, headers, told = self.board.ask('GET', target)
            self.assertTrue(
                headers['Content-Security-Policy'].startswith("default-src 'self'; "), target
            )
            self.assertEqual(headers['X-Content-Type-Options'], 'nosniff')
            self.assertNotRegex(told.decode().replace('http://www.w3.org/', ''), 'https?://')
        page = self.board.ask('GET', '/')[2].decode()
        self.assertNotRegex(page, r'<script(?![^>]* src=)|<style| style=| on\w+=')

    def test_paths_and_bodies(self) -> None:
        for target in ('/../board', '/index.html', '/%2e%2e/board', '/board.py', '//etc/passwd'):
            self.assertEqual(self.board.ask('GET', target)[0], 404, target)
        good = self.board.headers()
        self.assertEqual(self.board.ask('POST', '/do', b'[]', good)[0], 400)
        self.assertEqual(self.board.ask('POST', '/do', b'{', good)[0], 400)
        self.assertEqual(self.board.ask('POST', '/do', b'x' * 262145, good)[0], 413)
        for query in ('since=abc', 'vehicle=KIT/0001', 'vehicle=%2e%2e'):
            self.assertEqual(self.board.ask('GET', '/data?' + query)[0], 200, query)


class ReadOnly(Watching):
    words = ('--read-only',)

    def test_no_commands(self) -> None:
        self.assertEqual(self.board.token(), '')
        self.assertEqual(json.loads(self.board.ask('GET', '/commands')[2]), [])
        origin = {'Origin': f'http://127.0.0.1:{self.board.port}'}
        body = json.dumps({'command': 'leave', 'values': {'load': 'L1', 'ref': 'R1'}}).encode()
        for headers in (origin, {**origin, 'X-Board-Token': ''}):
            self.assertEqual(self.board.ask('POST', '/do', body, headers)[0], 403)
        self.assertEqual(self.desk.load('L1').place, 'station A')


@unittest.skipUnless(has_loopback(), 'no sockets on 127.0.0.1 here')
class Starts(unittest.TestCase):
    def setUp(self) -> None:
        self.plant = Plant()
        self.addCleanup(self.plant.close)

    def told(self, *words: str) -> str:
        """What a board says that can't start."""
        line = [
            sys.executable,
            os.path.join(TOOLS, 'board'),
            '--db',
            self.plant.path('b.db'),
            '--port',
            '0',
            *words,
        ]
        done = subprocess.run(line, capture_output=True, text=True, timeout=600)
        self.assertEqual(
            (done.returncode, done.stdout, done.stderr.count('\n')), (1, '', 1), done.stderr
        )
        return done.stderr

    def test_what_it_can_not_have(self) -> None:
        bad = self.plant.path('bad.csv')
        with open(bad, 'w') as file:
            file.write('kind,id,from,to\nnode,N1,,\nedge,E1,N1,N2\n')
        self.assertIn('file is not a database', self.told('--db', bad))
        with socket.create_server(('127.0.0.1', 0)) as taken:
            port = str(taken.getsockname()[1])
            self.assertIn(f'port {port}: ', self.told('--port', port))
        self.assertIn('is not the address of a desk', self.told('--desk', 'ftp://x'))

    def test_it_is_stopped(self) -> None:
        for number in (signal.SIGINT, signal.SIGTERM):
            self.assertEqual(self.plant.board().stop(number), (0, ''))


if __name__ == '__main__':
    unittest.main()
