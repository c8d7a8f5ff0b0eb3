"""Shows that `tools/ask` sends no value of a wrong type or form, and prints no escape of
another."""
from __future__ import annotations

import json
import os
import subprocess
import sys
import tempfile
from collections.abc import Callable
from typing import Any

from nulvrader.common import names
from nulvrader.common.names import VehicleKey
from nulvrader.desk import client
from tests.support.desk_answers import KIT, STOCK
from tests.support.desks import over_sockets
from tests.support.programs import PATIENCE, TOOLS, module, within
from tests.support.wrong_server import Attack, SECONDS, Server, asks, http, is_plain


class WrongValues(Attack):
    """Values of a wrong type or form: they are refused with a sentence before anything is sent."""

    BAD: list[Any] = ['garbage\n', 'a b', '', '\ud800', 33 * 'x', 7, True, ['L1'], {}, b'L1', 1.5]
    NUMBERS: list[Any] = ['x', '1', -1, 2**32, 10**5000, True, 1.0, None, [1], float('nan')]

    def setUp(self) -> None:
        self.server = Server(http(b'{}'))
        self.addCleanup(self.server.__exit__)
        self.desk = client.Desk(self.server.address, timeout=PATIENCE)

    def refuses(self, call: Callable[..., object], values: list[Any]) -> None:
        for value in values:
            with self.subTest(type(value)), self.assertRaises(client.BadValue) as caught:
                call(value)
            self.assertTrue(is_plain(str(caught.exception)))
            self.assertLess(len(str(caught.exception)), 300)
        self.assertEqual(self.server.asked, 0)

    def test_names(self) -> None:
        desk = self.desk
        calls: list[Callable[..., object]] = [
            desk.register_load,
            desk.load,
            desk.stop_job,
            desk.job,
            lambda bad: desk.register_load('L1', bad),
            lambda bad: desk.register_vehicle(KIT, bad),
            lambda bad: desk.correct_load(bad, 'R1'),
            lambda bad: desk.correct_load('L1', bad),
            lambda bad: desk.leave_load('L1', bad),
            lambda bad: desk.leave_load(bad, 'R1'),
            lambda bad: desk.add_job(bad, 'L1', 'B'),
            lambda bad: desk.add_job('J1', bad, 'B'),
            lambda bad: desk.add_job('J1', 'L1', bad),
            lambda bad: desk.start_order(bad, KIT, job='J1', edges=1),
            lambda bad: desk.start_order('O1', KIT, job=bad, edges=1),
            lambda bad: desk.start_order_of_stops(
                'O1', KIT, stops=[client.Stop('pick', bad)], edges=1
            ),
            lambda bad: desk.start_order_of_stops(
                'O1', KIT, stops=[client.Stop(bad, 'J1')], edges=1
            ),
            lambda bad: desk.start_order_of_stops('O1', KIT, stops=[bad], edges=1),
            lambda bad: desk.start_drive(bad, KIT, 'N1', 1),
            lambda bad: desk.start_drive('O1', KIT, bad, 1),
            lambda bad: desk.start_drive('O1', VehicleKey('KIT', bad), 'N1', 1),
            lambda bad: desk.advance(KIT, bad, 1, 1),
            lambda bad: desk.place(KIT, bad, 'N1'),
            lambda bad: desk.place(KIT, 'R1', bad),
            lambda bad: desk.stocktake(bad, b''),
            names.VehicleKey.parse,
            desk.cancel,
            desk.vehicle,
            desk.order_message,
            lambda bad: desk.resync(VehicleKey(bad, '0001')),
            lambda bad: desk.pause(VehicleKey('KIT', bad)),
        ]
        for call in calls:
            self.refuses(call, self.BAD)

    def test_numbers(self) -> None:
        desk = self.desk
        self.refuses(lambda bad: desk.start_order('O1', KIT, job='J1', edges=bad), self.NUMBERS)
        self.refuses(lambda bad: desk.start_drive('O1', KIT, 'N1', bad), self.NUMBERS)
        self.refuses(lambda bad: desk.advance(KIT, 'O1', bad, 1), self.NUMBERS)
        self.refuses(lambda bad: desk.advance(KIT, 'O1', 1, bad), self.NUMBERS)
        wrong = [value for value in self.NUMBERS if value is not None]
        self.refuses(lambda bad: desk.register_vehicle(KIT, 'N1', bad), wrong)

    def test_10_000_stops(self) -> None:
        stops = 10_000 * [client.Stop('pick', 'J1')]
        self.refuses(
            lambda bad: self.desk.start_order_of_stops('O1', KIT, stops=bad, edges=1), [stops]
        )

    def test_bodies(self) -> None:
        nested: list[Any] = []
        for _ in range(5000):
            nested = [nested]
        states = [[], 'x', {'a': nested}, {'a': float('nan')}, {'a': {1}}, {'a': '\ud800'}]
        states += [{'a': 70_000 * 'x'}]
        self.refuses(lambda bad: self.desk.post_state(KIT, bad), states)
        self.refuses(self.desk.set_layout, [70_000 * b'x', 'kind,id,from,to\n', None])

    def test_requests(self) -> None:
        """A line end in a target or a method would begin another header."""
        for target in ('/a b', '/a\r\nX: y', 'loads', '', '/\ud800', '/é'):
            self.refuses(lambda bad: self.desk.ask('GET', bad), [target])
        self.refuses(
            lambda bad: self.desk.ask(bad, '/loads/L1'), ['GET /x HTTP/1.1\r\n', 'get', '']
        )

    def test_ask(self) -> None:
        for words in (
            ('load', 'bad\n'),
            ('vehicle', 'garbage'),
            ('advance', 'KIT/0001', '--edges', '9' * 5000),
            ('advance', 'KIT/0001', '--edges', '²'),
            ('place', 'KIT/0001', '--node', '\x1b[31mN1'),
            ('call', 'POST', '/loads', 100_000 * '['),
            ('call', 'POST', '/loads', 900 * '{"a":'),
            ('call', 'GET', '/loads/L1\r\nX: y'),
            ('--unchecked', 'call', 'GET', '/loads/L1\r\nX: y'),
        ):
            with self.subTest(words[:3]):
                status, out, said, _ = asks(*words, address=self.server.address)
                self.assertEqual((status, out), (2, ''), said)
                self.assertNotIn('Traceback', said)
                self.assertTrue(is_plain(said), repr(said))
                self.assertLess(len(said), 1500)
        self.assertEqual(self.server.asked, 0)


ESCAPES = '\x1b]0;title\x07\x1b[2J\x9b31m\r\nask: done\u202e\u2066\x7f\x00'


@over_sockets
class TerminalEscapes(Attack):
    """Texts of the server, and of files, with escapes, line ends and bidirectional controls: none
    of them reaches the terminal."""

    def test_answers(self) -> None:
        bad = ESCAPES.encode()
        told = json.dumps({'name': 'Held', 'refusal': 33, 'by': ESCAPES, 'what': ESCAPES}).encode()
        for what, said in {
            'a body': http(bad),
            'a refusal': http(bad, '404 Not Found'),
            'members of a refusal': http(told, '409 Conflict'),
            'the name of a refusal': http(told.replace(b'Held', b'\\u001b[31m'), '409 Conflict'),
            'an unknown refusal': http(b'{"name":"%s","refusal":33}' % bad, '409 Conflict'),
            'a status line': b'HTTP/1.1 200' + bad.replace(b'\n', b'') + b'\r\n\r\n',
            'a protocol': bad.replace(b'\n', b'') + b'\r\n\r\n',
            'a header': http(
                b'{}', '302 Found', b'Location: ' + bad.replace(b'\r\n', b'') + b'\r\n'
            ),
            'a report': http(STOCK.replace(b'L1', bad)),
        }.items():
            for command in (
                'load L1',
                'stock-report',
                'call GET /loads/L1',
                '--json call GET /loads/L1',
            ):
                with self.subTest(f'{what}, {command}'), Server(said) as server:
                    status, out, told_so, _ = asks(*command.split(), address=server.address)
                    self.assertIn(status, (1, 3))
                    self.assertTrue(is_plain(out + told_so), repr(out + told_so))
                    lines = told_so.splitlines()
                    self.assertTrue(
                        len(lines) <= 2 and all(one.startswith('ask: ') for one in lines)
                    )

    def test_names_of_files(self) -> None:
        name = ESCAPES.replace('\x00', '').replace('/', '')
        for words in (
            ('ask', 'set-layout', name),
            ('ask', '--password-file', name, 'vehicles'),
            ('ask', name),
            ('check-layout', name),
            ('dispatch', '--desk', name),
        ):
            with self.subTest(words):
                line = [sys.executable, os.path.join(TOOLS, words[0]), *words[1:]]
                done = subprocess.run(line, capture_output=True, text=True, timeout=SECONDS)
                self.assertEqual((done.returncode, done.stdout), (2, ''))
                self.assertTrue(is_plain(done.stderr), repr(done.stderr))

    def test_files(self) -> None:
        """Fields of a layout, and of a file of a count."""
        ask, check = module('ask'), module('check-layout')
        with tempfile.TemporaryDirectory() as folder:
            path = os.path.join(folder, 'file.csv')
            for text in (
                f'kind,id,from,to\n{ESCAPES}\nnode,"{ESCAPES}",,\n',
                f'station;{ESCAPES}\nA;{ESCAPES}\n',
            ):
                with open(path, 'w') as file:
                    file.write(text)
                for program, words in (
                    (check, [path]),
                    (ask, ['--desk', '127.0.0.1:1', 'set-layout', path]),
                    (ask, ['--desk', '127.0.0.1:1', 'stocktake', path]),
                    (ask, ['--desk', '127.0.0.1:1', 'post-state', 'KIT/0001', path]),
                ):
                    _, out, said = within(program, *words)
                    self.assertTrue(is_plain(out + said), repr(out + said))
