"""Shows that the board takes no request, value or word of a gateway that is not as it has to be."""
from __future__ import annotations

import contextlib
import json
import os
import time
from typing import Any

from tests.support.attacked_board import STATUS, sent
from tests.support.board_words import OverASocket, datagram
from tests.support.board_run import ONE, Watching


class Desync(Watching):
    """Bytes that two readers could divide into requests in two ways."""

    def setUp(self) -> None:
        super().setUp()
        self.host = b'Host: 127.0.0.1:%d\r\n' % self.board.port
        self.page = b'GET / HTTP/1.1\r\n%s\r\n' % self.host
        origin, token = (
            self.board.headers()[name].encode() for name in ('Origin', 'X-Board-Token')
        )
        self.mine = b'%sOrigin: %s\r\nX-Board-Token: %s\r\n' % (self.host, origin, token)
        body = json.dumps({'command': 'leave', 'values': {'load': 'L1', 'ref': 'R1'}}).encode()
        self.command = b'POST /do HTTP/1.1\r\n%sContent-Length: %d\r\n\r\n%s' % (
            self.mine,
            len(body),
            body,
        )

    def refused(self, head: bytes, *statuses: int) -> None:
        """Behind a head a whole request for the page, and one with a command, are never taken for
        requests: one refusal comes, and the board closes the connection."""
        for behind in (self.page, self.command):
            told = sent(self.board.port, head + behind)
            found = [int(status) for status in STATUS.findall(told)]
            self.assertEqual(len(found), 1, (head, told))
            self.assertIn(found[0], statuses, head)
            self.assertNotIn(b'name="token"', told)
            self.assertIn(b'\r\nConnection: close\r\n', told)
        self.assertEqual(self.desk.load('L1').place, 'station A')

    def test_a_body_that_is_a_request_to_another_host(self) -> None:
        """A page of a foreign name posts a body that is a request for this page: it is not
        answered."""
        head = b'POST /do HTTP/1.1\r\nHost: evil.example\r\nContent-Length: %d\r\n\r\n'
        for behind in (self.page, self.command):
            told = sent(self.board.port, head % len(behind) + behind)
            self.assertEqual(STATUS.findall(told), [b'421'], told)
            self.assertNotIn(b'name="token"', told)
        self.assertEqual(self.desk.load('L1').place, 'station A')

    def test_bodies_of_commands_that_are_refused(self) -> None:
        """A POST without the token, or to no path: its body is a request, which is not answered."""
        for headers, path in (
            (self.host, b'/do'),
            (self.host, b'/nothing'),
            (self.mine, b'/nothing'),
        ):
            head = b'POST %s HTTP/1.1\r\n%sContent-Length: %d\r\n\r\n' % (
                path,
                headers,
                len(self.page),
            )
            told = sent(self.board.port, head + self.page)
            self.assertIn(STATUS.findall(told), ([b'403'], [b'404']), told)

    def test_two_lengths(self) -> None:
        """Two lengths, the same length twice, a length with a transfer coding, and lengths that are
        no numbers."""
        post = b'POST /may HTTP/1.1\r\n' + self.mine
        for length in (
            b'Content-Length: 2\r\nContent-Length: 60\r\n',
            b'Content-Length: 2\r\nContent-Length: 2\r\n',
            b'Content-Length: 2\r\ncontent-length: 2\r\n',
            b'Content-Length: 2, 2\r\n',
            b'Content-Length: +2\r\n',
            b'Content-Length: 0x2\r\n',
            b'Content-Length: -2\r\n',
            b'Content-Length: 2 2\r\n',
            b'Content-Length: \xb2\r\n',
            b'Content-Length: %s\r\n' % (b'9' * 5000),
            b'Content-Length:\r\n',
        ):
            self.refused(post + length + b'\r\n{}', 400, 413)
        self.refused(post + b'\r\n', 411)
        for coding in (b'chunked', b'identity', b'xchunked', b'gzip, chunked'):
            head = post + b'Content-Length: 2\r\nTransfer-Encoding: %s\r\n\r\n' % coding
            self.refused(head + b'{}', 501)
        self.refused(post + b'Transfer-Encoding: chunked\r\n\r\n2\r\n{}\r\n0\r\n\r\n', 501)

    def test_bodies_where_none_is(self) -> None:
        """A GET with a body, or with any method but POST."""
        for method in (b'GET', b'HEAD'):
            for path in (b'/', b'/data', b'/nothing'):
                head = b'%s %s HTTP/1.1\r\n%s' % (method, path, self.host)
                self.refused(head + b'Content-Length: %d\r\n\r\n' % len(self.page), 400)
                self.refused(head + b'Transfer-Encoding: chunked\r\n\r\n', 501)
        for method in (b'PUT', b'DELETE', b'OPTIONS', b'CONNECT', b'TRACE', b'PATCH'):
            self.refused(b'%s / HTTP/1.1\r\n%sContent-Length: 5\r\n\r\n' % (method, self.host), 405)

    def test_heads_that_are_read_in_two_ways(self) -> None:
        """Folded lines, bare line ends, blanks before colons, two hosts and other first lines."""
        get = b'GET /data HTTP/1.1\r\n'
        for head in (
            get + b'Host: evil.example\r\n' + self.host + b'\r\n',
            get + self.host + b'Host: evil.example\r\n\r\n',
            get + self.host + b'X: a\r\n b\r\n\r\n',
            get + self.host + b'X : a\r\n\r\n',
            get + self.host + b' X: a\r\n\r\n',
            get + self.host + b'X\r\n\r\n',
            get + self.host + b': a\r\n\r\n',
            get + self.host + b'X: a\rContent-Length: 9\r\n\r\n',
            get + self.host + b'X: a\nContent-Length: 9\r\n\r\n',
            get + self.host + b'X: a\0\r\n\r\n',
            get + self.host.replace(b'\r\n', b'\n') + b'\n',
            b'\r\n' + get + self.host + b'\r\n',
            b'GET  /data HTTP/1.1\r\n' + self.host + b'\r\n',
            b'GET /data\tHTTP/1.1\r\n' + self.host + b'\r\n',
            b'GET /data HTTP/1.1 \r\n' + self.host + b'\r\n',
            b'GET /data HTTP/0.9\r\n' + self.host + b'\r\n',
            b'GET /data HTTP/2.0\r\n' + self.host + b'\r\n',
            b'GET /data\r\n',
            b'get /data HTTP/1.1\r\n' + self.host + b'\r\n',
            b'GET http://127.0.0.1:%d/data HTTP/1.1\r\n' % self.board.port + self.host + b'\r\n',
            b'GET * HTTP/1.1\r\n' + self.host + b'\r\n',
            b'GET /d\xc3\xa4ta HTTP/1.1\r\n' + self.host + b'\r\n',
        ):
            self.refused(head, 400)
        self.refused(get + b'\r\n', 421)

    def test_heads_that_are_too_large(self) -> None:
        """Many headers, a long one, and a long target."""
        get = b'GET /data HTTP/1.1\r\n' + self.host
        self.refused(get + b''.join(b'X%d: a\r\n' % number for number in range(200)) + b'\r\n', 431)
        self.refused(get + b'X: %s\r\n\r\n' % (b'a' * 40_000), 431)
        self.refused(b'GET /%s HTTP/1.1\r\n%s\r\n' % (b'a' * 40_000, self.host), 431)

    def test_requests_in_a_row(self) -> None:
        """Requests behind one that is answered: the first alone is."""
        for first in (self.page.replace(b'/ ', b'/data '), self.command.replace(b'/do', b'/may')):
            told = sent(self.board.port, first + self.page + self.command)
            self.assertEqual(STATUS.findall(told), [b'200'], told)
            self.assertNotIn(b'name="token"', told)
        self.assertEqual(self.desk.load('L1').place, 'station A')


class Values(Watching):
    """Values of a command that no page sends."""

    words = ('--user-header', 'X-User')

    def test_values_of_other_types_and_forms(self) -> None:
        """Each is refused with a sentence before anything is recorded or sent."""
        place: dict[str, Any] = {'vehicle': 'KIT/0001', 'node': 'N2', 'ref': 'R1'}
        more: dict[str, Any] = {'vehicle': 'KIT/0001', 'edges': '1', 'order': 'O1', 'update': '1'}
        cases: tuple[tuple[object, object], ...] = (
            ('leave', {'load': 'L1', 'ref': 'R1', 'vehicle': 'garbage'}),
            ('leave', {'load': 'L1\n', 'ref': 'R1'}),
            ('leave', {'load': ['L1'], 'ref': 'R1'}),
            ('leave', {'load': 'L1', 'ref': 5}),
            ('leave', {'load': 'L1', 'ref': '\ud800'}),
            ('leave', {'load': 'L1'}),
            ('leave', {'load': '\udc80', 'ref': 'R1'}),
            ('place', {**place, 'node': None}),
            ('place', {**place, 'vehicle': 'KIT/0001/pause?'}),
            ('place', {**place, 'ref': '../R1'}),
            ('advance', {**more, 'update': 'x'}),
            ('advance', {**more, 'update': '9' * 5000}),
            ('advance', {**more, 'update': '\u0661'}),
            ('advance', {**more, 'edges': '1e3'}),
            (
                'order',
                {'vehicle': 'KIT/0001', 'edges': '1', 'order': 'O1', 'stops': 'pick J/1, drop J/1'},
            ),
            (
                'order',
                {'vehicle': 'KIT/0001', 'edges': '1', 'order': 'O1', 'stops': 'J1,' * 1000 + 'J1'},
            ),
            ('stocktake', {'file': 'station,load\nA,\ud800\n', 'ref': 'R1'}),
            ('stocktake', {'file': 'station,load\n' + 'A,L1\n' * 20_000, 'ref': 'R1'}),
            (['leave'], {'load': 'L1', 'ref': 'R1'}),
            ('leave', [['load', 'L1']]),
        )
        for command, values in cases:
            body = json.dumps({'command': command, 'values': values}).encode()
            status, _, told = self.board.ask('POST', '/do', body, self.board.headers())
            self.assertEqual(status, 200, (command, values, told))
            self.assertRegex(json.loads(told)['fault'], r'[.:?]', (command, values))
        self.assertEqual(self.board.rows('SELECT * FROM commands'), [])
        self.assertEqual(self.desk.load('L1').place, 'station A')
        self.assertEqual(self.desk.vehicle(ONE).node, 'N1')

    def test_bodies_and_queries(self) -> None:
        """Many brackets, a version of 5,000 digits and a load that is no text: each is answered,
        and the board goes on."""
        headers = self.board.headers()
        self.assertEqual(self.board.ask('POST', '/do', b'[' * 200_000, headers)[0], 400)
        self.assertEqual(
            self.board.ask('POST', '/do', b'{"a":%s}' % (b'9' * 5000), headers)[0], 400
        )
        self.assertEqual(self.board.ask('GET', '/data?since=' + '9' * 5000)[0], 200)
        self.assertEqual(self.board.ask('GET', '/history?load=%ff%00%ed%a0%80')[0], 200)
        self.assertEqual(self.board.ask('GET', '/data?' + '&'.join('abcdefgh' * 500))[0], 200)

    def test_names_of_users(self) -> None:
        """A name with escapes, line ends or letters that turn the line round stands in the record
        so that it shows."""
        body = json.dumps({'command': 'register', 'values': {'load': 'X1', 'station': ''}}).encode()
        headers = {**self.board.headers(), 'X-User': 'ann\u202ea'.encode().decode('latin-1')}
        self.assertEqual(self.board.ask('POST', '/do', body, headers)[0], 200)
        self.assertEqual(self.board.rows('SELECT who FROM commands'), [('ann\\u202ea',)])
        head = (
            b'POST /do HTTP/1.1\r\nHost: 127.0.0.1:%d\r\nX-User: anna\r\nX-User: otto\r\n\r\n'
            % self.board.port
        )
        self.assertEqual(STATUS.findall(sent(self.board.port, head)), [b'400'])
        self.assertEqual(
            STATUS.findall(sent(self.board.port, head.replace(b'X-User: otto', b'X: \x1b[2J'))),
            [b'400'],
        )


class HostileWords(OverASocket):
    """What is sent to the socket on which gateways tell of vehicles."""

    def tell(self, **members: Any) -> None:
        """Tells of KIT/0001."""
        self.out.sendto(datagram(**members), self.path)

    def test_a_flood(self) -> None:
        """Invented vehicles, bytes and datagrams that are too long, as fast as they go: the board
        asks the desk as before, shows nothing of them, and hears the real one."""
        self.out.setblocking(False)
        ends, sent = time.monotonic() + 4, 0
        while time.monotonic() < ends:
            for data in (
                json.dumps({'manufacturer': 'X', 'serialNumber': str(sent)}).encode(),
                os.urandom(100),
                b'{' * 20_000,
            ):
                with contextlib.suppress(OSError):
                    self.out.sendto(data, self.path)
                    sent += 1
        self.assertGreater(sent, 100)
        self.out.setblocking(True)
        self.tell(operatingMode='SERVICE')
        self.wait('said', 'KIT/0001', mode='SERVICE')
        self.assertEqual(self.board.all('said').keys(), {'KIT/0001'})
        self.desk.register_load('L1', 'A')
        self.wait('load', 'L1', place='station A')
        self.assertEqual(self.board.stop(), (0, ''))

    def test_a_socket_of_others(self) -> None:
        """One that is left by a board that was killed is taken; one on which another program
        listens, and a file, stay."""
        self.board.stop(9)
        self.board = self.plant.board('--words', self.path)
        with self.assertRaises(AssertionError) as failed:
            self.plant.board('--words', self.path, '--db', self.plant.path('other.db'))
        self.assertIn('in use', str(failed.exception))
        with open(self.plant.path('file'), 'w') as file:
            file.write('mine')
        with self.assertRaises(AssertionError):
            self.plant.board('--words', file.name, '--db', self.plant.path('other.db'))
        with open(file.name) as kept:
            self.assertEqual(kept.read(), 'mine')

    def test_a_vehicle_that_says_all_that_it_can(self) -> None:
        """For some seconds, ever other errors with long texts of any characters: what is kept of it
        is small, and nothing of it is obeyed by a terminal or a page."""
        text = '\x1b]0;x\x07\u202e<script>alert(1)</script>' * 6
        ends, number = time.monotonic() + 4, 0
        while time.monotonic() < ends:
            number += 1
            error = {
                'errorType': f'{number}{text}',
                'errorLevel': 'FATAL',
                'errorDescription': text,
            }
            with contextlib.suppress(OSError):
                self.tell(operatingMode=f'{number}{text}', errors=[error] * 4)
            time.sleep(0.005)
        self.assertGreater(number, 100)
        self.wait('said', 'KIT/0001', stop='NONE')
        rows = self.board.rows("SELECT words FROM events WHERE what LIKE 'said.%'")
        self.assertLessEqual(len(rows), 61)
        self.assertTrue(all(words.isprintable() for (words,) in rows))
        ((size,),) = self.board.rows('SELECT length(errors) + length(mode) FROM vehicle_words')
        self.assertLess(size, 8000)
        self.assertEqual(self.board.stop(), (0, ''))
