"""Shows what the client raises where no desk answers, or one answers too late or in part."""
from __future__ import annotations

import http.client
import json
import socket
import threading
import time
import unittest
from unittest import mock
from typing import Any

from nulvrader.desk import client, wire
from tests.support.programs import PATIENCE
from tests.support.states import KIT1


class NoPhase(unittest.TestCase):
    """What no desk answers to the question for a job."""

    RIDES = {
        'from': 'A', 'job': 'J1', 'load': 'L1', 'order': 'O1', 'phase': 'riding', 'to': 'B',
        'vehicle': 'KIT/0001',
    }  # fmt: skip

    def job(self, **members: object) -> client.JobPhase:
        answer = client.Answer(200, json.dumps({**self.RIDES, **members}).encode())
        with mock.patch.object(client.Desk, 'ask', lambda *_: answer):
            return client.Desk('127.0.0.1:1').job('J1')

    def test_answers(self) -> None:
        self.assertEqual(self.job(), client.JobPhase('J1', 'L1', 'A', 'B', 'riding', KIT1, 'O1'))
        for member, values in (
            ('job', ('J2', None, 1)),
            ('load', (None, 'L 1')),
            ('from', (None, '')),
            ('to', (3, ['B'])),
            ('phase', ('over', 'Riding', None, ['riding'], {})),
            ('order', ('', 1, {})),
            ('vehicle', ('KIT', 'KIT/', '/0001', 'KIT/0001/1', 1, ['KIT/0001'])),
        ):
            for value in values:
                with self.subTest(f'{member} {value!r}'), self.assertRaises(client.NotADesk):
                    self.job(**{member: value})
        for phase in ('riding', 'waiting', 'done', 'stopped'):
            for order, vehicle in ((None, None), ('O1', None), (None, 'KIT/0001'), ('O1', 'K/1')):
                rides = order is not None and vehicle is not None
                if rides == (phase == 'riding') and (order is None) == (vehicle is None):
                    continue
                with self.subTest(f'{phase} {order} {vehicle}'):
                    with self.assertRaises(client.NotADesk):
                        self.job(phase=phase, order=order, vehicle=vehicle)


class NoDesk(unittest.TestCase):
    """What answers is no desk, or answers too late, or is cut."""

    def answered(self, data: Any, by_head: bool = False, **named: Any) -> Any:
        """What the client says where a server sends these bytes and closes the connection; with
        none, it waits for the client to close it. The request is read to its end, since a
        connection that is closed with bytes unread is reset; or to the end of its head."""
        listener = socket.create_server(('127.0.0.1', 0))
        self.addCleanup(listener.close)

        def serve() -> None:
            connection, _ = listener.accept()
            with connection, connection.makefile('rb') as request:
                length = 0
                for line in iter(request.readline, b'\r\n'):
                    name, _, value = line.partition(b':')
                    if name.lower() == b'content-length':
                        length = int(value)
                if not by_head:
                    request.read(length)
                if data is None:
                    request.read(1)
                else:
                    connection.sendall(data)

        thread = threading.Thread(target=serve)
        thread.start()
        settings: dict[str, Any] = {'timeout': PATIENCE, **named}
        desk = client.Desk(f'127.0.0.1:{listener.getsockname()[1]}', **settings)
        try:
            desk.register_load('L1')
        except (client.NoAnswer, client.Refused) as fault:
            return fault
        finally:
            thread.join()

    def test_bytes(self) -> None:
        for data, words, may_be_done in (
            (b'', 'closed before the answer arrived', True),
            (b'SSH-2.0\r\n', 'no desk: it answers SSH-2.0', True),
            (
                b'HTTP/1.1 200 OK\r\nContent-Length: 30\r\n\r\n{',
                'closed before the answer arrived',
                True,
            ),
            (b'HTTP/1.1 200 OK\r\nContent-Length: 2\r\n\r\nok', 'no desk', True),
            (
                b'HTTP/1.1 404 Not Found\r\nContent-Length: 2\r\n\r\nno',
                'no desk: status 404, no',
                False,
            ),
            (b'HTTP/1.1 502 Bad Gateway\r\nContent-Length: 0\r\n\r\n', 'no desk: status 502', True),
        ):
            with self.subTest(data):
                fault = self.answered(data)
                self.assertIsInstance(fault, client.NoAnswer)
                self.assertIn(words, str(fault))
                self.assertEqual(fault.may_be_done, may_be_done)

    def test_silence(self) -> None:
        self.assertIn('no whole answer came within 2 seconds', str(self.answered(None, timeout=2)))

    def test_an_answer_while_the_body_is_sent(self) -> None:
        """It is told, though the connection is closed before all is sent."""
        send, sent = http.client.HTTPConnection.send, []

        def cut(connection: Any, data: Any) -> None:
            sent.append(data)
            if len(sent) > 1:
                raise BrokenPipeError
            send(connection, data)

        body = b'{"name":"TooLarge","refusal":3}'
        answer = (
            b'HTTP/1.1 413 Content Too Large\r\nContent-Length: %d\r\nConnection: close\r\n\r\n%s'
            % (len(body), body)
        )
        with mock.patch.object(http.client.HTTPConnection, 'send', cut):
            fault = self.answered(answer, by_head=True)
        self.assertEqual((len(sent), fault.name, fault.status), (2, 'TooLarge', 413))

    def test_a_proxy_refuses(self) -> None:
        fault = self.answered(b'HTTP/1.1 401 Unauthorized\r\nContent-Length: 0\r\n\r\n')
        self.assertEqual((fault.name, fault.number, fault.status), ('Unauthorized', 0, 401))

    def test_addresses(self) -> None:
        for text in (
            'ftp://desk',
            'desk:port',
            '',
            'http://',
            '127.0.0.1:70000',
            'localhost',
            'unix:',
            'http://u:p@desk',
            'desk:1/?a',
        ):
            with self.assertRaises(ValueError, msg=text):
                client.Desk(text)
        for text, wanted in (
            ('http://desk', ('desk', 80, None, '', 'desk')),
            ('https://desk/front/', ('desk', 443, None, '/front', 'desk')),
            ('127.0.0.1:8080', ('127.0.0.1', 8080, None, '', '127.0.0.1:8080')),
            ('[::1]:8080', ('::1', 8080, None, '', '[::1]:8080')),
            ('unix:/run/desk.sock', ('localhost', 0, '/run/desk.sock', '', 'localhost')),
        ):
            at = wire.Place.parse(text)
            self.assertEqual((at.host, at.port, at.path, at.front, at.header()), wanted)

    def test_all_requests_of_a_block(self) -> None:
        """They have its time together, and each its own again behind it."""
        desk = client.Desk('127.0.0.1:1', timeout=PATIENCE)
        with desk.within(0.001):
            time.sleep(0.01)
            with self.assertRaisesRegex(client.NoAnswer, 'within 0.001 seconds'):
                desk.load('L1')
        with self.assertRaisesRegex(client.NoAnswer, 'no program listens there'):
            desk.load('L1')


if __name__ == '__main__':
    unittest.main()
