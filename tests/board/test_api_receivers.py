"""Shows that receivers of webhooks that fail or attack, and a server in the place of a board,
neither stop the webhooks nor get more than is theirs."""
from __future__ import annotations

import contextlib
import socket
import time
import unittest
from typing import Any
from unittest import mock

from tests.support.programs import free_port
from tests.support.receivers import Receiver as Served
from tests.support.receivers import endless, hook, status

from nulvrader.board.api.webhooks import receiver as receiver_module
from nulvrader.board.api.webhooks.config import Hook
from nulvrader.board.api.webhooks.receiver import NotAllowed, Receiver, Result, check_address
from nulvrader.board.api.webhooks.source import NoEvents, events_of
from nulvrader.desk.wire import Place


class Hostile(unittest.TestCase):
    """Receivers that do what they like."""

    def serve(self, answers: Any, host: str = '127.0.0.1') -> Served:
        served = Served(answers, host)
        self.addCleanup(served.close)
        return served

    def post(self, served: Served, seconds: float = 2.0, **others: Any) -> Result:
        """Posts a message to it, with a shorter patience."""
        with mock.patch.object(receiver_module, 'SECONDS', seconds):
            return Receiver(hook(served.port, **others)).post(b'{"events":[]}', {'webhook-id': 'x'})

    def test_statuses(self) -> None:
        """It has taken what it answers by 2xx, and nothing else."""
        for number in (200, 201, 202, 204, 299):
            self.assertTrue(self.post(self.serve(status(number))).taken, number)
        for number in (199, 300, 304, 400, 401, 404, 410, 429, 500, 503, 999):
            self.assertFalse(self.post(self.serve(status(number))).taken, number)
        pause = self.post(self.serve(status(503, 'Retry-After: 90'))).pause
        self.assertEqual(pause, 90)
        for said in ('-1', '1e9', 'soon', '9' * 300):
            self.assertEqual(self.post(self.serve(status(503, f'Retry-After: {said}'))).pause, 0)

    def test_a_redirect(self) -> None:
        """It leads nowhere: neither to the desk, nor to what only this machine reaches."""
        inner = self.serve(status(200))
        for number in (301, 302, 303, 307, 308):
            outer = self.serve(status(number, f'Location: http://127.0.0.1:{inner.port}/orders'))
            result = self.post(outer)
            self.assertFalse(result.taken)
            self.assertIn('not followed', result.why)
        self.assertEqual(inner.connections, 0)

    def test_what_hangs_or_never_ends(self) -> None:
        """Each is over after its time, or after as many bytes as an answer may have."""

        def drips(client: socket.socket, _: Any) -> None:
            for byte in b'HTTP/1.1 200 OK\r\n' * 1000:
                client.sendall(bytes([byte]))
                time.sleep(0.05)

        hangs = self.serve(status(200))
        hangs.answers = hangs.hang
        head = b'HTTP/1.1 200 OK\r\n'
        for served in (
            hangs,
            self.serve(drips),
            self.serve(endless(b'HTTP/1.1 ', b'2' * 1000)),
            self.serve(endless(head, b'X: aaaaaaaaaaaaaaaaaaaaaaaaaaaaaaaaaaaaaaaa\r\n')),
            self.serve(endless(head + b'X: ', b'a' * 1000)),
            self.serve(endless(b'', b'HTTP/1.1 100 Continue\r\n\r\n')),
            self.serve(endless(b'', b'\0')),
        ):
            begun = time.monotonic()
            self.assertFalse(self.post(served).taken)
            self.assertLess(time.monotonic() - begun, 10)
        endless_body = self.serve(endless(head + b'\r\n', b'a' * 10_000))
        begun = time.monotonic()
        self.assertTrue(self.post(endless_body).taken)
        self.assertLess(time.monotonic() - begun, 10)

    def test_lies(self) -> None:
        """No answer of HTTP, none at all, or an impossible length."""

        def says(data: bytes) -> Any:
            return lambda client, _: client.sendall(data)

        for data in (b'', b'\r\n\r\n', b'SSH-2.0-x\r\n', b'HTTP/1.1 two OK\r\n\r\n', b'\xff' * 99):
            self.assertFalse(self.post(self.serve(says(data))).taken, data)
        for length in (b'-1', b'99999999999999999999', b'x'):
            data = b'HTTP/1.1 500 X\r\nContent-Length: %s\r\n\r\n' % length
            self.assertFalse(self.post(self.serve(says(data))).taken, data)
        nobody = hook(free_port())
        self.assertIn('no connection', Receiver(nobody).post(b'{}', {}).why)

    def test_loopback(self) -> None:
        """A name that leads to this machine, by any of its addresses, is not reached: nothing is
        sent, and no connection made, to the desk or anything else."""
        served = self.serve(status(200))
        self.assertFalse(self.post(served, loopback=False).taken)
        own = own_addresses()
        for address in ('127.0.0.1', '127.9.9.9', '::1', '::ffff:127.0.0.1', '0.0.0.0', '::', *own):
            family = socket.AF_INET6 if ':' in address else socket.AF_INET
            said = [(family, socket.SOCK_STREAM, 6, '', (address, served.port))]
            told = Hook(
                'erp', Place.parse('http://evil.example'), '/', None, (b'a',), None, loopback=False
            )
            with mock.patch.object(socket, 'getaddrinfo', mock.Mock(return_value=said)):
                result = Receiver(told).post(b'{}', {})
            self.assertFalse(result.taken, address)
            self.assertIn('its name leads to', result.why, address)
        self.assertEqual(served.connections, 0)

    def test_addresses(self) -> None:
        """Neighbours without an address of their own, where clouds keep their keys, groups of
        machines, and the same behind other writings."""
        for address in (
            '169.254.169.254',
            'fe80::1',
            'fe80::1%eth0',
            '::ffff:169.254.169.254',
            '64:ff9b::a9fe:a9fe',
            '2002:7f00:1::',
            '64:ff9b::7f00:1',
            '224.0.0.1',
            'ff02::1',
            '255.255.255.255',
            '240.0.0.1',
            '0.0.0.0',
            '::',
        ):
            with self.assertRaises(NotAllowed, msg=address):
                check_address(address, False)
        for address in ('169.254.169.254', 'fe80::1', '0.0.0.0', 'ff02::1'):
            with self.assertRaises(NotAllowed, msg=address):
                check_address(address, True)
        check_address('127.0.0.1', True)
        for address in ('192.0.2.7', '10.1.2.3', '::ffff:10.1.2.3', '2001:db8::7'):
            with contextlib.suppress(NotAllowed), mock.patch.object(
                receiver_module, 'is_own', return_value=False
            ):
                check_address(address, False)
                continue
            self.fail(address)

    def test_a_name_that_changes(self) -> None:
        """What was checked is what is connected to: the name is looked up once for a message."""
        served = self.serve(status(200))
        inner = (socket.AF_INET, socket.SOCK_STREAM, 6, '', ('127.0.0.1', served.port))
        outer = (socket.AF_INET, socket.SOCK_STREAM, 6, '', ('192.0.2.1', 9))
        looks = mock.Mock(side_effect=[socket.gaierror(), [outer], [inner], [inner]])
        told = Hook(
            'erp', Place.parse('http://evil.example'), '/', None, (b'a',), None, loopback=False
        )
        with (
            mock.patch.object(socket, 'getaddrinfo', looks),
            mock.patch.object(receiver_module, 'SECONDS', 0.5),
        ):
            self.assertFalse(Receiver(told).post(b'{}', {}).taken)
        self.assertEqual(served.connections, 0)
        self.assertEqual(looks.call_count, 2)


def own_addresses() -> list[str]:
    """The addresses of this machine that others reach, if it has any."""
    found = []
    for family, far in ((socket.AF_INET, '192.0.2.1'), (socket.AF_INET6, '2001:db8::1')):
        with contextlib.suppress(OSError), socket.socket(family, socket.SOCK_DGRAM) as probe:
            probe.connect((far, 9))
            found.append(str(probe.getsockname()[0]))
    return found


class Answers(unittest.TestCase):
    """What answers in the place of a board."""

    GOOD = b'{"record":"ab","events":[{"id":1},{"id":2}],"after":2,"last":2,"missed":false}'

    def test_what_no_board_says(self) -> None:
        self.assertEqual(events_of(self.GOOD).after, 2)
        for found, wanted in (
            (b'[{"id":1},{"id":2}]', b'[{"id":2},{"id":1}]'),
            (b'[{"id":1},{"id":2}]', b'[{"id":2},{"id":2}]'),
            (b'[{"id":1},{"id":2}]', b'[{"id":-1},{"id":2}]'),
            (b'[{"id":1},{"id":2}]', b'[{"id":"1"}]'),
            (b'[{"id":1},{"id":2}]', b'[1]'),
            (b'[{"id":1},{"id":2}]', b'{}'),
            (b'"after":2', b'"after":1'),
            (b'"after":2', b'"after":true'),
            (b'"after":2', b'"before":1'),
            (b'"record":"ab"', b'"record":"../etc"'),
            (b'"record":"ab"', b'"record":""'),
            (b'"record":"ab"', b'"record":7'),
            (self.GOOD, b''),
            (self.GOOD, b'[]'),
            (self.GOOD, b'null'),
            (self.GOOD, b'[' * 100_000),
            (self.GOOD, b'\xff'),
        ):
            with self.assertRaises(NoEvents, msg=wanted):
                events_of(self.GOOD.replace(found, wanted, 1))
        self.assertEqual(events_of(self.GOOD.replace(b'[{"id":1},{"id":2}]', b'[]')).events, [])


if __name__ == '__main__':
    unittest.main()
