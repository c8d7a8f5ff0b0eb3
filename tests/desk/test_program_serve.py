"""Shows that `serve` answers one connection after another, whatever its clients do, and gives
each its moment."""
from __future__ import annotations

import datetime
import http.client
import json
import random
import socket
import time
import unittest
from typing import Any

from tests.support.desks import (
    MOMENT,
    ProgramTest,
    Serving,
    over_sockets,
    read_all,
    requests_of,
    run,
    without_moments,
)


def moment_now() -> str:
    """The moment that the clock shows, as messages have it: cut off after the hundredths."""
    seconds, hundredths = divmod(time.time_ns() // 10_000_000, 100)
    moment = datetime.datetime.fromtimestamp(seconds, datetime.timezone.utc)
    return f'{moment:%Y-%m-%dT%H:%M:%S}.{hundredths:02d}Z'


@over_sockets
class Serve(ProgramTest):
    def check_transport(self, one: Any) -> None:
        """Every request of the transport, by one connection or by one for each; the answers are
        those of `replay`."""
        _, wanted, _ = self.replay(self.transport, 'memory')
        with Serving(self.db) as desk:
            connection = desk.connect() if one else None
            told = [
                desk.ask(*request, connection=connection) for request in requests_of(self.transport)
            ]
            if connection:
                connection.close()
        at = 0
        for status, body in told:
            end = wanted.index(b'\r\n\r\n', at)
            self.assertEqual(int(wanted[at + 9 : at + 12]), status)
            at = end + 4 + len(body)
            self.assertEqual(without_moments(wanted[end + 4 : at]), without_moments(body))
        self.assertEqual(at, len(wanted))

    def test_one_connection_for_all(self) -> None:
        self.check_transport(True)

    def test_one_connection_for_each(self) -> None:
        self.check_transport(False)

    def test_ends_behind_the_last_connection(self) -> None:
        with Serving(self.db, 1) as desk:
            self.assertEqual(desk.ask('GET', '/loads/L1')[0], 404)
            self.assertEqual(desk.process.wait(300), 0)

    def test_a_request_of_http_1_0(self) -> None:
        """It is answered to the byte, and the connection ends behind it."""
        with Serving(self.db) as desk:
            plain = desk.plain()
            plain.sendall(b'GET /loads/L1 HTTP/1.0\r\n\r\n')
            self.assertEqual(
                read_all(plain),
                (
                    b'HTTP/1.1 404 Not Found\r\nContent-Length: 30\r\nContent-Type:'
                    b' application/json\r\nConnection: close\r\n\r\n{"name":"NoLoad","refusal":23}'
                ),
            )
            plain.close()

    def test_no_connection_at_all(self) -> None:
        status, out, said = run('serve', '--db', self.db, '--port', '0', '--connections', '0')
        self.assertEqual((status, said), (0, b''))
        self.assertRegex(out, rb'^listening on 127\.0\.0\.1:\d+\n$')

    def test_a_byte_at_a_time(self) -> None:
        with Serving(self.db) as desk:
            plain = desk.plain()
            for byte in (
                b'POST /loads HTTP/1.1\r\nContent-Length: 13\r\nConnection: close\r\n\r\n'
                b'{"load":"L1"}'
            ):
                plain.send(bytes([byte]))
            self.assertTrue(read_all(plain).endswith(b'\r\n\r\n{}'))
            plain.close()

    def test_a_client_that_leaves(self) -> None:
        with Serving(self.db) as desk:
            for front in (
                b'',
                b'POST /loads HT',
                b'POST /loads HTTP/1.1\r\nContent-Length: 13\r\n\r\n{"loa',
            ):
                plain = desk.plain()
                plain.sendall(front)
                plain.close()
            plain = desk.plain()
            plain.setsockopt(socket.SOL_SOCKET, socket.SO_LINGER, b'\x01\0\0\0\0\0\0\0')
            plain.sendall(b'GET /loads/L1 HTTP/1.1\r\n\r\n' * 1000)
            plain.close()
            self.assertEqual(desk.ask('GET', '/loads/L1')[0], 404)

    def test_a_client_that_says_nothing(self) -> None:
        """It keeps the others waiting for ten seconds, in the middle of a request or behind one,
        and is left then."""
        with Serving(self.db) as desk:
            unknown = b'{"name":"NoLoad","refusal":23}'
            for said, answer in (
                (b'POST /loads HTTP/1.1\r\nContent-Length: 13\r\n\r\n{"loa', b''),
                (b'GET /loads/L1 HTTP/1.1\r\n\r\n', unknown),
            ):
                plain = desk.plain()
                begun = time.monotonic()
                plain.sendall(said)
                self.assertEqual(desk.ask('GET', '/loads/L1'), (404, unknown))
                # (a machine that is busy lets it wait for longer, but not for as long as this)
                self.assertTrue(9 < time.monotonic() - begun < 60)
                self.assertEqual(read_all(plain).rpartition(b'\r\n')[2], answer)
                plain.close()

    def test_a_client_that_never_reads(self) -> None:
        """It keeps the others waiting until the system has taken nothing of an answer for ten
        seconds, or until it leaves."""
        self.assertGreater(self.kept_waiting(False), 9)
        # (where the machine is busy one try may take long for that)
        self.assertTrue(any(self.kept_waiting(True) < 8 for _ in range(3)))

    def kept_waiting(self, leaves: Any) -> Any:
        """How many seconds it takes until another client is answered: from the first bytes on of
        the one that never reads, or from that one's end on."""
        with Serving(self.db) as desk:
            plain = desk.plain()
            plain.settimeout(1)
            begun = time.monotonic()
            with self.assertRaises(TimeoutError):
                while True:
                    plain.sendall(b'GET /loads/L1 HTTP/1.1\r\n\r\n' * 10_000)
            if leaves:
                begun = time.monotonic()
                plain.close()
            later = http.client.HTTPConnection('127.0.0.1', desk.port, timeout=600)
            self.assertEqual(desk.ask('GET', '/loads/L1', connection=later)[0], 404)
            took = time.monotonic() - begun
            later.close()
            plain.close()
            return took

    def test_noise(self) -> None:
        """Of 20 clients, the last with 10 MB."""
        with Serving(self.db) as desk:
            for seed in range(20):
                plain = desk.plain()
                try:
                    plain.sendall(
                        random.Random(seed).randbytes(10_000_000 if seed == 19 else 100_000)
                    )
                    plain.shutdown(socket.SHUT_WR)
                    read_all(plain)
                except OSError:
                    pass
                plain.close()
            self.assertEqual(desk.ask('GET', '/loads/L1')[0], 404)

    def test_the_clock_gives_the_moment(self) -> None:
        """An order message has the moment at which its connection was begun."""
        requests = requests_of(self.transport)
        order = [target.endswith('/order') for _, target, _ in requests].index(True)
        with Serving(self.db) as desk:
            before = moment_now()
            for request in requests[:order]:
                self.assertEqual(desk.ask(*request)[0], 200)
            body = desk.ask(*requests[order])[1]
        said = json.loads(body)['timestamp']
        self.assertRegex(said.encode(), b'^%s$' % MOMENT)
        self.assertTrue(before <= said <= moment_now(), (before, said))

    def test_a_connection_has_one_moment(self) -> None:
        """An order and an instant action of one connection have its moment, though five hundredths
        of a second lie between them."""
        requests = requests_of(self.transport)
        order = [target.endswith('/order') for _, target, _ in requests].index(True)
        with Serving(self.db) as desk:
            connection = desk.connect()
            for request in requests[:order]:
                self.assertEqual(desk.ask(*request, connection)[0], 200)
            first = json.loads(desk.ask(*requests[order], connection)[1])
            time.sleep(0.05)
            self.assertEqual(desk.ask('POST', '/vehicles/KIT/0001/pause', None, connection)[0], 200)
            second = json.loads(
                desk.ask('GET', '/uagv/v2/KIT/0001/instantActions', None, connection)[1]
            )
            connection.close()
        self.assertEqual(first['timestamp'], second['timestamp'])

    def test_each_connection_has_a_moment_of_its_own(self) -> None:
        """An order by one connection and a pause by a later one have the moments at which these
        were begun: none of the desk's start, none of the connection before, and none at which the
        desk began to wait for them."""
        requests = requests_of(self.transport)
        order = [target for _, target, _ in requests].index('/orders')
        changes: list[tuple[Any, str]] = [
            (requests[order], '/uagv/v2/KIT/0001/order'),
            (('POST', '/vehicles/KIT/0001/pause'), '/uagv/v2/KIT/0001/instantActions'),
        ]
        told = []
        with Serving(self.db) as desk:
            for request in requests[:order]:
                self.assertEqual(desk.ask(*request)[0], 200)
            for change, message in changes:
                time.sleep(0.05)
                begun = moment_now()
                self.assertEqual(desk.ask(*change)[0], 200)
                ended = moment_now()
                told.append(json.loads(desk.ask('GET', message)[1])['timestamp'])
                self.assertRegex(told[-1].encode(), b'^%s$' % MOMENT)
                self.assertTrue(begun <= told[-1] <= ended, (begun, told[-1], ended))
        self.assertLess(told[0], told[1])


if __name__ == '__main__':
    unittest.main()
