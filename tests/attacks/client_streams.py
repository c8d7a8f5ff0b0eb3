"""Shows that answers which drip or never end neither keep `tools/ask` for long nor take much
memory."""
from __future__ import annotations

import contextlib
import json
import os
import signal
import socket
import subprocess
import sys
import threading
import time

from nulvrader.desk import client, exports
from tests.support.attacked_dispatcher import dispatching
from tests.support.desk_answers import ORDER, VEHICLES
from tests.support.desks import over_sockets
from tests.support.programs import TOOLS, until
from tests.support.wrong_server import (
    Attack,
    SECONDS,
    Said,
    Send,
    Server,
    always,
    asks,
    endless,
    http,
)

DRIPS: dict[str, Send] = {
    'a status line': endless(b'HTTP/1.1 ', b'2', 0.1),
    'header lines': endless(b'HTTP/1.1 200 OK\r\n', b'A: b\r\n', 0.1),
    'a body': endless(b'HTTP/1.1 200 OK\r\nContent-Length: 900000\r\n\r\n', b' ', 0.1),
    'chunks': endless(b'HTTP/1.1 200 OK\r\nTransfer-Encoding: chunked\r\n\r\n', b'1\r\n \r\n', 0.1),
    '100 Continue': endless(b'', b'HTTP/1.1 100 Continue\r\n\r\n', 0.1),
}
MANY = 1 << 20
FLOODS: dict[str, Send] = {
    'a body without a length': endless(b'HTTP/1.1 200 OK\r\n\r\n', MANY * b' '),
    'a body of a terabyte': endless(
        b'HTTP/1.1 200 OK\r\nContent-Length: 1099511627776\r\n\r\n', MANY * b' '
    ),
    'chunks': endless(
        b'HTTP/1.1 200 OK\r\nTransfer-Encoding: chunked\r\n\r\n',
        b'%x\r\n' % MANY + MANY * b' ' + b'\r\n',
    ),
    'a chunk of a terabyte': endless(
        b'HTTP/1.1 200 OK\r\nTransfer-Encoding: chunked\r\n\r\n10000000000\r\n', MANY * b' '
    ),
    'a header line': endless(b'HTTP/1.1 200 OK\r\nA: ', MANY * b'a'),
    'header lines': endless(b'HTTP/1.1 200 OK\r\n', 1000 * b'A: b\r\n'),
    'a status line': endless(b'HTTP/1.1 200 ', MANY * b'a'),
    '100 Continue': endless(b'', 1000 * b'HTTP/1.1 100 Continue\r\n\r\n'),
    'a refusal': endless(b'HTTP/1.1 409 Conflict\r\n\r\n', MANY * b' '),
}


@over_sockets
class BytesThatDrip(Attack):
    """The server sends a byte now and then, for ever: `--timeout` ends `ask` all the same."""

    def test_each_part_of_an_answer(self) -> None:
        for what, send in DRIPS.items():
            with self.subTest(what), Server(always(send)) as server:
                done = asks('--timeout', '1', 'vehicle', 'KIT/0001', address=server.address)
                self.check_no_answer(done, what)
                self.assertIn('within 1 seconds', done[2])

    def test_tls(self) -> None:
        """What answers the beginning of TLS drips a record of it."""

        def serve() -> None:
            with contextlib.suppress(OSError):
                connection = listener.accept()[0]
                endless(b'\x16\x03\x03\x40\x00\x02\x00\x3f\xfc\x03\x03', b'a', 0.1)(connection)

        with socket.create_server(('127.0.0.1', 0)) as listener:
            threading.Thread(target=serve, daemon=True).start()
            address = f'https://127.0.0.1:{listener.getsockname()[1]}'
            self.check_no_answer(asks('--timeout', '1', 'vehicles', address=address), 'vehicles')

    def test_answers_that_each_come_in_time(self) -> None:
        """All requests of a command together have the time."""

        def slow(_: int, target: str) -> Said:
            time.sleep(0.6)
            if target != '/export/vehicles':
                return http(json.dumps({**ORDER, 'serialNumber': target.split('/')[4]}).encode())
            open_order = 'true,false,false,1,,O%d,0,,0,1,0,,'
            rows = (f'KIT,{n:04d},N{n},1,{open_order % n}\n' for n in range(90))
            return http(VEHICLES.partition(b'\n')[0] + b'\n' + ''.join(rows).encode())

        with Server(slow) as server:
            done = asks('--timeout', '2', 'orders', address=server.address)
        self.check_no_answer(done, 'orders')
        self.assertLess(server.asked, 20)

    def test_the_dispatcher(self) -> None:
        """It ends by SIGTERM while it waits for an answer."""
        with Server(always(DRIPS['a body'])) as server, dispatching(server.address) as program:
            until(lambda: server.asked, 'a request')
            program.send_signal(signal.SIGTERM)
            self.assertEqual(program.wait(SECONDS), 0)

    def test_ctrl_c(self) -> None:
        with Server(always(DRIPS['header lines'])) as server:
            line = [
                sys.executable,
                os.path.join(TOOLS, 'ask'),
                '--desk',
                server.address,
                'vehicles',
            ]
            with subprocess.Popen(line, stdout=subprocess.PIPE, stderr=subprocess.PIPE) as program:
                until(lambda: server.asked, 'a request')
                program.send_signal(signal.SIGINT)
                out, said = program.communicate(timeout=SECONDS)
        self.assertEqual((program.returncode, out, said), (130, b'', b''))


@over_sockets
class EndlessAnswers(Attack):
    """The server sends without end: no more is read than an answer may have, and none of it is
    printed."""

    def test_each_part_of_an_answer(self) -> None:
        for what, send in FLOODS.items():
            for command in ('stock-report', 'vehicle KIT/0001'):
                with self.subTest(f'{what}, {command}'), Server(always(send)) as server:
                    done = asks('--timeout', '30', *command.split(), address=server.address)
                    self.check_no_answer(done, what)

    def test_texts_that_are_short_in_every_warehouse(self) -> None:
        """80 MB of what looks like rows: that is refused by the length, since rows take many times
        as much memory as their bytes."""
        for command, rows, most in (
            ('layout', b'kind,id,from,to\n' + 8_800_000 * b'node,N,,\n', '65,537'),
            ('vehicles', 79_000_000 * b'\n', '1,000,000'),
            ('hold-report', 3_700_000 * b'node N1 KIT/0001\n', '1,000,000'),
        ):
            with self.subTest(command), Server(http(rows)) as server:
                done = asks('--timeout', '50', command, address=server.address)
                self.check_no_answer(done, command)
                self.assertIn(f'it answers more than {most} bytes', done[2])
                self.assertRaises(client.NotADesk, exports.read_layout, rows)

    def test_a_report_of_empty_lines(self) -> None:
        """A whole answer, as long as one may be, whose lines are many: it is no report."""
        with Server(http(79_000_000 * b'\n')) as server:
            done = asks('--timeout', '50', 'stock-report', address=server.address)
        self.check_no_answer(done, 'stock-report')
