"""Shows what stays of a file where the program is killed or its file can grow no more, and what
it does where the clock is wrong."""
from __future__ import annotations

import http.client
import json
import os
import random
import re
import resource
import signal
import subprocess
import threading
import unittest
from typing import Any

from tests.support import tracing
from tests.support.desks import AT, DESK, ProgramTest, Serving, over_sockets
from tests.support.heap import Clock as ShownClock, slots_of


@over_sockets
class Killed(ProgramTest):
    def test_each_answered_call_is_kept(self) -> None:
        """The program is killed under load, a moment after its second answer; what it had answered
        is in the file."""
        number = 0
        for turn in range(10):
            answered = []
            with Serving(self.db) as desk:
                timer = threading.Timer(
                    random.Random(turn).uniform(0, 0.5), desk.process.send_signal, [signal.SIGKILL]
                )
                connection = desk.connect()
                try:
                    while True:
                        number += 1
                        name = f'L{number}'
                        status, _ = desk.ask(
                            'POST', '/loads', json.dumps({'load': name}).encode(), connection
                        )
                        self.assertEqual(status, 200)
                        answered.append(name)
                        if len(answered) == 2:
                            timer.start()
                except (ConnectionError, http.client.HTTPException, OSError):
                    pass
                self.assertGreaterEqual(len(answered), 2)
                timer.join()
                connection.close()
            with Serving(self.db) as desk:
                connection = desk.connect()
                for name in answered:
                    self.assertEqual(
                        desk.ask('GET', '/loads/' + name, connection=connection)[0], 200, name
                    )
                connection.close()


def lacks_clock() -> Any:
    """Why the program's clock can't be set; None where it can."""
    lacks = tracing.lacks()
    if lacks:
        return lacks
    try:
        slots = slots_of(DESK, ShownClock.NAMES)[1]
    except (OSError, ValueError) as error:
        return f'the calls of the clock can not be found: {error}'
    return None if slots else 'the program asks no C library that is loaded beside it for the time'


@over_sockets
class Clock(ProgramTest):
    """The clock is set, by code in the place of the function that the program asks for the time."""

    def setUp(self) -> None:
        super().setUp()
        lacks = lacks_clock()
        if lacks:
            self.skipTest(lacks)

    def serve(self, seconds: Any, requests: Any, connections: int) -> tuple[Any, Any, Any]:
        """How the program ends that is sent each of these by a connection of its own, and what it
        answers there. It asks for the time once for each of them."""
        from tests.support.faults import asks, port_of  # which take from this file themselves

        answers: list[Any] = []

        def beside(process: Any) -> None:
            port = port_of(process)
            answers.extend(asks(port, request) for request in requests)

        words = [DESK, 'serve', '--db', self.db, '--port', '0', '--connections', str(connections)]
        ended = tracing.run(words, heap=ShownClock(DESK, seconds), beside=beside)
        self.assertRegex(ended.out, rb'^listening on 127\.0\.0\.1:\d+\n$')
        self.assertEqual(ended.asked, len(requests))
        return ended.status, ended.said, answers

    def test_the_first_and_the_last_moment(self) -> None:
        """They are the moments of the connection, which its order message has."""
        order = b'GET /uagv/v2/KIT/0001/order HTTP/1.1\r\n\r\n'
        front = self.transport[: self.transport.index(order)] + order
        for seconds, moment in (
            (0, b'1970-01-01T00:00:00.00Z'),
            (4_102_444_799, b'2099-12-31T23:59:59.00Z'),
        ):
            self.db = os.path.join(self.folder.name, f'{seconds}.db')
            status, said, answers = self.serve(seconds, [front], 1)
            self.assertEqual((status, said), (0, b''))
            self.assertEqual(re.findall(b'"timestamp":"([^"]*)"', answers[0]), [moment])

    def test_each_connection_asks_once(self) -> None:
        """With no connection there is no need to; one that asks three things asks for the time
        once."""
        request = b'GET /loads/L1 HTTP/1.1\r\n\r\n'
        streams: list[list[bytes]] = [
            [],
            [request],
            [request, request * 3],
            [b'', request, request],
        ]
        for asked in streams:
            status, said, answers = self.serve(1_700_000_000, asked, len(asked))
            self.assertEqual((status, said), (0, b''))
            self.assertEqual(
                [answer.count(b'{"name":"NoLoad","refusal":23}') for answer in answers],
                [one.count(b'GET') for one in asked],
            )

    def test_moments_out_of_range(self) -> None:
        """From 2100 on, before 1970, and where there is no time to be had: the first connection is
        closed with no answer, and nobody else is served."""
        for seconds in (4_102_444_800, (1 << 63) - 1, -1, -1 << 63, None):
            ended = self.serve(
                seconds, [b'POST /loads HTTP/1.1\r\nContent-Length: 13\r\n\r\n{"load":"L1"}'], 2
            )
            self.assertEqual(ended, (1, b'fault: Clock\n', [b'']), seconds)
        status, out, said = self.replay(b'GET /loads/L1 HTTP/1.1\r\n\r\n')
        self.assertEqual((status, said), (0, b''))
        self.assertTrue(out.endswith(b'{"name":"NoLoad","refusal":23}'))


def limit_files() -> None:
    """The system lets the files of this process grow to 400,000 bytes."""
    signal.signal(signal.SIGXFSZ, signal.SIG_IGN)
    resource.setrlimit(resource.RLIMIT_FSIZE, (400_000, 400_000))


class Full(ProgramTest):
    def test_a_file_that_can_grow_no_more(self) -> None:
        """A call that needs more is answered by the store's fault, which ends the stream, and what
        was answered before it is kept."""
        names = [f'L{number:05d}' for number in range(1_000)]
        stdin = b''.join(
            b'POST /loads HTTP/1.1\r\nContent-Length: 17\r\n\r\n{"load":"%s"}' % name.encode()
            for name in names
        )
        done = subprocess.run(
            [DESK, 'replay', '--db', self.db, '--at', AT],
            input=stdin,
            capture_output=True,
            preexec_fn=limit_files,
            timeout=600,
        )
        self.assertEqual((done.returncode, done.stderr), (1, b'fault: Storage\n'))
        self.assertTrue(
            done.stdout.endswith(b'Connection: close\r\n\r\n{"name":"Storage","refusal":91}')
        )
        answered = done.stdout.count(b'HTTP/1.1 200 OK')
        self.assertGreater(answered, 10)
        self.assertEqual(done.stdout.count(b'HTTP/1.1 '), answered + 1)
        status, out, said = self.replay(
            b''.join(
                b'GET /loads/%s HTTP/1.1\r\n\r\n' % name.encode() for name in names[: answered + 2]
            )
        )
        self.assertEqual((status, said), (0, b''))
        # The call that was answered by the fault may be there or not; the one after it is not.
        found = out.count(b'HTTP/1.1 200 OK')
        self.assertIn(found, (answered, answered + 1))
        self.assertTrue(out.endswith(b'{"name":"NoLoad","refusal":23}'))

    @over_sockets
    def test_connections_over_a_file_that_can_grow_no_more(self) -> None:
        """The store's fault ends the program, too: nobody is served after it."""
        with Serving(self.db, preexec_fn=limit_files) as desk:
            number, connection = 0, desk.connect()
            while True:
                status, body = desk.ask('POST', '/loads', b'{"load":"L%05d"}' % number, connection)
                if status != 200:
                    break
                number += 1
            connection.close()
            self.assertEqual((status, body), (503, b'{"name":"Storage","refusal":91}'))
            self.assertEqual((desk.process.wait(300), desk.said.read()), (1, b'fault: Storage\n'))
        self.assertGreater(number, 10)
        status, out, said = self.replay(
            b''.join(b'GET /loads/L%05d HTTP/1.1\r\n\r\n' % n for n in range(number))
        )
        self.assertEqual((status, said, out.count(b'HTTP/1.1 200 OK')), (0, b'', number))


if __name__ == '__main__':
    unittest.main()
