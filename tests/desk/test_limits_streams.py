"""Shows that a stream of 100,000 answers, and one of 20 MiB, is answered as a whole in the
memory that docs/PERFORMANCE.md tells."""
from __future__ import annotations

import contextlib
import itertools
import os
import socket
import tempfile
import unittest

from tests.support import calls
from tests.support.answers import REASONS
from tests.support.calls import Call
from tests.support.desks import AT, Serving, over_sockets, run
from tests.support.full_file import DONE, SECONDS
from tests.support.memory_told import memory, with_memory

NO_PATH, UNKNOWN = (404, b'{"name":"NoPath","refusal":5}'), (404, b'{"name":"NoLoad","refusal":23}')
ANSWERS, BODY, STREAM, MIB = 100_000, 65_536, 20 << 20, 1 << 20


def answer(status: int, body: bytes) -> bytes:
    """The bytes of an answer."""
    head = (
        f'HTTP/1.1 {status} {REASONS[status]}\r\nContent-Length: {len(body)}\r\nContent-Type:'
        ' application/json\r\n\r\n'
    )
    return head.encode() + body


class LongStreams(unittest.TestCase):
    def test_a_stream_of_100_000_answers(self) -> None:
        """Each hundredth is of a load that is registered; behind it are questions for this one and
        for an unknown one, and paths of no call."""
        asked, wanted = [], []
        for number in range(ANSWERS // 100):
            stands = 200, b'{"job":null,"load":"L%d","place":"checking"}' % number
            asked += [
                calls.load(f'L{number}'),
                *[calls.get_load(f'L{number}'), calls.get_load('M'), *[Call('GET /nothing')] * 7]
                * 11,
            ]
            wanted += [DONE, *[stands, UNKNOWN, *[NO_PATH] * 7] * 11]
        self.assertEqual(len(wanted), ANSWERS)
        done = run(
            'replay',
            '--db',
            'memory',
            '--at',
            AT,
            stdin=b''.join(map(Call.to_bytes, asked)),
            limit=SECONDS,
        )
        self.assertTrue(
            done == (0, b''.join(itertools.starmap(answer, wanted)), b''),
            (done[0], done[1][-200:], done[2]),
        )

    @with_memory
    @over_sockets
    def test_a_stream_of_20_mib(self) -> None:
        """Of bodies that are as large as they may be. No body is kept: the program needs no more
        memory for all than for the first MiB."""
        known = 409, b'{"name":"Exists","refusal":30}'
        bodies = [
            ('POST /loads', '{"load":"L1"}', known),
            ('POST /loads', f'{{"load":"L1","note":"{"x" * (BODY - 23)}"}}', known),
            ('POST /loads', 'x' * BODY, (400, b'{"name":"BadJson","refusal":7}')),
            ('PUT /layout', 'x' * BODY, (400, b'{"name":"BadCsv","refusal":11}')),
            (
                'POST /uagv/v2/KIT/0001/state',
                calls.state(1).data.decode(),
                (404, b'{"name":"NoVehicle","refusal":20}'),
            ),
        ]
        asked = b''.join(Call(line, body.ljust(BODY)).to_bytes() for line, body, _ in bodies)
        wanted = b''.join(answer(*told) for _, _, told in bodies)
        with (
            tempfile.TemporaryDirectory() as folder,
            Serving(os.path.join(folder, 'long.db'), 1) as desk,
        ):
            with contextlib.closing(desk.plain()) as line:
                line.settimeout(SECONDS)
                self.assertEqual(
                    self.told(line, calls.load('L1').to_bytes(), answer(*DONE)), answer(*DONE)
                )
                sent, needed = 0, []
                while sent < STREAM:
                    self.assertEqual(self.told(line, asked, wanted), wanted)
                    sent += len(asked)
                    if sent >= MIB:
                        needed.append(memory(desk.process.pid))
                stands = answer(200, b'{"job":null,"load":"L1","place":"checking"}')
                self.assertEqual(self.told(line, calls.get_load('L1').to_bytes(), stands), stands)
            self.assertEqual((desk.process.wait(SECONDS), desk.said.read()), (0, b''))
        self.assertLess(needed[-1] - needed[0], 256)

    def told(self, line: socket.socket, asked: bytes, wanted: bytes) -> bytes:
        """What is answered, up to as many bytes as are wanted."""
        line.sendall(asked)
        got = b''
        while len(got) < len(wanted):
            part = line.recv(65_536)
            if not part:
                break
            got += part
        return got


if __name__ == '__main__':
    unittest.main()
