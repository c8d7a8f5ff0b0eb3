"""Shows that streams are answered to the byte as docs/HTTP.md has it, however few bytes a read
gives or a write takes, and wherever standard input or standard output fails.

What ends a stream is answered at once, and what comes behind it is not looked at; a request
that may still become whole is waited for. Each answer is written before the next request is
read."""
import collections
import errno
import os
import select
import subprocess
import unittest
from typing import Any

from tests.support import script_texts
from tests.support import system_calls, tracing
from tests.support.calls import request
from tests.support.fault_files import ALL, remove
from tests.support.faults import Script
from tests.support.programs import PATIENCE
from tests.support.answers import REASONS
from tests.support.desks import DESK, run
from tests.support.script_calls import CUT
from tests.support.fault_test import LACKS, FaultTest

# The most bytes that a read of standard input gives, and that a write of standard output takes.
PACES = [(1, 1), (1, 5), (7, 1), (7, 5), (4096, 1), (4096, 5)]
STANDARD = {'read': 0, 'write': 1}
CLOSE = 'Connection: close\r\n'


def answer(status: int, body: Any, kind: str = 'application/json', more: str = '') -> Any:
    """The bytes of an answer; `more` are the lines of its head behind those that each has."""
    head = (
        f'HTTP/1.1 {status} {REASONS[status]}\r\nContent-Length: {len(body)}\r\nContent-Type:'
        f' {kind}\r\n{more}\r\n'
    )
    return (head + body).encode()


def refused(status: int, name: str, number: int, more: str = '') -> Any:
    return answer(status, f'{{"name":"{name}","refusal":{number}}}', more=more)


def last(status: int, name: str, number: int) -> Any:
    """A refusal that ends its stream."""
    return refused(status, name, number, CLOSE)


def head(text: str) -> bytes:
    """The bytes of a head or of what comes of a request, in which `~` is the end of a line."""
    return text.replace('~', '\r\n').encode()


L1, L2 = (request('POST /loads', f'{{"load":"{name}"}}') for name in ('L1', 'L2'))
GET_L1, GET_L2 = request('GET /loads/L1'), request('GET /loads/L2')
DONE = answer(200, '{}')
AT_L1, AT_L2 = (
    answer(200, f'{{"job":null,"load":"{name}","place":"checking"}}') for name in ('L1', 'L2')
)
NO_LOAD = refused(404, 'NoLoad', 23)
BAD_HEAD = last(400, 'BadHead', 1)

# Streams that come one after another, each by its requests and its answers. The last answer of one
# that ends before its input says so.
INPUTS: dict[str, list[tuple[list[bytes], list[bytes]]]] = {
    'a load is registered and asked for, and both once more': [
        ([L1, GET_L1], [DONE, AT_L1]),
        ([L1, GET_L1], [refused(409, 'Exists', 30), AT_L1]),
        ([], []),
    ],
    'two loads are registered, and the body of the third is cut': [
        ([L1, L2, head('POST /loads HTTP/1.1~Content-Length: 13~~{"loa')], [DONE, DONE, BAD_HEAD]),
        ([GET_L1, GET_L2], [AT_L1, AT_L2]),
    ],
    'requests that end their stream': [
        ([], []),
        (
            [head('PUT /layout HTTP/1.1~Content-Length: 65537~~'), GET_L1],
            [last(413, 'TooLarge', 3)],
        ),
        ([head('POST /jobs HTTP/1.1~~'), GET_L1], [last(411, 'NoLength', 2)]),
        ([head('POST /loads HTTP/1.1~Transfer-Encoding: chunked~~0~~')], [last(501, 'Coding', 4)]),
        ([head('GET /loads/L9 HTTP/1.0~~'), GET_L1], [last(404, 'NoLoad', 23)]),
        (
            [
                head(
                    'POST /loads HTTP/1.1~Connection: close~Content-Length: 13~~{"load":"L1"}and'
                    ' more'
                )
            ],
            [answer(200, '{}', more=CLOSE)],
        ),
        (
            [head('GET /loads/L1 HTTP/1.0~~'), GET_L1],
            [answer(200, '{"job":null,"load":"L1","place":"checking"}', more=CLOSE)],
        ),
        (
            [head('GET /loads/L1 HTTP/1.1~Connection: keep-alive, Close~~GET')],
            [answer(200, '{"job":null,"load":"L1","place":"checking"}', more=CLOSE)],
        ),
        ([], []),
    ],
    # The query isn't looked at, nothing in a path is decoded, and a refused request takes its body.
    'paths and methods': [
        (
            [
                request('POST /loads?x', '{"load":"L1"}'),
                request('GET /loads/L1?x=1'),
                request('GET /loads/L%31'),
                request('GET /nothing'),
                head('PUT /loads/L1 HTTP/1.1~Content-Length: 0~~'),
                head('PUT /loads HTTP/1.1~Content-Length: 18~~GET / HTTP/1.1~~~~'),
                request('GET /report/stock'),
                head('GET /loads/L2 HTTP/1.1~Connection: CLOSE~~'),
            ],
            [
                DONE,
                AT_L1,
                refused(404, 'NoPath', 5),
                refused(404, 'NoPath', 5),
                refused(405, 'BadMethod', 6, 'Allow: GET\r\n'),
                refused(405, 'BadMethod', 6, 'Allow: POST\r\n'),
                answer(200, 'checking: 1\n  L1\nleft: 0\n', 'text/plain'),
                last(404, 'NoLoad', 23),
            ],
        )
    ],
    # A body is 127 deep at most; a head has 8,192 bytes, and a body 65,536.
    'the longest head and the longest body': [
        (
            [
                head('POST /loads HTTP/1.1~Content-Length: 254~~'),
                b'[' * 127,
                b']' * 127,
                head('POST /loads HTTP/1.1~Content-Length: 256~~'),
                b'[' * 128,
                b']' * 128,
                head('POST /loads HTTP/1.1~Content-Length: 65536~A: a'),
                b'a' * 8139,
                head('~~'),
                b'x' * 65536,
                request('GET /loads/L9'),
            ],
            [
                refused(400, 'BadBody', 10),
                refused(400, 'BadJson', 7),
                refused(400, 'BadJson', 7),
                NO_LOAD,
            ],
        )
    ],
}

# Beginnings of a request, which all come at once, in reads of 4,096 bytes at most: how many reads
# go well before one fails, what has come, what is answered, and whether the program reads once more
# and so meets the fault.
BEGINNINGS = [
    (0, b'', b'', True),
    (1, b'', b'', False),
    (1, b'POST /load', b'', True),
    (2, b'POST /load', BAD_HEAD, False),
    (1, L1 + GET_L1, DONE + AT_L1, True),
    (1, head('POST /loads HTTP/1.1~Content-Length: 65537~~'), last(413, 'TooLarge', 3), False),
    (1, head('POST /loads HTTP/1.1~~'), last(411, 'NoLength', 2), False),
    (1, head('GET /loads/L1 HTTP/1.1~Transfer-Encoding: chunked~~'), last(501, 'Coding', 4), False),
    (
        1,
        head('GET /loads/L1 HTTP/1.1~Content-Length: 1~Transfer-Encoding: x~~'),
        last(501, 'Coding', 4),
        False,
    ),
    (1, head('GET /loads/L1 HTTP/1.1~content-length: 1~Content-Length: 1~~'), BAD_HEAD, False),
    (1, head('GET /loads/L1 HTTP/1.1~Content-Length: +1~~'), BAD_HEAD, False),
    (1, head('POST /loads HTTP/1.1~Content-Length: 65536~~'), b'', True),
    (1, head('GET /loads/L1 HTTP/1.1~Content-Length: 1~~'), b'', True),
    (1, head('GET /loads/L9 HTTP/1.1~' + 'A: b~' * 32), b'', True),
    (1, head('GET /loads/L9 HTTP/1.1~' + 'A: b~' * 32 + '~'), NO_LOAD, True),
    (1, head('GET /loads/L9 HTTP/1.1~' + 'A: b~' * 33), BAD_HEAD, False),
    (2, b'GET /' + b'a' * 8186, b'', True),
    (2, b'GET /' + b'a' * 8187, BAD_HEAD, False),
]

# Streams that are cut behind each byte: their requests, of which the first registers L1, and their
# answers.
FIRST = Script([L1, GET_L1]), [DONE, AT_L1]
THREE = Script(CUT, cut=True), [DONE, DONE, BAD_HEAD]


@unittest.skipIf(LACKS is not None, LACKS or '')
class StreamRows(FaultTest):
    cuts = 0

    def serve(
        self,
        stdin: bytes,
        pace: Any,
        words: str | None = None,
        at: Any = None,
        told: Any = None,
    ) -> tuple[Any, Any]:
        """The program serves a stream at this pace; one of its reads or writes, as `('read', 2)`,
        is told something else. It gives how many of each there were."""
        counts: collections.Counter[Any] = collections.Counter()
        sizes = dict(zip(STANDARD, pace))

        def on_call(call: Any) -> Any:
            if call.file != STANDARD[call.name]:
                return None
            counts[call.name] += 1
            return (
                told
                if (call.name, counts[call.name]) == at
                else system_calls.Short(sizes[call.name])
            )

        return tracing.run(words or self.words, list(STANDARD), on_call, stdin), counts

    def check(self, stdin: Any, answers: Any, pace: Any, words: Any = None) -> None:
        """The stream is answered so, in pieces of the sizes of this pace."""
        ended, counts = self.serve(stdin, pace, words)
        self.assertEqual((ended.status, ended.out, ended.said), (0, answers, b''))
        self.assertGreaterEqual(counts['write'] * pace[1], len(answers))
        if CLOSE.encode() not in answers:
            self.assertGreater(counts['read'] * pace[0], len(stdin))

    def test_inputs(self) -> None:
        for title, streams in INPUTS.items():
            for pace in [None, *PACES]:
                remove(self.db)
                for number, (requests, answers) in enumerate(streams):
                    stdin, wanted = b''.join(requests), b''.join(answers)
                    with self.subTest(title, pace=pace, number=number):
                        if pace:
                            self.check(stdin, wanted, pace)
                        else:
                            self.assertEqual(run(*self.words[1:], stdin=stdin), (0, wanted, b''))

    def test_scripts(self) -> None:
        """The scripts of crates/agv_tests_support; where one has several moments, each by a program
        of its own, on one file."""
        scripts = {
            title: script_texts.streams_of(parts) for title, parts in script_texts.scripts().items()
        }
        self.assertGreater(len(scripts), 38)
        for title, streams in scripts.items():
            for pace in [None, *PACES]:
                remove(self.db)
                for at, stdin, answers in streams:
                    words = [
                        DESK,
                        'replay',
                        '--db',
                        self.db if len(streams) > 1 else 'memory',
                        '--at',
                        at,
                    ]
                    with self.subTest(title, pace=pace, at=at):
                        if pace:
                            self.check(stdin, answers, pace, words)
                        else:
                            self.assertEqual(run(*words[1:], stdin=stdin), (0, answers, b''))

    def test_beginnings(self) -> None:
        for reads, stdin, answers, fails in BEGINNINGS:
            with self.subTest(stdin=stdin, reads=reads):
                ended, counts = self.serve(
                    stdin, (4096, 4096), at=('read', reads + 1), told=system_calls.Fails(errno.EIO)
                )
                self.assertEqual(
                    (ended.status, ended.out, ended.said),
                    (1, answers, b'fault: Read\n') if fails else (0, answers, b''),
                )
                self.assertEqual(counts['read'], reads + fails)

    def cut(self, stdin: bytes, at: Any, told: Any, out: Any, fault: Any, known: Any) -> None:
        """A read or a write of a byte fails: what has been answered then, and whether the next
        program on the file knows L1."""
        remove(self.db)
        ended, counts = self.serve(stdin, (1, 1), at=at, told=told)
        self.assertEqual((ended.status, ended.out, ended.said), (1, out, fault))
        self.assertEqual(counts[at[0]], at[1])
        self.assertEqual(run(*self.words[1:], stdin=GET_L1), (0, AT_L1 if known else NO_LOAD, b''))
        self.cuts += 1

    def tearDown(self) -> None:
        if ALL and self.cuts:
            print(f'{self.cuts} streams that were cut')

    def test_reads_that_fail(self) -> None:
        """Behind each byte, at the last one too: each request that has come whole is answered."""
        for script, answers in (FIRST, THREE):
            stdin = b''.join(script.requests)
            for n in range(len(stdin) + 1):
                with self.subTest(stdin=stdin, n=n):
                    whole, _ = script.begun(n)
                    self.cut(
                        stdin,
                        ('read', n + 1),
                        system_calls.Fails(errno.EIO),
                        b''.join(answers[:whole]),
                        b'fault: Read\n',
                        whole > 0,
                    )

    def test_writes_that_fail(self) -> None:
        """Before each third byte, or the write takes none: the call whose answer is cut stands. All
        bytes are tried where FAULTS is `all`."""
        for script, answers in (FIRST, THREE):
            stdin, out = b''.join(script.requests), b''.join(answers)
            for n in range(0, len(out), 1 if ALL else 3):
                for told in (system_calls.Fails(errno.EPIPE), system_calls.Gives(0)):
                    with self.subTest(stdin=stdin, n=n, told=vars(told)):
                        self.cut(stdin, ('write', n + 1), told, out[:n], b'fault: Write\n', True)


class Patient(FaultTest):
    def test_an_answer_before_the_next_request(self) -> None:
        """Each request is sent once the whole answer to the one before has come."""
        with subprocess.Popen(
            self.words, stdin=subprocess.PIPE, stdout=subprocess.PIPE, stderr=subprocess.PIPE
        ) as desk:
            try:
                assert desk.stdin and desk.stdout
                for asked, answered in zip([L1, GET_L1, GET_L2], [DONE, AT_L1, NO_LOAD]):
                    desk.stdin.write(asked)
                    desk.stdin.flush()
                    came = b''
                    while len(came) < len(answered):
                        self.assertTrue(
                            select.select([desk.stdout], [], [], PATIENCE)[0],
                            f'no answer yet: {came!r}',
                        )
                        part = os.read(desk.stdout.fileno(), len(answered))
                        self.assertNotEqual(part, b'', 'the program has ended')
                        came += part
                    self.assertEqual(came, answered)
                told = desk.communicate(timeout=PATIENCE)
            finally:
                desk.kill()
            self.assertEqual((*told, desk.returncode), (b'', b'', 0))


if __name__ == '__main__':
    unittest.main()
