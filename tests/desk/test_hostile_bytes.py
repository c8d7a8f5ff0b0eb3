"""Shows that bodies nested deeply, numbers that are no whole ones, and heads that are too long
or have two lengths are answered by the rules of docs/HTTP.md."""
from __future__ import annotations

import json
import unittest
from typing import Any

from tests.support.answers import refusal
from tests.support.calls import request
from tests.support.whole_answers import Bytes, CALLS

# Where a body has a number of 32 bits, by the name of the member.
NUMBERS = {'headerId', 'orderUpdateId', 'lastNodeSequenceId', 'edges', 'capacity'}


def places_in(value: Any, path: Any = ()) -> Any:
    """The path of each member of a body, in arrays and objects too."""
    items = (
        value.items()
        if isinstance(value, dict)
        else enumerate(value)
        if isinstance(value, list)
        else ()
    )
    found = []
    for name, one in items:
        found += [path + (name,), *places_in(one, path + (name,))]
    return found


def with_text(value: Any, path: Any, text: str) -> Any:
    """The body as JSON, with a text in the place of one member."""
    mark = 'here goes the text'
    copy = json.loads(json.dumps(value))
    at = copy
    for name in path[:-1]:
        at = at[name]
    at[path[-1]] = mark
    return json.dumps(copy).replace(f'"{mark}"', text)


class Bodies(Bytes):
    def test_nesting(self) -> None:
        """A member that nobody reads, in an object: 127 deep in all, and 128 deep."""
        pairs = []
        for line, body, name in CALLS:
            for opening, closing in (('[', ']'), ('{"a":', '}')):
                deep = dict(body, x=0)
                for depth, wanted in ((127, name), (128, 'BadJson')):
                    inner = (
                        opening * (depth - 1)
                        + ('1' if opening != '[' else '')
                        + closing * (depth - 1)
                    )
                    pairs.append((request(line, with_text(deep, ('x',), inner)), refusal(wanted)))
            pairs.append((request(line, '[' * 127 + ']' * 127), refusal('BadBody')))
            pairs.append((request(line, '[' * 128 + ']' * 128), refusal('BadJson')))
            pairs.append((request(line, '[' * 60_000), refusal('BadJson')))
        self.check(pairs)

    def test_numbers_that_are_not_whole(self) -> None:
        """As any member of every body, and as one that nobody reads."""
        for text in ('1e0', '-0.0', '18446744073709551616', '-9223372036854775809', '0.5', '-0'):
            pairs = []
            for line, body, _ in CALLS:
                for path in [*places_in(body), ('x',)]:
                    pairs.append(
                        (request(line, with_text(dict(body, x=0), path, text)), refusal('Fraction'))
                    )
            self.assertGreater(len(pairs), 60)
            self.check(pairs)

    def test_the_ends_of_the_ranges(self) -> None:
        """Of 64 bits in a member that nobody reads; of 32 bits in each number that is read."""
        pairs = []
        for line, body, name in CALLS:
            for text in ('18446744073709551615', '-9223372036854775808', '0', 'null'):
                pairs.append(
                    (request(line, with_text(dict(body, x=0), ('x',), text)), refusal(name))
                )
            for path in places_in(body):
                if path[-1] in NUMBERS or path == ('nodeStates', 0, 'sequenceId'):
                    pairs += [
                        (request(line, with_text(body, path, text)), refusal('BadBody'))
                        for text in ('4294967296', '-1', '18446744073709551615', '"1"', 'true')
                    ]
                    pairs.append(
                        (request(line, with_text(body, path, '4294967295')), refusal(name))
                    )
        self.assertEqual(
            sum(
                b'"headerId": 4294967296' in data or b'"headerId": -1,' in data for data, _ in pairs
            ),
            2,
        )
        self.check(pairs)

    def test_numbers_in_tables(self) -> None:
        """A capacity is one to three digits."""
        rows = 'kind,id,from,to\nnode,N1,,\nstation,A,N1,%s\n'
        self.check(
            [
                (request('PUT /layout', rows % text), refusal('BadCsv'))
                for text in (
                    '1e0',
                    '-0.0',
                    '-1',
                    '+1',
                    '1.0',
                    '0001',
                    '18446744073709551616',
                    ' 1',
                    '',
                )
            ]
            + [(request('PUT /layout', rows % text), refusal('LayoutBad')) for text in ('0', '000')]
            + [(request('PUT /layout', rows % '999'), (200, b'{}'))]
        )

    def test_bodies_that_nobody_looks_at(self) -> None:
        """Of a call without a body in the table."""
        pairs = []
        for text in ('1e0', '-0.0', '18446744073709551616', '[' * 200, '\0', '{"ref":'):
            pairs += [
                (request('POST /vehicles/KIT/0001/' + call, text), refusal('NoVehicle'))
                for call in ('cancel', 'pause', 'resume', 'resync')
            ]
            pairs += [
                (request('DELETE /jobs/J1', text), refusal('NoJob')),
                (request('GET /loads/L1', text), refusal('NoLoad')),
            ]
        self.check(pairs)

    def test_the_longest_body(self) -> None:
        long = '{"load":"L1","x":"%s"}'
        room = 65_536 - len(long % '')
        self.check(
            [
                (request('POST /loads', long % ('a' * room)), (200, b'{}')),
                (request('POST /loads', long % ('a' * (room + 1))), refusal('TooLarge')),
            ]
        )


class Heads(Bytes):
    def ends(self, data: bytes, name: str) -> None:
        """A head that is refused, which ends the stream: what comes behind it is not answered."""
        found = self.check([(request('GET /loads/L1'), refusal('NoLoad')), (data, refusal(name))])
        self.assertTrue(found[-1].closes)
        self.assertEqual(len(self.replay(data + request('GET /loads/L1'))), 1)

    def test_lines(self) -> None:
        self.check([(request('GET /loads/L1', more='a: b\r\n' * 32), refusal('NoLoad'))])
        self.ends(request('GET /loads/L1', more='a: b\r\n' * 33), 'BadHead')
        self.ends(b'GET /loads/L1 HTTP/1.1\r\n' + b'a: b\r\n' * 33, 'BadHead')

    def test_length(self) -> None:
        empty = len(request('GET /loads/L1', more='a: \r\n'))
        self.check(
            [(request('GET /loads/L1', more=f'a: {"b" * (8_192 - empty)}\r\n'), refusal('NoLoad'))]
        )
        self.ends(request('GET /loads/L1', more=f'a: {"b" * (8_193 - empty)}\r\n'), 'BadHead')
        self.ends(b'GET /' + b'a' * 8_192, 'BadHead')
        self.ends(b'a' * 100_000, 'BadHead')

    def test_content_length(self) -> None:
        line = 'POST /loads HTTP/1.1\r\n'
        body = '{"load":"L1"}'
        for two in (
            'Content-Length: 13\r\nContent-Length: 13\r\n',
            'content-length: 13\r\nCONTENT-LENGTH: 0\r\n',
            'Content-Length: 13\r\na: b\r\nContent-Length: x\r\n',
            'Content-Length: 13\r\nContent-Length: 13\r\nTransfer-Encoding: chunked\r\n',
        ):
            self.ends((line + two + '\r\n' + body).encode(), 'BadHead')
        for value in ('', '-1', '+13', '13,13', '0x0d', '1 3', '13.0', '1e1', '\xb9'):
            self.ends((f'{line}Content-Length: {value}\r\n\r\n{body}').encode('latin-1'), 'BadHead')
        for value in ('65537', '4294967296', '18446744073709551616', '9' * 1_000):
            self.ends((f'{line}Content-Length: {value}\r\n\r\n{body}').encode(), 'TooLarge')
        for more in (
            'Transfer-Encoding: chunked\r\n',
            'transfer-encoding: x\r\nContent-Length: 13\r\n',
            'Content-Length: 65537\r\nTransfer-Encoding: gzip\r\n',
        ):
            self.ends((line + more + '\r\n' + body).encode(), 'Coding')
        self.ends((line + '\r\n' + body).encode(), 'NoLength')
        for value in ('13', '0013', '0' * 100 + '13'):
            self.check([((f'{line}content-LENGTH: {value}\r\n\r\n{body}').encode(), (200, b'{}'))])

    def test_ends_in_the_middle(self) -> None:
        for data in (
            b'\0',
            b'G',
            b'GET /loads/L1 HTTP/1.1',
            b'GET /loads/L1 HTTP/1.1\r\n',
            b'\r\n',
            b'POST /loads HTTP/1.1\r\nContent-Length: 13\r\n\r\n{"load":"L1"',
            b'GET /loads/L1 HTTP/2.0\r\n\r\n',
            b'GET  /loads/L1 HTTP/1.1\r\n\r\n',
            b'GET /loads/L1 HTTP/1.1\r\nno colon\r\n\r\n',
            b'GET /loads/L1 HTTP/1.1\r\na b: c\r\n\r\n',
        ):
            self.check([(request('GET /loads/L1'), refusal('NoLoad')), (data, refusal('BadHead'))])


if __name__ == '__main__':
    unittest.main()
