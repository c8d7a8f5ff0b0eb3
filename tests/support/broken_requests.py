"""Requests at random that are broken, each with what a desk answers to it."""
from __future__ import annotations

import json
import random
from typing import Any

from tests.support import calls
from tests.support.answers import REFUSALS, refusal
from tests.support.calls import request, state
from tests.support.whole_answers import CALLS, EXPORTS

STREAM = 6_000  # bytes of noise in one stream, about
# The status and the body of an answer.
Answer = tuple[int, bytes]


class Broken:
    """Requests at random, each with what it is answered by a desk that was new and has been asked
    what came before."""

    def __init__(self, seed: int) -> None:
        self.chance, self.count, self.seed = random.Random(seed), 0, seed

    def word(self, most: int = 20) -> str:
        return ''.join(
            self.chance.choice('abcXYZ019_.:-') for _ in range(self.chance.randint(1, most))
        )

    def junk(self, most: int = 300) -> Any:
        return self.chance.randbytes(self.chance.randint(0, most))

    def goes_on(self) -> tuple[bytes, Answer]:
        """A request that does not end the stream, and its answer."""
        if self.count == 0:
            return self.new_load()
        return self.chance.choice(
            (
                self.new_load,
                self.known_load,
                self.place_of_known_load,
                self.no_path,
                self.other_target,
                self.bad_method,
                self.bad_json,
                self.fraction,
                self.bad_body,
                self.bad_csv,
                self.export,
                self.unknown_thing,
                self.drive,
                self.bad_drive,
                self.phase,
            )
        )()

    def new_load(self) -> tuple[bytes, Answer]:
        self.count += 1
        return request('POST /loads', f'{{"load":"N{self.seed}.{self.count}"}}'), (200, b'{}')

    def known(self) -> str:
        """The name of a load that is registered."""
        return f'N{self.seed}.{self.chance.randint(1, self.count)}'

    def known_load(self) -> tuple[bytes, Answer]:
        return request('POST /loads', f'{{"load":"{self.known()}"}}'), refusal('Exists')

    def place_of_known_load(self) -> tuple[bytes, Answer]:
        known = self.known()
        place = f'{{"job":null,"load":"{known}","place":"checking"}}'
        return request('GET /loads/' + known), (200, place.encode())

    def no_path(self) -> tuple[bytes, Answer]:
        chance = self.chance
        path = '/~' + ''.join(
            chr(chance.randint(0x21, 0x7E)) for _ in range(chance.randint(0, 200))
        )
        return request(f'{chance.choice(("GET", "POST", "BREW"))} {path}', ''), refusal('NoPath')

    def other_target(self) -> tuple[bytes, Answer]:
        chance = self.chance
        target = chance.choice(
            (
                f'/loads/{self.word()}~',
                '/loads/' + 'a' * 33,
                '/loads/',
                '/loads//leave',
                '/LOADS',
                '/loads/%41',
                '/vehicles/a/b/c',
                '/export/jobs/' + self.word(),
                f'/export/{chance.choice(("", "Jobs", "holds", "vehicle", "layout/"))}',
            )
        )
        return request('GET ' + target), refusal('NoPath')

    def bad_method(self) -> tuple[bytes, Answer]:
        chance = self.chance
        number, status = REFUSALS['BadMethod']
        methods = ('GET', 'PUT', 'DELETE', 'HEAD', 'PATCH', 'TRACE', 'BREW', 'post')
        line = f'{chance.choice(methods)} /loads?{self.word()}'
        return request(line, self.junk()), (
            status,
            b'{"name":"BadMethod","refusal":%d}' % number,
        )

    def bad_json(self) -> tuple[bytes, Answer]:
        chance = self.chance
        return request(
            'POST /loads',
            chance.choice(
                (
                    b'',
                    b'\xff' + self.junk(),
                    b'{' + self.junk(),
                    b'{"load":"L1",}',
                    b'{"load":"a\nb"}',
                    b'nul',
                    b'1e400',
                    b'{"load":"\\ud800"}',
                    b'[' * chance.randint(128, 5_000),
                    b'{} {}',
                )
            ),
        ), refusal('BadJson')

    def fraction(self) -> tuple[bytes, Answer]:
        chance = self.chance
        number = chance.choice(
            (
                f'{chance.randrange(10**6)}.{chance.randrange(10**6)}',
                f'{chance.randrange(10**6)}e{chance.randrange(200)}',
                '-0',
                str(2**64 + chance.randrange(10**9)),
                str(-(2**63) - 1 - chance.randrange(10**9)),
            )
        )
        return request(
            'POST /loads', f'{{"load":"{self.word()}","a":{{"b":[{number}]}}}}'
        ), refusal('Fraction')

    def bad_body(self) -> tuple[bytes, Answer]:
        chance = self.chance
        wrong = chance.choice(
            (
                '1',
                'true',
                '[]',
                '{}',
                '"a b"',
                '""',
                f'"{"x" * 33}"',
                '"\\u00e9"',
                'null',
                '"a/b"',
                '"\\u0000"',
            )
        )
        return request(
            'POST /loads',
            chance.choice(
                (
                    f'{{"load":{wrong}}}',
                    '[]',
                    '"load"',
                    '1',
                    'null',
                    'true',
                    '{}',
                    '{"Load":"L1"}',
                )
            ),
        ), refusal('BadBody')

    def bad_csv(self) -> tuple[bytes, Answer]:
        chance = self.chance
        return request(
            chance.choice(('PUT /layout', 'POST /stocktakes/' + self.word())),
            b'x' + self.junk(),
        ), refusal('BadCsv')

    def export(self) -> tuple[bytes, Answer]:
        chance = self.chance
        name, head = chance.choice(list(EXPORTS.items()))
        asked = f'GET /export/{name}{chance.choice(("", "?" + self.word()))}'
        return request(asked, self.junk()), (200, head + b'\n')

    def unknown_thing(self) -> tuple[bytes, Answer]:
        return self.chance.choice(
            (
                (request(*CALLS[0][:1], json.dumps(CALLS[0][1])), refusal('NoNode')),
                (request('DELETE /jobs/' + self.word()), refusal('NoJob')),
                (request(f'POST /uagv/v2/KIT/{self.word()}/pause', self.junk()), refusal('NoPath')),
                (request('POST /vehicles/KIT/0001/pause', self.junk()), refusal('NoVehicle')),
                (
                    request('POST /uagv/v2/KIT/0002/state', json.dumps(state(1)[1])),
                    refusal('WrongVehicle'),
                ),
            )
        )

    def drive(self) -> tuple[bytes, Answer]:
        """A drive of a vehicle that is not there, of which no member more is read."""
        chance = self.chance
        call = calls.drive(self.word(), self.word(), chance.randint(1, 200), self.word())
        more: dict[str, object] = {self.word(): chance.choice((None, self.word(), [1], {}))}
        body: Any = call.body
        return request(call.line, json.dumps({**more, **body})), refusal('NoVehicle')

    def bad_drive(self) -> tuple[bytes, Answer]:
        """A drive without a member, or with one of another type."""
        chance = self.chance
        whole: Any = calls.drive(self.word(), self.word(), 1).body
        body = dict(whole)
        name = chance.choice(list(body))
        wrong: Any = chance.choice(('', 'a b', 'x' * 33, None, True, [], {}, -1, 2**32))
        if chance.randint(0, 2):
            body[name] = wrong
        else:
            del body[name]
        return request('POST /drives', json.dumps(body)), refusal('BadBody')

    def phase(self) -> tuple[bytes, Answer]:
        """The phase of a job that is not there, or a path or a method beside it."""
        chance, job = self.chance, self.word()
        line, name = chance.choice(
            (
                (f'GET /jobs/{job}/phase', 'NoJob'),
                (f'GET /jobs/{job}/phase?{self.word()}', 'NoJob'),
                (
                    f'{chance.choice(("PUT", "POST", "DELETE", "PHASE"))} /jobs/{job}/phase',
                    'BadMethod',
                ),
                (f'{chance.choice(("GET", "PUT", "DELETE"))} /drives', 'BadMethod'),
                (f'GET /jobs/{job}/phases', 'NoPath'),
                (f'GET /jobs/{"x" * 33}/phase', 'NoPath'),
                ('GET /jobs//phase', 'NoPath'),
                (f'POST /drives/{job}', 'NoPath'),
            )
        )
        return request(line, self.junk()), refusal(name)

    def ends(self) -> Any:
        """The last bytes of a stream: nothing, a request that ends it, or what is no request."""
        chance = self.chance
        behind = self.junk()
        return chance.choice(
            (
                (b'', None),
                (b'\0' + behind, refusal('BadHead')),
                (b'GET / HTTP/3.0\r\n\r\n' + behind, refusal('BadHead')),
                (b'GET /' + b'a' * chance.randint(8_192, 20_000), refusal('BadHead')),
                (
                    request('GET /', more='a: b\r\n' * chance.randint(33, 200)) + behind,
                    refusal('BadHead'),
                ),
                (
                    b'POST /loads HTTP/1.1\r\nContent-Length: 1\r\nContent-Length: 1\r\n\r\n'
                    + behind,
                    refusal('BadHead'),
                ),
                (
                    b'POST /loads HTTP/1.1\r\nContent-Length: %d\r\n\r\n'
                    % chance.randint(65_537, 10**12)
                    + behind,
                    refusal('TooLarge'),
                ),
                (
                    b'POST /loads HTTP/1.1\r\nTransfer-Encoding: chunked\r\n\r\n' + behind,
                    refusal('Coding'),
                ),
                (b'PUT /layout HTTP/1.1\r\n\r\n' + behind, refusal('NoLength')),
                (
                    b'POST /loads HTTP/1.1\r\nContent-Length: 1000\r\n\r\n' + behind,
                    refusal('BadHead'),
                ),
                (request('GET /loads/L1')[: chance.randint(1, 20)], refusal('BadHead')),
                (
                    request('GET /loads/no', more='Connection: x , CLOSE\r\n') + behind,
                    refusal('NoLoad'),
                ),
                (b'GET /loads/no HTTP/1.0\r\n\r\n' + behind, refusal('NoLoad')),
            )
        )

    def stream(self) -> tuple[Any, Any, bool]:
        """Requests up to the length of a stream, and its end; what is answered, and whether the
        last answer closes."""
        data, wanted = b'', []
        while len(data) < STREAM:
            part, answer = self.goes_on()
            data += part
            wanted.append(answer)
        last, answer = self.ends()
        return data + last, wanted + ([answer] if answer else []), answer is not None

    def changed(self) -> bytes:
        """A stream with a few bytes changed, dropped, doubled or put in."""
        data = bytearray(self.stream()[0])
        for _ in range(self.chance.randint(1, 4)):
            at = self.chance.randrange(len(data))
            kind = self.chance.randrange(4)
            if kind == 0:
                data[at] = self.chance.randrange(256)
            elif kind == 1:
                del data[at : at + self.chance.randint(1, 40)]
            elif kind == 2:
                data[at:at] = data[at : at + self.chance.randint(1, 400)]
            else:
                data[at:at] = self.junk(20)
        return bytes(data)
