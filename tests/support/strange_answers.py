"""Answers that no desk gives to any call, and answers that are changed at random."""
from __future__ import annotations

import json
import random
from typing import Any

from tests.support.wrong_server import http

DIGITS = 5000 * b'9'

# Answers that no desk gives to any call.
STRANGE: dict[str, bytes] = {
    'an empty 200': http(b''),
    'a page': http(b'<html>It works!</html>'),
    'no JSON': http(b'{"load":'),
    'a list': http(b'[]'),
    'null': http(b'null'),
    'a number of 5,000 digits': http(b'{"sent":' + DIGITS + b',"moved":' + DIGITS + b'}'),
    'NaN': http(b'{"moved":NaN,"orderUpdateId":NaN}'),
    'a fraction': http(b'{"orderUpdateId":0.5,"moved":1e400}'),
    'deep nesting': http(100_000 * b'['),
    'deep objects': http(100_000 * b'{"a":'),
    'a lone surrogate': http(b'{"actionId":"\\ud800","load":"\\ud800"}'),
    'bytes that are no UTF-8': http(b'{"actionId":"\xff\xfe","load":"\xff"}'),
    'UTF-16': http('{"orderUpdateId":0}'.encode('utf-16')),
    'members that stand twice': http(
        b'{"orderUpdateId":0,"orderUpdateId":1,"load":"L1","load":"L2"}'
    ),
    'members of wrong types': http(b'{"orderUpdateId":"0","moved":true,"load":7,"node":[],"a":{}}'),
    'another status': http(b'{}', '302 Found', b'Location: http://127.0.0.1:1/\r\n'),
    'no status': http(b'{}', 'twohundred OK'),
    'the status 999': http(b'{}', '999 OK'),
    'a refusal with 5,000 digits': http(
        b'{"name":"Held","refusal":' + DIGITS + b'}', '409 Conflict'
    ),
    'a refusal that is a list': http(b'["Held",33]', '409 Conflict'),
    'a refusal nested deeply': http(100_000 * b'[', '409 Conflict'),
    'SSH': b'SSH-2.0-OpenSSH_9.2\r\n',
    'nothing': b'',
    'a cut head': b'HTTP/1.1 200 OK\r\nContent-Le',
    'a cut body': b'HTTP/1.1 200 OK\r\nContent-Length: 40\r\n\r\n{"orderUpdateId":0}',
    'no length': b'HTTP/1.1 200 OK\r\n\r\n{"orderUpdateId":0}',
    'two lengths': http(b'{"a":0}', more=b'Content-Length: 7\r\n'),
    'a negative length': b'HTTP/1.1 200 OK\r\nContent-Length: -1\r\n\r\n{}',
    'a length of 5,000 digits': b'HTTP/1.1 200 OK\r\nContent-Length: ' + DIGITS + b'\r\n\r\n{}',
    'a negative chunk': (
        b'HTTP/1.1 200 OK\r\nTransfer-Encoding: chunked\r\n\r\n-1\r\n{}\r\n0\r\n\r\n'
    ),
    'a cut chunk': b'HTTP/1.1 200 OK\r\nTransfer-Encoding: chunked\r\n\r\n9\r\n{}',
    'a length and chunks': http(b'2\r\n{}\r\n0\r\n\r\n', more=b'Transfer-Encoding: chunked\r\n'),
}
VALUES: list[Any] = [
    None,
    True,
    0,
    -1,
    2**32,
    2**70,
    0.5,
    '',
    'x',
    'N1',
    'KIT',
    [],
    {},
    [[]],
    '\x7f',
]


def changed(body: bytes, chance: random.Random) -> bytes:
    """An answer with a change at random: of its bytes, of a member, or of its head."""
    kind = chance.randrange(4)
    if kind == 0 or kind == 1 and not body.startswith(b'{'):
        data = bytearray(body or b'{}')
        for _ in range(chance.randrange(1, 4)):
            at = chance.randrange(len(data) + 1)
            data[at : at + chance.randrange(3)] = chance.randbytes(chance.randrange(3))
        return http(bytes(data))
    if kind == 1:
        value = json.loads(body)
        change_member(value, chance)
        return http(json.dumps(value).encode())
    if kind == 2:
        return http(
            body[: chance.randrange(len(body) + 1)], chance.choice(['200 OK', '409 No', '1'])
        )
    answer = bytearray(http(body))
    at = chance.randrange(min(80, len(answer)))
    answer[at : at + 1] = chance.randbytes(1)
    if b'\r\n\r\n' not in answer:
        answer += b'\r\n\r\n'
    return bytes(answer)


def change_member(value: Any, chance: random.Random) -> None:
    """Changes a member somewhere in an object, or takes it away."""
    at: Any = value
    while True:
        name = chance.choice(list(at) if isinstance(at, dict) else range(len(at))) if at else None
        if name is None:
            return
        inner = at[name]
        if isinstance(inner, (dict, list)) and inner and chance.random() < 0.8:
            at = inner
        elif chance.random() < 0.2:
            del at[name]
            return
        else:
            at[name] = chance.choice(VALUES)
            return
