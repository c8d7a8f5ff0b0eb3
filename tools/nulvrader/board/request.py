"""Reads the one request of a connection. It is read strictly: what two readers could understand in
two ways is refused, and so is what no browser and no proxy sends."""
from __future__ import annotations

import asyncio
import re
from collections.abc import Mapping
from dataclasses import dataclass

from .messages import Line

HEAD = 32_768  # bytes of a request before its body
HEADERS = 100
BODY = 262_144  # bytes of a command: a stocktake of 65,536 bytes as a text of JSON

METHODS = 'GET', 'HEAD', 'POST'
FIRST = re.compile(rb'([A-Z]{1,16}) (/[!-~]*) HTTP/1\.[01]\r\n')
# No two parts of a pattern take the same byte, so that a line is passed once, however hostile.
HEADER = re.compile(rb"([!#$%&'*+.^_`|~0-9A-Za-z-]+):([\t -~\x80-\xff]*)\r\n")
LENGTH = re.compile('[0-9]{1,9}')


class BadRequest(Exception):
    """A request that is refused as it stands, and why."""

    def __init__(self, status: int, why: str | Line):
        super().__init__(why if isinstance(why, str) else why.words())
        self.status, self.why = status, why


@dataclass(frozen=True)
class Head:
    """The request line and the headers, whose names are in small letters; `length` is that of the
    body."""

    method: str
    target: str
    headers: Mapping[str, str]
    length: int


async def read_head(source: asyncio.StreamReader) -> Head:
    """Reads all before the body. `source` has the limit `HEAD`; where it ends before, that is an
    `EOFError`."""
    first = FIRST.fullmatch(await _line(source, HEAD))
    if first is None:
        raise BadRequest(400, 'The request line is not one of HTTP/1.1.')
    method, target = (part.decode('ascii') for part in first.groups())
    headers: dict[str, str] = {}
    left = HEAD - len(first.group())
    while (line := await _line(source, left)) != b'\r\n':
        left -= len(line)
        name, value = _header(line)
        if name in headers:
            raise BadRequest(400, f'The header {name} comes twice.')
        headers[name] = value
        if len(headers) > HEADERS:
            raise BadRequest(431, f'The request has more than {HEADERS} headers.')
    return Head(method, target, headers, _length(method, headers))


async def _line(source: asyncio.StreamReader, most: int) -> bytes:
    try:
        line = await source.readuntil(b'\n')
    except asyncio.LimitOverrunError:
        line = b''
    if not 0 < len(line) <= most:
        raise BadRequest(431, f'The request has more than {HEAD} bytes before its body.')
    return line


def _header(line: bytes) -> tuple[str, str]:
    found = HEADER.fullmatch(line)
    if found is None:
        raise BadRequest(400, 'A header can not be read.')
    name, value = found.groups()
    return name.decode('ascii').lower(), value.strip(b' \t').decode('latin-1')


def _length(method: str, headers: Mapping[str, str]) -> int:
    """Returns the length of the body. Only a POST has one."""
    if method not in METHODS:
        raise BadRequest(405, 'The board answers GET, HEAD and POST.')
    if 'transfer-encoding' in headers:
        raise BadRequest(501, 'The board takes no transfer coding.')
    said = headers.get('content-length')
    if said is not None and not LENGTH.fullmatch(said):
        raise BadRequest(400, 'Content-Length is no number.')
    if method == 'POST' and said is None:
        raise BadRequest(411, 'A POST needs a Content-Length.')
    length = int(said or 0)
    if method != 'POST' and length:
        raise BadRequest(400, f'A {method} has no body.')
    if length > BODY:
        raise BadRequest(413, Line('page.long', {'most': BODY}))
    return length
