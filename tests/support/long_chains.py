"""A file of SQLite whose list of tables has rows of one long text each, which all of them share: a
small file that SQLite reads for hours."""
from __future__ import annotations

import contextlib
import sqlite3
import struct
from collections.abc import Iterator

from tests.support.endless_pages import HEAD, page_of, rows_of

PAGE = 512
LONGEST = 3_300_000  # bytes of the text; the tools read values of 10,000,000
CHILDREN = 30  # that a page names
NAME, TABLE = b'sqlite_autoindex_a_1', b'a'
# Of a row whose text is longer, so many bytes are in its own page.
LEAST = (PAGE - 12) * 32 // 255 - 23


def make(path: str, rows: int) -> None:
    """Makes the file, with so many rows."""
    with contextlib.closing(sqlite3.connect(path)) as base:
        base.execute(f'PRAGMA page_size = {PAGE}')
        base.execute('CREATE TABLE a (x TEXT PRIMARY KEY)')
    with open(path, 'rb') as file:
        data = file.read()
    pages = [data[at : at + PAGE] for at in range(0, len(data), PAGE)]
    row = _row()
    own = LEAST + (len(row) - LEAST) % (PAGE - 4)
    own = own if own <= PAGE - 35 else LEAST
    chain = len(pages) + 1
    pages += _chain(row[own:], chain)
    shared = row[:own] + struct.pack('>I', chain)
    level = []
    for cells, last in _leaves(rows_of(data), len(row), shared, rows):
        pages.append(page_of(PAGE, 13, cells))
        level.append((len(pages), last))
    while len(level) > CHILDREN:
        above = []
        for at in range(0, len(level), CHILDREN):
            pages.append(_inner(level[at : at + CHILDREN]))
            above.append((len(pages), level[at : at + CHILDREN][-1][1]))
        level = above
    count = struct.pack('>I', len(pages))
    head = data[:28] + count + data[32:92] + data[24:28] + data[96:HEAD]
    pages[0] = head + _inner(level, HEAD)[HEAD:]
    with open(path, 'wb') as file:
        file.write(b''.join(pages))


def _row() -> bytes:
    """Returns the row of an index of a key, as a row of the list of tables: its first column, the
    kind, which SQLite does not look at, is the long text."""
    kinds = [13 + 2 * LONGEST, 13 + 2 * len(NAME), 13 + 2 * len(TABLE), 1, 0]
    head = b''.join(map(_number, kinds))
    return bytes([len(head) + 1]) + head + b'x' * LONGEST + NAME + TABLE + b'\3'


def _number(number: int) -> bytes:
    """Returns a number as SQLite writes it."""
    found = [number & 0x7F]
    while number := number >> 7:
        found.append(0x80 | number & 0x7F)
    return bytes(reversed(found))


def _chain(data: bytes, first: int) -> Iterator[bytes]:
    """Yields pages that have the rest of a row, each with the number of the next one."""
    for at in range(0, len(data), PAGE - 4):
        more = at + PAGE - 4 < len(data)
        following = first + at // (PAGE - 4) + 1 if more else 0
        yield (struct.pack('>I', following) + data[at : at + PAGE - 4]).ljust(PAGE, b'\0')


def _leaves(
    own: list[bytes], length: int, shared: bytes, rows: int
) -> Iterator[tuple[list[bytes], int]]:
    """Yields the cells of pages of rows, and the last row of each."""
    yield own, len(own)
    each = (PAGE - 8) // (len(shared) + 2 + 4 + 4)
    for first in range(10, 10 + rows, each):
        numbers = range(first, first + each)
        yield [_number(length) + _number(number) + shared for number in numbers], numbers[-1]


def _inner(below: list[tuple[int, int]], before: int = 0) -> bytes:
    """Returns a page that names pages below it, each with its last row."""
    cells = [struct.pack('>I', page) + _number(last) for page, last in below[:-1]]
    return page_of(PAGE, 5, cells, struct.pack('>I', below[-1][0]), before)
