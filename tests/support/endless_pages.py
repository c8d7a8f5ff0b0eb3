"""A file of SQLite of some pages, whose list of tables never ends: each page of it names the next
one many times."""
from __future__ import annotations

import contextlib
import sqlite3
import struct

PAGE = 65536
LEVELS, CHILDREN = 15, 9000
HEAD = 100  # bytes of a file, before its first page


def make(path: str, size: int) -> None:
    """Makes the file. It says that it has `size` bytes, which are holes."""
    with contextlib.closing(sqlite3.connect(path)) as base:
        base.execute(f'PRAGMA page_size = {PAGE}')
        base.execute('CREATE TABLE a (x TEXT PRIMARY KEY)')
    with open(path, 'rb') as file:
        data = file.read()
    table, index = rows_of(data)
    first = len(data) // PAGE + 1
    pages = [_leaf([table, index])]
    pages += [_inner([first + level + 2] * CHILDREN) for level in range(LEVELS)]
    pages.append(_leaf([index] * 100))
    count = struct.pack('>I', size // PAGE)
    head = data[:28] + count + data[32:92] + data[24:28] + data[96:HEAD]
    with open(path, 'r+b') as file:
        file.write(head + _inner([first] + [first + 1] * CHILDREN, HEAD)[HEAD:])
        file.seek((first - 1) * PAGE)
        file.write(b''.join(pages))
        file.truncate(size)


def rows_of(data: bytes) -> list[bytes]:
    """Returns the rows of the first page, the list of tables; each has fewer than 128 bytes."""
    (count,) = struct.unpack_from('>H', data, HEAD + 3)
    starts = struct.unpack_from(f'>{count}H', data, HEAD + 8)
    return [data[at : at + 2 + data[at]] for at in starts]


def page_of(size: int, kind: int, cells: list[bytes], right: bytes = b'', before: int = 0) -> bytes:
    """Returns a page of this size and these cells, with room at its front for so many bytes."""
    start = size - sum(map(len, cells))
    head = struct.pack('>BHHHB', kind, 0, len(cells), start % 65536, 0) + right
    pointers, at = b'', size
    for cell in cells:
        at -= len(cell)
        pointers += struct.pack('>H', at)
    return (bytes(before) + head + pointers).ljust(start, b'\0') + b''.join(reversed(cells))


def _leaf(rows: list[bytes]) -> bytes:
    return page_of(PAGE, 13, rows)


def _inner(below: list[int], before: int = 0) -> bytes:
    """Returns a page that names pages below it."""
    cells = [struct.pack('>IB', page, 1) for page in below]
    return page_of(PAGE, 5, cells, struct.pack('>I', below[-1]), before)
