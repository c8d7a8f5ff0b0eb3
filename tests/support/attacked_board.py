"""Bytes that are sent to a board on one connection, and what it answers."""
from __future__ import annotations

import contextlib
import re
import socket
from collections.abc import Iterator

STATUS = re.compile(rb'HTTP/1\.1 ([0-9]{3}) ')


def read_all(source: socket.socket) -> bytes:
    """What comes until the other end closes."""
    told = b''
    with contextlib.suppress(ConnectionResetError):
        while data := source.recv(65536):
            told += data
    return told


def sent(port: int, data: bytes) -> bytes:
    """What a board answers to bytes on one connection, until it closes that; the connection stays
    open at this end."""
    with socket.create_connection(('127.0.0.1', port), timeout=60) as plain:
        with contextlib.suppress(BrokenPipeError, ConnectionResetError):
            plain.sendall(data)
        try:
            return read_all(plain)
        except TimeoutError:
            raise AssertionError(f'the board keeps the connection open behind {data!r}') from None


def connections(port: int, count: int, data: bytes) -> Iterator[socket.socket]:
    """Opens so many connections to a board, or as many as it takes, sends these bytes by each, and
    reads nothing."""
    for _ in range(count):
        plain = socket.socket()
        plain.setsockopt(socket.SOL_SOCKET, socket.SO_RCVBUF, 4096)
        plain.settimeout(5)
        try:
            plain.connect(('127.0.0.1', port))
        except TimeoutError:
            plain.close()
            return
        with contextlib.suppress(OSError):  # it was ended for another one
            plain.send(data)
        yield plain
