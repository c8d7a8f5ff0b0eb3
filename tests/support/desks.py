"""Runs the program: over files, over sockets, and its output read."""
from __future__ import annotations

import contextlib
import http.client
import os
import re
import socket
import subprocess
import tempfile
import unittest
from collections.abc import Callable
from typing import Any

from tests.support.programs import ROOT

DESK = os.path.abspath(os.environ.get('DESK', os.path.join(ROOT, 'build', 'desk')))
TRANSPORT = os.path.join(ROOT, 'examples', 'transport.http')
AT = '1700000000000'

# The reports at the end of the transport: L1 stands at B, and of three nodes and four edges the
# vehicle holds the one where it stands.
STOCK = (
    b'station A at N1: 0 of 1, reserved 0\nstation B at N3: 1 of 1, reserved 0\n  L1\nstation C at'
    b' N3: 0 of 2, reserved 0\nchecking: 0\nvehicle KIT/0001: 0\nleft: 0\n'
)
HOLDS = b'node N3 KIT/0001\nheld 1 of 7\n'


def has_loopback() -> bool:
    """Whether this machine lets a program listen on 127.0.0.1, and another one connect."""
    try:
        with socket.socket() as listener:
            listener.bind(('127.0.0.1', 0))
            listener.listen()
            socket.create_connection(listener.getsockname(), timeout=300).close()
        return True
    except OSError:
        return False


over_sockets = unittest.skipUnless(has_loopback(), 'no sockets on 127.0.0.1 here')


def requests_of(data: bytes) -> list[tuple[str, str, bytes]]:
    """The requests of a file of requests: method, target, body."""
    found, at = [], 0
    while at < len(data):
        end = data.index(b'\r\n\r\n', at)
        lines = data[at:end].decode().split('\r\n')
        length = 0
        for line in lines[1:]:
            if line.lower().startswith('content-length:'):
                length = int(line.split(':')[1])
        method, target, _ = lines[0].split(' ')
        body = data[end + 4 : end + 4 + length]
        found.append((method, target, body))
        at = end + 4 + length
    return found


def run(*words: str, stdin: bytes = b'', limit: float = 600) -> tuple[int, bytes, bytes]:
    done = subprocess.run([DESK, *words], input=stdin, capture_output=True, timeout=limit)
    return done.returncode, done.stdout, done.stderr


class Serving:
    """The program that serves so many connections on a port of its own."""

    def __init__(
        self, db: str, connections: int = 1000, preexec_fn: Callable[[], None] | None = None
    ) -> None:
        self.process = subprocess.Popen(
            [DESK, 'serve', '--db', db, '--port', '0', '--connections', str(connections)],
            stdout=subprocess.PIPE,
            stderr=subprocess.PIPE,
            preexec_fn=preexec_fn,
        )
        assert self.process.stdout and self.process.stderr
        self.out, self.said = self.process.stdout, self.process.stderr
        line = self.out.readline().decode()
        said = re.fullmatch(r'listening on 127\.0\.0\.1:(\d+)\n', line)
        if not said:
            raise AssertionError(line + self.said.read().decode())
        self.port = int(said.group(1))

    def __enter__(self) -> Serving:
        return self

    def __exit__(self, *_: object) -> None:
        if self.process.poll() is None:
            self.process.kill()
        self.process.wait(300)
        self.out.close()
        self.said.close()

    def connect(self) -> http.client.HTTPConnection:
        return http.client.HTTPConnection('127.0.0.1', self.port, timeout=300)

    def plain(self) -> socket.socket:
        return socket.create_connection(('127.0.0.1', self.port), timeout=300)

    def ask(
        self,
        method: Any,
        target: str,
        body: bytes | None = None,
        connection: http.client.HTTPConnection | None = None,
    ) -> tuple[int, bytes]:
        """One request; its status and its body."""
        own = connection or self.connect()
        # a request that is refused by its head may be answered, and its connection closed, while
        # its body is sent
        with contextlib.suppress(BrokenPipeError, ConnectionResetError):
            own.request(
                method,
                target,
                body,
                {'Content-Length': str(len(body or b''))} if method != 'GET' else {},
            )
        answer = own.getresponse()
        told = answer.status, answer.read()
        if not connection:
            own.close()
        return told


MOMENT = rb'\d{4}-\d\d-\d\dT\d\d:\d\d:\d\d\.\d\dZ'


def without_moments(body: bytes) -> bytes:
    """A body, with the same text in the place of each moment."""
    return re.sub(MOMENT, b'MOMENT', body)


def read_all(plain: socket.socket) -> bytes:
    got = b''
    while True:
        part = plain.recv(65536)
        if not part:
            return got
        got += part


class ProgramTest(unittest.TestCase):
    def setUp(self) -> None:
        self.folder = tempfile.TemporaryDirectory()
        self.db = os.path.join(self.folder.name, 'warehouse.db')
        with open(TRANSPORT, 'rb') as file:
            self.transport = file.read()

    def tearDown(self) -> None:
        self.folder.cleanup()

    def replay(self, stdin: bytes, db: str | None = None) -> tuple[int, bytes, bytes]:
        return run('replay', '--db', db or self.db, '--at', AT, stdin=stdin)
