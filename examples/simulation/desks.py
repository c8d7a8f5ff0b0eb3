"""The desk of a plant: the real program over a file, under a supervisor that starts it again
whenever it ends; and a client that is quick, since a day is some millions of requests."""
from __future__ import annotations

import argparse
import contextlib
import os
import random
import re
import signal
import socket
import subprocess
import threading
from collections.abc import Iterator
from typing import Self

from nulvrader.desk.client import Answer, Desk, NoAnswer
from nulvrader.file.machine import free_port

from .truth import Wrong

# How many seconds the desk of a plant has for an answer: a busy machine is no fault.
PATIENCE = 120.0

# A desk that was sent a signal ends with one of these. With any other status it has ended by
# itself.
SENT = -signal.SIGKILL, -signal.SIGTERM

# The desk that a checkout builds.
BUILT = os.path.join(os.path.dirname(os.path.abspath(__file__)), '..', '..', 'build', 'desk')

LENGTH = re.compile(rb'\r\nContent-Length: (\d+)')


def add_program(parser: argparse.ArgumentParser) -> None:
    """Adds the option `--program`, the desk that is run."""
    parser.add_argument('--program', default=BUILT, help='the desk (default: build/desk)')


class Wire:
    """One connection to a desk for all clients of a plant, since a desk serves one at a time; after
    a fault the next request makes a new one. It reads no more of an answer's head than its status
    and length: all that the client of tools/ does for proxies would take about as long as the desk
    takes for a request."""

    def __init__(self, port: int) -> None:
        self.port = port
        self._socket: socket.socket | None = None
        self._data = b''

    def ask(self, method: str, target: str, body: bytes | None) -> Answer:
        length = f'Content-Length: {len(body or b"")}\r\n' if method in ('PUT', 'POST') else ''
        sent = False
        try:
            if self._socket is None:
                self._socket = socket.create_connection(('127.0.0.1', self.port), PATIENCE)
                self._socket.setsockopt(socket.IPPROTO_TCP, socket.TCP_NODELAY, 1)
            sent = True
            self._socket.sendall(
                (f'{method} {target} HTTP/1.1\r\n{length}\r\n').encode() + (body or b'')
            )
            return self._answer()
        except OSError as fault:
            self.close()
            raise NoAnswer(str(fault), sent) from fault

    def _answer(self) -> Answer:
        while b'\r\n\r\n' not in self._data:
            self._read()
        head, _, self._data = self._data.partition(b'\r\n\r\n')
        told = LENGTH.search(head)
        length = int(told.group(1)) if told else 0
        while len(self._data) < length:
            self._read()
        body, self._data = self._data[:length], self._data[length:]
        return Answer(int(head[9:12]), body)

    def _read(self) -> None:
        assert self._socket is not None
        data = self._socket.recv(1 << 16)
        if not data:
            raise ConnectionError('the connection was closed before the answer arrived')
        self._data += data

    def close(self) -> None:
        if self._socket is not None:
            self._socket.close()
        self._socket, self._data = None, b''


class Wired(Desk):
    """A client over a wire."""

    def __init__(self, wire: Wire) -> None:
        super().__init__(f'127.0.0.1:{wire.port}')
        self.wire = wire

    def ask(self, method: str, target: str, body: bytes | None = None) -> Answer:
        return self.wire.ask(method, target, body)

    @contextlib.contextmanager
    def kept(self, count: int | None = None) -> Iterator[Self]:
        yield self  # it always is


class Served:
    """The program over a file, on one port of this machine."""

    def __init__(self, program: str, db: str, port: int = 0) -> None:
        self.program, self.db, self.port = program, db, port or free_port()
        self.wire = Wire(self.port)
        self.process: subprocess.Popen[str] | None = None
        self.killer: threading.Timer | None = None
        self.starts = 0

    @property
    def address(self) -> str:
        return f'127.0.0.1:{self.port}'

    def start(self) -> None:
        """Starts it, and waits until it listens."""
        words = [
            self.program,
            'serve',
            '--db',
            self.db,
            '--port',
            str(self.port),
            '--connections',
            '4294967295',
        ]
        self.process = subprocess.Popen(
            words, stdout=subprocess.PIPE, stderr=subprocess.PIPE, text=True
        )
        assert self.process.stdout is not None and self.process.stderr is not None
        line = self.process.stdout.readline()
        if not re.fullmatch(r'listening on 127\.0\.0\.1:\d+\n', line):
            raise Wrong(f'the desk does not start: {(line + self.process.stderr.read()).strip()}')
        self.starts += 1

    def supervise(self) -> None:
        """Starts it again where it was killed. That it has ended by itself is wrong."""
        status = self.process.poll() if self.process is not None else None
        if self.process is None or status is None:
            return
        assert self.process.stderr is not None
        if status not in SENT:
            raise Wrong(
                f'the desk ended by itself: status {status}, and it said:'
                f' {self.process.stderr.read().strip()}'
            )
        self._close()
        self.start()

    def kill_soon(self, chance: random.Random) -> None:
        """Kills it within some milliseconds, whatever it does then."""
        process = self.process
        if process is not None and process.poll() is None:
            self.killer = threading.Timer(chance.uniform(0, 0.02), self._kill, (process,))
            self.killer.start()

    @staticmethod
    def _kill(process: subprocess.Popen[str]) -> None:
        process.kill()
        process.wait()

    def settle(self) -> None:
        """Waits until nobody kills it any more, and starts it if it has ended."""
        if self.killer is not None:
            self.killer.join()
        self.supervise()

    def stop(self) -> None:
        self.wire.close()
        if self.process is not None:
            self.process.terminate()
            self.process.wait(120)
            self._close()

    def _close(self) -> None:
        assert (
            self.process is not None
            and self.process.stdout is not None
            and self.process.stderr is not None
        )
        self.process.stdout.close()
        self.process.stderr.close()
        self.process = None

    def report(self, name: str) -> bytes:
        """Returns what the program reports of the file, once it is stopped. That it does shows that
        the file is lawful: the program reads every row first, and ends where they break a rule."""
        done = subprocess.run(
            [self.program, 'report', '--db', self.db, name], capture_output=True, timeout=600
        )
        if done.returncode:
            raise Wrong(f'the file is not lawful: {done.stderr.decode().strip()}')
        return done.stdout

    def is_there(self) -> bool:
        return os.access(self.program, os.X_OK)
