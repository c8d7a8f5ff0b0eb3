"""A server in the desk's place, and `tools/ask` run against it with a limit of memory."""
from __future__ import annotations

import contextlib
import os
import socket
import subprocess
import sys
import tempfile
import threading
import time
import unittest
from collections.abc import Callable, Iterator
from typing import Union

from tests.support.dispatching import LAYOUT
from tests.support.programs import PATIENCE, TOOLS

SECONDS = PATIENCE  # within which a program has to end that was given one or a few
MEMORY = 200_000  # kB, the most that a program may need, however long an answer is
Send = Callable[[socket.socket], None]
Said = Union[bytes, Send]

# Runs a program, and writes the most kB that it needed to the file that MEASURE names.
MEASURED = """
import os, re, resource, runpy, sys
resource.setrlimit(resource.RLIMIT_AS, (2 << 30, 2 << 30))
sys.argv = sys.argv[1:]
try:
    runpy.run_path(sys.argv[0], run_name='__main__')
finally:
    with open('/proc/self/status') as status, open(int(os.environ['MEASURE']), 'w') as out:
        out.write(re.search(r'VmHWM:\\s+(\\d+) kB', status.read()).group(1))
"""


def is_plain(text: str) -> bool:
    """Whether a terminal prints each character as itself, but for line ends."""
    return all(one.isprintable() or one == '\n' for one in text)


def http(body: bytes, status: str = '200 OK', more: bytes = b'') -> bytes:
    """An answer of HTTP."""
    head = f'HTTP/1.1 {status}\r\nContent-Length: {len(body)}\r\nConnection: close\r\n'
    return head.encode('latin-1') + more + b'\r\n' + body


def endless(first: bytes, again: bytes, pause: float = 0.0) -> Send:
    """An answer that begins so, and goes on so until the client closes the connection."""

    def send(connection: socket.socket) -> None:
        connection.sendall(first)
        while True:
            connection.sendall(again)
            time.sleep(pause)

    return send


class Server:
    """A server on a port of this machine. `answer` says what is sent for a request; its number is
    that of the requests before it. With a number of a port it hands all on to a desk there."""

    def __init__(self, answer: bytes | Callable[[int, str], Said], path: str | None = None) -> None:
        self.answer: Callable[[int, str], Said] = answer if callable(answer) else always(answer)
        self.desk = self.asked = 0
        if path is None:
            self.listener = socket.create_server(('127.0.0.1', 0))
            self.address = f'127.0.0.1:{self.listener.getsockname()[1]}'
        else:
            self.listener = socket.socket(socket.AF_UNIX)
            self.listener.bind(path)
            self.listener.listen()
            self.address = f'unix:{path}'
        threading.Thread(target=self._accept, daemon=True).start()

    def __enter__(self) -> Server:
        return self

    def __exit__(self, *_: object) -> None:
        with contextlib.suppress(OSError):
            self.listener.shutdown(socket.SHUT_RDWR)
        self.listener.close()

    def _accept(self) -> None:
        with contextlib.suppress(OSError):
            while True:
                connection, _ = self.listener.accept()
                threading.Thread(target=self._serve, args=(connection,), daemon=True).start()

    def _serve(self, connection: socket.socket) -> None:
        with contextlib.suppress(OSError), connection, connection.makefile('rb') as request:
            if self.desk:
                return self._hand_on(connection)
            line, length = request.readline().decode('latin-1'), 0
            for header in iter(request.readline, b'\r\n'):
                if not header:
                    return None
                name, _, value = header.partition(b':')
                length = int(value) if name.lower() == b'content-length' else length
            request.read(length)
            number, self.asked = self.asked, self.asked + 1
            target = ' '.join(line.split(' ')[:2])
            said = self.answer(number, target)
            if isinstance(said, bytes):
                connection.sendall(said)
            else:
                said(connection)
        return None

    def _hand_on(self, connection: socket.socket) -> None:
        with socket.create_connection(('127.0.0.1', self.desk)) as desk:
            threading.Thread(target=pump, args=(connection, desk), daemon=True).start()
            pump(desk, connection)


def pump(source: socket.socket, target: socket.socket) -> None:
    """Hands on all bytes, and the end."""
    with contextlib.suppress(OSError):
        while data := source.recv(65536):
            target.sendall(data)
        target.shutdown(socket.SHUT_WR)


def always(send: Said) -> Callable[[int, str], Said]:
    """What sends the same for each request."""
    return lambda number, target: send


def asks(*words: str, address: str, env: dict[str, str] | None = None) -> tuple[int, str, str, int]:
    """Runs `tools/ask`: its status, what it prints, what it says on standard error, and the most kB
    of memory that it needed."""
    read, write = os.pipe()
    line = [sys.executable, '-c', MEASURED, os.path.join(TOOLS, 'ask'), '--desk', address, *words]
    with os.fdopen(read) as measured:
        try:
            done = subprocess.run(
                line,
                capture_output=True,
                timeout=SECONDS,
                pass_fds=[write],
                env={**os.environ, 'MEASURE': str(write), 'PYTHONPATH': TOOLS, **(env or {})},
            )
        finally:
            os.close(write)
        memory = int(measured.read() or '0')
    told = [text.decode('utf-8', 'backslashreplace') for text in (done.stdout, done.stderr)]
    return done.returncode, told[0], told[1], memory


class Attack(unittest.TestCase):
    """What each test checks of a program that has ended."""

    def check_no_answer(self, done: tuple[int, str, str, int], command: str) -> None:
        """It ends with 3 and a sentence, and prints nothing else."""
        status, out, said, memory = done
        self.assertEqual((status, out), (3, ''), f'{command}: {said}')
        self.assertRegex(said, '^ask: ')
        self.assertNotIn('Traceback', said)
        self.assertTrue(is_plain(said), repr(said))
        self.assertLess(len(said), 1500)
        self.assertLess(memory, MEMORY)


@contextlib.contextmanager
def files_here() -> Iterator[None]:
    """A folder to work in, with the files that the examples of `ask` name."""
    before = os.getcwd()
    with tempfile.TemporaryDirectory() as folder:
        for name, text in (
            ('layout.csv', LAYOUT),
            ('count.csv', b'station,load\nA,\n'),
            ('state.json', b'{}'),
        ):
            with open(os.path.join(folder, name), 'wb') as file:
                file.write(text)
        os.chdir(folder)
        try:
            yield
        finally:
            os.chdir(before)
