"""Receivers of webhooks, good and hostile, on a port of this machine, and how a sender is told of
them."""
from __future__ import annotations

import contextlib
import dataclasses
import json
import socket
import threading
from collections.abc import Callable
from dataclasses import dataclass
from typing import Any

from nulvrader.board.api.webhooks.config import Hook
from nulvrader.board.api.webhooks.delivery import secrets_of
from nulvrader.desk.wire import Place

# The secret that the Standard Webhooks libraries test with.
SECRET = 'whsec_MfKQ9r8GKYqrTwjUPD8ILPZIo2LaLaSw'
Answers = Callable[[socket.socket, 'Got'], None]


@dataclass(frozen=True)
class Got:
    """A request that a receiver has got."""

    line: str
    headers: dict[str, str]
    body: bytes

    def ids(self) -> list[int]:
        """The numbers of its events."""
        return [event['id'] for event in json.loads(self.body)['events']]


def status(number: int, *lines: str) -> Answers:
    """Answers with a status and further lines of the head."""

    def answer(client: socket.socket, _: Got) -> None:
        head = [f'HTTP/1.1 {number} X', 'Content-Length: 2', *lines, '', 'ok']
        client.sendall('\r\n'.join(head).encode())

    return answer


def endless(begin: bytes, part: bytes) -> Answers:
    """Answers without an end."""

    def answer(client: socket.socket, _: Got) -> None:
        client.sendall(begin)
        while True:
            client.sendall(part)

    return answer


class Receiver(threading.Thread):
    """Takes a request on each connection, keeps it, and answers it by `answers`, which may be
    changed at any time."""

    def __init__(self, answers: Answers, host: str = '127.0.0.1') -> None:
        super().__init__(daemon=True)
        self.answers = answers
        self.got: list[Got] = []
        self.connections = 0
        self.over = threading.Event()
        family = socket.AF_INET6 if ':' in host else socket.AF_INET
        self.listener = socket.create_server((host, 0), family=family)
        self.port = int(self.listener.getsockname()[1])
        self.start()

    def run(self) -> None:
        with contextlib.suppress(OSError):  # it was closed
            while True:
                client = self.listener.accept()[0]
                self.connections += 1
                threading.Thread(target=self.serve, args=(client,), daemon=True).start()

    def serve(self, client: socket.socket) -> None:
        """Takes one request, and answers it."""
        with client, contextlib.suppress(OSError, ValueError):
            client.settimeout(60)
            got = read(client)
            self.got.append(got)
            self.answers(client, got)

    def hang(self, client: socket.socket, _: Got) -> None:
        """Answers nothing, and keeps the connection."""
        self.over.wait(60)

    def ids(self) -> list[int]:
        """The numbers of all events that came."""
        return [number for got in self.got for number in got.ids()]

    def close(self) -> None:
        """Listens no more."""
        self.over.set()
        self.listener.shutdown(socket.SHUT_RDWR)
        self.listener.close()


def read(client: socket.socket) -> Got:
    """A request, whole."""
    file = client.makefile('rb')
    line = file.readline(1000).decode('latin-1').rstrip()
    headers = {}
    while (row := file.readline(1000)) not in (b'\r\n', b''):
        name, _, value = row.decode('latin-1').partition(':')
        headers[name.lower()] = value.strip()
    return Got(line, headers, file.read(int(headers.get('content-length', '0'))))


def event(number: int, **members: Any) -> dict[str, Any]:
    """An event as a board tells it."""
    return {'id': number, 'at': '2026-11-28T06:15:00.123Z', 'kind': 'job', **members}


def hook(port: int, path: str = '/hook', **others: Any) -> Hook:
    """A receiver on a port of this machine."""
    made = Hook(
        'erp',
        Place.parse(f'http://127.0.0.1:{port}'),
        path,
        kinds=None,
        secrets=secrets_of(SECRET),
        ca=None,
        loopback=True,
    )
    return dataclasses.replace(made, **others)
