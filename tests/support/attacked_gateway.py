"""States of a vehicle whose gateway is attacked, and a server in the place of its desk or
broker."""
from __future__ import annotations

import contextlib
import json
import socket
import threading
import time
from collections.abc import Callable
from typing import Any

from tests.support.states import told

MB = 1_000_000
TOPIC = 'uagv/v2/KIT/0001/'
SOON = 20.0  # seconds in which a program ends that is told to, on a busy machine


def state(number: int, **others: Any) -> bytes:
    """Returns a state of KIT/0001 at N1."""
    return json.dumps({**told(number), **others}).encode()


def more_lines(begun: float) -> int:
    """Returns how many lines more the gateway may say of a thing that has gone on since a moment:
    20 in each minute but the first."""
    return 20 * int((time.monotonic() - begun) / 60)


def end(listener: socket.socket) -> None:
    """Ends a listener, also where a thread waits at it."""
    with contextlib.suppress(OSError):
        listener.shutdown(socket.SHUT_RDWR)
    listener.close()


class Listening:
    """A server of this machine, each connection of which has a thread of its own."""

    def __init__(self, port: int = 0) -> None:
        self.listener, self.connections = socket.create_server(('127.0.0.1', port), backlog=100), 0
        self.address = f'127.0.0.1:{self.listener.getsockname()[1]}'
        threading.Thread(target=self.serve, daemon=True).start()

    def serve(self) -> None:
        """Serves until the listener is closed."""
        while True:
            try:
                line, _ = self.listener.accept()
            except OSError:
                return
            self.connections += 1
            threading.Thread(target=self.serve_one, args=[line], daemon=True).start()

    def serve_one(self, line: socket.socket) -> None:
        """Serves a connection."""
        raise NotImplementedError


class HostileServer(Listening):
    """A server in the place of the desk. `answer` takes a connection whose request it has read."""

    def __init__(self, answer: Callable[[socket.socket, bytes], None]) -> None:
        self.answer, self.requests = answer, 0
        super().__init__()

    def serve_one(self, line: socket.socket) -> None:
        """Reads a request, and answers it."""
        try:
            with line:
                request = line.recv(65536)
                self.requests += 1
                self.answer(line, request)
        except OSError:
            pass
