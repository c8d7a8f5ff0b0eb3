"""Hears what gateways tell of vehicles: datagrams on a socket of this machine, in a thread of its
own. It takes only so many in a second, and keeps only the last few of a vehicle until they are
taken; those that come faster wait in the socket, and then their senders are told that it is
full."""
from __future__ import annotations

import socket
import threading
import time
from collections import deque

from .private_sockets import bound_to
from .vehicle_words import LONGEST, NoWords, Words, read_words

RATE = 400  # datagrams in a second, at most
EACH = 8  # of a vehicle, that are kept until they are taken
VEHICLES = 200  # names, of which words are kept
LOOK = 0.5  # seconds from one look whether it is to end to the next


def hearing_in(path: str) -> socket.socket:
    """Listens on a socket for datagrams. The user and the group of the board may write to it, and
    nobody else."""
    heard = bound_to(path, socket.SOCK_DGRAM)
    heard.settimeout(LOOK)
    return heard


class Heard(threading.Thread):
    """Keeps what was heard until it is taken. `known` are the vehicles of the desk once they are
    known: others are dropped."""

    def __init__(self, source: socket.socket):
        super().__init__(name='words', daemon=True)
        self.source = source
        self.known: frozenset[str] | None = None
        self.dropped = 0
        self._lock = threading.Lock()
        self._words: dict[str, deque[Words]] = {}
        self._over = threading.Event()

    def run(self) -> None:
        """Takes datagrams until the thread is stopped, at most `RATE` in a second: what comes
        faster is left in the socket."""
        while not self._over.is_set():
            begun, count = time.monotonic(), 0
            while count < RATE and time.monotonic() < begun + 1 and not self._over.is_set():
                count += self._hear()
            if count >= RATE:
                self._over.wait(max(0.0, begun + 1 - time.monotonic()))

    def stop(self) -> None:
        """Ends the thread."""
        self._over.set()
        self.join(2 * LOOK)
        self.source.close()

    def _hear(self) -> int:
        """Takes a datagram, if one comes. How many came."""
        try:
            data = self.source.recv(LONGEST + 1)
        except (TimeoutError, OSError):
            return 0
        try:
            self._put(*read_words(data))
        except NoWords:
            self.dropped += 1
        return 1

    def _put(self, vehicle: str, words: Words) -> None:
        with self._lock:
            is_new = vehicle not in self._words
            if self.known is not None and vehicle not in self.known:
                self.dropped += 1
            elif is_new and len(self._words) >= VEHICLES:
                self.dropped += 1
            else:
                self._words.setdefault(vehicle, deque(maxlen=EACH)).append(words)

    def take(self) -> dict[str, list[Words]]:
        """Returns what was heard since it was last taken, the oldest first, by vehicle."""
        with self._lock:
            words, self._words = self._words, {}
        return {vehicle: list(row) for vehicle, row in words.items()}
