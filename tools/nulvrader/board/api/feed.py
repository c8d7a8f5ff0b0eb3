"""Notices new events of the record, in a thread of its own, and wakes those who wait for them. An
event is told once it is on the disk: after a failure of the power its number is not given again."""
from __future__ import annotations

import asyncio
import contextlib
import sqlite3
import threading
import time
from collections.abc import Callable, Iterator

from ..journal import log
from .events import last_number
from .reading import Reading

EVERY = 0.2  # seconds from one look to the next


class Feed(threading.Thread):
    """The last event that may be told. `news` is called with it in the thread of the feed, before
    anyone is woken."""

    def __init__(self, reading: Reading, news: Callable[[Reading, int], None]) -> None:
        super().__init__(name='feed', daemon=True)
        self.reading, self.news = reading, news
        self.last: int | None = None  # None until the record could be read
        self.fault: str | None = None  # why the record can't be read
        self.looked = time.monotonic()
        self._version: int | None = None
        self._over = threading.Event()
        self._lock = threading.Lock()
        self._waiting: set[tuple[asyncio.AbstractEventLoop, asyncio.Event]] = set()

    def stop(self) -> None:
        """Ends the thread."""
        self._over.set()

    def run(self) -> None:
        while True:
            self.look()
            if self._over.wait(EVERY):
                return

    def begin(self) -> None:
        """Looks once, and goes on in the thread."""
        self.look()
        self.start()

    def look(self) -> None:
        """Looks whether there are new events."""
        try:
            version = self.reading.version()
            if version != self._version:
                self._take(last_number(self.reading))
            self._version, self.fault, self.looked = version, None, time.monotonic()
        except (OSError, sqlite3.Error) as fault:
            self._fails(str(fault))

    def _take(self, last: int) -> None:
        if last != self.last:
            self.reading.sync()
            self.news(self.reading, last)
            self.last = last
            self._wake()

    def _fails(self, fault: str) -> None:
        if fault != self.fault:
            log(f'the record can not be read: {fault}')
        self.fault = fault

    def _wake(self) -> None:
        with self._lock:
            for loop, event in self._waiting:
                with contextlib.suppress(RuntimeError):  # the loop is closed
                    loop.call_soon_threadsafe(event.set)

    @contextlib.contextmanager
    def waiting(self) -> Iterator[asyncio.Event]:
        """Gives an event that is set, in the loop that runs, at each new event of the record."""
        one = asyncio.get_running_loop(), asyncio.Event()
        with self._lock:
            self._waiting.add(one)
        try:
            yield one[1]
        finally:
            with self._lock:
                self._waiting.discard(one)
