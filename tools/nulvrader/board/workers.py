"""A few threads that do what takes its time, such as a command to the desk, beside the one that
answers all."""
from __future__ import annotations

import asyncio
import collections
import contextlib
import functools
import threading
from collections.abc import Callable
from typing import Any, TypeVar

T = TypeVar('T')
QUEUED = 32  # pieces of work that wait, at most


class Busy(Exception):
    """All threads are at work, and as much waits as may."""


class Workers:
    """So many threads. The program ends without them, whatever they do then: `wait` waits for
    it."""

    def __init__(self, count: int):
        self._waiting: collections.deque[tuple[Callable[[], Any], asyncio.Future[Any]]]
        self._waiting, self._running = collections.deque(), 0
        self._changed = threading.Condition()
        for number in range(count):
            threading.Thread(target=self._serve, name=f'worker {number}', daemon=True).start()

    async def run(self, work: Callable[[], T]) -> T:
        """Has a thread do something, and returns what comes of it. `Busy` where too much waits.
        Work that nobody waits for any more takes no place, and is not begun."""
        done: asyncio.Future[T] = asyncio.get_running_loop().create_future()
        with self._changed:
            for left in [one for one in self._waiting if one[1].cancelled()]:
                self._waiting.remove(left)
            if len(self._waiting) >= QUEUED:
                raise Busy
            self._waiting.append((work, done))
            self._changed.notify_all()
        return await done

    def wait(self, seconds: float) -> None:
        """Waits until no work is left, for at most so many seconds."""
        with self._changed:
            self._changed.wait_for(lambda: not self._waiting and not self._running, seconds)

    def _serve(self) -> None:
        """Does one piece of work after the other, for ever. Each hands its result, or its fault, to
        the loop that waits for it."""
        while True:
            with self._changed:
                self._changed.wait_for(lambda: bool(self._waiting))
                work, done = self._waiting.popleft()
                self._running += 1
            if not done.cancelled():
                self._do(work, done)
            with self._changed:
                self._running -= 1
                self._changed.notify_all()

    @staticmethod
    def _do(work: Callable[[], Any], done: asyncio.Future[Any]) -> None:
        try:
            tell = functools.partial(_finish, done, work())
        except Exception as fault:  # it is raised where the work is waited for
            tell = functools.partial(_fail, done, fault)
        with contextlib.suppress(RuntimeError):  # nobody waits any more: the loop is closed
            done.get_loop().call_soon_threadsafe(tell)


def _finish(done: asyncio.Future[Any], found: Any) -> None:
    if not done.done():
        done.set_result(found)


def _fail(done: asyncio.Future[Any], fault: Exception) -> None:
    if not done.done():
        done.set_exception(fault)
