"""Tells events as they come to programs that stay connected, by Server-Sent Events. Each stream
goes through the record at the pace of its reader and keeps nothing for it, so that a slow one costs
a socket."""
from __future__ import annotations

import asyncio
import dataclasses
from collections.abc import Awaitable, Callable
from dataclasses import dataclass

from .events import EventQuery, Batch, text_of
from .feed import Feed

MOST = 64  # streams at a time; one more ends the oldest
BATCH = 200  # events that are read at once
QUIET = 15.0  # seconds after which something is sent, so that proxies keep the connection
TURNS = 4  # streams that read at a time: at an event all of them want to
LIFE = 900.0  # seconds after which a stream ends: a proxy looks anew at who asks
TAKE = 20.0  # seconds within which what is sent has to be taken
AGAIN = 2000  # milliseconds after which a reader is to connect again


@dataclass(frozen=True)
class Part:
    """A part of a stream, as it is sent: `after` is from where to go on, and `more` says that there
    is more."""

    data: bytes
    after: int
    more: bool


Read = Callable[[EventQuery], Awaitable[Part]]
Pace = Callable[[int], Awaitable[None]]


def part_of(batch: Batch) -> Part:
    """Returns events as they are sent. The number from which to go on comes last: a line `id`
    without data is kept by a reader, and told to nobody."""
    parts = [f'id: {event["id"]}\ndata: {text_of(event)}\n\n' for event in batch.events]
    if batch.missed:
        parts.insert(0, f'event: missed\ndata: {{"first":{batch.kept.first}}}\n\n')
    if not batch.events or batch.events[-1]['id'] != batch.after:
        parts.append(f'id: {batch.after}\n\n')
    return Part(''.join(parts).encode('ascii'), batch.after, batch.more)


@dataclass(frozen=True)
class Stream:
    """What is answered to who wants events as they come: `asked` is where it begins."""

    streams: Streams
    asked: EventQuery
    first: Part

    kind = 'text/event-stream; charset=utf-8'

    async def serve(
        self, source: asyncio.StreamReader, target: asyncio.StreamWriter, pace: Pace
    ) -> None:
        """Sends events, until the reader goes, doesn't take them, or its time is over."""
        await self.streams.serve(self, source, target, pace)


class Streams:
    """The open streams, the oldest first."""

    def __init__(self, feed: Feed, read: Read) -> None:
        self.feed, self.read = feed, read
        self._open: dict[asyncio.Task[None], None] = {}
        self._turns = asyncio.Semaphore(TURNS)

    def count(self) -> int:
        """Returns how many are open."""
        return len(self._open)

    async def serve(
        self,
        stream: Stream,
        source: asyncio.StreamReader,
        target: asyncio.StreamWriter,
        pace: Pace,
    ) -> None:
        """Serves a stream in a task of its own, which another one may end."""
        while len(self._open) >= MOST:
            oldest = next(iter(self._open))
            del self._open[oldest]
            oldest.cancel()
        task = asyncio.ensure_future(self._send(stream, target, pace))
        gone = asyncio.ensure_future(until_gone(source))
        self._open[task] = None
        try:
            await asyncio.wait({task, gone}, timeout=LIFE, return_when=asyncio.FIRST_COMPLETED)
        finally:
            self._open.pop(task, None)
            for one in (task, gone):
                one.cancel()
            await asyncio.gather(task, gone, return_exceptions=True)

    async def _send(self, stream: Stream, target: asyncio.StreamWriter, pace: Pace) -> None:
        asked, part = stream.asked, stream.first
        await _put(target, f'retry: {AGAIN}\n\n'.encode())
        with self.feed.waiting() as news:
            while True:
                await pace(len(part.data))
                await _put(target, part.data)
                asked = dataclasses.replace(asked, after=part.after)
                if not part.more:
                    await self._wait(news, asked.after)
                news.clear()
                async with self._turns:
                    part = await self.read(asked)

    async def _wait(self, news: asyncio.Event, after: int) -> None:
        """Waits for events behind a number, at most for a while."""
        if (self.feed.last or 0) > after:
            return
        try:
            async with asyncio.timeout(QUIET):
                await news.wait()
        except TimeoutError:
            pass


async def _put(target: asyncio.StreamWriter, data: bytes) -> None:
    """Sends bytes, and waits until they are taken."""
    async with asyncio.timeout(TAKE):
        target.write(data)
        await target.drain()


async def until_gone(source: asyncio.StreamReader) -> None:
    """Waits until the other end closes the connection. What it sends is thrown away."""
    while await source.read(65536):
        pass
