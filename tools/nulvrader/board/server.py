"""Listens for pages. Each connection has one request and one answer, and is closed: whatever comes
behind the request is never taken for another one. One thread serves all connections, and none of
them keeps the others waiting."""
from __future__ import annotations

import asyncio
import contextlib
import http
import socket
import threading
from collections.abc import Coroutine
from typing import Any

from .guard import HEADERS
from .journal import log
from .messages import Line
from .answers import Reply, refused
from .api.streams import Stream, until_gone
from .pages import Pages
from .private_sockets import bound_to
from .request import HEAD, BadRequest, Head, read_head

MOST = 200  # connections at a time
REQUEST = 10.0  # seconds from the beginning of a connection until its request has come whole
ANSWER = 20.0  # seconds until an answer is taken whole
CLOSING = 1.0  # seconds for which what comes behind the answer is thrown away
# Seconds from one answer to the next, on average: EACH, and BYTE more for each of its bytes.
EACH = 0.005
BYTE = 2e-8
BURST = 0.5  # seconds of these that may come at once
FLUSH = 0.1  # seconds for the last answers, at the end
PIECE = 65_536  # bytes that are written at once

NAMES = {status.value: status.phrase for status in http.HTTPStatus}


def listening_at(port: int) -> socket.socket:
    """Listens on a port of 127.0.0.1."""
    return socket.create_server(('127.0.0.1', port), backlog=MOST)


def listening_in(path: str) -> socket.socket:
    """Listens on a socket in a folder. The user and the group of the board may open it, and nobody
    else."""
    listener = bound_to(path, socket.SOCK_STREAM)
    try:
        listener.listen(MOST)
    except OSError:
        listener.close()
        raise
    return listener


class Pace:
    """Lets answers go out only so fast that the thread which asks the desk is not held up by
    them."""

    def __init__(self) -> None:
        self._next = 0.0
        self._turn = asyncio.Lock()

    async def wait(self, size: int) -> None:
        """Waits until an answer of so many bytes is due. They are due in the order in which they
        came."""
        async with self._turn:
            now = asyncio.get_running_loop().time()
            due = max(self._next, now - BURST)
            if due > now:
                await asyncio.sleep(due - now)
            self._next = due + EACH + BYTE * size


class Connection:
    """A connection: `may_end` says that it may be ended for another one, as no command is carried
    out for it."""

    def __init__(self, source: asyncio.StreamReader, target: asyncio.StreamWriter):
        self.source, self.target = source, target
        self.may_end = True
        self.task = asyncio.current_task()

    async def serve(self, pages: Pages, pace: Pace) -> None:
        """Reads one request and answers it. Raises `EOFError`, `TimeoutError` or `OSError` where
        the client goes away or doesn't take its answer in time."""
        method = 'GET'
        answer: Reply | Stream | None = None
        try:
            async with asyncio.timeout(REQUEST):
                head = await read_head(self.source)
                method = head.method
                answer = pages.refusal(head)
                body = b'' if answer else await self.source.readexactly(head.length)
        except BadRequest as fault:
            answer = refused(fault.status, fault.why)
        except TimeoutError:
            answer = refused(408, Line('page.late', {'seconds': f'{REQUEST:g}'}))
        if answer is None:
            self.may_end = method != 'POST'
            work = self._answer(pages, head, body)
            answer = await (self._while_there(work) if self.may_end else work)
            self.may_end = True
        if isinstance(answer, Stream):
            await self._stream(answer, method == 'HEAD', pace)
        else:
            await pace.wait(len(answer.data))
            async with asyncio.timeout(ANSWER):
                await self._write(answer, method == 'HEAD')
        await self._close()

    def end(self) -> None:
        """Ends it at once."""
        if self.task is not None:
            self.task.cancel()
        self.target.transport.abort()

    @staticmethod
    async def _answer(pages: Pages, head: Head, body: bytes) -> Reply | Stream:
        """Returns what the pages answer. A fault of the board is logged and answered by 500, so
        that it ends this connection alone."""
        try:
            return await pages.answer(head, body)
        except Exception as fault:  # of the board itself: the others are still answered
            log(f'a request failed: {fault!r}')
            return refused(500, Line('page.failed'))

    async def _while_there(self, work: Coroutine[Any, Any, Reply | Stream]) -> Reply | Stream:
        """Returns what comes of work. Where the client goes away before, the work is left, and
        `EOFError` is raised."""
        answer = asyncio.ensure_future(work)
        gone = asyncio.ensure_future(until_gone(self.source))
        try:
            await asyncio.wait({answer, gone}, return_when=asyncio.FIRST_COMPLETED)
            if not answer.done():
                raise EOFError
            return answer.result()
        finally:
            for one in (answer, gone):
                one.cancel()
            await asyncio.gather(answer, gone, return_exceptions=True)

    def _write_head(self, status: int, *lines: str) -> None:
        head = [f'HTTP/1.1 {status} {NAMES[status]}', 'Connection: close']
        head += [f'{name}: {value}' for name, value in HEADERS.items()]
        self.target.transport.set_write_buffer_limits(0)  # what is written is waited for
        self.target.write('\r\n'.join([*head, *lines, '', '']).encode('ascii'))

    async def _stream(self, stream: Stream, is_head: bool, pace: Pace) -> None:
        """Answers by events as they come. nginx passes them on at once where it is told so."""
        self._write_head(200, f'Content-Type: {stream.kind}', 'X-Accel-Buffering: no')
        if not is_head:
            await stream.serve(self.source, self.target, pace.wait)

    async def _write(self, answer: Reply, is_head: bool) -> None:
        lines = [f'Content-Type: {answer.kind}', f'Content-Length: {len(answer.data)}']
        lines += ['Allow: GET, HEAD, POST'] if answer.status == 405 else []
        self._write_head(answer.status, *lines)
        data = memoryview(b'' if is_head else answer.data)
        for begin in range(0, len(data), PIECE):
            self.target.write(data[begin : begin + PIECE])
            await self.target.drain()

    async def _close(self) -> None:
        """Ends it. What has come behind the request is read first: else the other end may lose the
        answer."""
        with contextlib.suppress(TimeoutError):
            async with asyncio.timeout(CLOSING):
                self.target.write_eof()
                while await self.source.read(PIECE):
                    pass


class Server(threading.Thread):
    """Serves at most `MOST` connections at a time, in a thread of its own. Beyond that the oldest
    one is ended for which no command is carried out."""

    def __init__(self, listener: socket.socket, pages: Pages):
        super().__init__(name='server', daemon=True)
        self.listener, self.pages = listener, pages
        self._loop = asyncio.new_event_loop()
        self._loop.set_exception_handler(self._fault)
        self._open: dict[Connection, None] = {}  # the oldest first
        self._over = asyncio.Event()
        self._pace = Pace()

    def run(self) -> None:
        self._loop.run_until_complete(self._serve())

    def stop(self) -> None:
        """Waits for at most a second until the commands that are being carried out are answered,
        and ends the thread with all of its connections."""
        self.pages.command_workers.wait(1.0)
        self._loop.call_soon_threadsafe(self._over.set)
        self.join(0.5)

    async def _serve(self) -> None:
        if self.listener.family == socket.AF_UNIX:
            served = await asyncio.start_unix_server(
                self._connected, sock=self.listener, limit=HEAD
            )
        else:
            served = await asyncio.start_server(self._connected, sock=self.listener, limit=HEAD)
        await self._over.wait()
        served.close()
        await asyncio.sleep(FLUSH)
        left = asyncio.all_tasks() - {asyncio.current_task()}
        for task in left:
            task.cancel()
        await asyncio.gather(*left, return_exceptions=True)

    async def _connected(self, source: asyncio.StreamReader, target: asyncio.StreamWriter) -> None:
        connection = Connection(source, target)
        try:
            if len(self._open) < MOST or self._has_ended_one():
                self._open[connection] = None
                await connection.serve(self.pages, self._pace)
        except (EOFError, TimeoutError, OSError):
            pass  # the client has gone, or does not take its answer
        finally:
            self._open.pop(connection, None)
            target.transport.abort()

    def _has_ended_one(self) -> bool:
        for connection in self._open:
            if connection.may_end:
                del self._open[connection]
                connection.end()
                return True
        return False

    @staticmethod
    def _fault(_: asyncio.AbstractEventLoop, context: dict[str, object]) -> None:
        """Logs a fault of one connection, which ends that one alone."""
        log(f'a connection failed: {context.get("exception") or context.get("message")!r}')
