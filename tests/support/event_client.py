"""Programs that follow the events of a board, by asking again and again or by a stream, as those of
others do: each keeps the last number that it took, and goes on there whatever happens."""
from __future__ import annotations

import contextlib
import http.client
import json
import socket
import threading
import time
from collections.abc import Iterator
from dataclasses import dataclass, field
from typing import Any

AGAIN = 0.05  # seconds from the end of a connection to the next one


@dataclass
class Sent:
    """A message of a stream: its number, its name, and its data, None where it has none."""

    id: int | None = None
    event: str = 'message'
    data: str | None = None
    lines: list[str] = field(default_factory=list)


def messages(source: Iterator[bytes]) -> Iterator[Sent]:
    """The messages of a stream, as a browser reads them: one that is not ended by a blank line
    doesn't count."""
    sent = Sent()
    for line in source:
        if not line.endswith(b'\n'):
            return
        text = line.decode().rstrip('\n')
        if not text:
            yield sent
            sent = Sent()
            continue
        sent.lines.append(text)
        name, _, value = text.partition(': ')
        if name == 'id':
            sent.id = int(value)
        elif name == 'event':
            sent.event = value
        elif name == 'data':
            sent.data = value


class Stream:
    """A connection to a stream of events."""

    def __init__(self, port: int, target: str = '/api/events/stream', **headers: str) -> None:
        self.plain = socket.create_connection(('127.0.0.1', port), timeout=60)
        lines = [f'GET {target} HTTP/1.1', f'Host: 127.0.0.1:{port}']
        lines += [f'{name.replace("_", "-")}: {value}' for name, value in headers.items()]
        self.plain.sendall('\r\n'.join([*lines, '', '']).encode())
        self.file = self.plain.makefile('rb')
        self.status = int((self.file.readline() or b'HTTP/1.1 0').split()[1])
        self.head: dict[str, str] = {}
        while (line := self.file.readline()) not in (b'\r\n', b''):
            name, _, value = line.decode().partition(':')
            self.head[name.lower()] = value.strip()

    def messages(self) -> Iterator[Sent]:
        """The messages, as they come, until the connection ends."""
        with contextlib.suppress(OSError):
            yield from messages(iter(self.file))

    def events(self, count: int) -> list[dict[str, Any]]:
        """The next so many events, or those that come within two minutes."""
        found = []
        ends = time.monotonic() + 120
        for sent in self.messages():
            if sent.data is not None and sent.event == 'message':
                found.append(json.loads(sent.data))
            if len(found) == count or time.monotonic() > ends:
                break
        return found

    def close(self) -> None:
        """Ends it."""
        with contextlib.suppress(OSError):
            self.plain.shutdown(socket.SHUT_RDWR)
        self.file.close()
        self.plain.close()


class Follower(threading.Thread):
    """Follows the events from now on, through whatever happens. `ids` are those that it got, and
    `faults` what must not have been."""

    def __init__(self, port: int) -> None:
        super().__init__(daemon=True)
        self.port, self.over = port, threading.Event()
        self.ids: list[int] = []
        self.events: list[dict[str, Any]] = []
        self.faults: list[str] = []
        self.last = 0
        self.begins = 0

    def run(self) -> None:
        while not self.over.wait(AGAIN):
            with contextlib.suppress(OSError, http.client.HTTPException):
                self.begins += 1
                self.follow()

    def follow(self) -> None:
        """Follows until the connection ends."""
        raise NotImplementedError

    def take(self, event: dict[str, Any]) -> None:
        """Takes an event."""
        if self.last >= event['id']:
            self.faults.append(f'{event["id"]} comes behind {self.last}')
        self.last = event['id']
        self.ids.append(event['id'])
        self.events.append(event)

    def kill(self) -> None:
        """Ends the connection that it has, as if the program were killed."""

    def stop(self) -> None:
        """Ends it."""
        self.over.set()
        self.kill()
        self.join(30)


class Streaming(Follower):
    """Follows by a stream."""

    stream: Stream | None = None

    def follow(self) -> None:
        self.stream = Stream(self.port, Last_Event_ID=str(self.last))
        try:
            if self.stream.status != 200:
                if self.stream.status not in (0, 503):
                    self.faults.append(f'status {self.stream.status}')
                return
            for sent in self.stream.messages():
                if sent.event != 'message':
                    self.faults.append(' '.join(sent.lines))
                elif sent.data is not None:
                    self.take(json.loads(sent.data))
                elif sent.id is not None:
                    self.last = sent.id
        finally:
            self.stream.close()

    def kill(self) -> None:
        if self.stream is not None:
            self.stream.close()


class Asking(Follower):
    """Follows by asking again and again."""

    def follow(self) -> None:
        connection = http.client.HTTPConnection('127.0.0.1', self.port, timeout=60)
        with contextlib.closing(connection):
            connection.request('GET', f'/api/events?after={self.last}&limit=3')
            answer = connection.getresponse()
            body = answer.read()
        if answer.status != 200:
            if answer.status != 503:
                self.faults.append(f'status {answer.status}')
            return
        told = json.loads(body)
        if told['missed']:
            self.faults.append('missed')
        for event in told['events']:
            self.take(event)
        self.last = told['after']
