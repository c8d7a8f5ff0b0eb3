"""Shows, through a real nginx with `examples/nginx`, which other programs may ask the board, and
that events come at once."""
from __future__ import annotations

import json
import re
import socket
import time
import unittest
from collections.abc import Iterator

from tests.support import proxies
from tests.support.board_by_nginx import BoardBehindNginx
from tests.support.board_run import ONE, until
from tests.support.event_client import Sent, messages
from tests.support.proxies import Proxy, basic

PATHS = [
    *('api/jobs/J1', 'api/loads/L1', 'api/vehicles/KIT/0001', 'api/alarms', 'api/openapi.json'),
    *('api/events', 'api/events?after=0&kinds=job,load', 'metrics', 'health'),
]


class Stream:
    """A stream of events by the proxy, as a reader gets it."""

    def __init__(self, proxy: Proxy, user: str, *lines: str) -> None:
        self.plain: socket.socket = proxy.connect(True)
        head = ['GET /board/api/events/stream HTTP/1.1', f'Host: {proxy.host(True)}', *lines]
        self.plain.sendall('\r\n'.join([*head, basic(user, f'{user}!'), '', '']).encode())
        self.file = self.plain.makefile('rb')
        self.status = int(self.file.readline().split()[1])
        self.is_chunked = False
        while (line := self.file.readline().strip().lower()) != b'':
            self.is_chunked = self.is_chunked or line == b'transfer-encoding: chunked'

    def lines(self) -> Iterator[bytes]:
        """The lines, of the parts in which nginx sends them."""
        while self.is_chunked and (size := int(self.file.readline(), 16)):
            yield from self.file.read(size).splitlines(keepends=True)
            self.file.readline()
        yield from self.file

    def events(self) -> Iterator[Sent]:
        """The messages with data."""
        return (sent for sent in messages(self.lines()) if sent.data is not None)

    def close(self) -> None:
        self.file.close()
        self.plain.close()


class ApiByNginx(BoardBehindNginx):
    def prepare(self) -> None:
        self.plant.vehicle(ONE, 'N1')
        super().prepare()

    def setUp(self) -> None:
        super().setUp()
        self.plant.desk.add_job('J1', 'L1', 'B')
        until(lambda: self.board.get('job', 'J1'), 'the board has seen the job')

    def ask(self, request: str, user: str | None, *lines: str) -> proxies.Told:
        """One request to the server with TLS."""
        return self.proxy.ask(request, *lines, user=user, tls=True)

    def stream(self, user: str, *lines: str) -> Stream:
        found = Stream(self.proxy, user, *lines)
        self.addCleanup(found.close)
        return found

    def test_roles(self) -> None:
        """Readers and dispatchers may ask all of it; a gateway, an unknown user and a page of
        another site nothing; and nobody may ask for what is not there."""
        for path in PATHS:
            for user, status in (('anna', 200), ('otto', 200), ('gate', 403)):
                told = self.ask(f'GET /board/{path}', user)
                self.assertEqual(told.status, status, (user, path, told))
            self.assertEqual(self.ask(f'GET /board/{path}', None).status, 401, path)
            other = self.ask(f'GET /board/{path}', 'otto', 'Origin: https://evil.example')
            self.assertEqual(other.status, 403, path)
            other = self.ask(f'GET /board/{path}', 'otto', 'Sec-Fetch-Site: cross-site')
            self.assertEqual(other.status, 403, path)
            self.assertEqual(self.ask(f'POST /board/{path}', 'anna').status, 403, path)
            plain = self.proxy.ask(f'GET /board/{path}', user='otto')
            self.assertIn(plain.status, (403, 404), path)
            self.assertNotIn(b'"events"', plain.body)
        for path in ('api/', 'api/jobs', 'api/jobs/J1/x', 'api/loads/%4c1', 'api/events?after=%31'):
            self.assertIn(self.ask(f'GET /board/{path}', 'anna').status, (400, 403), path)
        for user in ('gate',):
            self.assertEqual(self.stream(user).status, 403)

    def test_a_stream(self) -> None:
        """An event comes at once, though nginx collects other answers; who connects again goes on
        behind `Last-Event-ID`."""
        stream = self.stream('otto')
        self.assertEqual(stream.status, 200)
        events = stream.events()
        first = next(events)
        self.assertEqual(json.loads(str(first.data))['job'], 'J1')
        begun = time.monotonic()
        self.plant.desk.stop_job('J1')
        second = next(events)
        self.assertLess(time.monotonic() - begun, 20)
        self.assertEqual(json.loads(str(second.data))['what'], 'job.stopped')
        again = self.stream('anna', f'Last-Event-ID: {first.id}')
        self.assertEqual(next(again.events()).data, second.data)
        self.assertEqual(self.ask('GET /board/api/events/stream?after=99', 'otto').status, 409)

    def test_a_crowd_of_one_user(self) -> None:
        """A user has eight streams, wherever it is; another user still has its own, and the first
        one may ask for all else."""
        taken = [self.stream('otto') for _ in range(8)]
        self.assertEqual({one.status for one in taken}, {200})
        for one in taken:
            next(one.events())
        self.assertEqual(self.stream('otto').status, 429)
        self.assertEqual(self.stream('anna').status, 200)
        self.assertEqual(self.ask('GET /board/health', 'otto').status, 200)
        taken[0].close()
        until(lambda: self.stream('otto').status == 200, 'a place is free')

    def test_what_is_recorded(self) -> None:
        """What is only read is not in the record of commands, and what is refused to a role is."""
        for path in PATHS:
            self.ask(f'GET /board/{path}', 'otto')
        self.ask('GET /board/api/events/stream/x', 'otto')
        until(lambda: self.proxy.records(), 'the record')
        targets = [line['target'] for line in self.proxy.records()]
        self.assertEqual(targets, ['/board/api/events/stream/x'])
        self.assertIsNone(re.search('otto!', self.proxy.read('desk.log')))


if __name__ == '__main__':
    unittest.main()
