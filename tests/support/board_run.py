"""A desk and a board that run, for the tests of the board: started on files of a folder and free
ports, asked, stopped and started again. What the board shows is read as its page reads it."""
from __future__ import annotations

import http.client
import json
import os
import re
import signal
import sqlite3
import subprocess
import sys
import tempfile
import unittest
from collections.abc import Sequence
from typing import Any

from tests.support import calls
from tests.support.programs import PATIENCE, ROOT, TOOLS, free_port, until
from tests.support.siding import siding

from nulvrader.desk.client import Desk, Refused
from nulvrader.common.names import VehicleKey

PROGRAM = os.path.abspath(os.environ.get('DESK', os.path.join(ROOT, 'build', 'desk')))
ONE, TWO = VehicleKey('KIT', '0001'), VehicleKey('KIT', '0002')
LAYOUT = siding(3, 2, 1)
# Where files lie in memory, if there is such a folder: a sync costs nothing there.
FOLDER = '/dev/shm' if os.access('/dev/shm', os.W_OK | os.X_OK) else None


class Process:
    """A program that says on its first line where it listens."""

    def __init__(self, line: list[str]) -> None:
        self.process = subprocess.Popen(
            line, stdout=subprocess.PIPE, stderr=subprocess.PIPE, text=True
        )
        assert self.process.stdout is not None
        said = self.process.stdout.readline()
        if not re.match('listening on ', said):
            assert self.process.stderr is not None
            raise AssertionError(said + self.process.stderr.read())

    def stop(self, number: int = signal.SIGTERM) -> tuple[int, str]:
        """Ends it by a signal. Its status, and what it said on standard error."""
        if self.process.poll() is None:
            self.process.send_signal(number)
        self.process.wait(300)
        for stream in (self.process.stdout, self.process.stderr):
            assert stream is not None
        told = (
            self.process.stderr.read()
            if self.process.stderr and not self.process.stderr.closed
            else ''
        )
        for stream in (self.process.stdout, self.process.stderr):
            if stream is not None:
                stream.close()
        return self.process.returncode, told


class Plant:
    """A folder with a desk on a new file and its layout, and the boards that watch it."""

    def __init__(self, layout: str = LAYOUT) -> None:
        self.folder = tempfile.TemporaryDirectory(dir=FOLDER)
        self.port = free_port()
        self.running: list[Process] = []
        self.headers: dict[VehicleKey, int] = {}
        self.served = self.start_desk()
        self.desk = Desk(f'127.0.0.1:{self.port}', timeout=PATIENCE)
        self.desk.set_layout(layout.encode())

    def path(self, name: str) -> str:
        """A file of the folder."""
        return os.path.join(self.folder.name, name)

    def close(self) -> None:
        """Ends all that runs."""
        for process in self.running:
            process.stop(signal.SIGKILL)
        self.folder.cleanup()

    def start_desk(self, connections: int = 4294967295) -> Process:
        """Starts the desk on its file."""
        line = [PROGRAM, 'serve', '--db', self.path('warehouse.db'), '--port', str(self.port)]
        self.served = Process([*line, '--connections', str(connections)])
        self.running.append(self.served)
        return self.served

    def replay(self, *requests: tuple[str, str, object]) -> None:
        """Has the file of the desk, which is stopped, served these requests, each answered by
        200."""
        data = b''
        for method, target, body in requests:
            text = json.dumps(body).encode()
            data += b'%s %s HTTP/1.1\r\nContent-Length: %d\r\n\r\n%s' % (
                method.encode(),
                target.encode(),
                len(text),
                text,
            )
        line = [PROGRAM, 'replay', '--db', self.path('warehouse.db'), '--at', '1700000000000']
        done = subprocess.run(line, input=data, capture_output=True, timeout=600)
        if done.returncode or done.stdout.count(b'HTTP/1.1 200 ') != len(requests):
            raise AssertionError(done.stdout + done.stderr)

    def state(
        self,
        key: VehicleKey,
        node: str,
        order: str = '',
        update: int = 0,
        sequence: int = 0,
        actions: tuple[tuple[str, str], ...] = (),
        **others: Any,
    ) -> None:
        """Posts a state of a vehicle that is ready; `actions` are pairs of an action's id and its
        status."""
        self.headers[key] = self.headers.get(key, 0) + 1
        vehicle = calls.key(key.serial, key.manufacturer)
        number = self.headers[key]
        message = calls.state_body(number, vehicle, order, update, node, sequence, actions)
        message |= {'timestamp': '2026-11-28T06:00:00Z', **others}
        if not self.desk.post_state(key, message):
            raise AssertionError('an old state')

    def vehicle(self, key: VehicleKey, node: str) -> None:
        """Registers a vehicle, and has it post its first state."""
        self.desk.register_vehicle(key, node)
        self.state(key, node)

    def board(self, *words: str, port: int = 0) -> Board:
        """Starts a board over this desk, on a port or any."""
        made = Board(self, *words, port=port)
        self.running.append(made)
        return made


class Board(Process):
    """A board, asked as its page asks it."""

    def __init__(self, plant: Plant, *words: str, port: int = 0) -> None:
        self.port = port or free_port()
        self.db = plant.path('board.db')
        # who asks, as a proxy names only those who may give commands
        self.who = {'X-User': 'nina'} if '--user-header' in words else {}
        line = [sys.executable, os.path.join(TOOLS, 'board'), '--desk', f'127.0.0.1:{plant.port}']
        line += ['--db', self.db, '--port', str(self.port), *words]
        super().__init__(line)
        self.run, self.version = '', 0
        self.values: dict[tuple[str, str], Any] = {}
        self.events: list[dict[str, Any]] = []

    def ask(
        self,
        method: str,
        target: str,
        body: bytes | None = None,
        headers: dict[str, str] | None = None,
    ) -> tuple[int, dict[str, str], bytes]:
        """One request: the status, the headers and the body."""
        connection = http.client.HTTPConnection('127.0.0.1', self.port, timeout=300)
        try:
            connection.request(method, target, body, headers or {})
            answer = connection.getresponse()
            return answer.status, dict(answer.getheaders()), answer.read()
        finally:
            connection.close()

    def token(self) -> str:
        """The token that the page has."""
        said = re.search(
            rb'name="token" content="([^"]*)"', self.ask('GET', '/', None, self.who)[2]
        )
        assert said is not None
        return said.group(1).decode()

    def headers(self) -> dict[str, str]:
        """The headers that the page sends with a command."""
        return {
            **self.who,
            'X-Board-Token': self.token(),
            'Origin': f'http://127.0.0.1:{self.port}',
        }

    def post(self, path: str, command: str, **values: str) -> dict[str, Any]:
        """A look or a command."""
        body = json.dumps({'command': command, 'values': values}).encode()
        told: dict[str, Any] = json.loads(self.ask('POST', path, body, self.headers())[2])
        return told

    def do(self, command: str, **values: str) -> dict[str, Any]:
        """Looks at a command and carries it out, as the page does."""
        look = self.post('/look', command, **values)
        if 'fault' in look:
            return look
        return {
            **self.post('/do', command, **look['values']),
            'says': look['says'],
            'warns': look['warns'],
        }

    def refresh(self) -> None:
        """Asks for what is newer than what is known."""
        told = json.loads(self.ask('GET', f'/data?run={self.run}&since={self.version}')[2])
        if told['full']:
            self.values, self.events = {}, []
        for kind, name, value in told['values']:
            self.values[kind, name] = value
        self.events += told['events']
        self.run, self.version = told['run'], told['version']

    def get(self, kind: str, name: str = '') -> Any:
        """A value as it is now; an empty object where there is none."""
        self.refresh()
        return self.values.get((kind, name)) or {}

    def all(self, kind: str) -> dict[str, Any]:
        """All values of a kind."""
        self.refresh()
        return {
            name: value
            for (of, name), value in self.values.items()
            if of == kind and value is not None
        }

    def said(self, words: str) -> bool:
        """Whether a line of what happened is this."""
        self.refresh()
        return any(event['text'] == words for event in self.events)

    def has_looked(self, loads: int) -> None:
        """Waits until it shows so many loads, and KIT/0001, and has recorded them, which comes
        after."""

        def has() -> bool:
            return bool(
                self.get('counts').get('loads') == loads and self.get('vehicle', 'KIT/0001')
            )

        def has_recorded() -> bool:
            question = (
                "SELECT count(*), (SELECT count(*) FROM vehicles WHERE vehicle = "
                "'KIT/0001') FROM loads WHERE place <> 'left'"
            )
            return self.rows(question) == [(loads, 1)]

        until(has, 'the board has looked')
        until(has_recorded, 'the board has recorded what it has seen')

    def rows(self, question: str) -> list[tuple[Any, ...]]:
        """What board.db answers."""
        base = sqlite3.connect(self.db, timeout=300)
        try:
            return base.execute(question).fetchall()
        finally:
            base.close()


def has_loopback() -> bool:
    """Whether a program may listen on 127.0.0.1 here."""
    try:
        free_port()
        return True
    except OSError:
        return False


@unittest.skipUnless(has_loopback(), 'no sockets on 127.0.0.1 here')
class Watching(unittest.TestCase):
    """A desk with two loads and a vehicle at N1, and a board."""

    words: tuple[str, ...] = ()

    def setUp(self) -> None:
        self.plant = Plant()
        self.addCleanup(self.plant.close)
        self.desk = self.plant.desk
        self.plant.vehicle(ONE, 'N1')
        self.desk.register_load('L1', 'A')
        self.desk.register_load('L2', 'A')
        self.board = self.plant.board(*self.words)
        self.board.has_looked(2)

    def wait(self, kind: str, name: str, /, **values: object) -> dict[str, object]:
        """Waits until a value has these members."""
        last: dict[str, object] = {}

        def told() -> bool:
            nonlocal last
            last = self.board.get(kind, name)
            return all(last.get(member) == value for member, value in values.items()) and bool(last)

        try:
            until(told, f'{kind} {name}: {values}')
        except AssertionError as fault:
            raise AssertionError(f'{fault}, and it is {last}') from None
        return last

    def said(self, words: str) -> None:
        """Waits until a line of what happened is this."""
        until(lambda: self.board.said(words), words)

    def rows(self, question: str, wanted: Sequence[tuple[Any, ...]]) -> None:
        """Waits until board.db answers so."""
        last: list[tuple[Any, ...]] = []

        def told() -> bool:
            nonlocal last
            last = self.board.rows(question)
            return last == wanted

        try:
            until(told, f'{question}: {wanted}')
        except AssertionError as fault:
            raise AssertionError(f'{fault}, and it is {last}') from None

    def held(self, *things: str) -> None:
        """Waits until these things are held by KIT/0001, and nothing else."""
        until(
            lambda: self.board.all('hold') == {thing: 'KIT/0001' for thing in things},
            ' '.join(things),
        )


__all__ = [
    'LAYOUT',
    'ONE',
    'TOOLS',
    'TWO',
    'Board',
    'Desk',
    'Plant',
    'Process',
    'Refused',
    'Watching',
    'free_port',
    'until',
]
