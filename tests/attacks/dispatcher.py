"""Shows that the dispatcher commands nothing by what another server answers in the desk's place."""
from __future__ import annotations

import itertools
import json
import os
import random
import signal
import tempfile

from nulvrader.common.layouts import read_layout
from nulvrader.desk import client
from nulvrader.dispatch.dispatcher import Dispatcher
from tests.support.attacked_dispatcher import Lines, dispatching
from tests.support.desk_answers import KIT, STOCK
from tests.support.desks import Serving, over_sockets
from tests.support.dispatching import LAYOUT, Told
from tests.support.programs import PATIENCE, until
from tests.support.strange_answers import STRANGE, change_member
from tests.support.wrong_server import Attack, SECONDS, Server, http, is_plain


@over_sockets
class AnotherServerForTheDispatcher(Attack):
    """Another server takes the desk's port, before the dispatcher starts and while it runs: it says
    so on standard error, gives no order, goes on asking, and gives orders once the desk is there.
    """

    def setUp(self) -> None:
        folder = tempfile.TemporaryDirectory()
        self.addCleanup(folder.cleanup)
        self.serving = Serving(os.path.join(folder.name, 'warehouse.db'), 10**6)
        self.addCleanup(self.serving.__exit__)
        self.desk = client.Desk(f'127.0.0.1:{self.serving.port}', timeout=PATIENCE)
        self.desk.set_layout(LAYOUT)
        self.desk.register_vehicle(KIT, 'ab', 2)
        self.desk.register_load('L1', 'A')
        Told(self.desk)(KIT, 'ab')
        listed = [*STRANGE.values(), http(STOCK), http(b'checking: 0\nleft: 0\n')]
        listed += [http(b'{"name":"NoPath","refusal":5}', '404 No'), http(b'', '401 No')]
        self.bad = itertools.cycle(listed)
        self.server = Server(lambda number, target: next(self.bad))
        self.addCleanup(self.server.__exit__)
        self.count = 2 * len(listed)

    def test_from_its_start_on(self) -> None:
        with dispatching(self.server.address) as program:
            out, err = Lines(program.stdout), Lines(program.stderr)
            until(lambda: self.server.asked >= 6 or program.poll() is not None, 'requests')
            self.assertIsNone(program.poll(), err.text)
            self.server.desk = self.serving.port
            until(lambda: 'gives orders at' in out.text, 'the desk')
            self.desk.add_job('J1', 'L1', 'B')
            until(lambda: 'KIT/0001: takes J1' in out.text, 'an order')
            self.server.desk, before = 0, self.server.asked
            until(lambda: self.server.asked > before + self.count or program.poll(), 'requests')
            self.assertIsNone(program.poll(), err.text)
            self.server.desk = self.serving.port
            until(lambda: 'the desk answers again' in out.text, 'the desk again')
            program.send_signal(signal.SIGTERM)
            self.assertEqual(program.wait(SECONDS), 0)
        self.assertIn('What answers there is no desk', err.text)
        self.assertIn('alarm: ', err.text)
        self.assertNotIn('Traceback', err.text)
        self.assertTrue(is_plain(out.text + err.text))

    def test_another_warehouse(self) -> None:
        """A desk without a layout is waited for; once another one takes the port, that is an alarm,
        and not the end."""
        with tempfile.TemporaryDirectory() as folder:
            with Serving(os.path.join(folder, 'empty.db'), 10**6) as empty:
                self.server.desk = empty.port
                with dispatching(self.server.address) as program:
                    out, err = Lines(program.stdout), Lines(program.stderr)
                    until(lambda: out.text or program.poll() is not None, 'a line')
                    self.assertIn('waits for the desk: it has no layout yet', out.text)
                    self.server.desk = self.serving.port
                    until(lambda: 'gives orders at' in out.text, 'the desk')
                    self.server.desk = empty.port
                    until(lambda: err.text or program.poll() is not None, 'an alarm')
                    self.assertIsNone(program.poll(), err.text)
        self.assertIn('it has another layout: station A', err.text)

    def test_any_answer(self) -> None:
        """Turns over answers of the desk of which some were changed at random: none raises."""
        chance = random.Random(84)
        self.desk.add_job('J1', 'L1', 'B')
        desk = Changing(f'127.0.0.1:{self.serving.port}', chance)
        dispatcher = Dispatcher(desk, read_layout(LAYOUT), say=lambda line: None)
        answered = sum(dispatcher.turn() for _ in range(600))
        self.assertTrue(0 < answered < 600, answered)


class Changing(client.Desk):
    """A desk of whose answers to questions some are changed on their way."""

    def __init__(self, address: str, chance: random.Random) -> None:
        super().__init__(address, timeout=PATIENCE)
        self.chance = chance

    def ask(self, method: str, target: str, body: bytes | None = None) -> client.Answer:
        """One request, and what is answered, or something else."""
        told = super().ask(method, target, body)
        if method != 'GET' or self.chance.random() < 0.7:
            return told
        if told.body.startswith(b'{'):
            value = json.loads(told.body)
            change_member(value, self.chance)
            return client.Answer(told.status, json.dumps(value).encode())
        lines = told.body.splitlines(True)
        if lines:
            at = self.chance.randrange(len(lines))
            lines[at : at + 1] = self.chance.choice([[], 2 * [lines[at]], [lines[at].upper()]])
            lines[-1] = lines[-1].replace(b'7', b'8')
        return client.Answer(told.status, b''.join(lines))
