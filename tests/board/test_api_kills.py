"""Shows that programs that follow the events, and webhooks, lose none and get none twice, though
the board, the desk, the receiver and they themselves are killed."""
from __future__ import annotations

import os
import random
import signal
import subprocess
import sys
import time
import unittest

from tests.support.board_run import TOOLS, Board, Watching, until
from tests.support.event_client import Asking, Follower, Streaming
from tests.support.receivers import Receiver, status


class Followed(Watching):
    """A stream and a program that asks, beside a plant where things happen."""

    def setUp(self) -> None:
        super().setUp()
        self.followers: list[Follower] = [Streaming(self.board.port), Asking(self.board.port)]
        for one in self.followers:
            one.start()
            self.addCleanup(one.stop)
        self.turn = 0

    def happens(self, count: int = 3) -> None:
        """Something happens some times, as long as the desk answers."""
        for _ in range(count):
            self.turn += 1
            self.desk.register_load(f'X{self.turn}')
            time.sleep(0.05)

    def kill_board(self) -> None:
        self.board.stop(signal.SIGKILL)
        self.happens()
        self.board = Board(self.plant, port=self.board.port)
        self.plant.running.append(self.board)

    def kill_desk(self) -> None:
        self.plant.served.stop(signal.SIGKILL)
        time.sleep(0.3)
        self.plant.start_desk()

    def kill_followers(self) -> None:
        for one in self.followers:
            one.kill()

    def kept(self) -> list[int]:
        """The numbers of all events of the record."""
        return [number for (number,) in self.board.rows('SELECT n FROM events ORDER BY n')]

    def loads_seen(self) -> int:
        """How many loads the record has seen come."""
        question = "SELECT count(*) FROM loads WHERE load LIKE 'X%'"
        return int(self.board.rows(question)[0][0])

    def test_kills(self) -> None:
        """What each got is what the record has, in its order."""
        chance = random.Random(5)
        kills = [self.kill_board, self.kill_desk, self.kill_followers] * 3
        chance.shuffle(kills)
        for kill in kills:
            self.happens()
            time.sleep(chance.random())
            kill()
        self.happens()
        until(lambda: self.loads_seen() == self.turn, 'the record has all loads')
        until(
            lambda: all(one.last >= self.kept()[-1] for one in self.followers),
            'the followers have all events',
        )
        for one in self.followers:
            self.assertEqual(one.ids, self.kept(), type(one).__name__)
            self.assertEqual(one.faults, [])
            told = [event['load'] for event in one.events if event['kind'] == 'load']
            self.assertEqual(sorted(told), sorted({f'X{turn + 1}' for turn in range(self.turn)}))
        self.assertGreater(self.followers[0].begins, 5)


class Posted(Watching):
    """The program of webhooks, beside a plant where things happen."""

    words = ('--silent', '3000')

    def setUp(self) -> None:
        super().setUp()
        self.served = Receiver(status(200))
        self.addCleanup(self.served.close)
        self.turn = 0
        secret = self.plant.path('secret')
        with open(secret, 'w', encoding='utf-8') as file:
            file.write('whsec_' + 'A' * 44)
        config = self.plant.path('webhooks.toml')
        with open(config, 'w', encoding='utf-8') as file:
            file.write(f'[erp]\naddress = "http://127.0.0.1:{self.served.port}/"\n')
            file.write(f'secret = "{secret}"\nloopback = true\nkinds = ["load"]\n')
        for path in (secret, config):
            os.chmod(path, 0o600)
        self.start()
        self.addCleanup(lambda: self.program.kill())
        until(lambda: os.path.exists(self.plant.path('webhooks.db')), 'it has begun')

    def start(self) -> None:
        line = [sys.executable, os.path.join(TOOLS, 'webhooks')]
        line += ['--config', self.plant.path('webhooks.toml'), '--db']
        line += [self.plant.path('webhooks.db'), '--board', f'http://127.0.0.1:{self.board.port}']
        nowhere = subprocess.DEVNULL
        self.program = subprocess.Popen(line, stdout=nowhere, stderr=nowhere)

    def kill(self) -> None:
        self.program.kill()
        self.program.wait(60)
        self.start()

    def kill_board(self) -> None:
        self.board.stop(signal.SIGKILL)
        self.board = Board(self.plant, *self.words, port=self.board.port)
        self.plant.running.append(self.board)

    def fail_for_a_while(self) -> None:
        self.served.answers = status(500)
        self.happens()
        time.sleep(1)
        self.served.answers = status(200)

    def happens(self) -> None:
        for _ in range(3):
            self.turn += 1
            self.desk.register_load(f'X{self.turn}')

    def test_kills(self) -> None:
        """The receiver has all that happened, in order; what came twice came in the same message,
        to the byte."""
        self.happens()
        until(lambda: self.served.got, 'a message')
        steps = [self.kill, self.fail_for_a_while, self.kill_board]
        for what in [*steps, *steps, self.kill]:
            self.happens()
            time.sleep(0.5)
            what()
        self.happens()
        question = "SELECT n FROM events WHERE kind = 'load' ORDER BY n"
        until(lambda: len(self.board.rows(question)) == self.turn, 'the record has all')
        wanted = [number for (number,) in self.board.rows(question)]
        until(lambda: wanted[-1:] == self.served.ids()[-1:], 'the last one')
        messages = {got.headers['webhook-id']: got.body for got in self.served.got}
        for got in self.served.got:
            self.assertEqual(messages[got.headers['webhook-id']], got.body)
        once = list(dict.fromkeys(self.served.ids()))
        self.assertEqual(once, wanted[-len(once) :])
        self.assertGreater(len(once), self.turn - 4)


if __name__ == '__main__':
    unittest.main()
