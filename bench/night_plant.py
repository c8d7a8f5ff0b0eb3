"""The plant of `bench/night` and `bench/night_reader.py`: a desk, its vehicles, what they say, and
a board, whose alarms are looked at as its page shows them."""
from __future__ import annotations

import contextlib
import json
import os
import subprocess
import sys
import threading
import time
import urllib.request
from collections.abc import Callable
from typing import Any

from nulvrader.desk.client import Desk
from nulvrader.gateway.log import Log
from nulvrader.gateway.telemetry import TelemetrySender
from simulation.desks import Served
from simulation.plan import CALM, Line, Nature, Plan
from simulation.plant import Plant
from tests.support import browser
from tests.support.programs import free_port
from troubles import Trouble

TOP = os.path.dirname(os.path.dirname(os.path.abspath(__file__)))
EVERY = 0.2  # seconds from one look at the board to the next
PATIENCE = 60.0  # seconds for what has to come to be so
LATE = 0.5  # minutes that a job may wait
PLAN = Plan(
    'small',
    5,
    40,
    0,
    1,
    CALM,
    nature=Nature(speed=16.0, action=(0.5, 1.0), failing=0),
    line=Line(lost=0, twice=0, delay=0.05, late=0.05, beat=1.0),
    pace=1.0,
)


class Screen:
    """The alarms of a board, in the order in which its page shows them."""

    def __init__(self, port: int) -> None:
        self.port = port

    def values(self, kind: str) -> dict[str, Any]:
        """Returns the values of a kind."""
        with urllib.request.urlopen(f'http://127.0.0.1:{self.port}/data', timeout=PATIENCE) as told:
            values = json.load(told)['values']
        return {name: value for of, name, value in values if of == kind and value is not None}

    def alarms(self) -> list[dict[str, Any]]:
        """Returns the alarms: the gravest first, and of these those first that nobody has taken
        on."""

        def rank(alarm: dict[str, Any]) -> tuple[float, float]:
            is_taken = 0.5 if alarm['taken'] else 0.0
            return (0 if alarm['level'] == 'bad' else 1) + is_taken, alarm['since']

        return sorted(self.values('alarm').values(), key=rank)


class Night:
    """The plant, in a thread of its own, with its desk and its board."""

    def __init__(self, program: str, folder: str, stack: contextlib.ExitStack) -> None:
        self.served = Served(program, os.path.join(folder, 'plant.db'))
        self.other = Served(program, os.path.join(folder, 'other.db'), self.served.port)
        words = os.path.join(folder, 'words.sock')
        sender = TelemetrySender(words, Log(lambda line: None))
        self.plant = Plant(PLAN, self.served, None, words=sender)
        self.desk = Desk(self.served.address, timeout=PATIENCE)
        self.over = False
        stack.callback(self.other.stop)
        stack.callback(self.served.stop)
        self.plant.set_up()
        self.port = free_port()
        line = [sys.executable, os.path.join(TOP, 'tools', 'board'), '--desk', self.served.address]
        line += ['--db', os.path.join(folder, 'board.db'), '--port', str(self.port)]
        line += ['--words', words, '--late', str(LATE)]
        board = subprocess.Popen(line, stdout=subprocess.PIPE, text=True)
        stack.callback(board.wait)
        stack.callback(board.terminate)
        assert board.stdout is not None
        board.stdout.readline()
        self.screen = Screen(self.port)
        thread = threading.Thread(target=self.live, daemon=True)
        thread.start()
        stack.callback(thread.join)
        stack.callback(self.end)

    def live(self) -> None:
        """Lets the plant live until it is over."""
        clock, words = self.plant.clock, self.plant.words
        assert words is not None
        clock.every(1.0, self.plant.fetch)
        clock.every(0.5, words.turn)
        clock.every(0.1, lambda: None)  # so that what is to be done is soon done
        clock.run(lambda: self.over)

    def end(self) -> None:
        """The night is over."""
        self.over = True

    def do(self, what: Callable[[], None]) -> None:
        """Has something happen in the plant, in its own turn."""
        is_done = threading.Event()

        def turn() -> None:
            what()
            is_done.set()

        self.plant.clock.after(0.0, turn)
        if not is_done.wait(PATIENCE):
            raise SystemExit('night: the plant stands')

    def wait(self, what: Callable[[], bool], words: str) -> None:
        """Waits until something is so."""
        ends = time.monotonic() + PATIENCE
        while not what():
            if time.monotonic() > ends:
                raise SystemExit(f'night: it did not come to be so: {words}')
            time.sleep(EVERY)

    def is_calm(self) -> bool:
        """Whether the board knows all vehicles, and has no alarm."""
        vehicles = self.screen.values('vehicle').values()
        ready = [row for row in vehicles if row['ready']]
        return len(ready) == PLAN.vehicles and not self.screen.alarms()


def is_it(trouble: Trouble, alarm: dict[str, Any]) -> bool:
    """Whether an alarm says what is wrong, since when, and what to do."""
    return (
        all(words in alarm['words'] for words in trouble.says)
        and trouble.todo in alarm['todo']
        and abs(time.time() - alarm['since'] / 1000) < PATIENCE + trouble.after
    )


def camera(night: Night, language: str, stack: contextlib.ExitStack) -> browser.Browser:
    """Returns the page of the board in a browser."""
    page = browser.Browser()
    stack.callback(page.close)
    agent = page.run('return navigator.userAgent')
    told = {'userAgent': agent, 'acceptLanguage': language}
    page._command('Emulation.setUserAgentOverride', told)
    page.open(f'http://127.0.0.1:{night.port}/')
    return page


def program() -> str:
    """Returns the program of the desk."""
    return os.environ.get('DESK', os.path.join(TOP, 'build', 'desk'))
