#!/usr/bin/env python3
"""A night for a reader, who has the page of a board alone: one trouble after another is planted in
the plant of `bench/night`, in an order that nobody knows, and the reader says of each what is wrong
and what to do.

    DESK=build/desk python3 bench/night_reader.py start FOLDER
    python3 bench/night_reader.py look FOLDER
    python3 bench/night_reader.py say FOLDER 'what is wrong, and what to do'

`start` goes on until the last trouble is over, and prints then what was planted, what the reader
said, and how many seconds that took from the moment on at which the page had the alarm. `look` has
the page as a picture and as text: it waits until the page shows an alarm, for 20 s at most. `say`
ends a trouble; the next one comes some seconds later."""
from __future__ import annotations

import contextlib
import dataclasses
import json
import os
import random
import socket
import sys
import tempfile
import threading
import time
from typing import Any

HERE = os.path.dirname(os.path.abspath(__file__))
sys.path[:0] = [os.path.join(HERE, '..', folder) for folder in ('', 'tools', 'examples')]

from nulvrader.common import entry  # noqa: E402
from night_plant import EVERY, PATIENCE, Night, camera, is_it, program  # noqa: E402
from tests.support import browser  # noqa: E402
from troubles import TROUBLES, Trouble  # noqa: E402

NAME = 'night.sock'
LOOK = 20.0  # seconds for which a look waits for an alarm
PAUSE = (3.0, 8.0)  # seconds from the end of a trouble to the next
ANSWER = 900.0  # seconds that a reader may take
ALARMS = 'return [...document.querySelectorAll("#alarms li")].length'
TEXT = 'return document.body.innerText'


@dataclasses.dataclass
class Case:
    """A trouble that was planted: when the page had its alarm, and what the reader said when."""

    trouble: Trouble
    shown: float | None = None
    words: str = ''
    said: threading.Event = dataclasses.field(default_factory=threading.Event)
    at: float = 0.0

    def row(self) -> str:
        """Returns it as a row of the table."""
        seconds = '-' if self.shown is None else f'{self.at - self.shown:.0f}'
        return f'| {self.trouble.name} | {self.words or "(nothing)"} | {seconds} |'


class Reading:
    """The night as its reader has it."""

    def __init__(self, night: Night, page: browser.Browser, folder: str) -> None:
        self.night, self.page, self.folder = night, page, folder
        self.turn = threading.Lock()  # the browser does one thing at a time
        self.cases: list[Case] = []
        self.looks = 0
        self.is_over = False

    def live(self) -> None:
        """Plants one trouble after another. The night ends, too, where one can't be."""
        try:
            self.plant()
        except SystemExit as fault:
            print(fault, file=sys.stderr)
        finally:
            self.is_over = True

    def plant(self) -> None:
        """Plants each trouble, and ends it once the reader has said what it is."""
        for trouble in random.SystemRandom().sample(TROUBLES, len(TROUBLES)):
            self.night.wait(self.night.is_calm, 'the board has no alarm')
            time.sleep(random.SystemRandom().uniform(*PAUSE))
            case = Case(trouble)
            self.cases.append(case)
            trouble.begin(self.night)
            ends = time.monotonic() + trouble.after + PATIENCE
            while time.monotonic() < ends and not case.said.is_set() and case.shown is None:
                alarms = self.night.screen.alarms()
                if alarms and is_it(trouble, alarms[0]):
                    case.shown = time.monotonic()
                time.sleep(EVERY)
            case.said.wait(ANSWER)
            trouble.end(self.night)
        self.night.wait(self.night.is_calm, 'the last one is over')

    def look(self) -> dict[str, Any]:
        """Returns the page, once it shows an alarm, or as it is after a while."""
        ends = time.monotonic() + LOOK
        while time.monotonic() < ends and not self.is_over:
            with self.turn:
                if self.page.run(ALARMS):
                    break
            time.sleep(EVERY)
        with self.turn:
            self.looks += 1
            path = os.path.join(self.folder, f'look-{self.looks:03d}.png')
            self.page.picture(path)
            text = self.page.run(TEXT)
        return {'picture': path, 'text': text, 'over': self.is_over}

    def say(self, words: str) -> dict[str, Any]:
        """Returns what the reader says of the trouble that stands."""
        case = self.cases[-1] if self.cases else None
        if case is None or case.said.is_set():
            return {'told': 'no trouble is planted now: look again', 'over': self.is_over}
        case.words, case.at = ' '.join(words.split()).replace('|', '/'), time.monotonic()
        case.said.set()
        return {'told': 'noted; the next one comes in some seconds', 'over': self.is_over}


def serve(reading: Reading, listener: socket.socket) -> None:
    """Answers the reader, one question a connection, until the night is over."""
    while not reading.is_over:
        listener.settimeout(1.0)
        try:
            connection, _ = listener.accept()
        except TimeoutError:
            continue
        with connection:
            connection.settimeout(LOOK)
            asked = json.loads(connection.makefile().readline())
            told = reading.say(asked['say']) if 'say' in asked else reading.look()
            connection.sendall(json.dumps(told).encode())


def start(folder: str, language: str) -> int:
    """Returns the night. Its table is printed at the end."""
    os.makedirs(folder, exist_ok=True)
    with contextlib.ExitStack() as stack:
        place = stack.enter_context(tempfile.TemporaryDirectory())
        night = Night(program(), place, stack)
        reading = Reading(night, camera(night, language, stack), folder)
        listener = stack.enter_context(socket.socket(socket.AF_UNIX))
        listener.bind(os.path.join(folder, NAME))
        stack.callback(os.remove, os.path.join(folder, NAME))
        listener.listen()
        threading.Thread(target=reading.live, daemon=True).start()
        print('the night begins', flush=True)
        serve(reading, listener)
    print('| Planted | Said by the reader | Seconds |\n|---|---|---|')
    for case in reading.cases:
        print(case.row())
    return 0


def ask(folder: str, question: dict[str, str]) -> dict[str, Any]:
    """Returns what the night answers."""
    with socket.socket(socket.AF_UNIX) as connection:
        try:
            connection.connect(os.path.join(folder, NAME))
        except (FileNotFoundError, ConnectionRefusedError):
            sys.exit('night_reader: there is no night in this folder, or it is over')
        connection.sendall(json.dumps(question).encode() + b'\n')
        told: dict[str, Any] = json.load(connection.makefile())
        return told


def main() -> int:
    line = entry.parser(__doc__)
    line.add_argument('what', choices=('start', 'look', 'say'))
    line.add_argument('folder', metavar='FOLDER', help='where pictures of the page are put')
    line.add_argument('words', nargs='?', default='', metavar='WORDS', help='with say')
    line.add_argument('--language', default='en', help='of the page (en)')
    said = line.parse_args()
    if said.what == 'start':
        return start(said.folder, said.language)
    told = ask(said.folder, {'say': said.words} if said.what == 'say' else {'look': ''})
    for name in ('told', 'picture', 'text'):
        if name in told:
            print(told[name])
    if told['over']:
        print('THE NIGHT IS OVER')
    return 0


if __name__ == '__main__':
    sys.exit(main())
