"""A desk for each machine, started again whenever it ends, as systemd does."""
from __future__ import annotations

import contextlib
import json
import os
import signal
import subprocess
import sys
import threading
import time
from dataclasses import dataclass

from .namespaces import Machine, until

HERE = os.path.dirname(os.path.abspath(__file__))
STANDBY = os.path.normpath(os.path.join(HERE, '..', '..', 'tools', 'standby'))
PLAIN = os.path.join(HERE, 'plain.py')
DB = 'warehouse.db'
AGAIN = 0.2  # seconds from the end of a desk to its next start


@dataclass(frozen=True)
class Term:
    """A time in which a machine had the desk: `began` is the moment at which it had the lock, of
    the monotonic clock, which all machines share."""

    machine: int
    began: float


class Served:
    """The desk of a machine: where its file, its socket and its state are, and what it has said."""

    front = ''  # of the path of its socket and its state, below the machine's `/run`

    def __init__(self, machine: Machine, terms: list[Term]) -> None:
        self.machine, self.terms = machine, terms
        self.over = False
        self.lines: list[str] = []

    @property
    def db(self) -> str:
        """The file of the desk, as the machine sees it."""
        return os.path.join(self.machine.folder, 'mount', DB)

    @property
    def socket(self) -> str:
        """The socket of the desk, as this program sees it."""
        return os.path.join(self.machine.folder, 'run', self.front, 'desk.sock')

    @property
    def state(self) -> str:
        """The file that says how it is."""
        return os.path.join(self.machine.folder, 'run', self.front, 'standby.json')

    def note(self, line: str) -> None:
        """Keeps a line with its moment, for a person."""
        self.lines.append(f'{time.monotonic():.3f} {self.machine.name} {line}')

    def start(self) -> None:
        """Has it run where it may."""

    def wait(self) -> None:
        """Stops it as a person does, and waits until it has ended; it is not started again until
        `start`."""

    def close(self) -> None:
        """Ends it for good."""


class Supervisor(Served):
    """Keeps `tools/standby run` running in a machine; with `is_plain` the desk alone."""

    def __init__(self, machine: Machine, program: str, terms: list[Term], is_plain: bool) -> None:
        super().__init__(machine, terms)
        self.program, self.is_plain = program, is_plain
        self.process: subprocess.Popen[bytes] | None = None
        self.wanted = threading.Event()
        self.thread = threading.Thread(target=self.run, daemon=True)
        self.thread.start()

    def words(self) -> list[str]:
        """Returns the words that start it."""
        if self.is_plain:
            return [sys.executable, PLAIN, self.program, self.db, self.socket]
        words = [sys.executable, STANDBY, 'run', '--program', self.program, '--db', self.db]
        return [*words, '--socket', self.socket, '--state', self.state]

    def run(self) -> None:
        """Starts it again and again, while it is wanted."""
        while not self.over:
            if not self.wanted.wait(1) or not self.machine.is_mounted:
                time.sleep(0.05)
                continue
            try:
                self.process = self.machine.start(self.words(), subprocess.PIPE)
            except OSError as fault:
                self.note(str(fault))
                continue
            assert self.process.stdout is not None
            for line in self.process.stdout:
                self.hear(line.decode(errors='replace').rstrip())
            self.process.wait()
            time.sleep(AGAIN)

    def hear(self, line: str) -> None:
        """Takes a line that it has said."""
        self.note(line)
        words = line.split()
        if self.is_plain and words[:1] == ['serving']:
            self.terms.append(Term(self.machine.number, float(words[1])))
        elif line == 'standby: serving':
            with contextlib.suppress(OSError, ValueError), open(self.state) as file:
                self.terms.append(Term(self.machine.number, float(json.load(file)['held'])))

    def start(self) -> None:
        self.wanted.set()

    def pids(self) -> list[int]:
        """Returns the numbers of its programs: `nsenter` starts it as a child."""
        process = self.process
        if process is None or process.poll() is not None:
            return []
        with contextlib.suppress(OSError), open(
            f'/proc/{process.pid}/task/{process.pid}/children'
        ) as file:
            return [int(word) for word in file.read().split()]
        return []

    def stop(self, number: int = signal.SIGTERM) -> None:
        """Ends it; it is not started again until `start`."""
        self.wanted.clear()
        for pid in self.pids():
            with contextlib.suppress(ProcessLookupError):
                os.kill(pid, number)

    def wait(self) -> None:
        for seconds in until():
            self.stop(signal.SIGTERM if seconds < 30 else signal.SIGKILL)
            if self.process is None or self.process.poll() is not None:
                return

    def close(self) -> None:
        self.over = True
        for _ in until():
            self.stop(signal.SIGKILL)
            if not self.thread.is_alive():
                return
