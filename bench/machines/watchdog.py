"""The watchdogs of the machines: each resets its machine once that has not fed it for so long. sbd
feeds it by a pipe in the place of the device, since a machine in a namespace has none."""
from __future__ import annotations

import os
import threading
import time
from collections.abc import Sequence

from .namespaces import Machine

PIPE = 'watchdog'
EVERY = 0.1  # seconds from one look to the next
DISARM = b'V'  # what a program writes to a watchdog that is to stop


class Watchdog(threading.Thread):
    """The watchdogs. They begin with the first byte that a machine feeds them."""

    def __init__(self, machines: Sequence[Machine], seconds: float) -> None:
        super().__init__(daemon=True)
        self.machines, self.seconds = machines, seconds
        self.pipes: dict[int, int] = {}
        self.fed: dict[int, float] = {}
        self.resets: list[tuple[float, int]] = []  # the moment, and the machine
        self.over = threading.Event()
        self.lock = threading.Lock()
        self.start()

    def serve(self, machine: Machine) -> str:
        """Makes the pipe of a machine that was just started. Returns its path there."""
        path = os.path.join(machine.folder, 'run', PIPE)
        with self.lock:
            self.forget(machine.number)
            os.mkfifo(path, 0o600)
            self.pipes[machine.number] = os.open(path, os.O_RDONLY | os.O_NONBLOCK | os.O_CLOEXEC)
        return f'/run/{PIPE}'

    def forget(self, number: int) -> None:
        """Ends the watchdog of a machine."""
        self.fed.pop(number, None)
        pipe = self.pipes.pop(number, None)
        if pipe is not None:
            os.close(pipe)

    def run(self) -> None:
        while not self.over.wait(EVERY):
            for machine in self.machines:
                with self.lock:
                    is_late = self.look(machine)
                if is_late:
                    self.resets.append((time.monotonic(), machine.number))
                    machine.end()
                    machine.was_reset = True

    def look(self, machine: Machine) -> bool:
        """Takes what a machine has fed. Whether it is to be reset."""
        now, number = time.monotonic(), machine.number
        if machine.has_ended():  # by sbd, which doesn't wait for the watchdog where it needn't
            self.forget(number)
            return True
        if not machine.is_up():
            self.forget(number)
            return False
        if number not in self.pipes:
            return False
        try:
            data = os.read(self.pipes[number], 65536)
        except BlockingIOError:
            data = b''
        if machine.is_paused and number in self.fed:
            self.fed[number] = now
        if data.endswith(DISARM):
            self.fed.pop(number, None)
        elif data:
            self.fed[number] = now
        if now - self.fed.get(number, now) <= self.seconds:
            return False
        self.forget(number)
        return True

    def close(self) -> None:
        """Ends all of them. The pipes stay open: sbd takes one that is closed for a fault."""
        self.over.set()
        self.join()
