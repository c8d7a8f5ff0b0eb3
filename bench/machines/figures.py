"""What a volume costs: how long a call takes on it and on a file of this machine, how long until
another machine goes on, and what the death of a copy costs; by how many loads the file has."""
from __future__ import annotations

import json
import os
import signal
import statistics
import subprocess
import time
from collections.abc import Iterator, Sequence

from nulvrader.desk.client import Desk, NoAnswer
from nulvrader.file.machine import free_port
from nulvrader.standby.process import FOREVER, LISTENING

from .desks import DB
from .faults import BRICK
from .namespaces import NoMachines, until
from .rounds import TAKEOVER, Drill, middle

CALLS = 200
TIMES = 3  # how often another machine has to go on
LONGEST = 60.0  # seconds for an answer
AFTER = 10.0  # seconds after the death of a copy in which calls are timed
ENDS = ('', '-wal')


def post(name: str) -> bytes:
    """Returns a request that registers a load."""
    body = json.dumps({'load': name})
    return f'POST /loads HTTP/1.1\r\nContent-Length: {len(body)}\r\n\r\n{body}'.encode()


def fill(program: str, path: str, rows: int) -> None:
    """Makes a file with so many loads."""
    requests = b''.join(post(f'L{number:07}') for number in range(rows))
    words = [program, 'replay', '--db', path, '--at', '1700000000000']
    subprocess.run(words, input=requests, stdout=subprocess.DEVNULL, check=True)


def timed(desk: Desk, front: str, count: int) -> tuple[list[float], list[float]]:
    """Registers loads and asks for them, on one connection. Returns the milliseconds of each."""
    writes: list[float] = []
    reads: list[float] = []
    with desk.kept():
        for number in range(count):
            name = f'{front}{number}'
            began = time.monotonic()
            desk.register_load(name)
            writes.append(1000 * (time.monotonic() - began))
            began = time.monotonic()
            desk.load(name)
            reads.append(1000 * (time.monotonic() - began))
    return writes, reads


def print_calls(what: str, times: tuple[list[float], list[float]]) -> None:
    """Prints the median and the 99th of a hundred."""
    for name, row in zip(('a registration', 'a question'), times):
        most = sorted(row)[len(row) * 99 // 100]
        print(f'{what}: {name} {statistics.median(row):.1f} ms, 99 % within {most:.1f} ms')


def measure_here(program: str, path: str) -> None:
    """Times calls of a desk over a file of this machine."""
    port = free_port()
    words = [program, 'serve', '--db', path, '--port', str(port), '--connections', FOREVER]
    process = subprocess.Popen(words, stdout=subprocess.PIPE)
    try:
        assert process.stdout is not None
        if not process.stdout.readline().startswith(LISTENING):
            raise NoMachines('the desk does not start')
        print_calls('a file here', timed(Desk(f'127.0.0.1:{port}', timeout=LONGEST), 'H', CALLS))
    finally:
        process.terminate()
        process.wait()


class Measurements:
    """The measurements, over the machines of a drill."""

    def __init__(self, drill: Drill, folder: str) -> None:
        self.drill, self.folder = drill, folder
        self.count = 0

    def run(self, rows: Sequence[int]) -> None:
        """Measures with files of so many loads."""
        for count in rows:
            print(f'{count} loads', flush=True)
            path = os.path.join(self.folder, f'{count}.db')
            fill(self.drill.program, path, count)
            self.copy(path)
            measure_here(self.drill.program, path)
            for desk in self.drill.desks.values():
                desk.start()
            number, _ = self.first(0)
            print_calls('the volume', timed(self.desk(number), f'V{count}-', CALLS))
            self.takeovers()
            self.death_of_a_copy()
            for desk in self.drill.desks.values():
                desk.wait()
            self.drill.volume.heal(60)

    def copy(self, path: str) -> None:
        """Copies the file to the volume, in the place of the one there."""
        machine = self.drill.machines.all[0]
        place = os.path.join(machine.folder, 'mount', DB)
        machine.run('rm', '-f', *(place + end for end in (*ENDS, '-shm')))
        for end in ENDS:
            if os.path.exists(path + end) and machine.run('cp', path + end, place + end).returncode:
                raise NoMachines('the file can not be copied to the volume')

    def desk(self, number: int) -> Desk:
        """Returns the desk of a machine."""
        return Desk(f'unix:{self.drill.sockets[number]}', timeout=LONGEST)

    def first(self, besides: int) -> tuple[int, float]:
        """Waits for the first answer of another machine. Returns its number and the moment."""
        for _ in until(TAKEOVER):
            for number in self.drill.sockets:
                if number != besides and self.answers(number):
                    return number, time.monotonic()
        raise NoMachines(f'no desk answers within {TAKEOVER:g} s')

    def answers(self, number: int) -> bool:
        """Whether the desk of a machine answers."""
        if not os.path.exists(self.drill.sockets[number]):
            return False
        try:
            return self.desk(number).ask('GET', '/report/holds').status == 200
        except NoAnswer:
            return False

    def takeovers(self) -> None:
        """Has the power of the machine with the desk fail, and stops the desk, some times each."""
        failed, planned = [], []
        for _ in range(TIMES):
            number, _ = self.first(0)
            old = self.drill.machines.all[number - 1]
            began = time.monotonic()
            old.kill()
            failed.append(self.first(number)[1] - began)
            self.drill.boot(old)
            self.drill.volume.heal(60)
            number, _ = self.first(0)
            began = time.monotonic()
            self.drill.desks[number].wait()
            planned.append(self.first(number)[1] - began)
            self.drill.desks[number].start()
        print(f'the power fails: {middle(failed)}; a planned stop: {middle(planned)}', flush=True)

    def death_of_a_copy(self) -> None:
        """Kills the copy of another machine while loads are registered. The desk has begun with
        all copies: it doesn't use one that was away then."""
        number, _ = self.first(0)
        for machine in self.drill.machines.all:
            self.drill.wait_until_whole(machine)
        self.drill.desks[number].wait()
        self.drill.desks[number].start()
        number, _ = self.first(0)
        old = self.drill.machines.all[number - 1]
        other = self.drill.others(old)[0]
        desk = self.desk(number)
        for pid in self.drill.programs_of(other, BRICK):
            os.kill(pid, signal.SIGKILL)
        times = list(self.until_over(desk))
        rest = statistics.median(times[1:])
        print(
            f'a copy is gone: the longest call {max(times):.0f} ms, then {rest:.1f} ms', flush=True
        )
        self.drill.volume.gluster(old, 'volume', 'start', 'desk', 'force')

    def until_over(self, desk: Desk) -> Iterator[float]:
        """Registers loads for some seconds, and gives the milliseconds of each."""
        self.count += 1
        ends, number = time.monotonic() + AFTER, 0
        while time.monotonic() < ends or number < 2:
            number += 1
            began = time.monotonic()
            desk.register_load(f'D{self.count}-{os.getpid()}-{number}')
            yield 1000 * (time.monotonic() - began)


def run(drill: Drill, folder: str, rows: Sequence[int]) -> None:
    """Measures."""
    Measurements(drill, folder).run(rows)
