"""A simulated plant over the desk of the three machines, with faults all the while."""
from __future__ import annotations

import dataclasses
import json
import os
import socket as sockets
import threading
import time
from collections.abc import Callable, Mapping, Sequence
from typing import Any

from nulvrader.desk.client import Answer, NoAnswer
from simulation.desks import Served, Wire
from simulation.floors import FLOORS
from simulation.plan import Plan, Trouble
from simulation.plant import Plant
from simulation.truth import Given, Wrong
from simulation.words import maker, told

from .desks import DB
from .faults import KINDS
from .namespaces import NoMachines, until
from .records import Answered, Records
from .rounds import Drill

DAYS = ('cut', 'kill', 'freeze', 'hang', 'mute', 'deaf')  # the kinds after which another goes on
FLOOR = 'small'
LOADS = 5  # for each vehicle
PATIENCE = 10.0  # seconds for an answer: as long as a gateway waits
JOBS_A_MINUTE = 0.68  # about so many of a vehicle end


def plan(minutes: float, vehicles: int, seed: int, pace: float) -> Plan:
    """Returns the plan of a plant that has about so many minutes of work. Its desk is left to the
    faults."""
    trouble = Trouble(desk=None)
    jobs = int(minutes * JOBS_A_MINUTE * vehicles)
    limit = 4 * 60 * minutes
    floor = Plan(FLOOR, vehicles, LOADS * vehicles, jobs, seed, trouble)
    return dataclasses.replace(floor, pace=pace, limit=limit, stands=900.0)


class Road(Wire):
    """One connection to whichever machine has the desk. Each answer is noted."""

    def __init__(self, places: Mapping[int, str], records: Records) -> None:
        super().__init__(1)
        self.places, self.records = places, records
        self.machine = 0

    def ask(self, method: str, target: str, body: bytes | None) -> Answer:
        sent = time.monotonic()
        if self._socket is None:
            self.connect()
        answer = super().ask(method, target, body)
        changes = method != 'GET' and answer.status == 200
        changes = changes and b'"accepted":false' not in answer.body
        what = f'{method} {target}'
        self.records.note(Answered(self.machine, what, changes, sent, time.monotonic()))
        return answer

    def connect(self) -> None:
        """Connects to a machine, to another one than the last if there is one."""
        for number in sorted(self.places, key=lambda number: (number == self.machine, number)):
            one = sockets.socket(sockets.AF_UNIX)
            one.settimeout(PATIENCE)
            try:
                one.connect(self.places[number])
            except OSError:
                one.close()
                continue
            self._socket, self.machine = one, number
            return
        raise NoAnswer('no machine has the desk', False)


class Messages(Given):
    """What the desk has given to each vehicle. The numbers of its messages never get lower, and
    what has the same number is the same."""

    def __init__(self, records: Records) -> None:
        super().__init__()
        self.records = records

    def note(self, vehicle: str, message: Mapping[str, Any]) -> None:
        super().note(vehicle, message)
        data = json.dumps(message, sort_keys=True).encode()
        self.records.note_message(0, vehicle, 'order', message['headerId'], data)
        self.records.note_order(vehicle, message)


class OverMachines(Served):
    """The desk of the machines, as a plant has it."""

    def __init__(self, drill: Drill, folder: str, every: float, kinds: Sequence[str]) -> None:
        super().__init__(drill.program, os.path.join(folder, 'plant.db'), port=1)
        self.drill, self.every, self.kinds = drill, every, kinds
        self.wire = Road(drill.sockets, drill.records)
        self.fault: BaseException | None = None
        self.count = 0
        self.now: Callable[[], float] = lambda: 0.0  # the seconds of the plant
        self.over = threading.Event()
        self.thread = threading.Thread(target=self.fail, daemon=True)

    def start(self) -> None:
        """Waits until a desk answers, and begins with the faults."""
        for desk in self.drill.desks.values():
            desk.start()
        for _ in until():
            try:
                self.wire.ask('GET', '/report/holds', None)
                break
            except NoAnswer:
                pass
        self.thread.start()

    def fail(self) -> None:
        """Has one kind of fault after another happen, by the time of the plant."""
        due = self.every
        try:
            while not self.over.wait(1):
                if self.now() >= due:
                    due += self.every
                    self.one(self.kinds[self.count % len(self.kinds)])
        except Exception as fault:  # the plant is told of it
            self.fault = fault

    def one(self, kind: str) -> None:
        """A fault, the next desk, the mending, and a move back to all copies."""
        drill = self.drill
        old, _ = drill.holder()
        began = time.monotonic()
        mend = KINDS[kind](drill, old)
        new, first = drill.holder(began, old.number)
        self.count += 1
        mend()
        drill.boot()
        drill.volume.heal(60)
        drill.stop_and_start()
        drill.note(kind, old, began, first - began)
        line = f'{kind}: {old.name} to {new.name} after {first - began:.1f} s'
        at = f'{self.now() / 60:.0f} minutes of the plant'
        print(f'{self.count}. {line}; {at}; {drill.judged()}', flush=True)

    def supervise(self) -> None:
        if self.fault is not None:
            raise Wrong(f'the machines: {self.fault}')

    def settle(self) -> None:
        self.over.set()
        self.thread.join()
        self.supervise()
        for _ in until():
            try:
                self.wire.ask('GET', '/report/holds', None)
                return
            except NoAnswer:
                pass

    def stop(self) -> None:
        """Ends all, and takes the file from the volume."""
        self.over.set()
        self.wire.close()
        drill = self.drill
        drill.end()
        drill.volume.heal(60)
        drill.records.lost += [f'the copies of {name} differ' for name in drill.differing()]
        machine = drill.machines.all[0]
        for end in ('', '-wal'):
            path = os.path.join(machine.folder, 'mount', DB + end)
            done = machine.run('cp', path, self.db + end)
            if done.returncode and not end:
                raise NoMachines(f'the file can not be copied: {done.stderr.strip()}')


def run(drill: Drill, folder: str, given: Any) -> bool:
    """Runs the plant. Whether all was right."""
    served = OverMachines(drill, folder, given.every, given.kinds or DAYS)
    a_plan = plan(given.day, given.vehicles, given.seed, given.pace)
    batteries: dict[str, float] = {}
    make = maker('look', FLOORS[a_plan.floor](), batteries)
    plant = Plant(a_plan, served, make, batteries=batteries)
    plant.given = Messages(drill.records)
    served.now = lambda: plant.clock.now
    try:
        day = plant.run()
    except Wrong as fault:
        print(f'wrong: {fault}')
        return False
    print(*told(day), sep='\n')
    return day.stands is None
