"""The rounds of the drill."""
from __future__ import annotations

import hashlib
import os
import random
import signal
import statistics
import subprocess
import time
from collections.abc import Sequence
from dataclasses import dataclass, field

from .cluster import Cluster, Managed
from .desks import DB, Served, Supervisor, Term
from .faults import BRICK, KINDS, STAYS
from .namespaces import Machine, Machines, NoMachines, until
from .records import Answered, Judgement, Records
from .traffic import Traffic, missing
from .volume import NAME, Volume

EXPORT = b'GET /export/loads HTTP/1.1\r\n\r\n'
TAKEOVER = 300.0  # seconds until another desk has to answer
STARTING = 20.0  # seconds after which a copy has its port, where it gets it
HANDED = 60.0  # seconds after which it is looked again who has the desk that is to be stopped


@dataclass
class DrillFigures:
    """What was measured, by kind: from the fault to the first answer of the next desk."""

    takeovers: dict[str, list[float]] = field(default_factory=dict)
    planned: list[float] = field(default_factory=list)  # from the stop of a desk to the next one's
    last: dict[str, list[float]] = field(default_factory=dict)  # of the old desk after the fault
    heals: list[float] = field(default_factory=list)


class Drill:
    """Three machines, a volume, a desk for each machine, and those that ask."""

    def __init__(
        self,
        machines: Machines,
        volume: Volume,
        program: str,
        *,
        is_plain: bool = False,
        cluster: Cluster | None = None,
    ) -> None:
        self.machines, self.volume, self.program = machines, volume, program
        self.terms: list[Term] = []
        self.cluster = cluster
        self.desks: dict[int, Served] = {}
        for machine in machines.all:
            if cluster is not None:
                self.desks[machine.number] = Managed(machine, cluster, self.terms)
            else:
                self.desks[machine.number] = Supervisor(machine, program, self.terms, is_plain)
        self.records, self.figures = Records(), DrillFigures()
        self.sockets = {number: desk.socket for number, desk in self.desks.items()}
        self.traffic: Traffic | None = None

    def begin(self, vehicles: int) -> None:
        """Starts the desks and all that asks them."""
        for desk in self.desks.values():
            desk.start()
        self.traffic = Traffic(self.sockets, vehicles, self.records)
        self.traffic.begin()

    def end(self) -> None:
        """Ends all that asks, and the desks."""
        if self.traffic is not None:
            self.traffic.end()
        if self.cluster is not None:
            self.cluster.end()
        for desk in self.desks.values():
            desk.close()

    # What kinds of faults use.

    def others(self, machine: Machine) -> list[Machine]:
        """Returns the other machines."""
        return [one for one in self.machines.all if one is not machine]

    def boot(self, *machines: Machine) -> None:
        """Starts machines that were killed, with their copies, mounts and desks, and those that
        their watchdogs have reset."""
        for machine in machines:
            if not machine.is_up():
                self.power_on(machine)
        order = list(machines)
        for _ in until():
            order += self.reset_ones()
            if not order:
                return
            machine = order.pop(0)
            if not machine.was_reset and not self.volume.try_to_mount(machine):
                order.append(machine)
            elif self.cluster is not None and machine.is_mounted:
                self.cluster.start(machine)
        raise NoMachines(f'the volume can not be mounted in {order[0].name}')

    def power_on(self, machine: Machine) -> None:
        """Starts a machine that was killed, with its copy."""
        machine.boot()
        machine.join()
        self.volume.start_daemon(machine)

    def reset_ones(self) -> list[Machine]:
        """Starts the machines that their watchdogs have reset, with their copies, and returns
        them."""
        found = [machine for machine in self.machines.all if machine.was_reset]
        for machine in found:
            self.power_on(machine)
        return found

    def programs_of(self, machine: Machine, name: str) -> list[int]:
        """Returns the numbers of a machine's programs of a name."""
        found = []
        for pid in machine.programs():
            try:
                with open(f'/proc/{pid}/cmdline', 'rb') as file:
                    words = file.read().split(b'\0')
            except OSError:
                continue
            if os.path.basename(words[0]) == name.encode():
                found.append(pid)
        return found

    def nobody_answers(self) -> None:
        """Sees that for some seconds no desk answers, once what was sent before has been
        answered."""
        time.sleep(6)
        before = time.monotonic()
        time.sleep(4)
        for answer in self.answers_since(before):
            if answer.sent > before:
                self.records.stale.append(f'm{answer.machine} answers without the others')

    def wait_for_desk(self, since: float, besides: int) -> None:
        """Waits until another machine has the desk."""
        for _ in until(TAKEOVER):
            if any(one.began >= since and one.machine != besides for one in list(self.terms)):
                return
        raise NoMachines(f'no desk goes on within {TAKEOVER:g} s')

    def wait_until_whole(self, machine: Machine) -> None:
        """Waits until a machine is connected to all copies, for two minutes at most."""
        for _ in until():
            if not machine.is_up() or self.volume.is_whole(machine):
                return

    def fill(self, machine: Machine) -> str:
        """Fills the disk of a machine."""
        path = os.path.join(machine.folder, 'brick', 'filling')
        with open(path, 'wb', buffering=0) as file:
            for size in (1 << 20, 4096, 1):
                try:
                    while file.write(bytes(size)) == size:
                        pass
                except OSError:
                    pass
        return path

    def wait_until_full(self, machine: Machine) -> None:
        """Waits until no change is answered."""
        for _ in until(TAKEOVER):
            now = time.monotonic()
            time.sleep(3)
            if not any(one.changes and one.sent > now for one in self.answers_since(now)):
                return
        raise NoMachines('a full disk does not keep the desk from changes')

    # What is seen.

    def answers_since(self, moment: float) -> list[Answered]:
        """Returns the answers that have come since a moment."""
        found: list[Answered] = []
        with self.records.lock:
            for answer in reversed(self.records.answers):
                if answer.came < moment - 60:
                    break
                if answer.came >= moment:
                    found.append(answer)
        return found[::-1]

    def holder(self, since: float = 0.0, besides: int = 0) -> tuple[Machine, float]:
        """Waits for an answer of the newest desk, if that has begun since a moment, and returns its
        machine with the moment of its first answer."""
        for _ in until(TAKEOVER):
            found = self.answering(since, besides)
            if found is not None:
                return found
        raise NoMachines(f'no desk answers within {TAKEOVER:g} s')

    def answering(self, since: float, besides: int) -> tuple[Machine, float] | None:
        """Returns the machine whose desk is the newest, and its first answer; None where it has not
        answered yet, or has begun before a moment."""
        terms = [one for one in list(self.terms) if one.began >= since and one.machine != besides]
        if not terms:
            return None
        term = max(terms, key=lambda one: one.began)
        for answer in self.answers_since(term.began):
            if answer.machine == term.machine:
                return self.machines.all[term.machine - 1], answer.came
        return None

    def judged(self) -> Judgement:
        """Judges what was answered."""
        return Judgement.of(self.records, self.terms)

    def control(self, kind: str) -> None:
        """Makes a fault with desks that nothing keeps from writing side by side, and mends it."""
        assert self.traffic is not None
        old, _ = self.holder()
        time.sleep(3)
        mend = KINDS[kind](self, old)
        time.sleep(5)
        mend()
        for _ in until():
            if self.judged().writers:
                break

    def round(self, number: int, kind: str) -> None:
        """Makes a fault, waits for the takeover, mends the fault and checks what was answered; then
        stops the desk, so that the next one uses all copies."""
        assert self.traffic is not None
        old, _ = self.holder()
        time.sleep(random.uniform(1.5, 3))
        began, known = time.monotonic(), len(self.records.loads)
        mend = KINDS[kind](self, old)
        if kind == 'full-one':
            new, first = self.first_change(began)
        elif kind != 'full':
            new, first = self.holder(began, 0 if kind in STAYS else old.number)
        time.sleep(random.uniform(1, 2))
        mended = time.monotonic()
        mend()
        self.boot()
        if kind == 'full':
            new, first = self.first_change(mended)
            began = mended
        time.sleep(random.uniform(1, 2))
        self.traffic.check()
        took = first - began
        self.note(kind, old, began, took)
        healed = self.hand_over()
        lines = f'{kind}: m{old.number} to m{new.number} after {took:.1f} s'
        told = f'{len(self.records.loads) - known} loads, healed after {healed:.1f} s'
        told += f'; {self.judged()}'
        print(f'{number}. {lines}; {told}', flush=True)

    def first_change(self, since: float) -> tuple[Machine, float]:
        """Waits for the first change that was asked for since a moment, and is answered."""
        for _ in until(TAKEOVER):
            for answer in self.answers_since(since):
                if answer.changes and answer.sent >= since:
                    return self.machines.all[answer.machine - 1], answer.came
        raise NoMachines(f'no desk changes anything within {TAKEOVER:g} s')

    def note(self, kind: str, old: Machine, began: float, took: float) -> None:
        """Notes what was measured."""
        self.figures.takeovers.setdefault(kind, []).append(took)
        if kind not in STAYS:
            last = [one.came for one in self.answers_since(began) if one.machine == old.number]
            before = [came for came in last if came < began + took]
            self.figures.last.setdefault(kind, []).append(max(before, default=began) - began)

    def hand_over(self) -> float:
        """Stops the desk, so that another goes on with all copies, and waits until these are equal:
        a desk doesn't use a copy that was away when it began. Returns how long that took."""
        began = time.monotonic()
        for _ in range(5):
            self.stop_and_start()
            if self.heal() is not None:
                self.figures.heals.append(time.monotonic() - began)
                return self.figures.heals[-1]
        raise NoMachines('the copies do not become equal')

    def heal(self) -> float | None:
        """Waits until the copies are equal, while nobody asks."""
        assert self.traffic is not None
        self.traffic.may.clear()
        try:
            return self.volume.heal(60)
        finally:
            self.traffic.may.set()

    def stop_and_start(self) -> None:
        """Stops the desk as a person does, and starts it once another goes on."""
        self.make_whole()
        began = time.monotonic()
        while self.stop_and_wait(self.desks[self.holder()[0].number]) is None:
            if time.monotonic() > began + TAKEOVER:
                raise NoMachines(f'no desk goes on within {TAKEOVER:g} s after a stop')
            self.make_whole()

    def make_whole(self) -> None:
        """Starts the machines that their watchdogs have reset, and waits until all use all
        copies."""
        patience = STARTING
        for took in until():
            self.boot()
            if all(self.volume.is_whole(one) for one in self.machines.all):
                return
            if took > patience:
                patience = took + STARTING
                self.start_without_port()

    def start_without_port(self) -> None:
        """Starts copies anew that have no port, by the commands that `tools/standby check`
        says."""
        for machine in self.volume.without_port():
            for pid in self.programs_of(machine, BRICK):
                os.kill(pid, signal.SIGKILL)
            time.sleep(1)
            self.volume.gluster(machine, 'volume', 'start', NAME, 'force')
            print(f'the copy in {machine.name} had no port', flush=True)

    def stop_and_wait(self, desk: Served) -> float | None:
        """Stops a desk, waits for the next one, and starts the first again. Returns the first
        answer; None where none comes, as where another one had the desk already, or a watchdog has
        reset the machine that was to go on."""
        began = time.monotonic()
        desk.wait()
        found = None
        for _ in until(HANDED):
            found = self.answering(began, 0)
            if found is not None:
                self.figures.planned.append(found[1] - began)
                break
            if any(machine.was_reset for machine in self.machines.all):
                break
        desk.start()
        return None if found is None else found[1]

    # The end.

    def finish(self) -> None:
        """Ends all, and compares the copies, and what the program reports of the file in each
        machine with what was answered."""
        assert self.traffic is not None
        self.traffic.check()
        self.end()
        self.start_again()
        self.volume.heal(60)
        self.records.lost += [f'the copies of {name} differ' for name in self.differing()]
        for machine in self.machines.all:
            path = os.path.join(machine.folder, 'mount', DB)
            words = machine.words(self.program, 'replay', '--db', path, '--at', '0')
            done = subprocess.run(
                words, input=EXPORT, capture_output=True, timeout=600, check=False
            )
            if done.returncode:
                self.records.lost.append(f'the file in {machine.name}: {done.stderr.decode()}')
            else:
                self.records.lost += missing(done.stdout, self.records.loads)

    def start_again(self) -> None:
        """Starts the machines that were reset while all was ended, with their copies and mounts."""
        for machine in self.machines.all:
            if machine.was_reset or not machine.is_up():
                machine.end()
                self.power_on(machine)
                for _ in until():
                    if self.volume.try_to_mount(machine):
                        break

    def differing(self) -> list[str]:
        """Returns the names of the desk's files whose copies differ."""
        found = []
        for name in (DB, f'{DB}-wal'):
            paths = [os.path.join(folder, name) for folder in self.volume.copies()]
            sums = set()
            for path in paths:
                if os.path.exists(path):
                    with open(path, 'rb') as file:
                        sums.add(hashlib.sha256(file.read()).digest())
                else:
                    sums.add(b'')
            if len(sums) != 1:
                found.append(name)
        return found


def middle(values: Sequence[float]) -> str:
    """Returns the median, the least and the most."""
    return f'{statistics.median(values):.1f} s ({min(values):.1f} to {max(values):.1f})'
