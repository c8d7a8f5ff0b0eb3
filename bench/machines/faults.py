"""The kinds of faults. Each is a function that breaks something of the machine that has the desk,
and returns what mends it."""
from __future__ import annotations

import os
import random
import signal
import time
from collections.abc import Callable
from typing import TYPE_CHECKING

from .desks import DB
from .namespaces import NETWORK, Machine

if TYPE_CHECKING:
    from .rounds import Drill

Mend = Callable[[], None]
BRICK = 'glusterfsd'  # the program that serves a copy
OPENS_ANEW = 'performance.io-cache'  # an option that has each mount open its files anew
LOG = f'{DB}-wal'  # what was changed last is in it
# What of a machine GlusterFS, Corosync and Pacemaker keep.
OF_SYSTEM = ('lib', 'corosync', 'corosync-lib', 'pacemaker-lib')
WATCHDOG = 5.0  # seconds after which a machine that doesn't feed its watchdog is reset


def cut(drill: Drill, machine: Machine) -> Mend:
    """The cable of the machine is taken out, and put back."""
    machine.cut()
    return machine.join


def idle(drill: Drill, machine: Machine) -> Mend:
    """The cable is out while nobody asks anything, and is put back before anybody does: the old
    desk has seen no fault."""
    assert drill.traffic is not None
    began = time.monotonic()
    drill.traffic.may.clear()
    time.sleep(2)
    machine.cut()
    drill.wait_for_desk(began, machine.number)
    machine.join()
    drill.wait_until_whole(machine)
    drill.traffic.may.set()
    return lambda: None


def mute(drill: Drill, machine: Machine) -> Mend:
    """What the machine sends is lost; it hears the others."""
    machine.cut_one_way('output')
    return machine.join


def deaf(drill: Drill, machine: Machine) -> Mend:
    """What is sent to the machine is lost; the others hear it."""
    machine.cut_one_way('input')
    return machine.join


def kill(drill: Drill, machine: Machine) -> Mend:
    """The power of the machine fails."""
    machine.kill()
    return lambda: drill.boot(machine)


def freeze(drill: Drill, machine: Machine) -> Mend:
    """The machine is paused, as a virtual one is with its watchdog, and goes on later where it
    was."""
    machine.is_paused = True
    machine.cut()
    machine.freeze()

    def thaw() -> None:
        machine.join()
        machine.thaw()
        machine.is_paused = False

    return thaw


def hang(drill: Drill, machine: Machine) -> Mend:
    """All programs of the machine stop, while its system answers the network: its locks stay. The
    watchdog that sbd no longer feeds resets the machine."""
    machine.freeze()
    if drill.cluster is None:
        time.sleep(WATCHDOG)
    else:
        drill.cluster.wait_for_reset(machine)
    machine.kill()
    return lambda: drill.boot(machine)


def desk(drill: Drill, machine: Machine) -> Mend:
    """The desk's program is killed; all else of the machine is well."""
    for pid in drill.programs_of(machine, os.path.basename(drill.program)):
        os.kill(pid, signal.SIGKILL)
    return lambda: None


def cable(drill: Drill, machine: Machine) -> Mend:
    """The first cable of the machine is out, by which its copy and its volume go; by the second one
    the cluster sees that all is well."""
    machine.cut_network(NETWORK)
    return machine.join


def plant(drill: Drill, machine: Machine) -> Mend:
    """The cable of the machine to the plant is out; its volume and its cluster are well."""
    machine.cut_network(machine.networks[-1])
    return machine.join


def replace(drill: Drill, machine: Machine) -> Mend:
    """The machine is gone with its disks. A new one gets its name, its addresses and its copy."""
    machine.kill()

    def put() -> None:
        machine.empty(name for name in OF_SYSTEM if name in machine.folders)
        drill.volume.replace(machine, *random.sample(drill.others(machine), 2))
        drill.boot(machine)

    return put


def tear(drill: Drill, machine: Machine) -> Mend:
    """The cable of another machine is out for a moment, in which the power of the machine fails:
    the last calls are in two copies, one of which is gone."""
    other = random.choice(drill.others(machine))
    other.cut()
    time.sleep(random.uniform(0.05, 0.3))
    machine.kill()
    time.sleep(0.1)
    other.join()
    return lambda: drill.boot(machine)


def bounce(drill: Drill, machine: Machine) -> Mend:
    """The copy of another machine was away and is stale when the power of the machine fails. The
    third machine has to know that."""
    other, third = random.sample(drill.others(machine), 2)
    for pid in drill.programs_of(other, BRICK):
        os.kill(pid, signal.SIGKILL)
    time.sleep(0.5)
    away = time.monotonic()
    time.sleep(0.5)
    drill.volume.gluster(machine, 'volume', 'start', 'desk', 'force')
    time.sleep(random.uniform(0.5, 3))
    machine.kill()
    was_changed = any(one.changes and one.sent > away for one in drill.answers_since(away))
    if was_changed and drill.volume.unmarked(third, other, LOG):
        drill.records.lost.append(f'{third.name} takes the copy in {other.name} for whole')
    return lambda: drill.boot(machine)


def part(drill: Drill, machine: Machine) -> Mend:
    """The machine and another one don't hear each other, so both see two copies, and the third
    machine decides. Then the copy there starts anew, and has forgotten the lock."""
    other, third = random.sample(drill.others(machine), 2)
    machine.cut_from(other)
    time.sleep(random.uniform(4, 6))
    for pid in drill.programs_of(third, BRICK):
        os.kill(pid, signal.SIGKILL)
    time.sleep(1)
    drill.volume.gluster(third, 'volume', 'start', 'desk', 'force')
    return machine.join


def change(drill: Drill, machine: Machine) -> Mend:
    """A copy was away, and has forgotten the lock. Then an option of the volume is changed by which
    the machine opens its files anew, there too. And it and another machine don't hear each other,
    so both see two copies."""
    other, third = random.sample(drill.others(machine), 2)
    for pid in drill.programs_of(third, BRICK):
        os.kill(pid, signal.SIGKILL)
    time.sleep(1)
    drill.volume.gluster(third, 'volume', 'start', 'desk', 'force')
    drill.wait_until_whole(machine)
    drill.volume.gluster(third, 'volume', 'set', 'desk', OPENS_ANEW, 'on')
    time.sleep(random.uniform(3, 5))
    machine.cut_from(other)
    time.sleep(random.uniform(8, 12))

    def mend() -> None:
        machine.join()
        drill.wait_until_whole(machine)
        drill.volume.gluster(third, 'volume', 'set', 'desk', OPENS_ANEW, 'off')

    return mend


def two(drill: Drill, machine: Machine) -> Mend:
    """The power of the machine and of another one fails: nobody may answer until one is back."""
    other = random.choice(drill.others(machine))
    machine.kill()
    other.kill()
    drill.nobody_answers()
    drill.boot(other)
    return lambda: drill.boot(machine)


def total(drill: Drill, machine: Machine) -> Mend:
    """The power of all three fails: nobody may answer until two are back, in any order."""
    order = random.sample(drill.machines.all, len(drill.machines.all))
    for one in order:
        one.kill()
    first, second, third = order
    drill.power_on(first)
    drill.nobody_answers()
    drill.boot(first, second)
    return lambda: drill.boot(third)


def full(drill: Drill, machine: Machine) -> Mend:
    """The disks of all machines are full: nothing that was answered is lost, and once there is room
    again the desk goes on."""
    files = [drill.fill(one) for one in drill.machines.all]
    drill.wait_until_full(machine)

    def clear() -> None:
        for file in files:
            os.remove(file)

    return clear


def full_one(drill: Drill, machine: Machine) -> Mend:
    """The disk of another machine is full: the desk goes on with two copies."""
    file = drill.fill(random.choice(drill.others(machine)))
    return lambda: os.remove(file)


KINDS: dict[str, Callable[[Drill, Machine], Mend]] = {
    'cut': cut,
    'idle': idle,
    'kill': kill,
    'freeze': freeze,
    'hang': hang,
    'tear': tear,
    'bounce': bounce,
    'mute': mute,
    'deaf': deaf,
    'part': part,
    'two': two,
    'total': total,
    'desk': desk,
    'cable': cable,
    'plant': plant,
    'full': full,
    'full-one': full_one,
    'replace': replace,
    'change': change,
}
# These are faults for a cluster, which has more networks than one.
OF_CLUSTER = ('cable', 'plant')
# After these the machine may go on itself.
STAYS = ('full', 'full-one', 'two', 'total', 'part', 'desk', 'change')
