"""Checks the volume, its options, the lock, the quorum, the clock and the fencing. Nothing is
changed or locked."""
from __future__ import annotations

import glob
import os
import re
from dataclasses import dataclass, field

from ..common.plain_files import NotPlain, opened
from ..common.text import shown
from . import cluster, gluster, lock
from .gluster import Brick, Client, Unknown, Volume

COPIES = 3
INVALIDATES = '--auto-invalidation=on'
OFF = ('off', 'no', 'disable', 'false', '0')
ON = ('on', 'yes', 'enable', 'true', '1')


@dataclass
class CheckResult:
    """What is wrong, and notes on what is right."""

    notes: list[str] = field(default_factory=list)
    wrong: list[str] = field(default_factory=list)


def check_all(
    db: str, volume: str | None, wanted: dict[str, str], *, with_cluster: bool
) -> CheckResult:
    """Checks everything: the volume and the cluster only where they are named."""
    found = CheckResult()
    if volume is not None:
        check_volume(found, volume, wanted)
    check_mount(found, db, volume)
    check_lock(found, db)
    if not cluster.is_clock_set():
        found.wrong.append(
            'the clock is not synchronized: messages would go back in time. Run chrony'
        )
    if with_cluster:
        check_cluster(found)
    return found


def check_volume(found: CheckResult, name: str, wanted: dict[str, str]) -> None:
    """Checks the volume, its options and its copies."""
    try:
        volume = gluster.read_volume(gluster.ask('volume', 'info', name), name)
        found.wrong += wrong_volume(volume, wanted)
        found.wrong += wrong_bricks(gluster.read_bricks(gluster.ask('volume', 'status', name)))
        found.wrong += unhealed(gluster.read_unhealed(gluster.ask('volume', 'heal', name, 'info')))
    except Unknown as fault:
        found.wrong.append(f'the volume {name}: {shown(str(fault), 500)}')
    found.wrong += wrong_daemon(gluster.DAEMON)


def wrong_daemon(path: str) -> list[str]:
    """Returns what is wrong with the settings of the daemon of GlusterFS."""
    try:
        with opened(path) as file:
            text = file.read(gluster.LONGEST).decode(errors='replace')
    except (OSError, NotPlain) as fault:
        return [f'{path} can not be read: {shown(str(fault), 500)}']
    option = r'^\s*option\s+transport\.tcp-user-timeout\s+[1-9][0-9]?\s*$'
    if re.search(option, text, re.M | re.A):
        return []
    return [
        f'{path} has no transport.tcp-user-timeout: the daemon waits for a machine that is dead'
    ]


def wrong_volume(volume: Volume, wanted: dict[str, str]) -> list[str]:
    """Returns what is wrong with a volume and its options, of which these are wanted."""
    wrong = []
    if volume.replicas != COPIES or len(volume.bricks) != COPIES:
        told = f'{len(volume.bricks)} bricks with {volume.replicas} copies of each file'
        wrong.append(f'the volume has {told}, and needs {COPIES} bricks with {COPIES} copies')
    hosts = {brick.partition(':')[0] for brick in volume.bricks}
    if len(hosts) != len(volume.bricks):
        wrong.append('two copies are on one machine')
    if volume.status != 'Started':
        wrong.append(f'the volume is not started: it is {shown(volume.status, 50)}')
    for option, value in wanted.items():
        is_so = volume.options.get(option)
        if is_so is None:
            wrong.append(f'the option {option} is not set: it has to be {value}')
        elif not is_same(is_so, value):
            wrong.append(f'the option {option} is {shown(is_so, 50)}, and has to be {value}')
    return wrong


def is_same(one: str, other: str) -> bool:
    """Whether two values of an option are the same."""
    one, other = one.strip().lower(), other.strip().lower()
    return one == other or any(one in words and other in words for words in (ON, OFF))


def wrong_bricks(bricks: list[Brick]) -> list[str]:
    """Returns the copies that are not online, or that nobody reaches who isn't connected."""
    wrong = []
    for brick in bricks:
        name = shown(brick.name, 300)
        if not brick.is_online:
            wrong.append(f'the copy {name} is not online')
        elif not brick.has_port:
            told = '`kill -KILL` its Pid in `gluster volume status` there, then'
            wrong.append(f'the copy {name} has no port: {told} `gluster volume start .. force`')
    if not bricks:
        wrong.append('the volume has no copy')
    return wrong


def unhealed(counts: dict[str, int | None]) -> list[str]:
    """Returns the copies that are not equal to the others."""
    wrong = []
    for name, count in counts.items():
        if count is None:
            wrong.append(f'nobody knows what is to be healed at {shown(name, 300)}')
        elif count:
            wrong.append(f'{count} entries are to be healed at {shown(name, 300)}')
    return wrong


def check_mount(found: CheckResult, db: str, volume: str | None) -> None:
    """Checks whether the file is on a volume, and whether the mount uses all copies."""
    folder = os.path.dirname(os.path.abspath(db))
    try:
        if volume is not None and not lock.is_shared(folder):
            found.wrong.append(f'{shown(folder, 500)} is not on a volume of GlusterFS')
            return
        place = lock.mount_of(folder)
        clients = []
        for path in sorted(
            glob.glob(f'{glob.escape(place)}/.meta/graphs/active/*-client-*/private')
        ):
            with opened(path) as file:
                clients += gluster.read_clients(file.read(gluster.LONGEST).decode(errors='replace'))
    except OSError as fault:
        found.wrong.append(f'{shown(folder, 500)} can not be read: {fault.strerror}')
        return
    found.wrong += wrong_clients(clients)
    if volume is not None:
        found.wrong += wrong_flags(gluster.flags_of(place))


def wrong_flags(flags: list[str] | None) -> list[str]:
    """Returns what is wrong with the options of a mount."""
    if flags is None:
        return ['nobody knows the options of the mount: is this root?']
    if INVALIDATES in flags:
        return []
    return ['the mount has no auto-invalidation=on: files are read as they were']


def wrong_clients(clients: list[Client]) -> list[str]:
    """Returns the copies that the mount of this machine doesn't use."""
    wrong = []
    for client in clients:
        if not client.is_connected:
            wrong.append(f'this machine is not connected to the copy of {client.name}')
        elif client.closed:
            told = f'{client.closed} open files are not open at the copy of {client.name}'
            wrong.append(f'{told}, which was away: start the desk anew in a quiet minute')
    return wrong


def check_lock(found: CheckResult, db: str) -> None:
    """Checks whether a machine has the lock, and notes which one."""
    path = shown(lock.path_of(db), 500)
    try:
        is_free = lock.is_free(db)
        holder = lock.holder_of(db)
    except FileNotFoundError:
        found.wrong.append(f'there is no {path}: `tools/standby run` has never had the lock')
        return
    except OSError as fault:
        found.wrong.append(f'{path} can not be locked: {fault.strerror}')
        return
    if is_free:
        found.wrong.append(f'no machine has the desk; the last one was {holder or "none"}')
    else:
        found.notes.append(f'the desk is on {holder or "a machine that has not said its name"}')


def check_cluster(found: CheckResult) -> None:
    """Checks Corosync, Pacemaker and the watchdog."""
    try:
        quorum = cluster.read_quorum(cluster.output_of('corosync-quorumtool', '-s'))
        if quorum.expected < COPIES:
            found.wrong.append(f'Corosync expects {quorum.expected} votes, and needs {COPIES}')
        if not quorum.is_quorate:
            found.wrong.append('this machine is not in the majority')
        elif quorum.total < quorum.expected:
            found.wrong.append(f'{quorum.total} of {quorum.expected} machines are in the cluster')
    except Unknown as fault:
        found.wrong.append(str(fault))
    try:
        text = cluster.output_of('cibadmin', '--query', '--scope', 'crm_config')
        found.wrong += cluster.wrong_properties(
            cluster.read_properties(text), cluster.sbd_timeout()
        )
    except Unknown as fault:
        found.wrong.append(str(fault))
    if not cluster.has_watchdog():
        found.wrong.append(f'there is no {cluster.WATCHDOG}: nothing resets a machine that hangs')
