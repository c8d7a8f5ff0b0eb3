"""A volume of GlusterFS over the machines: a copy in each."""
from __future__ import annotations

import os
import shutil
import time

from nulvrader.standby import gluster
from nulvrader.standby.gluster import Brick

from .namespaces import Machine, Machines, NoMachines, until

NAME = 'desk'
HERE = os.path.dirname(os.path.abspath(__file__))
UNIT = os.path.join(HERE, '..', '..', 'examples', 'standby', 'desk-volume.service')
NOT_ITS = ('--no-daemon', '--process-name', '--volfile-')  # which this program says itself
DATA = 4  # bytes of a mark that are about what is in a file
NOT_YET = 'Peer in Cluster'  # a machine is connected, and not taken in yet
DAEMONS = ('glusterd', 'glusterfs', 'gluster')


def flags(path: str = UNIT) -> list[str]:
    """Returns how the unit of the examples has the volume mounted."""
    with open(path, encoding='utf-8') as file:
        (line,) = [one for one in file if one.startswith('ExecStart=')]
    return [word for word in line.split() if word[:2] == '--' and not word.startswith(NOT_ITS)]


class Volume:
    """The volume. `options` are set in their order. With `has_arbiter` the third machine has the
    names of files and whose copies are stale, and no copy."""

    def __init__(
        self, machines: Machines, options: dict[str, str], *, has_arbiter: bool = False
    ) -> None:
        self.machines, self.options, self.has_arbiter = machines, options, has_arbiter
        self.flags = flags()

    def gluster(self, machine: Machine, *words: str) -> str:
        """Runs a command of GlusterFS in a machine, which has to succeed, and returns what it
        prints."""
        done = machine.run('gluster', '--mode=script', *words)
        if done.returncode:
            said = (done.stderr or done.stdout).strip()
            raise NoMachines(f'gluster {" ".join(words)}: {said}')
        return done.stdout

    def make(self) -> None:
        """Makes it, starts it and mounts it everywhere."""
        first, *others = self.machines.all
        for machine in self.machines.all:
            self.start_daemon(machine)
        for machine in others:
            self.gluster(first, 'peer', 'probe', machine.address)
        for _ in until():
            if self.gluster(first, 'pool', 'list').count('Connected') == len(self.machines.all):
                break
        bricks = [f'{one.address}:{one.folder}/brick/{NAME}' for one in self.machines.all]
        kind = ['replica', str(len(bricks)), *(['arbiter', '1'] if self.has_arbiter else [])]
        for _ in until():
            try:
                self.gluster(first, 'volume', 'create', NAME, *kind, *bricks, 'force')
                break
            except NoMachines as fault:
                if NOT_YET not in str(fault):
                    raise
        pairs = [word for pair in self.options.items() for word in pair]
        self.gluster(first, 'volume', 'set', NAME, *pairs)
        self.gluster(first, 'volume', 'start', NAME)
        for machine in self.machines.all:
            self.mount(machine)

    def copies(self) -> list[str]:
        """Returns the folders that have a copy."""
        machines = self.machines.all[: 2 if self.has_arbiter else None]
        return [os.path.join(one.folder, 'brick', NAME) for one in machines]

    def start_daemon(self, machine: Machine) -> None:
        """Starts the daemon of a machine, and waits until it answers."""
        if machine.run('glusterd', '--log-level', 'WARNING').returncode:
            raise NoMachines(f'glusterd of {machine.name} does not start')
        for _ in until():
            if not machine.run('gluster', '--mode=script', 'pool', 'list').returncode:
                return
        raise NoMachines(f'glusterd of {machine.name} does not answer')

    def replace(self, machine: Machine, first: Machine, second: Machine) -> None:
        """Starts a machine with empty disks in the place of one with the same name and address, and
        gives it its copy: by the commands of docs/TWO_MACHINES.md, *Replace a machine*."""
        marks = {}
        for line in self.gluster(second, 'pool', 'list').splitlines():
            mark, name, *_ = line.split()
            marks[name] = mark
        its, of_first = (marks.get(one.address) or marks[one.name] for one in (machine, first))
        brick, own = f'{machine.folder}/brick/{NAME}', f'{machine.folder}/lib'
        os.mkdir(brick)
        shutil.copytree(f'{first.folder}/lib', own, symlinks=True, dirs_exist_ok=True)
        machine.write('lib/glusterd.info', f'UUID={its}\noperating-version=100000\n')
        os.remove(f'{own}/peers/{its}')
        shutil.copy(f'{second.folder}/lib/peers/{of_first}', f'{own}/peers')
        machine.boot()
        machine.join()
        self.start_daemon(machine)
        for one in self.machines.all:
            self.wait_until_known(one)
        place = f'{machine.address}:{brick}'
        self.gluster(first, 'volume', 'reset-brick', NAME, place, 'start')
        self.gluster(first, 'volume', 'reset-brick', NAME, place, place, 'commit', 'force')

    def wait_until_known(self, machine: Machine) -> None:
        """Waits until a machine is connected to all machines."""
        for _ in until():
            peers = machine.run('gluster', '--mode=script', 'pool', 'list').stdout
            if peers.count('Connected') == len(self.machines.all):
                return
        raise NoMachines(f'{machine.name} is not connected to all')

    def mount(self, machine: Machine) -> None:
        """Mounts it in a machine, and waits until files can be seen."""
        for _ in until():
            if self.try_to_mount(machine):
                return
        raise NoMachines(f'the volume can not be mounted in {machine.name}')

    def try_to_mount(self, machine: Machine) -> bool:
        """Tries to mount it in a machine, which asks itself first. Whether files can be seen."""
        at, count = machine.number - 1, len(self.machines.all)
        order = [self.machines.all[(at + step) % count] for step in range(count)]
        servers = [f'--volfile-server={one.address}' for one in order]
        place = os.path.join(machine.folder, 'mount')
        words = ['glusterfs', *servers, f'--volfile-id=/{NAME}', *self.flags]
        words += ['--process-name', 'fuse']
        for _ in range(2):
            if f' {place} fuse.glusterfs ' not in machine.run('cat', '/proc/mounts').stdout:
                machine.run(*words, place)
                time.sleep(0.2)
            elif machine.run('stat', '-f', place).returncode:
                machine.run('umount', '-l', place)
            else:
                machine.is_mounted = True
        return machine.is_mounted

    def stale(self) -> list[str]:
        """Returns the machines that read a file as it was after another one has overwritten it."""
        found = []
        for number, machine in enumerate(self.machines.all):
            other = self.machines.all[number - 1]
            name = f'{machine.folder}/mount/read', f'{other.folder}/mount/read'
            for text in ('one', 'two'):
                other.run('sh', '-c', f'echo {text} | dd of={name[1]} conv=notrunc status=none')
                read = machine.run('cat', name[0]).stdout.strip()
                if read != text:
                    found.append(f'{machine.name} reads a file as it was: {read}, and not {text}')
            other.run('rm', '-f', name[1])
        return found

    def unmarked(self, machine: Machine, other: Machine, name: str) -> bool:
        """Whether a file's copy in another machine differs from that in a machine, where nothing
        says so: then the other one would be read, and what it lacks would be lost."""
        paths = [os.path.join(one.folder, 'brick', NAME, name) for one in (machine, other)]
        contents = []
        for path in paths:
            with open(path, 'rb') as file:
                contents.append(file.read())
        try:
            mark = os.getxattr(paths[0], f'trusted.afr.{NAME}-client-{other.number - 1}')
        except OSError:  # it has never lacked anything
            mark = b''
        return contents[0] != contents[1] and not any(mark[:DATA])

    def bricks(self, machine: Machine) -> list[Brick]:
        """Returns the copies, as a machine knows them; none where it doesn't answer."""
        words = ('gluster', '--mode=script', '--xml', 'volume', 'status', NAME)
        try:
            return gluster.read_bricks(gluster.parse(machine.run(*words).stdout.encode()))
        except gluster.Unknown:
            return []

    def without_port(self) -> list[Machine]:
        """Returns the machines whose copies are online, and have no port."""
        found = []
        for machine in self.machines.all:
            for brick in self.bricks(machine):
                is_own = brick.name.endswith(f':{machine.folder}/brick/{NAME}')
                if is_own and brick.is_online and not brick.has_port:
                    found.append(machine)
        return found

    def is_whole(self, machine: Machine) -> bool:
        """Whether all copies are in use, and the mount of a machine is connected to each of
        them."""
        bricks, count = self.bricks(machine), len(self.machines.all)
        place = f'{machine.folder}/mount/.meta/graphs/active/{NAME}-client-*/private'
        told = machine.run('sh', '-c', f'cat {place}', seconds=20).stdout
        is_online = [brick.is_online and brick.has_port for brick in bricks] == [True] * count
        clients = [client.is_connected for client in gluster.read_clients(told)]
        return is_online and clients == [True] * count

    def unhealed(self, machine: Machine) -> int | None:
        """Returns how many entries are not healed, or None where nobody knows."""
        words = ('gluster', '--mode=script', '--xml', 'volume', 'heal', NAME, 'info')
        try:
            found = gluster.read_unhealed(gluster.parse(machine.run(*words).stdout.encode()))
        except gluster.Unknown:
            return None
        counts = [count for count in found.values() if count is not None]
        return sum(counts) if len(counts) == len(self.machines.all) else None

    def heal(self, seconds: float) -> float | None:
        """Waits until all copies are equal. Returns how long it took, or None where it takes
        longer."""
        for took in until(seconds):
            if self.unhealed(self.machines.all[0]) == 0:
                return took
            time.sleep(0.5)
        return None
