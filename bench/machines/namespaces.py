"""Machines in namespaces: each has a network, mounts and process numbers of its own, and folders of
its own in the place of those of the system that a daemon writes to. A switch, in a further network,
joins them."""
from __future__ import annotations

import contextlib
import glob
import os
import shutil
import signal
import subprocess
import sys
import time
from collections.abc import Callable, Iterable, Iterator, Sequence
from dataclasses import dataclass, field
from typing import IO

NETWORK = '10.77.0'
PATIENCE = 120.0  # seconds until what is waited for has to be so
NEEDED = ('ip', 'unshare', 'nsenter', 'mount', 'nft', 'mkfs.ext4')
ROOM = 512  # megabytes of the disk with the copy of a machine

# What the first program of a machine does: it mounts its own folders, and then takes the ends of
# those that it is left.
INIT = """
import os, signal, subprocess, sys
signal.signal(signal.SIGCHLD, signal.SIG_DFL)
folder = sys.argv[1]
def run(*words):
    subprocess.run(words, check=True)
run('mount', '-t', 'proc', 'proc', '/proc')
for name, place in [one.split('=') for one in sys.argv[2:]]:
    if not os.path.exists(place):
        os.makedirs(place)
    run('mount', '--bind', os.path.join(folder, name), place)
run('mount', '-t', 'tmpfs', 'shm', '/dev/shm')
for place in ('/run/gluster', '/run/lock', '/run/crm', '/run/resource-agents'):
    os.makedirs(place, exist_ok=True)
for place in ('/proc/sysrq-trigger', '/proc/sys/kernel/sysrq'):
    if os.path.exists(place):  # it would reset this machine, and not the one in the namespace
        run('mount', '--bind', '/dev/null', place)
open(os.path.join(folder, 'ready'), 'w').close()
while True:
    try:
        os.wait()
    except ChildProcessError:
        signal.sigtimedwait([signal.SIGCHLD], 1)
"""
# The folders and files of a machine, and the places where it sees them.
FOLDERS = {'lib': '/var/lib/glusterd', 'run': '/run', 'log': '/var/log/glusterfs'}
FILES = {
    'hosts': '/etc/hosts',
    'resolv.conf': '/etc/resolv.conf',
    'glusterd.vol': '/etc/glusterfs/glusterd.vol',
}
# The copy to other places of GlusterFS, which its daemon sets up by some thirty programs as it
# starts.
UNUSED = glob.glob('/usr/lib/*/glusterfs/gsyncd') + glob.glob('/usr/libexec/glusterfs/gsyncd')
HERE = os.path.dirname(os.path.abspath(__file__))
DAEMON = os.path.join(HERE, '..', '..', 'examples', 'standby', 'glusterd.vol')
NO_NAMES = 'nameserver 127.0.0.1\noptions timeout:1 attempts:1\n'  # refused at once


class NoMachines(Exception):
    """Machines can't be had here, for this reason."""


def run(*words: str, seconds: float = PATIENCE) -> subprocess.CompletedProcess[str]:
    """Runs a program to its end. One that takes too long has the status 124."""
    try:
        return subprocess.run(words, capture_output=True, text=True, timeout=seconds, check=False)
    except subprocess.TimeoutExpired:
        return subprocess.CompletedProcess(words, 124, '', 'it took too long')


def must(*words: str) -> str:
    """Runs a program that has to succeed, and returns what it prints."""
    done = run(*words)
    if done.returncode:
        raise NoMachines(f'{" ".join(words)}: {(done.stderr or done.stdout).strip()}')
    return done.stdout


def until(seconds: float = PATIENCE) -> Iterator[float]:
    """Gives the seconds since the first turn, once a turn, until the time is over."""
    began = time.monotonic()
    while time.monotonic() < began + seconds:
        yield time.monotonic() - began
        time.sleep(0.05)


@dataclass
class Machine:
    """A machine. `folder` has its own folders, and `switch` is the network that it is joined to."""

    number: int
    folder: str
    switch: str
    network: str
    init: subprocess.Popen[bytes] | None = None
    pid: int = 0
    started: list[subprocess.Popen[bytes]] = field(default_factory=list)
    folders: dict[str, str] = field(default_factory=lambda: dict(FOLDERS))
    files: dict[str, str] = field(default_factory=lambda: dict(FILES))
    networks: tuple[str, ...] = ()  # in which it has an address besides, on the same cable
    is_paused: bool = False  # with all that would reset it
    is_mounted: bool = False  # the volume, since it was started
    was_reset: bool = False  # by its watchdog, and is not started again yet

    @property
    def name(self) -> str:
        """Its name."""
        return f'm{self.number}'

    @property
    def address(self) -> str:
        """Its address."""
        return f'{NETWORK}.{self.number}'

    def wire(self) -> None:
        """Makes its network, joined to the switch."""
        must('ip', 'netns', 'add', self.network)
        port = f'p{self.number}'
        must('ip', '-n', self.switch, 'link', 'add', port, 'type', 'veth', 'peer', 'name', 'eth0')
        must('ip', '-n', self.switch, 'link', 'set', 'eth0', 'netns', self.network)
        must('ip', '-n', self.switch, 'link', 'set', port, 'master', 'br0', 'up')
        for front in (NETWORK, *self.networks):
            address = f'{front}.{self.number}/24'
            must('ip', '-n', self.network, 'addr', 'add', address, 'dev', 'eth0')
        for link in ('lo', 'eth0'):
            must('ip', '-n', self.network, 'link', 'set', link, 'up')

    def mount(self, *, in_memory: bool) -> None:
        """Mounts the disk with its copy."""
        place = os.path.join(self.folder, 'brick')
        os.makedirs(place, exist_ok=True)
        if in_memory:
            must('mount', '-t', 'tmpfs', '-o', f'size={ROOM}m', self.name, place)
            return
        image = os.path.join(self.folder, 'disk')
        with open(image, 'wb') as file:
            file.truncate(ROOM << 20)
        must('mkfs.ext4', '-q', '-F', image)
        must('mount', '-o', 'loop', image, place)

    def boot(self) -> None:
        """Starts it, with the folders that it had."""
        self.was_reset = False
        for name in (*self.folders, 'brick', 'mount'):
            os.makedirs(os.path.join(self.folder, name), exist_ok=True)
        hosts = ['127.0.0.1 localhost', *(f'{NETWORK}.{one} m{one}' for one in range(1, 10))]
        self.write('hosts', '\n'.join(hosts) + '\n')
        self.write('resolv.conf', NO_NAMES)
        shutil.copy(DAEMON, os.path.join(self.folder, 'glusterd.vol'))
        self.write('gsyncd', '#!/bin/sh\necho gsyncd\n')
        os.chmod(os.path.join(self.folder, 'gsyncd'), 0o755)
        shutil.rmtree(os.path.join(self.folder, 'run'))
        os.makedirs(os.path.join(self.folder, 'run'))
        ready = os.path.join(self.folder, 'ready')
        with contextlib.suppress(FileNotFoundError):
            os.remove(ready)
        words = ['ip', 'netns', 'exec', self.network, 'unshare', '-m', '-u', '-p', '-f']
        words += ['--propagation', 'private', '--kill-child=KILL']
        places = [f'{name}={place}' for name, place in (self.folders | self.files).items()]
        places += [f'gsyncd={place}' for place in UNUSED]
        words += [sys.executable, '-c', INIT, self.folder, *places]
        with open(os.path.join(self.folder, 'init.out'), 'ab') as out:
            null = subprocess.DEVNULL
            self.init = subprocess.Popen(words, stdin=null, stdout=out, stderr=out)
        for _ in until():
            if os.path.exists(ready):
                break
            if self.init.poll() is not None:
                raise NoMachines(f'{self.name} does not start: {self.said()}')
        with open(f'/proc/{self.init.pid}/task/{self.init.pid}/children') as file:
            self.pid = int(file.read().split()[0])
        self.run('hostname', self.name)

    def empty(self, names: Iterable[str]) -> None:
        """Empties folders of a machine that doesn't run, and its disk with the copy."""
        for name in (*names, 'brick'):
            for entry in os.scandir(os.path.join(self.folder, name)):
                if entry.is_dir(follow_symlinks=False):
                    shutil.rmtree(entry.path)
                else:
                    os.remove(entry.path)

    def write(self, name: str, text: str) -> None:
        """Writes a file of its folder."""
        with open(os.path.join(self.folder, name), 'w', encoding='utf-8') as file:
            file.write(text)

    def said(self) -> str:
        """Returns the end of what its first program has said."""
        with open(os.path.join(self.folder, 'init.out'), errors='replace') as file:
            return file.read()[-500:].strip()

    def words(self, *words: str) -> list[str]:
        """Returns the words that run a program in the machine."""
        return ['nsenter', '-t', str(self.pid), '-m', '-u', '-n', '-p', '--', *words]

    def run(self, *words: str, seconds: float = PATIENCE) -> subprocess.CompletedProcess[str]:
        """Runs a program in the machine to its end."""
        return run(*self.words(*words), seconds=seconds)

    def start(self, words: Sequence[str], out: IO[bytes] | int) -> subprocess.Popen[bytes]:
        """Starts a program in the machine."""
        null = subprocess.DEVNULL
        line = self.words(*words)
        process = subprocess.Popen(line, stdin=null, stdout=out, stderr=subprocess.STDOUT)
        self.started = [one for one in self.started if one.poll() is None] + [process]
        return process

    def is_up(self) -> bool:
        """Whether it runs."""
        return self.init is not None and self.init.poll() is None

    def has_ended(self) -> bool:
        """Whether it has ended by itself: a program in it has called reboot(2)."""
        init = self.init
        return init is not None and init.poll() is not None

    def cut(self) -> None:
        """Takes its cable out."""
        must('ip', '-n', self.switch, 'link', 'set', f'p{self.number}', 'down')

    def join(self) -> None:
        """Puts its cable back, and lets all pass again."""
        must('ip', '-n', self.switch, 'link', 'set', f'p{self.number}', 'up')
        run('ip', 'netns', 'exec', self.network, 'nft', 'delete', 'table', 'inet', 'fault')

    def cut_one_way(self, way: str) -> None:
        """Drops all that it sends (`output`) or gets (`input`) by its cable."""
        device = 'oifname' if way == 'output' else 'iifname'
        nft = ('ip', 'netns', 'exec', self.network, 'nft')
        must(*nft, 'add', 'table', 'inet', 'fault')
        must(*nft, f'add chain inet fault one {{ type filter hook {way} priority 0; }}')
        must(*nft, f'add rule inet fault one {device} eth0 drop')

    def cut_from(self, other: Machine) -> None:
        """Drops all between it and one other machine."""
        nft = ('ip', 'netns', 'exec', self.network, 'nft')
        must(*nft, 'add', 'table', 'inet', 'fault')
        for way, side in (('input', 'saddr'), ('output', 'daddr')):
            must(*nft, f'add chain inet fault {way} {{ type filter hook {way} priority 0; }}')
            for front in (NETWORK, *other.networks):
                must(*nft, f'add rule inet fault {way} ip {side} {front}.{other.number} drop')

    def cut_network(self, front: str) -> None:
        """Drops all of one of its networks."""
        nft = ('ip', 'netns', 'exec', self.network, 'nft')
        must(*nft, 'add', 'table', 'inet', 'fault')
        for way, side in (('input', 'saddr'), ('output', 'daddr')):
            must(*nft, f'add chain inet fault {way} {{ type filter hook {way} priority 0; }}')
            own = f'ip {side} != {front}.{self.number}'
            must(*nft, f'add rule inet fault {way} ip {side} {front}.0/24 {own} drop')

    def programs(self) -> list[int]:
        """Returns the numbers of its programs, as this program sees them."""
        try:
            wanted = os.readlink(f'/proc/{self.pid}/ns/pid')
        except OSError:  # it was reset
            return []
        found = []
        for name in filter(str.isdigit, os.listdir('/proc')):
            with contextlib.suppress(OSError):
                if os.readlink(f'/proc/{name}/ns/pid') == wanted:
                    found.append(int(name))
        return found

    def signal(self, number: int) -> None:
        """Sends all its programs a signal."""
        for pid in self.programs():
            with contextlib.suppress(ProcessLookupError):
                os.kill(pid, number)

    def freeze(self) -> None:
        """Stops all its programs."""
        for _ in range(2):  # one that was just started by another is stopped, too
            self.signal(signal.SIGSTOP)

    def thaw(self) -> None:
        """Lets them go on."""
        self.signal(signal.SIGCONT)
        self.wake()

    def wake(self) -> None:
        """Lets each `nsenter` go on, which has stopped itself with the program that it started."""
        for process in self.started:
            if process.poll() is None:
                process.send_signal(signal.SIGCONT)

    def kill(self) -> None:
        """Kills all its programs at once, after its cable was taken out: the power fails."""
        self.cut()
        self.end()

    def end(self) -> None:
        """Kills its first program, and so all others."""
        (init, self.init), (pid, self.pid) = (self.init, None), (self.pid, 0)
        self.is_mounted = False
        if init is None:
            return
        if pid:
            with contextlib.suppress(ProcessLookupError):
                os.kill(pid, signal.SIGKILL)
        init.kill()
        init.wait(PATIENCE)
        self.wake()


class Machines:
    """The machines, and the switch between them. With `in_memory` their disks are in memory: for a
    disk that is slow, or busy with what others do. `prepare` is called for each before it is
    made."""

    def __init__(
        self,
        folder: str,
        *,
        in_memory: bool = False,
        count: int = 3,
        prepare: Callable[[Machine], None] | None = None,
    ) -> None:
        mark = f'nv{os.getpid()}'
        self.in_memory, self.is_mounted, self.prepare = in_memory, False, prepare
        self.folder, self.switch = folder, f'{mark}s'
        self.all = [
            Machine(number, os.path.join(folder, f'm{number}'), self.switch, f'{mark}m{number}')
            for number in range(1, count + 1)
        ]

    def __enter__(self) -> Machines:
        try:
            self.up()
        except BaseException:
            self.down()
            raise
        return self

    def __exit__(self, *_: object) -> None:
        self.down()

    def up(self) -> None:
        """Makes them and starts them."""
        if self.in_memory:
            must('mount', '-t', 'tmpfs', 'machines', self.folder)
            self.is_mounted = True
        missing = [name for name in NEEDED if shutil.which(name) is None]
        if missing or os.geteuid() != 0:
            raise NoMachines(f'needs root, and the programs {", ".join(NEEDED)}')
        must('ip', 'netns', 'add', self.switch)
        must('ip', '-n', self.switch, 'link', 'add', 'br0', 'type', 'bridge')
        for link in ('lo', 'br0'):
            must('ip', '-n', self.switch, 'link', 'set', link, 'up')
        for machine in self.all:
            os.makedirs(machine.folder, exist_ok=True)
            machine.mount(in_memory=self.in_memory)
            if self.prepare is not None:
                self.prepare(machine)
        for front in (NETWORK, *self.all[0].networks):
            must('ip', '-n', self.switch, 'addr', 'add', f'{front}.254/24', 'dev', 'br0')
        for machine in self.all:
            machine.wire()
            machine.boot()

    def down(self) -> None:
        """Ends all programs of the machines, and removes their networks."""
        for machine in self.all:
            machine.end()
        for network in [machine.network for machine in self.all] + [self.switch]:
            run('ip', 'netns', 'del', network)
        for machine in self.all:
            run('umount', '-l', os.path.join(machine.folder, 'brick'))
        if self.is_mounted:
            run('umount', '-l', self.folder)
