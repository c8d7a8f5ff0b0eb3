"""Asks Linux what keeps a desk from its file or its port: which programs have them open (/proc),
the rights on the files, and the room on the disk; and which port is free. Nothing is changed."""
from __future__ import annotations

import dataclasses
import grp
import os
import pwd
import random
import socket
import stat
import time
from collections.abc import Collection, Iterator

from ..common import processes
from ..common.text import shown

COMMAND = 400  # the most characters of a command line that are shown
SEARCH = 5.0  # the most seconds of one search through the descriptors of all programs


@dataclasses.dataclass(frozen=True)
class Program:
    """A running program: its number and its command line or its name, which the program can change
    to any text."""

    pid: int
    command: str

    def __str__(self) -> str:
        return f'the program {self.pid} ({shown(self.command, COMMAND)})'


@dataclasses.dataclass(frozen=True)
class User:
    """The user whose rights on a file are asked for."""

    uid: int
    gids: frozenset[int]

    @staticmethod
    def of_this_program() -> User:
        """Returns the user as which this program runs."""
        return User(os.geteuid(), frozenset([os.getegid(), *os.getgroups()]))

    @staticmethod
    def named(name: str) -> User:
        """Returns the user of this name, or raises KeyError."""
        found = pwd.getpwnam(name)
        return User(found.pw_uid, frozenset(os.getgrouplist(name, found.pw_gid)))

    def __str__(self) -> str:
        try:
            return pwd.getpwuid(self.uid).pw_name
        except KeyError:
            return f'with the number {self.uid}'

    def may(self, path: str, bit: int) -> bool:
        """Whether the user may read (`os.R_OK`) or write (`os.W_OK`) a file, or enter a folder
        (`os.X_OK`), by the bits of the file. The superuser may do all of it, except write on a disk
        that is mounted read-only."""
        if bit == os.W_OK and os.statvfs(path).f_flag & os.ST_RDONLY:
            return False
        if self == User.of_this_program():
            return os.access(path, bit, effective_ids=True)
        found = os.stat(path)
        part = 6 if found.st_uid == self.uid else 3 if found.st_gid in self.gids else 0
        return self.uid == 0 or bool(stat.S_IMODE(found.st_mode) >> part & bit)


def owner(path: str) -> str:
    """Returns the bits, the user and the group of a file, as `ls -l` has them."""
    found = os.stat(path)
    group: str | int = found.st_gid
    try:
        group = grp.getgrgid(found.st_gid).gr_name
    except KeyError:
        pass
    return f'{stat.filemode(found.st_mode)} {User(found.st_uid, frozenset())}:{group}'


def programs() -> Iterator[int]:
    """Yields the numbers of all running programs but this one."""
    for name in os.listdir('/proc'):
        if name.isdigit() and int(name) != os.getpid():
            yield int(name)


def command_of(pid: int) -> str:
    """Returns the beginning of a program's command line, or of another user's its name."""
    found = processes.words_of(pid, 4 * COMMAND)
    if found is None:
        found = processes.name_of(pid)
    if found is None:
        return 'that has ended since'
    said = found.rstrip(b'\0').replace(b'\0', b' ')
    return said.decode(errors='surrogateescape') or 'without words'


def open_files(pid: int) -> Iterator[str]:
    """Yields the paths of the descriptors of a program, if this user may see them."""
    folder = f'/proc/{pid}/fd'
    try:
        with os.scandir(folder) as numbers:
            yield from (number.path for number in numbers)
    except OSError:
        return


def descriptors(users: Collection[int]) -> Iterator[tuple[int, str]]:
    """Yields the descriptors of all programs, those of root and of these users first, with the
    number of the program. It ends after `SEARCH` seconds, since any user may have millions."""
    ends = time.monotonic() + SEARCH
    known = {0, *users}
    for pid in sorted(programs(), key=lambda pid: (processes.user_of(pid) not in known, pid)):
        for path in open_files(pid):
            if time.monotonic() > ends:
                return
            yield pid, path


def who_has(path: str) -> list[Program]:
    """Returns the programs that have the file open, of those whose descriptors this user may
    see."""
    wanted = os.stat(path)
    searched = descriptors([wanted.st_uid])
    found = dict.fromkeys(pid for pid, one in searched if _is(one, wanted))
    return [Program(pid, command_of(pid)) for pid in sorted(found)]


def _is(path: str, wanted: os.stat_result) -> bool:
    """Whether a path leads to this file."""
    try:
        return os.path.samestat(os.stat(path), wanted)
    except OSError:
        return False


def is_locked(path: str) -> bool:
    """Whether any program has a lock on the file, even one whose descriptors this user may not
    see."""
    found = os.stat(path)
    wanted = f'{os.major(found.st_dev):02x}:{os.minor(found.st_dev):02x}:{found.st_ino}'
    try:
        with open('/proc/locks') as lines:
            return any(wanted in line.split() for line in lines)
    except OSError:
        return False


@dataclasses.dataclass(frozen=True)
class Listener:
    """A program that listens on a port: the address, the user, and the program itself, if this
    user may see it."""

    address: str
    user: User
    program: Program | None


def given_ports() -> range:
    """Returns the ports of which the system gives one to each outgoing connection."""
    try:
        with open('/proc/sys/net/ipv4/ip_local_port_range') as file:
            least, most = map(int, file.read().split())
    except (OSError, ValueError):
        least, most = 32768, 60999
    return range(least, most + 1)


def free_port() -> int:
    """Returns a port of 127.0.0.1 that nobody has, and that the system gives to no outgoing
    connection. So nobody else gets it while the program that listens on it is started again."""
    given = given_ports()
    ports = (
        range(max(1024, given.start - 20000), given.start)
        if given.start > 2048
        else range(given.stop, 65536)
    )
    for port in random.sample(ports, min(100, len(ports))):
        with socket.socket() as one:
            try:
                one.bind(('127.0.0.1', port))
            except OSError:
                continue
            return port
    raise OSError('no port of 127.0.0.1 is free')


def who_listens(port: int) -> list[Listener]:
    """Returns the programs that listen on the port, at 127.0.0.1 or at all addresses."""
    sockets = list(_listening(port))
    found = {f'socket:[{inode}]': (address, user) for address, user, inode in sockets}
    seen: dict[str, Program] = {}
    for pid, path in descriptors([user.uid for _, user in found.values()]) if found else ():
        try:
            link = os.readlink(path)
        except OSError:
            continue
        if link in found:
            seen.setdefault(link, Program(pid, command_of(pid)))
    return [Listener(address, user, seen.get(link)) for link, (address, user) in found.items()]


# How /proc/net/tcp and tcp6 write 127.0.0.1, all addresses of IPv4, all addresses, and 127.0.0.1 as
# an address of IPv6.
ADDRESSES = {
    '0100007F': '127.0.0.1',
    '00000000': '0.0.0.0',
    '0' * 32: '[::]',
    '0000000000000000FFFF00000100007F': '127.0.0.1',
}


def _listening(port: int) -> Iterator[tuple[str, User, str]]:
    """Yields the address, the user and the inode of each socket that listens on the port."""
    for name in ('tcp', 'tcp6'):
        try:
            with open('/proc/net/' + name) as file:
                lines = file.read().splitlines()[1:]
        except OSError:
            continue
        for line in lines:
            parts = line.split()
            address, number = parts[1].split(':')
            if parts[3] == '0A' and int(number, 16) == port and address in ADDRESSES:
                yield ADDRESSES[address], User(int(parts[7]), frozenset()), parts[9]


def first_port() -> int:
    """Returns the first port on which a program without special rights may listen."""
    try:
        with open('/proc/sys/net/ipv4/ip_unprivileged_port_start') as file:
            return int(file.read())
    except (OSError, ValueError):
        return 1024


def free_bytes(path: str, user: User) -> int:
    """Returns how many bytes the user may still write on the disk of a file or folder."""
    found = os.statvfs(path)
    return (found.f_bfree if user.uid == 0 else found.f_bavail) * found.f_frsize
