"""The lock that chooses the machine whose desk serves a file. It is on `FILE.holder`, beside the
file.

The desk has a lock on its file, too, which by itself keeps two desks from writing. This lock is
taken before a desk is started, and kept while the desk runs. So while it is held, no other machine
has started a desk, and what this one answers is not out of date."""
from __future__ import annotations

import contextlib
import errno
import fcntl
import os
import re
import stat
import struct
import time
from collections.abc import Iterator
from dataclasses import dataclass

from ..common.text import shown

END = '.holder'
RECORD = 128  # bytes of the file: the holder, since when, and a number that grows
STILL = 4.0  # seconds without a change of the record, after which nobody writes it
# A write lock on all bytes of the file, which belongs to one open file (fcntl(2), F_OFD_SETLK).
WHOLE = struct.pack('hhqqi', fcntl.F_WRLCK, os.SEEK_SET, 0, 0, 0)
TAKEN = (errno.EAGAIN, errno.EACCES)
# The errors of a volume that has lost its copies, or of a disk that fails.
FAILS = (errno.ENOTCONN, errno.EIO, errno.EROFS, errno.EBADFD, errno.ESTALE, errno.ETIMEDOUT)
NAME = re.compile(r'[A-Za-z0-9._-]{1,64}', re.A)


class NotHeld(Exception):
    """The lock is not held any more, or it is not known whether it is."""


@dataclass(frozen=True)
class Holder:
    """The machine that has the lock, or had it last, and since when, in seconds since 1970."""

    name: str
    since: int

    @classmethod
    def parse(cls, data: bytes) -> Holder | None:
        """Reads a record; None where the bytes are none."""
        words = data.decode('ascii', errors='replace').split()
        if len(words) != 3 or not NAME.fullmatch(words[0]):
            return None
        if not all(re.fullmatch('[0-9]{1,15}', word, re.A) for word in words[1:]):
            return None
        return cls(words[0], int(words[1]))

    def __str__(self) -> str:
        try:
            when = time.strftime('%Y-%m-%dT%H:%M:%SZ', time.gmtime(self.since))
        except (OverflowError, ValueError, OSError):
            when = 'an unknown moment'
        return f'{self.name} since {when}'


def machine_name() -> str:
    """Returns the name of this machine, as it stands in a record."""
    name = os.uname().nodename.split('.')[0][:64]
    return name if NAME.fullmatch(name) else 'unknown'


def path_of(db: str) -> str:
    """Returns the path of the lock's file for a desk's file."""
    return db + END


def _open(path: str, flags: int) -> int:
    """Opens a regular file, and raises OSError for a link or anything else."""
    number = os.open(path, flags | os.O_NOFOLLOW | os.O_NONBLOCK | os.O_CLOEXEC, 0o640)
    if not stat.S_ISREG(os.fstat(number).st_mode):
        os.close(number)
        raise OSError(errno.EINVAL, 'is not a regular file')
    return number


def record_of(db: str) -> bytes:
    """Returns the record beside a desk's file, as the volume has it."""
    number = _open(path_of(db), os.O_RDONLY)
    try:
        os.posix_fadvise(number, 0, 0, os.POSIX_FADV_DONTNEED)
        return os.pread(number, RECORD, 0)
    finally:
        os.close(number)


def holder_of(db: str) -> Holder | None:
    """Returns the machine that has the lock, or had it last; None where no record says so."""
    try:
        return Holder.parse(record_of(db))
    except FileNotFoundError:
        return None


def is_free(db: str) -> bool:
    """Whether nobody has the lock. Nothing is locked or written for this answer. GlusterFS answers
    as the last copy does, which knows no lock that was taken while it was away: so on a volume the
    lock is free only if its record stays the same for some seconds, too."""
    number = _open(path_of(db), os.O_RDONLY)
    try:
        told = fcntl.fcntl(number, fcntl.F_OFD_GETLK, WHOLE)
    finally:
        os.close(number)
    if struct.unpack('hhqqi', told[: struct.calcsize('hhqqi')])[0] != fcntl.F_UNLCK:
        return False
    return not (is_shared(path_of(db)) and is_written(db))


def is_written(db: str) -> bool:
    """Whether the record changes within some seconds. The holder writes it each second."""
    before, ends = record_of(db), time.monotonic() + STILL
    while time.monotonic() < ends:
        time.sleep(0.1)
        if record_of(db) != before:
            return True
    return False


def reason(db: str) -> str | None:
    """Returns why no desk may start on a file here, or None where the lock allows it."""
    path = shown(db, 1000)
    try:
        if not os.path.lexists(path_of(db)):
            os.stat(os.path.dirname(os.path.abspath(db)))
            return None
        if is_free(db):
            return None
        holder = holder_of(db)
        if holder is not None and holder.name == machine_name():
            return None  # it is a program of this machine, which is found by its files
    except OSError as fault:
        if fault.errno not in FAILS:
            return None
        return (
            f'The disk or the volume of {path} fails: {fault.strerror} (`fault: Storage`). Look at '
            '`journalctl -k`; where machines share it, at the network and at `tools/standby check`.'
        )
    who = holder or 'it has not said where'
    return (
        f'Another desk has {path}: {who} (`fault: Storage`). Ask that one; this machine goes on '
        'once that one has ended (docs/TWO_MACHINES.md).'
    )


def is_shared(path: str) -> bool:
    """Whether a file is on a file system in user space such as GlusterFS, where a write that has
    returned has reached the copies. On other file systems it may be only in this machine's
    memory."""
    wanted = os.stat(path).st_dev
    place = f'{os.major(wanted)}:{os.minor(wanted)}'
    with contextlib.suppress(OSError), open('/proc/self/mountinfo', encoding='utf-8') as file:
        for line in file:
            words = line.split()
            if words[2] == place:
                kind = words[words.index('-') + 1]
                return kind == 'fuse' or kind.startswith('fuse.')
    return False


@contextlib.contextmanager
def _failing(path: str) -> Iterator[None]:
    """Raises `NotHeld` where something within fails."""
    try:
        yield
    except OSError as fault:
        raise NotHeld(f'{shown(path, 1000)}: {fault.strerror}') from None


def mount_of(folder: str) -> str:
    """Returns the mount point of the file system that a folder is on."""
    while not os.path.ismount(folder):
        folder = os.path.dirname(folder)
    return folder


def graph_at(place: str) -> str:
    """Returns the name of the graph by which a mount of GlusterFS reaches the copies; elsewhere ''.
    After some changes of a volume a mount has another one, by which it opens its files anew."""
    try:
        return os.readlink(os.path.join(place, '.meta/graphs/active'))
    except OSError:
        return ''


def forget(db: str) -> None:
    """Has this machine's memory keep nothing of a desk's file, so that it is read from the volume.
    A mount may keep what it has read for ever, also where another machine writes the file.
    `NotHeld` where the volume fails."""
    for path in (db, f'{db}-wal'):
        with _failing(path), contextlib.suppress(FileNotFoundError):
            number = os.open(path, os.O_RDONLY | os.O_NONBLOCK | os.O_CLOEXEC)
            try:
                os.posix_fadvise(number, 0, 0, os.POSIX_FADV_DONTNEED)
            finally:
                os.close(number)


class Lock:
    """The lock for a desk's file. Each method may wait for the disk."""

    def __init__(self, db: str) -> None:
        self.path = path_of(db)
        self.number = -1
        self.count = 0
        self.head = b''
        self.place, self.graph = '', ''
        self.is_shared = False

    def take(self) -> bool:
        """Takes the lock, and proves it. Returns False where another machine has it, and raises
        OSError where the disk fails."""
        if self.number < 0:
            self.place = mount_of(os.path.dirname(os.path.abspath(self.path)))
            self.graph = graph_at(self.place)
            self.number = _open(self.path, os.O_RDWR | os.O_CREAT)
        try:
            fcntl.fcntl(self.number, fcntl.F_OFD_SETLK, WHOLE)
        except OSError as fault:
            self.close()
            if fault.errno in TAKEN:
                return False
            raise
        self.is_shared = is_shared(self.path)
        self.head = f'{machine_name()} {int(time.time())} '.encode()
        self.write()
        return True

    def write(self) -> None:
        """Writes a record through the locked file. On GlusterFS with `client.strict-locks` this
        fails once the lock is lost, or two of three copies can't be reached."""
        self.count += 1
        record = (self.head + str(self.count).encode()).ljust(RECORD - 1) + b'\n'
        if os.pwrite(self.number, record, 0) != RECORD:
            raise OSError(errno.EIO, 'was not written as a whole')
        if not self.is_shared:
            os.fdatasync(self.number)

    def prove(self) -> None:
        """Returns if the lock was held at some moment since the call, else raises `NotHeld`."""
        with _failing(self.path):
            self.write()
        if graph_at(self.place) != self.graph:  # a copy that was away may not know the lock
            raise NotHeld(f'{shown(self.path, 1000)}: the volume was changed')

    def close(self) -> None:
        """Releases the lock."""
        if self.number >= 0:
            with contextlib.suppress(OSError):
                os.close(self.number)
            self.number = -1
