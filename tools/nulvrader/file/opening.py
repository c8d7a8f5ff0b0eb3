"""Opens a database file for reading. The file may be anybody's: neither it nor what lies beside it
is changed, and the work that it causes is bounded by its size."""
from __future__ import annotations

import contextlib
import errno
import fcntl
import os
import sqlite3
import tempfile
import time
import urllib.parse
from collections.abc import Iterator
from typing import BinaryIO

from ..common import plain_files
from ..common.plain_files import NotPlain
from .rows import any_text

HEAD = b'SQLite format 3\0'
BESIDE = ('-wal', '-shm', '-journal')  # what SQLite puts beside a file
# The bytes of a file that SQLite, and a desk, lock: how many, and the first one. Readers share the
# lock.
LOCKED = 510, 0x40000002

# A desk's file at all limits of README.md has 1.5 GB, and reading it takes less than one step of
# SQLite for each byte.
LARGEST = 4 * 2**30  # the most bytes of a file, and of its log
# The most steps of a connection: so many, and so many more for each byte.
STEPS, STEPS_OF_A_BYTE = 2_000_000, 4
# The most seconds of a processor from when a file is opened until its rows are read: so many, and
# one more for so many bytes. A step takes as long as reading a value of 10 MB may.
SECONDS, BYTES_OF_A_SECOND = 10, 1_500_000
BLOCK = bytes(1 << 20)
TURN = 100  # steps from one count of them to the next
# Bytes of a statement, and of the text of a table: SQLite reads that without counting steps, in a
# time that grows with its square. The longest one of a desk has 405.
SQL = 20_000
LIMITS = {
    sqlite3.SQLITE_LIMIT_LENGTH: 10_000_000,  # bytes of a value
    sqlite3.SQLITE_LIMIT_SQL_LENGTH: SQL,
    sqlite3.SQLITE_LIMIT_COLUMN: 200,
    sqlite3.SQLITE_LIMIT_EXPR_DEPTH: 200,
    sqlite3.SQLITE_LIMIT_ATTACHED: 0,
    sqlite3.SQLITE_LIMIT_TRIGGER_DEPTH: 1,
    sqlite3.SQLITE_LIMIT_WORKER_THREADS: 0,
}
PRAGMAS = (
    'trusted_schema = OFF',
    'cell_size_check = ON',
    'query_only = ON',
    'mmap_size = 0',
    'hard_heap_limit = 134217728',  # bytes of memory for SQLite
)


@contextlib.contextmanager
def opened(
    path: str, alone: bool = False, folder: str | None = None, has_log: bool = True
) -> Iterator[sqlite3.Connection]:
    """Opens a database for reading. The caller sees to it that no other program has it.

    SQLite would change a log that lies beside the file. So a file with a log is read from a copy of
    both, which is made in a new folder in `folder`, or where TMPDIR says; without `has_log` the log
    is ignored. A file in a folder of another user is read from a copy, too: SQLite opens a path a
    second time, and waits for ever if that user has put a FIFO there meanwhile. With `alone` the
    file is locked until the end, and BlockingIOError is raised where a program that writes has it.
    `NotPlain` is raised where the file, or one beside it, is not a regular file or is too large."""
    with contextlib.ExitStack() as stack:
        file = stack.enter_context(plain_files.opened(path))
        size, work = _size(path, file), _on_disk(file)
        for end in BESIDE:
            plain_files.check(path + end)
        if alone:
            fcntl.lockf(file, fcntl.LOCK_SH | fcntl.LOCK_NB, *LOCKED)
        log = _log(stack, path) if has_log else None
        if log is not None or _is_of_others(path):
            place = stack.enter_context(tempfile.TemporaryDirectory(dir=folder))
            copy = os.path.join(place, 'copy.db')
            _copy(file, size, copy)
            if log is not None:
                _copy(log, _size(path + '-wal', log), copy + '-wal')
                work += _on_disk(log)
            connection = sqlite3.connect(copy)
        else:
            connection = _as_it_is(path, file)
        stack.callback(connection.close)
        ends = time.process_time() + SECONDS
        bound(connection)
        # The list of tables is read first, which is small however large the file is.
        connection.execute('SELECT 1 FROM sqlite_master LIMIT 1')
        _bound_steps(connection, work, ends + work / BYTES_OF_A_SECOND)
        yield connection


def copy_into(path: str, folder: str) -> str:
    """Copies a file, and what lies beside it, into another folder under the same name, and returns
    the path of the copy.

    Each file is opened once, with the rights of the user who owns its folder, and no link is
    followed: so root reads nothing for that user that the user could not read. Raises what `opened`
    with `alone` does."""
    name = os.path.basename(path)
    place = os.open(os.path.dirname(path) or '.', os.O_RDONLY | os.O_DIRECTORY | os.O_CLOEXEC)
    copy = os.path.join(folder, name)
    with contextlib.ExitStack() as stack:
        stack.callback(os.close, place)
        for end in ('', '-journal', '-wal'):
            try:
                with _as_the_owner(place):
                    file = stack.enter_context(_opened_in(place, path + end))
            except FileNotFoundError:
                if not end:
                    raise
                continue
            if not end:
                fcntl.lockf(file, fcntl.LOCK_SH | fcntl.LOCK_NB, *LOCKED)
            _copy(file, _size(path + end, file), copy + end)
    return copy


@contextlib.contextmanager
def _as_the_owner(folder: int) -> Iterator[None]:
    """Runs a block with the rights of the user who owns a folder, if root runs this program."""
    owner, groups = os.fstat(folder), os.getgroups()
    if os.geteuid() != 0 or owner.st_uid == 0:
        yield
        return
    os.setgroups([])
    os.setegid(owner.st_gid)
    os.seteuid(owner.st_uid)
    try:
        yield
    finally:
        os.seteuid(0)
        os.setegid(0)
        os.setgroups(groups)


def _opened_in(folder: int, path: str) -> BinaryIO:
    """Opens a regular file of a folder for reading. Raises `NotPlain` for a link."""
    flags = os.O_RDONLY | os.O_NONBLOCK | os.O_NOCTTY | os.O_CLOEXEC | os.O_NOFOLLOW
    try:
        handle = os.open(os.path.basename(path), flags, dir_fd=folder)
    except OSError as fault:
        if fault.errno == errno.ELOOP:
            raise NotPlain(path, 'it is a link: name the file itself') from None
        raise
    try:
        plain_files.check_mode(path, os.fstat(handle).st_mode)
        return os.fdopen(handle, 'rb')
    except BaseException:
        os.close(handle)
        raise


def bound(connection: sqlite3.Connection) -> None:
    """Bounds the steps, the time and the memory of a connection to a small file. A statement that
    needs more ends with the error `interrupted`, or with MemoryError."""
    connection.text_factory = any_text
    for limit, most in LIMITS.items():
        connection.setlimit(limit, most)
    for pragma in PRAGMAS:
        connection.execute('PRAGMA ' + pragma)
    _bound_steps(connection, 0, time.process_time() + SECONDS)


def _bound_steps(connection: sqlite3.Connection, size: int, ends: float) -> None:
    """Bounds the steps that a connection to a file of `size` bytes takes from now on, and lets it
    take none once this program has taken so many seconds of a processor."""
    turns = iter(range((STEPS + STEPS_OF_A_BYTE * size) // TURN))

    def is_over() -> bool:
        return next(turns, None) is None or time.process_time() > ends

    connection.set_progress_handler(is_over, TURN)


def is_bounded(error: Exception) -> bool:
    """Whether an error says that a file needs more steps, or more time, than it may."""
    return getattr(error, 'sqlite_errorcode', None) == sqlite3.SQLITE_INTERRUPT


def why_unread(error: Exception) -> str:
    """Returns what an error of a bounded connection says of the file."""
    if isinstance(error, MemoryError):
        return 'SQLite needs more memory than a file of a desk does'
    if isinstance(error, UnicodeError):
        return 'SQLite names something in it that is no text'
    if is_bounded(error):
        return 'SQLite needs more steps or more time than a file of its size does'
    if str(error).endswith('string or blob too big'):
        return f'the text of a table has more than {SQL} bytes, or a value in it is too long'
    return f'SQLite says `{error}`'


def is_of_the_machine(error: Exception) -> bool:
    """Whether an error says nothing of the file: SQLite has no room for what it puts beside a copy,
    or the disk fails."""
    # (errors that Python raises itself have no code)
    code = getattr(error, 'sqlite_errorcode', 0) & 0xFF
    return code in (sqlite3.SQLITE_IOERR, sqlite3.SQLITE_FULL, sqlite3.SQLITE_CANTOPEN)


def has_journal(path: str) -> bool:
    """Whether a journal lies beside the file that SQLite has to roll back: one with a head."""
    try:
        with plain_files.opened(path + '-journal') as file:
            return any(file.read(8))
    except FileNotFoundError:
        return False


def is_empty(path: str) -> bool:
    """Whether SQLite takes the file for a new one: it has no byte, or one."""
    return os.path.getsize(path) <= 1


def head_of(path: str) -> bytes:
    """Returns the first bytes of a file, as many as the head of a database has."""
    with plain_files.opened(path) as file:
        return file.read(len(HEAD))


def has_head(path: str) -> bool:
    """Whether a file begins as a database of SQLite, or its first page may be in the log alone."""
    found, log = head_of(path), path + '-wal'
    return (
        found == HEAD or found[1:] == HEAD[1:] and os.path.exists(log) and os.path.getsize(log) > 0
    )


def _size(path: str, file: BinaryIO) -> int:
    """Returns how many bytes a file has, or raises `NotPlain` for more than `LARGEST`."""
    size = os.fstat(file.fileno()).st_size
    if size > LARGEST:
        raise NotPlain(path, f'it has {size} bytes, and a file of a desk has at most {LARGEST}')
    return size


def _on_disk(file: BinaryIO) -> int:
    """Returns how many bytes of a file are on the disk, which has none for its holes."""
    found = os.fstat(file.fileno())
    return min(found.st_size, 512 * found.st_blocks)


def _log(stack: contextlib.ExitStack, path: str) -> BinaryIO | None:
    """Opens the log beside a file; None where there is none, or an empty one."""
    try:
        log = stack.enter_context(plain_files.opened(path + '-wal'))
    except FileNotFoundError:
        return None
    return log if os.fstat(log.fileno()).st_size else None


def _copy(file: BinaryIO, size: int, path: str) -> None:
    """Copies the first `size` bytes of a file to a new one, and leaves holes for blocks of
    zeros."""
    with open(path, 'xb') as other:
        while size > 0:
            part = file.read(min(size, len(BLOCK)))
            if not part:
                break
            if part != BLOCK[: len(part)]:
                other.write(part)
            else:
                other.seek(len(part), os.SEEK_CUR)
            size -= len(part)
        other.truncate(other.tell())


def _is_of_others(path: str) -> bool:
    """Whether the folder of a file, or of a link to it, is of neither this user nor root."""
    folders = {os.path.dirname(one) for one in (os.path.abspath(path), os.path.realpath(path))}
    return any(os.stat(one).st_uid not in (0, os.geteuid()) for one in folders)


def _as_it_is(path: str, file: BinaryIO) -> sqlite3.Connection:
    """Connects to the file at a path as it is, without its log. Raises `NotPlain` where another
    file was put there after this one was opened and locked."""
    quoted = urllib.parse.quote(os.fsencode(os.path.abspath(path)))
    connection = sqlite3.connect(f'file:{quoted}?mode=ro&immutable=1', uri=True)
    if os.path.isdir('/proc/self/fd') and not _is_open_besides(file):
        connection.close()
        raise NotPlain(path, 'it was replaced while it was opened')
    return connection


def _is_open_besides(file: BinaryIO) -> bool:
    """Whether this program has the file open by a second descriptor, too."""
    wanted = os.fstat(file.fileno())
    for name in os.listdir('/proc/self/fd'):
        with contextlib.suppress(OSError):
            if int(name) != file.fileno() and os.path.samestat(os.fstat(int(name)), wanted):
                return True
    return False
