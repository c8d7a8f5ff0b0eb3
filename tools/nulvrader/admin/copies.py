"""Makes copies of a desk's file, and has the desk check them."""
from __future__ import annotations

import contextlib
import os
import shutil
import sqlite3
import subprocess
import tempfile
from typing import TypedDict

from ..file import stopped_file
from . import units

BESIDE = ('', '-wal', '-shm', '-journal')  # a file of SQLite, and what may lie beside it


class CopyError(Exception):
    """No copy was made. Its `str()` is a sentence that says why; `why` is what it says of the file
    that was to be copied, without the names of files."""

    def __init__(self, text: str, why: str | None = None) -> None:
        super().__init__(text)
        self.why = text if why is None else why


class RunAs(TypedDict, total=False):
    """The user as whom a program runs, in the arguments of `subprocess.run`; empty for the user of
    this program."""

    user: str
    group: str
    extra_groups: list[str]


def make(db: str, new: str) -> None:
    """Copies the file `db` to the new file `new`. Raises `CopyError` where the file is locked, and
    where its tables are not a desk's: on a copy without tables the desk would begin a new warehouse
    and report no loads."""
    try:
        with stopped_file.opened(db, os.path.dirname(new)) as connection:
            with contextlib.closing(sqlite3.connect(new)) as other:
                connection.backup(other)
    except (stopped_file.Unread, sqlite3.Error) as fault:
        remove(new)
        why = fault.why if isinstance(fault, stopped_file.Unread) else str(fault)
        raise CopyError(f'it can not be copied to {new}: {fault}', why) from None


def check(program: str, new: str, run_as: RunAs | None = None) -> None:
    """Has the desk's program print a report of a copy, for which it reads and checks every row.
    Raises `CopyError` where it does not."""
    done = subprocess.run(
        [program, 'report', '--db', new, 'stock'],
        stdin=subprocess.DEVNULL,
        stdout=subprocess.DEVNULL,
        stderr=subprocess.PIPE,
        text=True,
        errors='replace',
        check=False,
        **(run_as or {}),
    )
    if done.returncode != 0:
        raise CopyError(f'the desk does not open the copy {new}: {done.stderr.strip()}')


def loads_in(copy: str) -> int:
    """Returns how many loads a copy has. Opening it merges -wal or -journal into the copy, so the
    file changes. It is in a folder where nobody else writes: SQLite deletes and makes files that a
    journal names."""
    with contextlib.closing(sqlite3.connect(copy)) as connection:
        return int(connection.execute('SELECT count(*) FROM load').fetchone()[0])


def own_folder(prefix: str) -> tempfile.TemporaryDirectory[str]:
    """Makes a folder where root alone writes."""
    place = os.path.dirname(units.MARK)
    place = place if os.path.isdir(place) else tempfile.gettempdir()
    return tempfile.TemporaryDirectory(dir=place, prefix=prefix)


def put(copy: str, new: str, mode: int, owner: tuple[int, int] | None = None) -> None:
    """Copies a file to a new one, which may be given to a user and its group. Others may write in
    its folder, so nothing that is there already is opened."""
    handle = os.open(new, os.O_WRONLY | os.O_CREAT | os.O_EXCL | os.O_CLOEXEC, 0o600)
    with open(copy, 'rb') as source, os.fdopen(handle, 'wb') as target:
        shutil.copyfileobj(source, target, 1 << 20)
        target.flush()
        os.fsync(handle)
        os.fchmod(handle, mode)
        if owner is not None:
            os.fchown(handle, *owner)


def remove(file: str) -> None:
    """Removes a file of SQLite, and what may lie beside it."""
    remove_beside(file, BESIDE)


def remove_beside(file: str, ends: tuple[str, ...] = BESIDE[1:]) -> None:
    """Removes what may lie beside a file of SQLite."""
    for end in ends:
        with contextlib.suppress(FileNotFoundError):
            os.remove(file + end)


def sync(path: str) -> None:
    """Waits until a file, or the names in a folder, are on the disk."""
    flags = os.O_RDONLY | os.O_NONBLOCK | os.O_NOCTTY | os.O_NOFOLLOW | os.O_CLOEXEC
    handle = os.open(path, flags)
    os.fsync(handle)
    os.close(handle)
