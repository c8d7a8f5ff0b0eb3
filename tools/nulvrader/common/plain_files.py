"""Opens regular files, and nothing else: opening a FIFO waits for a writer, and a device such as
/dev/zero has no end. Writes a text in the place of a regular file."""
from __future__ import annotations

import contextlib
import errno
import os
import re
import stat
from typing import BinaryIO

from .text import shown

TEXT = 1_048_576  # the most bytes that are read of a text: 16 times what a desk takes as a body
PATH = 4096  # the most characters of a path
# The paths of descriptors that a shell has opened for this program, as for `<(..)`.
OWN = re.compile('/dev/stdin|(?:/dev/fd|/proc/self/fd)/([0-9]{1,9})')
KINDS = {
    stat.S_IFDIR: 'a folder',
    stat.S_IFIFO: 'a FIFO',
    stat.S_IFSOCK: 'a socket',
    stat.S_IFCHR: 'a device',
    stat.S_IFBLK: 'a device',
}


class NotPlain(OSError):
    """A file is not read, since it is not a regular file or is too large. `strerror` says why, and
    `str()` is a sentence that begins with the file's name."""

    def __init__(self, path: str, why: str) -> None:
        super().__init__(errno.EINVAL, why, path)

    def __str__(self) -> str:
        return f'{shown(str(self.filename), PATH)}: {self.strerror}'


def check(path: str) -> None:
    """Raises `NotPlain` where a path leads to something else than a regular file or nothing. A link
    is followed."""
    try:
        mode = os.stat(path).st_mode
    except FileNotFoundError:
        return
    check_mode(path, mode)


def opened(path: str) -> BinaryIO:
    """Opens a regular file for reading. It never waits, even if something else is put in the place
    of the file meanwhile."""
    check(path)
    handle = os.open(path, os.O_RDONLY | os.O_NONBLOCK | os.O_NOCTTY | os.O_CLOEXEC)
    try:
        check_mode(path, os.fstat(handle).st_mode)
        return os.fdopen(handle, 'rb')
    except BaseException:
        os.close(handle)
        raise


def read_text(path: str, most: int = TEXT) -> bytes:
    """Reads a text from a regular file, or from a pipe, a socket or a terminal that the shell has
    opened for this program. Raises `NotPlain` for more than `most` bytes."""
    with _opened_text(path) as file:
        data = file.read(most + 1)
    if len(data) > most:
        raise NotPlain(path, f'it has more than {most} bytes')
    return data


def _opened_text(path: str) -> BinaryIO:
    """Opens what `read_text` reads."""
    own = OWN.fullmatch(path)
    if own is None:
        return opened(path)
    handle = os.dup(int(own[1] or 0))
    try:
        mode = os.fstat(handle).st_mode
        if not (stat.S_ISFIFO(mode) or stat.S_ISSOCK(mode) or os.isatty(handle)):
            check_mode(path, mode)
        return os.fdopen(handle, 'rb')
    except BaseException:
        os.close(handle)
        raise


def check_mode(path: str, mode: int) -> None:
    """Raises `NotPlain` where the mode of what a path led to is not that of a regular file."""
    if not stat.S_ISREG(mode):
        kind = KINDS.get(stat.S_IFMT(mode), 'something else')
        raise NotPlain(path, f'it is {kind}, and not a regular file')


def write_text(path: str, text: str, mode: int, folder: int | None = None) -> None:
    """Puts a file with an ASCII text in the place of another one: a reader finds the old or the new
    one, whole. A link is not followed. With `folder`, the handle of the file's folder, both are on
    the disk at the end."""
    check(path)
    new = f'{path}.new'
    with contextlib.suppress(FileNotFoundError):
        os.unlink(new)
    flags = os.O_WRONLY | os.O_CREAT | os.O_EXCL | os.O_NOFOLLOW | os.O_CLOEXEC
    handle = os.open(new, flags, 0o600)
    try:
        with os.fdopen(handle, 'w', encoding='ascii') as file:
            os.fchmod(handle, mode)
            file.write(text)
            if folder is not None:
                file.flush()
                os.fsync(handle)
        os.rename(new, path)
        if folder is not None:
            os.fsync(folder)
    except BaseException:
        with contextlib.suppress(OSError):
            os.unlink(new)
        raise
