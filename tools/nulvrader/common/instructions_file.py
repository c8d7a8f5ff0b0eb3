"""The file of the instructions: commands write it, one at a time, and the dispatcher reads it.

A reader finds the whole of the old file or of the new one: who writes it makes a new one beside it
and then puts that in its place. So a command that is killed, or finds the disk full, leaves the old
one."""
from __future__ import annotations

import contextlib
import errno
import fcntl
import os
import time
from collections.abc import Callable, Iterator

from . import plain_files
from .instructions import Instructions, NoInstructions, read

PATIENCE = 20.0
"""For so many seconds a command waits for another one that writes."""


def read_file(path: str) -> Instructions:
    """Returns what a file says; nothing where there is none."""
    try:
        text = plain_files.read_text(path).decode()
    except FileNotFoundError:
        return Instructions()
    except UnicodeDecodeError:
        raise NoInstructions(f'{path}: it is no text') from None
    except OSError as fault:
        raise NoInstructions(f'{path}: {fault.strerror}') from None
    try:
        return read(text)
    except NoInstructions as fault:
        raise NoInstructions(f'{path}: {fault}') from None


class Followed:
    """A file that is read again where it has changed. One that was there and is gone is a fault: it
    may have said what is closed."""

    def __init__(self, path: str) -> None:
        self.path = path
        self._known: tuple[int, ...] | None = None
        self._last: Instructions | NoInstructions = Instructions()
        self._was_there = False

    def now(self) -> Instructions:
        """Returns what the file says. A `NoInstructions` where that can't be read."""
        known = self._stamp()
        if known != self._known or isinstance(self._last, NoInstructions):
            self._known = known
            try:
                self._last = read_file(self.path)
            except NoInstructions as fault:
                self._last = fault
        if known is None and self._was_there:
            raise NoInstructions(f'{self.path}: the file is gone')
        self._was_there |= known is not None
        if isinstance(self._last, NoInstructions):
            raise self._last
        return self._last

    def _stamp(self) -> tuple[int, ...] | None:
        """Returns what changes with each change of the file, None where there is no file."""
        try:
            found = os.stat(self.path)
        except OSError as fault:
            if isinstance(fault, FileNotFoundError):
                return None
            return (fault.errno or 0,)
        return found.st_ino, found.st_size, found.st_mtime_ns, found.st_ctime_ns


@contextlib.contextmanager
def changing(path: str) -> Iterator[tuple[Instructions, Callable[[Instructions], None]]]:
    """Gives a block what a file says, and what writes it anew. No other command writes it
    meanwhile."""
    folder = os.path.dirname(os.path.abspath(path))
    handle = os.open(folder, os.O_RDONLY | os.O_DIRECTORY | os.O_CLOEXEC)
    try:
        _lock(handle, folder)
        yield read_file(path), lambda changed: plain_files.write_text(
            path, changed.text(), 0o644, handle
        )
    finally:
        os.close(handle)


def _lock(handle: int, folder: str) -> None:
    """Waits until no other command writes in this folder."""
    ends = time.monotonic() + PATIENCE
    while True:
        try:
            fcntl.flock(handle, fcntl.LOCK_EX | fcntl.LOCK_NB)
            return
        except BlockingIOError:
            if time.monotonic() > ends:
                raise BlockingIOError(errno.EAGAIN, 'another command writes there', folder)
            time.sleep(0.05)
