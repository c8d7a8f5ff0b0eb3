"""Asks Linux what a running program is called, and for whom it runs.

A command line lies in the memory of its program, and who reads it waits while the program has the
lock of that memory. Any user may write a program that keeps it for ever. So a command line is read
of programs of root and of this user alone."""
from __future__ import annotations

import os
import re


def user_of(pid: int) -> int | None:
    """Returns the user for whom a program runs; None if it has ended. That of its folder in /proc
    may be root for a program of anybody."""
    try:
        return _user_in(_read(pid, 'status', 4096))
    except OSError:
        return None


def words_of(pid: int, most: int) -> bytes | None:
    """Returns the beginning of the command line of a program of root or of this user, with a zero
    byte behind each word; None for a program of others, or one that has ended."""
    try:
        # (the number may be that of another program at any time, and the folder may not)
        folder = os.open(f'/proc/{pid}', os.O_RDONLY | os.O_DIRECTORY | os.O_CLOEXEC)
    except OSError:
        return None
    try:
        user = _user_in(_read(f'self/fd/{folder}', 'status', 4096))
        return _read(f'self/fd/{folder}', 'cmdline', most) if user in (0, os.getuid()) else None
    except OSError:
        return None
    finally:
        os.close(folder)


def name_of(pid: int) -> bytes | None:
    """Returns the name of a program, at most 15 bytes; None if it has ended."""
    try:
        return _read(pid, 'comm', 100).removesuffix(b'\n')
    except OSError:
        return None


def _user_in(status: bytes) -> int | None:
    """Returns the user who has begun a program, of its file `status`."""
    found = re.search(rb'^Uid:\t(\d+)', status, re.M)
    return int(found[1]) if found else None


def _read(place: int | str, name: str, most: int) -> bytes:
    """Reads the beginning of a file of a program."""
    with open(f'/proc/{place}/{name}', 'rb') as file:
        return file.read(most)
