"""Reads the file in which `run` says how it is on this machine."""
from __future__ import annotations

import json
import os
import time
from dataclasses import dataclass

from ..common.plain_files import NotPlain, opened
from ..common.text import shown
from .holder import SERVING, STARTING, WAITING

MOST = 4096  # the most bytes of the file
# The statuses of an agent of Pacemaker.
RUNS, FAILED, STOPPED = 0, 1, 7


@dataclass(frozen=True)
class RunStatus:
    """How `run` is: a status, and a sentence."""

    status: int
    text: str

    def __str__(self) -> str:
        return self.text


def read(path: str, within: float, now: float | None = None) -> RunStatus:
    """Reads the file. The status is 0 where `run` serves and has proved the lock within `within`
    seconds, 7 where it waits, starts or doesn't run, and 1 where it should serve and doesn't."""
    try:
        with opened(path) as file:
            data = file.read(MOST)
    except FileNotFoundError:
        return RunStatus(STOPPED, 'it does not run')
    except (OSError, NotPlain) as fault:
        return RunStatus(FAILED, f'its state can not be read: {shown(str(fault), 1000)}')
    try:
        return status_of(json.loads(data), within, time.monotonic() if now is None else now)
    except (ValueError, RecursionError):
        return RunStatus(FAILED, 'its state is none that it has written')


def status_of(members: object, within: float, now: float) -> RunStatus:
    """Returns what the members of the file say. Raises ValueError where `run` writes none such."""
    if not isinstance(members, dict):
        raise ValueError(members)
    word, at, pid, why = (members.get(name) for name in ('state', 'at', 'pid', 'why'))
    if not isinstance(at, (int, float)) or not isinstance(why, str) or type(pid) is not int:
        raise ValueError(members)
    if word not in (WAITING, STARTING, SERVING):
        raise ValueError(members)
    if not is_running(pid):
        return RunStatus(FAILED if word == SERVING else STOPPED, 'it has ended without a word')
    if word == WAITING:
        return RunStatus(STOPPED, f'waiting: {shown(why, 1000)}')
    if word == STARTING:
        return RunStatus(STOPPED, 'it has the lock, and the desk starts')
    age = now - at
    if not 0 <= age <= within:
        return RunStatus(FAILED, f'serving, but the lock was proved last {age:.1f} s ago')
    return RunStatus(RUNS, f'serving: the lock was proved {age:.1f} s ago')


def is_running(pid: int) -> bool:
    """Whether a program with this number runs."""
    return pid > 0 and os.path.exists(f'/proc/{pid}')
