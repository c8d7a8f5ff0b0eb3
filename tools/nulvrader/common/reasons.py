"""Why vehicles and jobs wait, as the dispatcher says: a file of JSON that it writes and the board
reads, `{"at": 1798122600, "waits": {"KIT/0001": "charges", "job J1": "no vehicle is free"}}`. It
is put in place whole, so a reader finds the old one or the new one."""
from __future__ import annotations

import json
from collections.abc import Mapping
from dataclasses import dataclass, field

from . import plain_files
from .names import is_name
from .text import shown

MOST = 2_000
"""So many vehicles and jobs are told of at most."""

TEXT = 300
"""So many characters are told of each."""

OLD = 30.0
"""What the dispatcher has said counts for so many seconds."""


class NoReasons(Exception):
    """A file that can't be read, or is none of reasons. Its `str()` says why."""


@dataclass(frozen=True)
class Reasons:
    """Why each waits, a job by its name as `job J1`, and the moment in seconds since 1970."""

    at: float = 0.0
    waits: Mapping[str, str] = field(default_factory=dict)

    def text(self) -> str:
        """Returns the text that `read` takes."""
        waits = {name: shown(why, TEXT) for name, why in list(self.waits.items())[:MOST]}
        return json.dumps({'at': int(self.at), 'waits': waits}) + '\n'


def write_file(path: str, reasons: Reasons) -> None:
    """Puts a new file in the place of the old one. The group of the folder may read it."""
    plain_files.write_text(path, reasons.text(), 0o640)


def read_file(path: str) -> Reasons:
    """Returns what a file says. `NoReasons` where it says nothing."""
    try:
        return read(plain_files.read_text(path))
    except OSError as fault:
        raise NoReasons(f'{path}: {fault.strerror}') from None


def read(data: bytes) -> Reasons:
    """Returns what a text says, within bounds, and as a page may show it."""
    try:
        said = json.loads(data)
    except (ValueError, RecursionError):
        raise NoReasons('it is no JSON') from None
    at, waits = (said.get(name) for name in ('at', 'waits')) if isinstance(said, dict) else (0, 0)
    if type(at) is not int or not 0 <= at < 2**53 or not isinstance(waits, dict):
        raise NoReasons('it has no reasons')
    rows = list(waits.items())[:MOST]
    found = {name: shown(why, TEXT) for name, why in rows if isinstance(why, str)}
    return Reasons(float(at), {name: why for name, why in found.items() if is_thing(name)})


def is_thing(name: str) -> bool:
    """Whether this names a vehicle, or a job as `job J1`."""
    if name.startswith('job '):
        return is_name(name.removeprefix('job '))
    parts = name.split('/')
    return len(parts) == 2 and all(map(is_name, parts))
