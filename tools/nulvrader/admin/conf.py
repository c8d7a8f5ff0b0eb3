"""Reads /etc/nulvrader/nulvrader.conf, which the units have as their environment: lines
NAME=VALUE."""
from __future__ import annotations

import os
import re

from ..common import plain_files

PATH = '/etc/nulvrader/nulvrader.conf'
WHERE = 'NULVRADER_CONF'  # the variable with another path, for tests
DEFAULTS = {
    'NULVRADER_DB': '/var/lib/nulvrader/desk/warehouse.db',
    'NULVRADER_DESK': 'unix:/run/nulvrader/desk.sock',
    'NULVRADER_LAYOUT': '/etc/nulvrader/layout.csv',
    'NULVRADER_NAME': 'desk.example',
    'NULVRADER_UNITS': 'board dispatch',
    'NULVRADER_BACKUPS': '/var/backups/nulvrader',
    'NULVRADER_INSTRUCTIONS': '/var/lib/nulvrader/instructions/instructions.csv',
}
LINE = re.compile(r'(NULVRADER_[A-Z_]+)=(.*)')


def read() -> dict[str, str]:
    """Reads the values of the file; none if it isn't there, or this user may not read it."""
    try:
        data = plain_files.read_text(os.environ.get(WHERE, PATH))
    except OSError:
        return {}
    lines = data.decode('utf-8', 'replace').splitlines()
    found = (LINE.fullmatch(line.strip()) for line in lines)
    return {one[1]: _without_quotes(one[2].strip()) for one in found if one}


def _without_quotes(value: str) -> str:
    """Returns a value without the quotes around it, if there are any, as systemd reads it."""
    is_quoted = len(value) > 1 and value[0] == value[-1] and value[0] in '\'"'
    return value[1:-1] if is_quoted else value


def values() -> dict[str, str]:
    """Returns all values: that of the environment variable of this name, else that of the file,
    else the default of the package."""
    found = {**DEFAULTS, **read()}
    return {name: os.environ.get(name, value) for name, value in found.items()}
