"""The configuration of webhooks: a table of TOML for each receiver."""
from __future__ import annotations

import os
import re
import stat
import tomllib
import urllib.parse
from dataclasses import dataclass
from typing import Any

from ....common import plain_files
from ....common.text import shown
from ....desk.wire import Place
from .delivery import BadSecret, secrets_of

NAME = re.compile('[a-z0-9_-]{1,32}')
KIND = re.compile('[a-z_]{1,32}')
MOST = 16  # receivers
MEMBERS = ('address', 'secret', 'kinds', 'ca', 'loopback')


class BadConfig(ValueError):
    """The configuration says what it can't. Its `str()` is a sentence, without a secret."""


@dataclass(frozen=True)
class Hook:
    """A receiver: where it is, the path and the query there, which kinds of events it wants (None:
    all), by which secrets what it gets is signed, who vouches for its certificate (None: the
    authorities of the machine), and whether it may be a program of this machine."""

    name: str
    place: Place
    target: str
    kinds: tuple[str, ...] | None
    secrets: tuple[bytes, ...]
    ca: str | None
    loopback: bool

    def __repr__(self) -> str:
        """Names it, and tells no secret: a path may be one."""
        return f'Hook({self.name})'


def read_hooks(path: str) -> tuple[Hook, ...]:
    """Reads the configuration, or raises `BadConfig`, and OSError where a file can't be read. The
    address of a receiver may be a secret."""
    check_mode(path, shown(path))
    try:
        tables = tomllib.loads(plain_files.read_text(path).decode())
    except (UnicodeDecodeError, tomllib.TOMLDecodeError) as fault:
        raise BadConfig(f'{shown(path)} is no TOML: {shown(str(fault))}') from None
    if not 1 <= len(tables) <= MOST:
        raise BadConfig(f'{shown(path)} has {len(tables)} receivers: it needs 1 to {MOST}.')
    return tuple(hook_of(name, table) for name, table in tables.items())


def hook_of(name: str, table: Any) -> Hook:
    """Returns a receiver, by its table."""
    if not NAME.fullmatch(name) or not isinstance(table, dict):
        raise BadConfig(f'{name[:40]!a} is no name of a receiver: write a table [erp].')
    for member in table:
        if member not in MEMBERS:
            raise BadConfig(f'{name}: there is no {member[:40]!a}: {", ".join(MEMBERS)}.')
    loopback = table.get('loopback', False)
    if not isinstance(loopback, bool):
        raise BadConfig(f'{name}: loopback is true or false.')
    place, target = address_of(name, _text(name, table, 'address'), loopback)
    ca = _text(name, table, 'ca') if 'ca' in table else None
    secrets = read_secrets(name, _text(name, table, 'secret'))
    return Hook(name, place, target, kinds_of(name, table), secrets, ca, loopback)


def _text(name: str, table: dict[str, Any], member: str) -> str:
    value = table.get(member)
    if not isinstance(value, str) or not value:
        raise BadConfig(f'{name}: {member} is missing, or no text.')
    return value


def address_of(name: str, address: str, loopback: bool) -> tuple[Place, str]:
    """Returns where a receiver is, and its path there. What is wrong is told without the address,
    which may have a secret."""
    parts = urllib.parse.urlsplit(address)
    is_plain = parts.scheme == 'http' and loopback
    if not re.fullmatch('[!-~]+', address) or not (parts.scheme == 'https' or is_plain):
        words = 'its address begins with https:// (with http:// only where loopback is true)'
        raise BadConfig(f'{name}: {words}.')
    if '@' in parts.netloc or parts.fragment:
        raise BadConfig(f'{name}: its address has a user or a fragment.')
    try:
        place = Place.parse(f'{parts.scheme}://{parts.netloc}')
    except ValueError:
        raise BadConfig(f'{name}: its address has no host, or a wrong port.') from None
    return place, (parts.path or '/') + (f'?{parts.query}' if parts.query else '')


def kinds_of(name: str, table: dict[str, Any]) -> tuple[str, ...] | None:
    """Returns the kinds of events that a receiver wants; None where it wants all."""
    kinds = table.get('kinds')
    if kinds is None:
        return None
    if not isinstance(kinds, list) or not kinds:
        raise BadConfig(f'{name}: kinds is a list of kinds of events.')
    for kind in kinds:
        if not isinstance(kind, str) or not KIND.fullmatch(kind):
            raise BadConfig(f'{name}: {shown(str(kind), 40)} is no kind of events.')
    return tuple(kinds)


def check_mode(path: str, what: str) -> None:
    """Raises `BadConfig` where everybody may read a file that has a secret."""
    mode = os.stat(path).st_mode
    if stat.S_ISREG(mode) and mode & 0o007:
        raise BadConfig(f'{what}: everybody may read it: chmod 640 it.')


def read_secrets(name: str, path: str) -> tuple[bytes, ...]:
    """Reads the secrets of a file that nobody else may read: the new one first."""
    check_mode(path, f'{name}: the file of its secret')
    try:
        return secrets_of(plain_files.read_text(path, 4096).decode('ascii'))
    except (UnicodeDecodeError, BadSecret) as fault:
        words = str(fault) if isinstance(fault, BadSecret) else 'it is no text'
        raise BadConfig(f'{name}: the file of its secret: {words}.') from None
