"""Checks names, the keys of vehicles and the numbers of calls before they are sent, and makes
references for people who give none."""
from __future__ import annotations

import datetime
import re
import secrets
from dataclasses import dataclass

from .text import shown

NAME_RULE = '1 to 32 of A-Z a-z 0-9 _ . : -'
NAME = re.compile('[A-Za-z0-9_.:-]{1,32}')
LETTERS = 'abcdefghijkmnpqrstuvwxyz23456789'  # without those that look like another one
LARGEST = 4294967295  # the largest number of a call


class BadValue(ValueError):
    """No call takes the value, so nothing is sent. Its `str()` is a sentence."""


class BadName(BadValue):
    """A text that should be a name is none. Its `str()` is a sentence."""


def is_name(text: object) -> bool:
    """Whether a desk takes a text as a name."""
    return isinstance(text, str) and NAME.fullmatch(text) is not None


def natural(name: str) -> tuple[list[str | int], str]:
    """Returns the key by which names are sorted for people: the numbers in them count by their
    values, so that `L2` comes before `L10`."""
    parts = re.split('([0-9]+)', name)
    return [int(part) if turn % 2 else part for turn, part in enumerate(parts)], name


def quoted(value: object) -> str:
    """Returns a wrong value as a sentence shows it: a text in quotes, cut where it is long."""
    text = ascii(value[:100]) if isinstance(value, (str, bytes)) else ascii_of(value)
    return shown(text, 80)


def ascii_of(value: object) -> str:
    """Returns a number or a truth value as it is written, and else its type."""
    if value is None or isinstance(value, (bool, float)):
        return str(value)
    if isinstance(value, int):
        return str(value) if abs(value) < 10**40 else 'a number of more than 40 digits'
    return f'a {type(value).__name__}'


def checked(text: object, what: str = 'name') -> str:
    """Returns a name, or raises `BadName` where the text is none. `what` says what it should name,
    as in `load`."""
    if is_name(text):
        return str(text)
    raise BadName(f'{quoted(text)} is no name for a {what}: a name is {NAME_RULE}')


def checked_number(value: object, what: str = 'number') -> int:
    """Returns a number, or raises `BadValue` where it is not a whole one that a call takes. `what`
    says what it counts, as in `edges`."""
    if type(value) is int and 0 <= value <= LARGEST:
        return value
    raise BadValue(f'{quoted(value)} is no number of {what}: it is a whole number, 0 to {LARGEST}')


@dataclass(frozen=True, order=True)
class VehicleKey:
    """The key of a vehicle: its manufacturer and its serial number. Keys are in the order of the
    desk's reports."""

    manufacturer: str
    serial: str

    @classmethod
    def parse(cls, text: object) -> VehicleKey:
        """Reads a key that is written as `KIT/0001`. Raises `BadName` for any other text."""
        manufacturer, slash, serial = text.partition('/') if isinstance(text, str) else ('', '', '')
        if not (slash and is_name(manufacturer) and is_name(serial)):
            rule = f'write MANUFACTURER/SERIAL, as KIT/0001, each {NAME_RULE}'
            raise BadName(f'{quoted(text)} is no vehicle: {rule}')
        return cls(manufacturer, serial)

    def __str__(self) -> str:
        return f'{self.manufacturer}/{self.serial}'


def checked_vehicle(key: object) -> VehicleKey:
    """Returns a key, or raises `BadName` where one of its parts is not a name."""
    if not isinstance(key, VehicleKey):
        raise BadName(f'{quoted(key)} is no vehicle')
    checked(key.manufacturer, 'manufacturer')
    checked(key.serial, 'serial number')
    return key


def new_reference(now: datetime.datetime | None = None) -> str:
    """Returns a reference that nobody has used: the day and the time in UTC, and four random
    letters, as in `2026-11-28-142501-k3fa`. Since it begins with the day, it is unused even after
    an older copy was put back."""
    moment = now or datetime.datetime.now(datetime.timezone.utc)
    letters = ''.join(secrets.choice(LETTERS) for _ in range(4))
    return f'{moment.strftime("%Y-%m-%d-%H%M%S")}-{letters}'
