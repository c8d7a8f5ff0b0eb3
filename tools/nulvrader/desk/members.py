"""Reads the JSON of a desk's answers. Raises `NotADesk` for what no desk writes."""
from __future__ import annotations

import json
import re
from collections.abc import Collection
from typing import NoReturn

from .errors import NotADesk
from ..common.names import LARGEST, BadName, VehicleKey, is_name
from ..common.text import shown

# A desk writes names, words, moments and numbers: ASCII without escapes.
TEXT = re.compile(rb'[\t\n\r -\[\]-~]*')
DIGITS = 20  # the most digits of a number

JsonObject = dict[str, object]  # an object of JSON, by its members


def read_object(body: bytes, may_be_done: bool = False) -> JsonObject:
    """Reads the JSON object of an answer. No member stands in it twice, and its numbers are whole.
    `may_be_done` goes into the exception."""
    if not TEXT.fullmatch(body):
        raise NotADesk('its answer has bytes that no desk writes', may_be_done)
    try:
        value = json.loads(
            body,
            object_pairs_hook=_object,
            parse_float=_no_number,
            parse_int=_whole,
            parse_constant=_no_number,
        )
    except (ValueError, RecursionError):
        raise NotADesk(f'its answer is not JSON: {shown(body, 80)}', may_be_done) from None
    if not isinstance(value, dict):
        raise NotADesk(f'its answer is no JSON object: {shown(body, 80)}', may_be_done)
    return value


def _object(pairs: list[tuple[str, object]]) -> JsonObject:
    """Returns an object, or raises ValueError where a member stands twice."""
    found = dict(pairs)
    if len(found) != len(pairs):
        raise ValueError('a member stands twice')
    return found


def _whole(text: str) -> int:
    """Returns a whole number, or raises ValueError where it is too long."""
    if len(text) > DIGITS:
        raise ValueError('a number is too long')
    return int(text)


def _no_number(text: str) -> NoReturn:
    """Raises ValueError for a fraction, an exponent, `NaN` or `Infinity`."""
    raise ValueError('no whole number')


class Members:
    """Reads the members of an object of an answer. Each method returns a member of one type, and
    raises `NotADesk` where the member is missing or has another type. `may_be_done` goes into the
    exception."""

    def __init__(self, value: object, may_be_done: bool = False) -> None:
        self._may_be_done = may_be_done
        if not isinstance(value, dict):
            raise NotADesk(f'where an object should be it says {_shown(value)}', may_be_done)
        self._value = value

    def wrong(self, member: str, value: object) -> NotADesk:
        """Returns the exception for a member with a value that no desk writes."""
        return NotADesk(f'its member {member} is {_shown(value)}', self._may_be_done)

    def any(self, member: str) -> object:
        """Returns a member of any type."""
        if member not in self._value:
            raise NotADesk(f'the member {member} is missing', self._may_be_done)
        return self._value[member]

    def text(self, member: str) -> str:
        """Returns a text."""
        value = self.any(member)
        if not isinstance(value, str):
            raise self.wrong(member, value)
        return value

    def name(self, member: str) -> str:
        """Returns a name."""
        value = self.any(member)
        if not is_name(value):
            raise self.wrong(member, value)
        return str(value)

    def name_or_none(self, member: str) -> str | None:
        """Returns a name, or None where the member is null."""
        return None if self.any(member) is None else self.name(member)

    def one_of(self, member: str, words: Collection[str]) -> str:
        """Returns a text that is one of these."""
        value = self.text(member)
        if value not in words:
            raise self.wrong(member, value)
        return value

    def key_or_none(self, member: str) -> VehicleKey | None:
        """Returns a vehicle from a text such as `KIT/0001`, or None where the member is null."""
        value = self.any(member)
        if value is None:
            return None
        try:
            return VehicleKey.parse(self.text(member))
        except BadName:
            raise self.wrong(member, value) from None

    def number(self, member: str, least: int = 0, most: int = LARGEST) -> int:
        """Returns a whole number from `least` to `most`."""
        value = self.any(member)
        if type(value) is not int or not least <= value <= most:
            raise self.wrong(member, value)
        return value

    def number_or_none(self, member: str) -> int | None:
        """Returns a whole number, or None where the member is null."""
        return None if self.any(member) is None else self.number(member)

    def flag(self, member: str) -> bool:
        """Returns a truth value."""
        value = self.any(member)
        if not isinstance(value, bool):
            raise self.wrong(member, value)
        return value

    def items(self, member: str) -> list[object]:
        """Returns a list."""
        value = self.any(member)
        if not isinstance(value, list):
            raise self.wrong(member, value)
        return value

    def objects(self, member: str) -> list[Members]:
        """Returns the members of each object of a list."""
        return [Members(item, self._may_be_done) for item in self.items(member)]

    def vehicle(self) -> VehicleKey:
        """Returns the vehicle of `manufacturer` and `serialNumber`."""
        return VehicleKey(self.name('manufacturer'), self.name('serialNumber'))

    def place(self, member: str) -> str:
        """Returns the place of a load: `checking`, `left`, `station A` or `vehicle KIT/0001`."""
        value = self.text(member)
        kind, _, at = value.partition(' ')
        if value in ('checking', 'left') or kind == 'station' and is_name(at):
            return value
        try:
            if kind == 'vehicle':
                VehicleKey.parse(at)
                return value
        except BadName:
            pass
        raise self.wrong(member, value)

    def same(self, member: str, value: object, wanted: object) -> None:
        """Raises `NotADesk` unless the value that was read of a member is the one that was asked
        for."""
        if value != wanted:
            raise self.wrong(member, value)


def _shown(value: object) -> str:
    """Returns a value as a sentence shows it."""
    if isinstance(value, (dict, list)):
        return 'an object' if isinstance(value, dict) else 'a list'
    return shown(value, 60) if isinstance(value, str) else shown(json.dumps(value, default=str), 60)
