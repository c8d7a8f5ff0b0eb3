"""The form of a rule for the rows of a desk's file: a function that yields the rows that break the
rule, each with what is wrong. Its docstring is the text of the rule."""
import dataclasses
from collections.abc import Callable, Iterator

from ..common.names import is_name
from .rows import Rows
from .tables import Key, LoadRow

SEATS = 4  # the most loads that a vehicle carries at once

# Each is a row, or a text that names rows, and what is wrong with it.
Breaches = Iterator[tuple[object, str]]
Check = Callable[[Rows], Breaches]


@dataclasses.dataclass(frozen=True)
class Rule:
    """A rule: its name, its text, and the function that yields the rows that break it."""

    name: str
    text: str
    check: Check


@dataclasses.dataclass(frozen=True)
class Breach:
    """Rows that break a rule, and what is wrong with them."""

    rule: Rule
    rows: str
    text: str

    def __str__(self) -> str:
        return f'{self.rows}: {self.text}'


def rule(name: str) -> Callable[[Check], Rule]:
    """Returns a decorator that makes a function a rule of this name. The text of the rule is the
    function's docstring."""
    return lambda check: Rule(name, ' '.join((check.__doc__ or '').split()), check)


def value_text(value: object) -> str:
    """Returns a value of a row as it is printed: a name or a number as it is, NULL, and any other
    text in quotes."""
    return (
        'NULL'
        if value is None
        else value
        if isinstance(value, str) and is_name(value)
        else repr(value)
    )


def vehicle_text(key: Key) -> str:
    """Returns a vehicle as `vehicle KIT/0001`."""
    manufacturer, serial = key
    return f'vehicle {manufacturer}/{serial}'


def place_text(load: LoadRow) -> str:
    """Returns where a load is, as `GET /loads/{load}` says it."""
    if load.kind == 'station':
        return 'station ' + value_text(load.station)
    if load.kind == 'vehicle':
        return f'vehicle {value_text(load.manufacturer)}/{value_text(load.serial)}'
    return load.kind
