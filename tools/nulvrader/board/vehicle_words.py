"""What a vehicle says of itself that the desk does not keep, as a gateway passes it on: read
strictly, within bounds, and all texts as a page and a terminal may show them.

A datagram is a state of VDA 5050, of which these members are read (docs/BOARD_API.md, *What
vehicles say*); or it has `connectionState`, as a connection message does."""
from __future__ import annotations

import json
import math
from dataclasses import dataclass, replace
from typing import Any

from ..common.names import BadName, VehicleKey
from ..common.text import shown
from .messages import Line

LONGEST = 16_384  # bytes of a datagram
ERRORS, FAILED, REFERENCES = 16, 16, 6
WORD, TEXT = 60, 300  # characters
FAR = 1e7  # metres
NONE = 'NONE'
READY = ('AUTOMATIC', 'SEMIAUTOMATIC')  # the operating modes in which the desk gives orders


class NoWords(ValueError):
    """A datagram that says nothing. Its `str()` says why."""


@dataclass(frozen=True)
class Error:
    """An error of a vehicle. `refers` is what it refers to, as `nodeId N1`."""

    type: str
    level: str
    text: str = ''
    hint: str = ''
    refers: tuple[str, ...] = ()

    def name(self) -> tuple[str, str, tuple[str, ...]]:
        """Returns by what it is known for the same error: its text may change, as where it has a
        number."""
        return self.type, self.level, self.refers

    def words(self) -> str:
        """Returns the error in a few words."""
        return f'{self.level} {self.type}{f": {self.text}" if self.text else ""}'


@dataclass(frozen=True)
class FailedAction:
    """An action that has failed: its id, and what the vehicle says of it."""

    action: str
    type: str
    result: str


@dataclass(frozen=True)
class Words:
    """What a vehicle says. None is what it has not said."""

    mode: str | None = None
    stop: str | None = None
    field: bool | None = None
    battery: float | None = None
    charging: bool | None = None
    position: tuple[float, float] | None = None
    map: str | None = None
    connection: str | None = None
    errors: tuple[Error, ...] | None = None
    failed: tuple[FailedAction, ...] | None = None

    def over(self, before: Words) -> Words:
        """Returns these words, with what was said before where they say nothing."""
        values = {name: value for name, value in vars(self).items() if value is not None}
        return replace(before, **values)

    def result_of(self, failed: FailedAction) -> str:
        """Returns what is said of an action that has failed: with it, or by an error that refers to
        it."""
        named = f'actionId {failed.action}'
        about = (one.words() for one in self.errors or () if named in one.refers)
        return failed.result or next(about, '')

    def reasons(self) -> list[Line]:
        """Returns why the desk gives it no orders, in a few words each."""
        found = []
        if self.stop not in (None, NONE):
            found.append(Line('why.stop', {'stop': self.stop}))
        for error in self.errors or ():
            if error.level == 'FATAL':
                found.append(Line('why.error', {'words': error.words()}))
        if self.mode is not None and self.mode not in READY:
            found.append(Line('why.mode', {'mode': self.mode}))
        return found


def read_words(data: bytes) -> tuple[str, Words]:
    """Returns the vehicle, and what it says. `NoWords` where a datagram is none."""
    if len(data) > LONGEST:
        raise NoWords(f'more than {LONGEST} bytes')
    try:
        told = json.loads(data.decode())
    except (ValueError, RecursionError):
        raise NoWords('no JSON') from None
    if not isinstance(told, dict):
        raise NoWords('no object')
    names = told.get('manufacturer'), told.get('serialNumber')
    try:
        key = VehicleKey.parse('/'.join(name if isinstance(name, str) else '' for name in names))
    except BadName:
        raise NoWords('no manufacturer and serialNumber') from None
    return str(key), _words(told)


def _words(told: dict[str, Any]) -> Words:
    safety, battery = _object(told, 'safetyState'), _object(told, 'batteryState')
    position = _object(told, 'agvPosition')
    at = _number(position, 'x', FAR), _number(position, 'y', FAR)
    charge = _number(battery, 'batteryCharge', 1000)
    return Words(
        mode=_text(told, 'operatingMode', WORD),
        stop=_text(safety, 'eStop', WORD),
        field=_flag(safety, 'fieldViolation'),
        battery=None if charge is None else min(100.0, max(0.0, round(charge, 1))),
        charging=_flag(battery, 'charging'),
        position=None if at[0] is None or at[1] is None else (round(at[0], 3), round(at[1], 3)),
        map=_text(position, 'mapId', WORD),
        connection=_text(told, 'connectionState', WORD),
        errors=_errors(told),
        failed=_failed(told),
    )


def _errors(told: dict[str, Any]) -> tuple[Error, ...] | None:
    """Returns the errors, each once, the gravest first."""
    found: dict[object, Error] = {}
    for one in _objects(told, 'errors'):
        level = _text(one, 'errorLevel', WORD) or '?'
        pairs = _objects(one, 'errorReferences')[:REFERENCES]
        names = ('referenceKey', 'referenceValue')
        refers = (' '.join(_text(pair, name, WORD) or '?' for name in names) for pair in pairs)
        kind = _text(one, 'errorType', WORD) or '?'
        text, hint = (_text(one, name, TEXT) or '' for name in ('errorDescription', 'errorHint'))
        error = Error(kind, level, text, hint, tuple(refers))
        found.setdefault(error.name(), error)
    if not isinstance(told.get('errors'), list):
        return None
    return tuple(sorted(found.values(), key=lambda one: one.level != 'FATAL')[:ERRORS])


def _failed(told: dict[str, Any]) -> tuple[FailedAction, ...] | None:
    if not isinstance(told.get('actionStates'), list):
        return None
    failed = [one for one in _objects(told, 'actionStates') if one.get('actionStatus') == 'FAILED']
    return tuple(
        FailedAction(
            _text(one, 'actionId', WORD) or '?',
            _text(one, 'actionType', WORD) or '',
            _text(one, 'resultDescription', TEXT) or '',
        )
        for one in failed[-FAILED:]
    )


def _object(told: dict[str, Any], name: str) -> dict[str, Any]:
    value = told.get(name)
    return value if isinstance(value, dict) else {}


def _objects(told: dict[str, Any], name: str) -> list[dict[str, Any]]:
    value = told.get(name)
    return [one for one in value if isinstance(one, dict)] if isinstance(value, list) else []


def _text(told: dict[str, Any], name: str, most: int) -> str | None:
    """Returns a text as a page may show it; a number or a truth value is written as JSON."""
    value = told.get(name)
    if isinstance(value, str):
        return shown(value, most)
    return shown(json.dumps(value), most) if isinstance(value, (int, float)) else None


def _flag(told: dict[str, Any], name: str) -> bool | None:
    value = told.get(name)
    return value if isinstance(value, bool) else None


def _number(told: dict[str, Any], name: str, most: float) -> float | None:
    """Returns a number that is not larger than `most`."""
    value = told.get(name)
    if isinstance(value, bool) or not isinstance(value, (int, float)) or abs(value) > most:
        return None
    return float(value) if math.isfinite(value) else None
