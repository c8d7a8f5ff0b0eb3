"""Sends a board, or a dispatcher, what vehicles say that the desk does not keep: operating mode,
safety, errors, battery, position, failed actions and the connection.

Each listens on a socket for datagrams (docs/BOARD_API.md, *What vehicles say*). Sending never
waits: what is not taken there is sent in a later turn, as the last state of the vehicle has it
then. The memory is bounded by the number of vehicles."""
from __future__ import annotations

import json
import socket
import time
from dataclasses import dataclass, field
from typing import Union

from ..desk.members import JsonObject
from .log import Clock, Log

LONGEST = 16_000  # the most bytes of a datagram
READ = 65_536  # the most bytes of a state that is read
TURN = 1_000_000  # the most bytes of states that are read in a turn
EVERY = 1.0  # the least seconds from one datagram of a vehicle to the next
AGAIN = 10.0  # seconds until a datagram that has not changed is sent again
ERRORS, ACTIONS, REFERENCES = 16, 16, 6  # the most of each in a datagram
TEXT = 400  # the most characters of a text in a datagram
MEMBERS = ('headerId', 'timestamp', 'driving', 'operatingMode')
PARTS = {
    'safetyState': ('eStop', 'fieldViolation'),
    'batteryState': ('batteryCharge', 'charging'),
    'agvPosition': ('x', 'y', 'theta', 'mapId'),
}
ERROR = ('errorType', 'errorLevel', 'errorDescription', 'errorHint')
REFERENCE = ('referenceKey', 'referenceValue')
ACTION = ('actionId', 'actionType', 'actionStatus', 'resultDescription')

Plain = Union[str, int, float]  # a text, a number or a truth value
Members = dict[str, Plain]


@dataclass(frozen=True)
class VehicleError:
    """An error of a vehicle, with the first of its references."""

    members: Members
    references: list[Members]

    def json(self) -> JsonObject:
        """Returns the error as a state has it."""
        return {**self.members, 'errorReferences': self.references}


@dataclass
class Telemetry:
    """What is sent of a state: plain members, parts with plain members, the first errors, of which
    FATAL ones come first, and the last failed actions."""

    members: Members = field(default_factory=dict)
    parts: dict[str, Members] = field(default_factory=dict)
    errors: list[VehicleError] = field(default_factory=list)
    actions: list[Members] = field(default_factory=list)

    def json(self) -> JsonObject:
        """Returns what is known, in the form of a state message."""
        errors = [error.json() for error in self.errors]
        return {**self.members, **self.parts, 'errors': errors, 'actionStates': self.actions}

    def shorten(self) -> bool:
        """Drops the last error or, without one, the last action. False where there is neither."""
        if self.errors:
            self.errors.pop()
        elif self.actions:
            self.actions.pop()
        else:
            return False
        return True


@dataclass
class Unsent:
    """What is to be sent of a vehicle: its last state, unless that was sent, and its connection,
    with whether that is new; and the last datagram, without the number and the time of its state,
    with the moment when it was sent."""

    state: bytes | None = None
    connection: str | None = None
    is_new: bool = False
    last: str | None = None
    at: float | None = None


class TelemetrySender:
    """Sends the telemetry of the desk's vehicles to the board or the dispatcher at a socket."""

    def __init__(self, path: str, log: Log, clock: Clock = time.monotonic) -> None:
        self.path, self.log, self.clock = path, log, clock
        self.unsent: dict[str, Unsent] = {}
        self.socket = socket.socket(socket.AF_UNIX, socket.SOCK_DGRAM)
        self.socket.setblocking(False)

    def state(self, vehicle: str, data: bytes) -> None:
        """Notes the state that a vehicle of the desk has sent."""
        if len(data) <= READ:
            self.unsent.setdefault(vehicle, Unsent()).state = data

    def connection(self, vehicle: str, state: str) -> None:
        """Notes whether a vehicle is connected, as a `connection` message says."""
        unsent = self.unsent.setdefault(vehicle, Unsent())
        unsent.is_new, unsent.connection = unsent.connection != state, state

    def forget(self, vehicle: str) -> None:
        """Drops what is kept of a vehicle that the desk does not have."""
        self.unsent.pop(vehicle, None)

    def turn(self) -> None:
        """Sends what is due, first of the vehicles whose last datagram is oldest."""
        left, now = TURN, self.clock()
        for vehicle in sorted(self.unsent, key=lambda one: self.unsent[one].at or 0.0):
            unsent = self.unsent[vehicle]
            is_due = unsent.at is None or now >= unsent.at + EVERY
            if not is_due or (unsent.state is None and not unsent.is_new):
                continue
            left -= len(unsent.state or b'')
            if left < 0 or not self._send_due(vehicle, unsent, now):
                return

    def _send_due(self, vehicle: str, unsent: Unsent, now: float) -> bool:
        """Sends what is new of a vehicle, if there is anything. False where the board takes no
        more."""
        found = None if unsent.state is None else read_telemetry(unsent.state)
        if found is not None or unsent.connection is not None:
            message = message_of(found, unsent.connection)
            plain = json.dumps({**message, 'headerId': 0, 'timestamp': ''})
            if plain != unsent.last or unsent.at is None or now >= unsent.at + AGAIN:
                if not self._send(datagram_of(vehicle, found, unsent.connection)):
                    return False
                unsent.last, unsent.at = plain, now
        unsent.state, unsent.is_new = None, False
        return True

    def _send(self, data: bytes) -> bool:
        """Sends a datagram. False where it can't be taken."""
        try:
            self.socket.sendto(data, self.path)
        except OSError as fault:
            why = fault.strerror or type(fault).__name__
            is_full = isinstance(fault, BlockingIOError)
            line = f'what vehicles say is not told to {self.path}: {why}'
            self.log.of('board', 'words', None if is_full else line)
            return False
        self.log.of('board', 'words', None)
        return True


def message_of(telemetry: Telemetry | None, connection: str | None) -> JsonObject:
    """Returns what is sent of a vehicle, without its key."""
    message = {} if telemetry is None else telemetry.json()
    return message if connection is None else {**message, 'connectionState': connection}


def datagram_of(vehicle: str, telemetry: Telemetry | None, connection: str | None) -> bytes:
    """Returns the datagram of a vehicle. Where it is too long, the last errors and then the last
    actions are left out."""
    manufacturer, _, serial = vehicle.partition('/')
    key: JsonObject = {'manufacturer': manufacturer, 'serialNumber': serial}
    while True:
        message = key | message_of(telemetry, connection)
        data = json.dumps(message, separators=(',', ':')).encode()
        if len(data) <= LONGEST or telemetry is None or not telemetry.shorten():
            return data


def read_telemetry(data: bytes) -> Telemetry | None:
    """Reads what is sent of a state; None where the bytes are not a JSON object."""
    try:
        state = json.loads(data)
    except (ValueError, RecursionError):
        return None
    if not isinstance(state, dict):
        return None
    errors = sorted(_objects(state, 'errors'), key=lambda one: one.get('errorLevel') != 'FATAL')
    actions = _objects(state, 'actionStates')
    failed = [one for one in actions if one.get('actionStatus') == 'FAILED']
    return Telemetry(
        _plain_members(state, MEMBERS),
        {
            part: _plain_members(state[part], names)
            for part, names in PARTS.items()
            if isinstance(state.get(part), dict)
        },
        [_error(one) for one in errors[:ERRORS]],
        [_plain_members(one, ACTION) for one in failed[-ACTIONS:]],
    )


def _error(error: JsonObject) -> VehicleError:
    """Reads an error of a state."""
    references = _objects(error, 'errorReferences')[:REFERENCES]
    members = _plain_members(error, ERROR)
    return VehicleError(members, [_plain_members(one, REFERENCE) for one in references])


def _objects(value: JsonObject, name: str) -> list[JsonObject]:
    """Returns the objects of a member that is a list, else none."""
    items = value.get(name)
    return [one for one in items if isinstance(one, dict)] if isinstance(items, list) else []


def _plain_members(value: JsonObject, names: tuple[str, ...]) -> Members:
    """Returns those of the named members that are plain, texts and numbers within bounds."""
    found: Members = {}
    for name in names:
        member = value.get(name)
        if isinstance(member, str):
            found[name] = member[:TEXT]
        elif isinstance(member, (int, float)) and member == member:  # a number, and not NaN
            found[name] = member if abs(member) < 10**18 else 0
    return found
