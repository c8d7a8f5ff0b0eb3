"""Reads the messages of vehicles, and makes of a state the body that the desk's profile takes
(docs/PROFILE.md)."""
from __future__ import annotations

import decimal
import json
from collections.abc import Container, Mapping
from typing import Union

from .members import JsonObject
from ..common.tables import BODY

LEAST, MOST = decimal.Decimal(-(2**63)), decimal.Decimal(2**64 - 1)
SHORT = 19  # a number of so many digits is below 2 ** 64,
EXACT = 15  # and a decimal of so many characters is exact enough as a float
POSITIONS = {'agvPosition', 'velocity'}
READ = (
    'headerId',
    'timestamp',
    'version',
    'manufacturer',
    'serialNumber',
    'orderId',
    'orderUpdateId',
    'lastNodeId',
    'lastNodeSequenceId',
    'nodeStates',
    'actionStates',
    'operatingMode',
    'errors',
    'safetyState',
    'paused',
)
READ_OF = {
    'nodeStates': ('sequenceId',),
    'actionStates': ('actionId', 'actionStatus'),
    'errors': ('errorLevel',),
}

# What a state can name of the messages to its vehicle: an order with its update, or the id of an
# action.
Named = Union[str, 'tuple[object, object]']


def whole(text: str) -> int:
    """Returns the whole number nearest to a number of JSON, of two the even one, within 64 bits."""
    if len(text) <= SHORT and text.isdigit():
        return int(text)
    if len(text) <= EXACT and 'e' not in text and 'E' not in text:
        return round(float(text))  # a tie is the same number as a float
    try:
        number = decimal.Decimal(text)
    except decimal.InvalidOperation:
        raise ValueError(f'{text[:40]} is out of range') from None
    return int(min(max(number, LEAST), MOST).to_integral_value(decimal.ROUND_HALF_EVEN))


def no_number(text: str) -> None:
    """Raises ValueError for `NaN` and `Infinity`, which `json` would read."""
    raise ValueError(f'{text} is no JSON')


def without(value: object, names: Container[str]) -> object:
    """Returns an array with its objects without these members, and any other value as it is."""
    if not isinstance(value, list):
        return value
    return [
        (
            {name: one for name, one in item.items() if name not in names}
            if isinstance(item, dict)
            else item
        )
        for item in value
    ]


def read_sent(data: bytes) -> JsonObject:
    """Reads the JSON object that a vehicle has sent, with all its numbers whole. Raises ValueError
    for bytes that are none."""
    try:
        found = json.loads(
            data.decode(), parse_float=whole, parse_int=whole, parse_constant=no_number
        )
    except RecursionError:
        raise ValueError('nested too deeply') from None
    if not isinstance(found, dict):
        raise ValueError('no object')
    return found


def read_state(data: bytes) -> JsonObject:
    """Reads a state that a vehicle has sent, as the desk takes it: without positions, and with all
    numbers whole. Raises ValueError for bytes that are not a JSON object."""
    state = {name: value for name, value in read_sent(data).items() if name not in POSITIONS}
    for name, left_out in (('nodeStates', {'nodePosition'}), ('edgeStates', {'trajectory'})):
        if name in state:
            state[name] = without(state[name], left_out)
    return state


def body_of(state: Mapping[str, object]) -> bytes:
    """Returns the body of a state, of one that is too long with only the members that the desk
    reads. Raises ValueError where that is too long, too."""
    body = json.dumps(state, separators=(',', ':')).encode()
    if len(body) > BODY:
        short = {name: state[name] for name in READ if name in state}
        for name, members in READ_OF.items():
            items = short.get(name)
            if isinstance(items, list):
                short[name] = [_only(item, members) for item in items]
        body = json.dumps(short, separators=(',', ':')).encode()
    if len(body) > BODY:
        raise ValueError('longer than the desk takes')
    return body


def _only(item: object, names: tuple[str, ...]) -> object:
    """Returns an object with only these members, in this order, and any other value as it is."""
    if not isinstance(item, dict):
        return item
    return {name: item[name] for name in names if name in item}


def instant_for_vehicle(message: Mapping[str, object], name: str) -> JsonObject:
    """Returns an instantActions message with its list under the name that the vehicle takes."""
    found = dict(message)
    found[name] = found.pop('actions')
    return found


def named_by_state(state: Mapping[str, object]) -> list[Named]:
    """Returns what a state names of the messages to its vehicle: the order with its update, and the
    ids of the actions."""
    actions = state.get('actionStates')
    listed = actions if isinstance(actions, list) else []
    ids = [action.get('actionId') for action in listed if isinstance(action, dict)]
    order = (state.get('orderId'), state.get('orderUpdateId'))
    return [order, *(name for name in ids if isinstance(name, str))]
