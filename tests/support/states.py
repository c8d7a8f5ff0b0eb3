"""A vehicle of the tests, and its states as messages."""
from nulvrader.common import names
from tests.support.calls import state
from typing import Any

KIT1, KIT2 = names.VehicleKey('KIT', '0001'), names.VehicleKey('KIT', '0002')


def told(
    number: int,
    order: str = '',
    update: int = 0,
    node: str = 'N1',
    sequence: int = 0,
    statuses: Any = (),
    serial: str = '0001',
    **others: Any,
) -> Any:
    """A state of a vehicle that is ready, as a message."""
    return state(number, order, update, node, sequence, statuses, serial, **others)[1]
