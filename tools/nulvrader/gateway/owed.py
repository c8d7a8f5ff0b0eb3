"""Keeps the messages that the desk has for vehicles until the vehicles have them."""
from __future__ import annotations

from dataclasses import dataclass

from ..desk.client import NotADesk
from ..desk.members import JsonObject, read_object
from ..desk.messages import read_instant_action, read_order
from ..desk.states import Named

AGAIN = 5.0  # seconds until a message that no state has named is published again
ORDER, INSTANT = 'order', 'instantActions'


@dataclass(frozen=True)
class DeskMessage:
    """A message that the desk has for a vehicle: its bytes, its members, and what a state names
    once the vehicle has the message."""

    body: bytes
    members: JsonObject
    name: Named


def read_message(topic: str, vehicle: str, body: bytes) -> DeskMessage:
    """Reads the message that a desk has for a vehicle. Raises `NotADesk` where no desk answers so,
    as for the message of another vehicle, which is never published."""
    members = read_object(body)
    name: Named
    if topic == ORDER:
        order = read_order(members)
        key, name = order.vehicle, (order.name, order.update)
    else:
        key, name = read_instant_action(members)
    if str(key) != vehicle:
        raise NotADesk(f'it has the {topic} of {key} for {vehicle}')
    return DeskMessage(body, members, name)


class Owed:
    """A message that the desk has for a vehicle, with the moment and the connection to the broker
    at which it was published last, and whether a state has named it."""

    def __init__(self, message: DeskMessage) -> None:
        self.message = message
        self.at: float | None = None
        self.connection: int | None = None
        self.is_named = False

    def see(self, named: list[Named]) -> None:
        """Notes what a state of the vehicle names. That the message was named once counts for good:
        a vehicle that has lost its order must not be told to carry out all of it again."""
        self.is_named = self.is_named or self.message.name in named

    def is_due(self, now: float, connection: int) -> bool:
        """Whether the message is to be published now. Each message is published once even if a
        state names it: a new desk counts its ids from the beginning again."""
        if self.at is None:
            return True
        return not self.is_named and (connection != self.connection or now >= self.at + AGAIN)
