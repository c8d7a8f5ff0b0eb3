"""Keeps the states of a vehicle until the desk has answered them."""
from __future__ import annotations

from dataclasses import dataclass

from ..desk.states import Named, body_of, named_by_state, read_state

MOST = 4  # the most states of a vehicle that are kept


@dataclass(frozen=True)
class VehicleState:
    """A state of a vehicle: the body to post, the messages to the vehicle that it names, its
    headerId if it has one, and its order."""

    body: bytes
    named: list[Named]
    header: int | None
    order: object

    @classmethod
    def read(cls, data: bytes) -> VehicleState:
        """Reads what a vehicle has sent. Raises ValueError for bytes that no desk takes."""
        try:
            state = read_state(data)
            header = state.get('headerId')
            number = header if isinstance(header, int) else None
            return cls(body_of(state), named_by_state(state), number, state.get('orderId'))
        except RecursionError:
            raise ValueError('nested too deeply') from None

    def actions(self) -> set[str]:
        """Returns the ids of the actions that the state lists."""
        return {name for name in self.named if isinstance(name, str)}

    def stands_for(self, other: VehicleState) -> bool:
        """Whether the earlier state `other` says nothing that this one doesn't say."""
        return other.actions() <= self.actions() and other.order in ('', self.order)


class StateQueue:
    """The states of a vehicle that the desk has not answered, at most MOST, the oldest first.

    A state is complete: it says where the vehicle is, and what has become of each action of its
    order and of each instant action, for as long as it lists them (VDA 5050, actionStates). So a
    new state replaces the earlier ones, except for two kinds, which are posted before it. One lists
    an action that the new state does not list: the vehicle may have ended the action, accepted
    another order and cleared its list. The other names another order: that may have been a drive,
    which has no actions and whose end nothing else shows. The newest state is never dropped."""

    def __init__(self) -> None:
        self.states: list[VehicleState] = []

    def add(self, state: VehicleState) -> int:
        """Adds the newest state. Returns how many earlier ones were dropped for want of room."""
        kept = [one for one in self.states if not state.stands_for(one)]
        self.states = [*kept, state][-MOST:]
        return len(kept) + 1 - len(self.states)
