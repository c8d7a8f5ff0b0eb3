"""Keeps track of which vehicles the desk has."""
from __future__ import annotations

import time
from collections.abc import Collection, Iterable
from typing import Protocol

from ..desk.client import Answer, Refused, Vehicle
from ..desk.errors import told
from ..common.names import VehicleKey
from .log import Clock, Log

EVERY = 2.0  # the least seconds from one request to the next


class DeskCalls(Protocol):
    """The calls of `client.Desk` that a gateway makes. Each method raises `NoAnswer` if no desk
    answers; the last two also raise `Refused`."""

    address: str

    def ask(self, method: str, target: str, body: bytes | None = None) -> Answer:
        """Sends one request, and returns the answer."""

    def vehicles(self) -> Collection[VehicleKey]:
        """Returns the vehicles of the desk, at most 100."""

    def vehicle(self, vehicle: VehicleKey) -> Vehicle:
        """Returns what the desk knows of a vehicle."""


class DeskFleet:
    """The vehicles of the desk, by its export of vehicles.

    The desk is asked when a message has come from a vehicle that is not among them, or while one
    that the command line names is missing, and at most every EVERY seconds. So any number of
    invented vehicles costs one request in this time."""

    def __init__(
        self, desk: DeskCalls, named: Iterable[str], log: Log, clock: Clock = time.monotonic
    ) -> None:
        self.desk, self.named, self.log, self.clock = desk, frozenset(named), log, clock
        self.known: frozenset[str] = frozenset()
        self.refreshed_at: float | None = None

    def refresh(self, strangers: set[str]) -> bool:
        """Asks the desk for its vehicles if that is due. Returns whether it has answered."""
        now = self.clock()
        is_wanted = bool((strangers | self.named) - self.known)
        if not is_wanted or (self.refreshed_at is not None and now < self.refreshed_at + EVERY):
            return False
        self.refreshed_at = now
        try:
            found = self.desk.vehicles()
        except Refused as fault:
            self.log.of('desk', 'vehicles', f'the vehicles of the desk are unknown: {told(fault)}')
            return False
        self.log.of('desk', 'vehicles', None)
        self.known = frozenset(map(str, found))
        missing = ', '.join(sorted(self.named - self.known))
        line = f'the desk does not have what --vehicle names: {missing}' if missing else None
        self.log.of('desk', 'named', line)
        return True

    def forget(self, vehicle: str) -> None:
        """Notes that the desk does not have a vehicle."""
        self.known -= {vehicle}
