"""Leads vehicles without an order away, by drives."""
from __future__ import annotations

from collections.abc import Mapping, Sequence

from ..desk.client import Refused
from .charging import Charging
from .parking import Drive, Parking
from .releases import Releases
from .shared import Shared, Turn
from .snapshot import Seen
from .turning_back import TurningBack

REST = 10.0
"""A vehicle for which the desk has refused a drive is sent on none for so many seconds."""


class Drives:
    """Asks for the drives that are proposed."""

    def __init__(
        self, shared: Shared, parking: Parking, charging: Charging, releases: Releases
    ) -> None:
        self.shared, self.parking, self.charging = shared, parking, charging
        self.releases = releases
        self.turning_back = TurningBack(shared, parking)
        self._idle: dict[str, float] = {}  # since when vehicles without an order have none
        self._drives = True  # whether the desk has drives, as far as is known
        self._rests: dict[str, float] = {}  # until when no drive is asked for these vehicles

    def begin_turn(self, turn: Turn, idle: Mapping[str, Seen]) -> None:
        """Notes since when vehicles have no order."""
        self._idle = {name: self._idle.get(name, turn.now) for name in idle}

    def charge(self, turn: Turn, idle: dict[str, Seen]) -> bool:
        """Has a vehicle drive to a charger before any gets a job, one in a turn, or one that has
        enough leave its charger for another one. Whether one does."""
        turn.reasons.update(self.charging.flat())
        return self._charge(turn, idle, self.charging.first(self._may(turn, idle), turn.traffic))

    def charge_idle(self, turn: Turn, idle: dict[str, Seen]) -> bool:
        """Has a vehicle that got no job drive to a charger, or leave it. Whether one does."""
        may = self._may(turn, idle)
        return self._charge(turn, idle, self.charging.later(may, self._idle, turn.traffic))

    def _may(self, turn: Turn, idle: Mapping[str, Seen]) -> list[Seen]:
        """Returns the vehicles that may be sent on a drive."""
        if not self._drives:
            return []
        return [one for name, one in idle.items() if turn.now >= self._rests.get(name, turn.now)]

    def _charge(self, turn: Turn, idle: dict[str, Seen], wanting: Sequence[Seen]) -> bool:
        if not wanting:
            return False
        may = self._may(turn, idle)
        found, leaves = self.charging.propose(wanting, may, turn.traffic)
        if found is not None:
            return self._drive(turn, idle, found, 'to charge')
        if leaves is not None:
            drops, picks = self._wanted()
            away = self.parking.away(leaves, {*drops, *picks}, picks, turn.traffic)
            if away is not None:
                return self._drive(turn, idle, away, 'since another vehicle is to charge')
        for one in wanting:
            if one.name in idle and self.charging.rests(one.name) is not None:
                turn.reasons[one.name] = self.charging.why_not(one, turn.traffic)
        return False

    def park(self, turn: Turn, idle: dict[str, Seen]) -> bool:
        """Has a vehicle without an order drive where it is in nobody's way, one in a turn. Whether
        one does. One at a charger stays there, but on the way of another vehicle."""
        drops, picks = self._wanted()
        may = [
            one
            for one in self._may(turn, idle)
            if not self.charging.stays(one.name, one.row.node in drops)
            or turn.traffic.in_the_way(one.name)
        ]
        found = self.parking.propose(may, self._idle, drops, picks, turn.traffic, turn.now)
        return found is not None and self._drive(turn, idle, found)

    def turn_back(self, turn: Turn) -> bool:
        """Has a vehicle with an order turn back that waits behind one that stands, if the desk has
        drives by which it gets away. Whether one does."""
        drops, picks = self._wanted()
        return self._drives and self.turning_back.look(turn, {*drops, *picks}, picks)

    def _wanted(self) -> tuple[set[str], list[str]]:
        """Returns the nodes where jobs that wait are to be put down, and those where they are
        picked."""
        node_of, waiting = self.shared.ways.node_of, self.shared.book.waiting.values()
        return {node_of(one.target) for one in waiting}, [node_of(one.origin) for one in waiting]

    def _drive(self, turn: Turn, idle: dict[str, Seen], found: Drive, why: str = '') -> bool:
        """Asks for a drive. Whether the vehicle has it, and so is without an order no more."""
        edges = self.releases.with_order(turn, found.vehicle, found.way)
        if not self._give(found, idle[found.vehicle], edges, why):
            self._rests[found.vehicle] = turn.now + REST
            return False
        del idle[found.vehicle]
        turn.start(found.vehicle, found.way, edges)
        return True

    def _give(self, found: Drive, vehicle: Seen, edges: int, why: str) -> bool:
        """Asks for a drive. A desk that has no such call is not asked again."""
        shared, memory = self.shared, self.shared.memory[vehicle.name]
        order = memory.ask()
        try:
            shared.desk.start_drive(order, vehicle.row.key, found.to, edges)
        except Refused as refusal:
            if refusal.name == 'NoPath':
                self._drives = False
                shared.say('the desk has no drives: a vehicle without an order stays where it is')
            else:
                shared.tell_refusal(vehicle, f'it does not drive to {found.to}', refusal)
            return False
        shared.no_refusal(vehicle)
        to = f'{found.to} {why}'.rstrip()
        shared.say(f'{vehicle.name}: drives to {to}, by order {order}')
        memory.begin(order, (), len(found.way) - 1 - edges, found.to)
        return True
