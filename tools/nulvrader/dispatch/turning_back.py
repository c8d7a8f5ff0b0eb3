"""Vehicles that wait with an order behind one that stands. An order can't change its way, so it is
cancelled, and its vehicle led away as any that has none."""
from __future__ import annotations

from collections.abc import Mapping
from dataclasses import replace

from .parking import Parking
from .shared import Shared, Turn
from .snapshot import Seen

DRIVE, JOBS = 60.0, 300.0
"""A drive of this dispatcher is cancelled that has waited for so many seconds behind what stands in
its way; and any other order, if its vehicle carries nothing and is in the way of others. Its jobs
are stopped by that."""


class TurningBack:
    """Cancels orders whose vehicles wait behind one that stands."""

    def __init__(self, shared: Shared, parking: Parking) -> None:
        self.shared, self.parking = shared, parking

    def look(self, turn: Turn, wanted: set[str], picks: list[str]) -> bool:
        """Cancels the order that has waited longest of those that are to be. Whether there was one.
        Vehicles are led to no node that is `wanted`, and best near the `picks`."""
        memory = self.shared.memory
        rows = [one for one in turn.seen.vehicles.values() if self._is_to_end(one, turn)]
        for vehicle in sorted(rows, key=lambda one: (memory[one.name].waits or 0.0, one.name)):
            if self._can_leave(vehicle, turn, wanted, picks):
                why = turn.reasons.get(vehicle.name, 'its way is blocked')
                return self.shared.cancel(vehicle, f', and turns back: {why}')
        return False

    def _is_to_end(self, vehicle: Seen, turn: Turn) -> bool:
        """Whether a vehicle stands with an order, could be without it, and waits for what does not
        go on."""
        one, name = self.shared.memory[vehicle.name], vehicle.name
        if one.waits is None or vehicle.order is None or name not in turn.traffic.ways:
            return False
        is_drive = vehicle.order.is_drive() and one.asked == vehicle.order.name
        if turn.now - one.waits < (DRIVE if is_drive else JOBS) or vehicle.edges > 0:
            return False
        if vehicle.row.pending is not None or not vehicle.is_confirmed() or vehicle.has_to_act():
            return False
        if not is_drive and (vehicle.loads or not turn.traffic.in_the_way(name)):
            return False
        return name not in self.shared.judge.finish_now(turn.traffic)

    def _can_leave(self, vehicle: Seen, turn: Turn, wanted: set[str], picks: list[str]) -> bool:
        """Whether a vehicle could be led away at once, had it no order."""
        ways = {name: way for name, way in turn.traffic.ways.items() if name != vehicle.name}
        parked: Mapping[str, frozenset[str]] = {
            **turn.traffic.parked,
            vehicle.name: vehicle.nodes,
        }
        without = replace(turn.traffic, ways=ways, parked=parked)
        return self.parking.away(vehicle, wanted, picks, without) is not None
