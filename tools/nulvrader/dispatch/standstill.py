"""What is done where nothing moves, or vehicles shut one another in."""
from __future__ import annotations

from .shared import Shared, Turn
from .shut_in import MOST_TIMES, ShutIn
from .snapshot import Seen


class Standstill:
    """Looks deeper where all vehicles wait, and cancels an order where it can't be helped."""

    def __init__(self, shared: Shared) -> None:
        self.shared, self.judge = shared, shared.judge
        self.shut_in = ShutIn(shared.judge, shared.memory)

    def look_deeper(self, turn: Turn, moved: bool) -> None:
        """Lets the look have more states where all vehicles wait, and fewer again once one
        moves."""
        stand = not moved and all(
            vehicle.edges == 0
            for vehicle in turn.seen.vehicles.values()
            if vehicle.name in turn.traffic.ways
        )
        if stand:
            self.judge.times = min(self.judge.times * 4, MOST_TIMES)
        elif moved:
            self.judge.times = 1

    def untangle(self, turn: Turn) -> None:
        """Cancels, where vehicles with orders shut one another in, an order of these that has not
        left its first node: at once where nothing moves, else where it has been so for a while. It
        comes to that by orders that people give, or where they place a vehicle in a dead end. Where
        there is no such order it says so."""
        vehicles = turn.seen.vehicles
        stay = [vehicles[name] for name in self.shut_in.end_turn(turn.traffic, turn.now)]
        for vehicle in stay:
            if _is_fresh(vehicle) and vehicle.row.pending is None and self._cancel(vehicle):
                return
        memory = self.shared.memory
        told = [f'{one.name} is shut in, {memory[one.name].shut_by}' for one in stay]
        if self.shared.lines.lasts('shut in', '; '.join(told) or None, turn.now):
            self.shared.say(f'{"; ".join(told)}: cancel the order of one')

    def _cancel(self, vehicle: Seen) -> bool:
        """Cancels an order. The others may get free by it."""
        memory = self.shared.memory
        why = f': it and others block one another, {memory[vehicle.name].shut_by}'
        if not self.shared.cancel(vehicle, why):
            return False
        self.judge.times = 1
        for one in memory.values():
            one.shut_in = None
        return True


def _is_fresh(vehicle: Seen) -> bool:
    """Whether a vehicle has an order of which nothing was done or released: not updated, no edge
    released, and no load aboard. Such an order may be cancelled at no cost."""
    is_new = vehicle.row.sent == vehicle.row.confirmed == 0
    return is_new and vehicle.edges == 0 and not vehicle.loads
