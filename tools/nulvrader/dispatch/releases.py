"""Releases the way of orders edge by edge."""
from __future__ import annotations

from collections.abc import Sequence

from ..common.names import natural
from ..desk.client import BadValue, Refused
from .shared import Shared, Turn
from .snapshot import Seen


class Releases:
    """Releases edges to the vehicles of a dispatcher."""

    def __init__(self, shared: Shared) -> None:
        self.shared, self.judge = shared, shared.judge

    def release(self, turn: Turn) -> int:
        """Releases edges, to the vehicle that has waited longest first. How often it has."""
        ahead = self.shared.settings.ahead
        vehicles = turn.seen.vehicles.values()
        count = 0
        for vehicle in sorted(
            vehicles, key=lambda one: (self._waits_since(one, turn.now), one.name)
        ):
            is_going = vehicle.name in turn.traffic.ways and vehicle.edges_left() > 0
            if not is_going or vehicle.edges >= ahead:
                continue
            if not vehicle.is_confirmed():
                if vehicle.edges == 0:
                    turn.reasons[
                        vehicle.name
                    ] = 'has not confirmed its order, until a state of it does'
                continue
            edges, why = self._edges_for(vehicle, turn, ahead - vehicle.edges)
            if edges and self._advance(vehicle, edges, turn):
                turn.traffic = turn.traffic.released(vehicle.name, edges)
                self.shared.memory[vehicle.name].waits = None
                count += 1
            elif vehicle.edges == 0:
                turn.reasons[vehicle.name] = why
        return count

    def with_order(self, turn: Turn, vehicle: str, way: Sequence[str]) -> int:
        """Returns how many edges are released with an order along this way. An edge is free where
        both of its ends are."""
        after = turn.traffic.started(vehicle, way)
        count = 0
        while count < min(self.shared.settings.ahead, len(way) - 1):
            free = turn.held.get('node ' + way[count + 1], vehicle) == vehicle
            if not free or not self.judge.may_release(after, vehicle, count + 1):
                break
            count += 1
        return count

    def _waits_since(self, vehicle: Seen, now: float) -> float:
        """Returns since when it waits; it is noted here that it does."""
        memory = self.shared.memory[vehicle.name]
        if vehicle.order is None or vehicle.edges or not vehicle.edges_left():
            memory.waits = None
        elif memory.waits is None:
            memory.waits = now
        return now if memory.waits is None else memory.waits

    def _edges_for(self, vehicle: Seen, turn: Turn, most: int) -> tuple[int, str]:
        """Returns how many edges, up to so many, may be released to a vehicle, and why no more."""
        assert vehicle.order is not None
        ahead = [edge for edge in vehicle.order.edges if not edge.released]
        at = f'waits at {ahead[0].start}'
        for count, edge in enumerate(ahead[:most]):
            for thing in ('edge ' + edge.name, 'node ' + edge.finish):
                if thing in turn.closed.names:
                    return count, f'{at}, since {thing} is closed, until that is opened'
                if turn.held.get(thing, vehicle.name) != vehicle.name:
                    return count, f'{at} for {thing}, which {turn.held[thing]} holds'
            if not self.judge.may_release(turn.traffic, vehicle.name, count + 1):
                if vehicle.name not in self.judge.finish_now(turn.traffic):
                    return count, f'{at}, since its way is blocked{self._by_whom(vehicle, turn)}'
                why = f'since on {edge.name} it would block others, or be blocked'
                return count, f'{at}, {why}'
        return min(most, len(ahead)), ''

    def _by_whom(self, vehicle: Seen, turn: Turn) -> str:
        """Returns who stands in the way of a vehicle and does not go on, or goes to where it is in
        the way; and what is closed there."""
        traffic = turn.traffic
        nodes = set(traffic.ways[vehicle.name][1:])
        found = [
            f'{name} at {" ".join(sorted(nodes & at, key=natural))}'
            for name, at in traffic.standing().items()
            if nodes & at
        ]
        if closed := turn.closed.first_on(traffic.ways[vehicle.name]):
            found.append(f'{closed}, which is closed')
        finish = self.judge.finish_now(traffic)
        for name, way in traffic.ways.items():
            if name != vehicle.name and (way[-1] if name in finish else way[0]) in nodes:
                where = f'to {way[-1]}' if name in finish else f'at {way[0]}'
                found.append(f'{name} (with an order {where})')
        if not found:
            found = [f'{name}, which has to go on first' for name in traffic.still]
        return ' by ' + ', '.join(sorted(found, key=natural)) if found else ''

    def _advance(self, vehicle: Seen, edges: int, turn: Turn) -> bool:
        assert vehicle.order is not None and vehicle.row.sent is not None
        shared = self.shared
        # (also where no answer comes: the next message tells)
        shared.memory[vehicle.name].left -= edges
        try:
            shared.desk.advance(vehicle.row.key, vehicle.order.name, vehicle.row.sent + 1, edges)
        except Refused as refusal:
            shared.tell_refusal(
                vehicle, f'{edges} edges of {vehicle.order.name} are refused', refusal
            )
            return False
        except BadValue as fault:
            shared.lines.once('refusal ' + vehicle.name, f'{vehicle.name}: {fault}')
            return False
        shared.no_refusal(vehicle)
        for edge in [edge for edge in vehicle.order.edges if not edge.released][:edges]:
            turn.held['edge ' + edge.name] = turn.held['node ' + edge.finish] = vehicle.name
        return True
