"""What the search for moves goes through: vehicles on their ways, what moves they have, and who of
them can still finish. It knows nodes, ways and walls as `deadlock.py` says it."""
from __future__ import annotations

from collections.abc import Collection, Iterable, Iterator, Mapping

from .lanes import Ground, Way
from .plan import Moves


class State:
    """Where the vehicles stand: `at` has the index on its way of each, `taken` the nodes of all,
    and `moves` how they came there."""

    __slots__ = ('at', 'taken', 'moves')

    def __init__(self, at: list[int], taken: int, moves: list[tuple[int, int]]) -> None:
        self.at, self.taken, self.moves = at, taken, moves

    def copy(self) -> State:
        return State(self.at.copy(), self.taken, self.moves.copy())


class SearchSpace:
    """Vehicles on their ways. Vehicles are numbers here; `names` has their names."""

    def __init__(
        self, ways: Mapping[str, Way], walls: Collection[str], ground: Ground | None = None
    ) -> None:
        self.ground = ground = Ground() if ground is None else ground
        self.names = sorted(ways)
        on = [ground.lane_of(name, ways[name]) for name in self.names]
        self.lanes = [lane for lane, _ in on]
        self.starts = [at for _, at in on]
        self.walls = ground.bits(walls)
        self._meets: list[dict[int, tuple[int, list[int]]] | None] = [None] * len(on)

    def start(self) -> State:
        """Returns each vehicle at the beginning of its way, which may be amid its lane."""
        taken = 0
        for lane, at in zip(self.lanes, self.starts):
            taken |= lane.bits[at]
        return State(self.starts.copy(), taken, [])

    def move(self, state: State, vehicle: int, to: int) -> None:
        """Has a vehicle go ahead to the node of this index."""
        bits = self.lanes[vehicle].bits
        state.taken = state.taken ^ bits[state.at[vehicle]] | bits[to]
        state.at[vehicle] = to
        state.moves.append((vehicle, to))

    def others(self, state: State, vehicle: int) -> int:
        """Returns the nodes where others stand, and the walls. A wall stays one, though a vehicle
        leaves it."""
        return state.taken ^ self.lanes[vehicle].bits[state.at[vehicle]] | self.walls

    def shared(self, state: State, among: Iterable[int]) -> int:
        """Returns the nodes that two or more of these vehicles still have before them, as bits. On
        any other node a vehicle is in the way of none of them."""
        lanes, at = self.lanes, state.at
        once = more = 0
        for vehicle in among:
            rest = lanes[vehicle].rest[at[vehicle]]
            more |= once & rest
            once |= rest
        return more

    def furthest(self, state: State, vehicle: int, shared: int) -> int:
        """Returns the index of the last node to which the vehicle can go over free nodes and where
        it is in nobody's way."""
        lane, best = self.lanes[vehicle], state.at[vehicle]
        bits, others = lane.bits, self.others(state, vehicle)
        if bits[best + 1] & others:
            return best
        if not lane.rest[best] & others:
            return next(
                (index for index in range(lane.end, best, -1) if not bits[index] & shared), best
            )
        for index in range(best + 1, lane.end + 1):
            if bits[index] & others:
                break
            if not bits[index] & shared:
                best = index
        return best

    def settle(self, state: State, among: Iterable[int] | None = None) -> None:
        """Makes all moves that take nothing from anybody. It leads to the same state in whichever
        order they are made. Where vehicles are named, no other one that has not finished has a node
        in common with these."""
        lanes, at, moved = self.lanes, state.at, True
        left: Iterable[int] = range(len(lanes)) if among is None else among
        while moved:
            moved, left = False, [vehicle for vehicle in left if at[vehicle] < lanes[vehicle].end]
            shared = self.shared(state, left)
            for vehicle in left:
                lane, index = lanes[vehicle], at[vehicle]
                if not lane.rest[index] & ~shared or lane.bits[index + 1] & state.taken:
                    continue  # (most can't)
                to = self.furthest(state, vehicle, shared)
                if to > index:
                    self.move(state, vehicle, to)
                    moved, shared = True, self.shared(state, left)

    def is_free(self, state: State, vehicle: int, to: int) -> bool:
        """Whether the nodes ahead of a vehicle are free, to the one of this index."""
        lane, at = self.lanes[vehicle], state.at[vehicle]
        taken = lane.rest[at] & self.others(state, vehicle)
        if taken & ~lane.rest[to]:
            return False  # one that is not passed again behind it
        return not taken or not any(bit & taken for bit in lane.bits[at + 1 : to + 1])

    def follow(self, state: State, moves: Moves) -> None:
        """Makes those of these moves that lead ahead over free nodes."""
        numbers = {name: vehicle for vehicle, name in enumerate(self.names)}
        for name, left in moves:
            vehicle = numbers.get(name)
            if vehicle is not None:
                to = self.lanes[vehicle].end - left
                if to > state.at[vehicle] and self.is_free(state, vehicle, to):
                    self.move(state, vehicle, to)

    def finished(self, state: State) -> frozenset[int]:
        return frozenset(
            vehicle for vehicle, lane in enumerate(self.lanes) if state.at[vehicle] == lane.end
        )

    def has_all(self, state: State, goal: Iterable[int]) -> bool:
        """Whether these have finished."""
        return all(state.at[vehicle] == self.lanes[vehicle].end for vehicle in goal)

    def steps(self, state: State, among: Iterable[int], goal: frozenset[int]) -> Iterator[State]:
        """Yields each state after one move of one of these vehicles, as a copy: `state` itself
        stays. A move leads ahead over free nodes, and the longest of a vehicle comes first. Moves
        that could not be part of a solution are left out: those after which the vehicle stands for
        good in the way of one of the goal, and those after which it and another one of the goal
        can't both finish."""
        for vehicle in among:
            lane, index, others = (
                self.lanes[vehicle],
                state.at[vehicle],
                self.others(state, vehicle),
            )
            to = next((at for at in range(index, lane.end) if lane.bits[at + 1] & others), lane.end)
            for at in range(to, index, -1):
                after = state.copy()
                self.move(after, vehicle, at)
                if not self.shuts_in(after, vehicle, goal) and (
                    vehicle not in goal or self.passes(after, vehicle, goal)
                ):
                    yield after

    def passes(self, state: State, vehicle: int, others: Iterable[int]) -> bool:
        """Whether the vehicle and each of these others can both finish, were the two alone."""
        left, at = self.lanes[vehicle].end - state.at[vehicle], state.at
        meets = self._meets[vehicle]
        if meets is None:
            meets = self._meets[vehicle] = self.meets(vehicle)
        for other in others:
            if other in meets:
                end, passes = meets[other]
                if not passes[left] >> end - at[other] & 1:
                    return False
        return True

    def meets(self, vehicle: int) -> dict[int, tuple[int, list[int]]]:
        """Returns of each other vehicle whose lane has a node in common with that of this one its
        last index, and from where both can finish."""
        lane = self.lanes[vehicle]
        return {
            other: (it.end, self.ground.passes(lane, it))
            for other, it in enumerate(self.lanes)
            if other != vehicle and lane.all & it.all
        }

    def together(self, state: State, goal: Iterable[int]) -> frozenset[int]:
        """Returns those of the goal of which each two can both finish: of two that can't the first
        alone."""
        found: list[int] = []
        for vehicle in sorted(goal):
            if self.passes(state, vehicle, found):
                found.append(vehicle)
        return frozenset(found)

    def lost(self, state: State) -> frozenset[int]:
        """Returns the vehicles that do not finish any more, whatever moves: those on whose way a
        wall or a vehicle that has finished stands; and those whose next node is taken for good, by
        one of these or in a ring of vehicles of which each waits for the next, and those that wait
        for these."""
        ends = self.walls
        for vehicle in self.finished(state):
            ends |= self.lanes[vehicle].bits[-1]
        shut_in = {
            vehicle
            for vehicle, (lane, at) in enumerate(zip(self.lanes, state.at))
            if lane.rest[at] & ends
        }
        return frozenset(shut_in | self.waiting_for_good(state))

    def waiting_for_good(self, state: State) -> set[int]:
        """Returns the vehicles whose next node is taken for good: by a wall, by one that has
        finished, or in a ring of vehicles of which each waits for the next; and those that wait for
        these."""
        at, lanes = state.at, self.lanes
        on = {lane.bits[index]: vehicle for vehicle, (lane, index) in enumerate(zip(lanes, at))}
        told: dict[int, bool] = {}
        for first in range(len(lanes)):
            row, now = [], first
            while now not in told:
                if now in row:
                    told[now] = True
                elif at[now] == lanes[now].end:
                    told[now] = True  # it stays there
                else:
                    after = lanes[now].bits[at[now] + 1]
                    other = on.get(after, now)
                    row.append(now)
                    if after & self.walls:
                        told[now] = True
                    elif other == now:
                        told[now] = False
                    else:
                        now = other
            for vehicle in row:
                told[vehicle] = told[now]
        return {
            vehicle for vehicle, stays in told.items() if stays and at[vehicle] < lanes[vehicle].end
        }

    def shuts_in(self, state: State, vehicle: int, goal: frozenset[int]) -> bool:
        """Whether the vehicle has finished on a node that one of these still has before it."""
        lane = self.lanes[vehicle]
        if state.at[vehicle] < lane.end:
            return False
        return any(
            self.lanes[other].rest[state.at[other]] & lane.bits[-1]
            for other in goal
            if other != vehicle
        )

    def goal(self, state: State) -> frozenset[int]:
        """Returns those that perhaps finish: of vehicles that end at the same node one alone
        does."""
        found, lost = set(self.finished(state)), self.lost(state)
        ends = {self.lanes[vehicle].bits[-1] for vehicle in found}
        for vehicle, lane in enumerate(self.lanes):
            if vehicle not in found and vehicle not in lost and lane.bits[-1] not in ends:
                found.add(vehicle)
                ends.add(lane.bits[-1])
        return frozenset(found)

    def groups(self, state: State) -> list[list[int]]:
        """Returns the vehicles that have not finished, in groups of which none has a node in common
        with another, now or later."""
        found: list[tuple[int, list[int]]] = []
        for vehicle, (lane, at) in enumerate(zip(self.lanes, state.at)):
            if at < lane.end:
                nodes, members = lane.bits[at] | lane.rest[at], [vehicle]
                for group in [group for group in found if group[0] & nodes]:
                    nodes, members = nodes | group[0], members + group[1]
                    found.remove(group)
                found.append((nodes, members))
        return [sorted(members) for _, members in found]

    def count(self, state: State, among: Iterable[int]) -> int:
        """Returns how many of these have finished."""
        return sum(1 for vehicle in among if state.at[vehicle] == self.lanes[vehicle].end)
