"""Whether some order of moves lets every vehicle finish its way. This module is pure: it knows
nodes, ways and walls, and no desk.

A vehicle stands on one node and goes along a fixed way, node by node. It goes on where the next
node is free, and stays for good on the last node of its way. A wall is a node that stays taken: by
a vehicle without a way, or by one that does not go on. A vehicle holds an edge only together with
both of its ends, so nodes alone say who is in whose way.

Whether all can finish is NP-hard in general, so the look goes in three parts:

- **Moves that were found before.** Where most is as it was in an earlier look, the moves of that
  one are tried first.
- **Moves that take nothing from anybody.** A vehicle goes ahead, over free nodes, to a node that no
  other vehicle still has before it. There it is in nobody's way, so whatever was possible before is
  possible after. All moves of this kind are made first, as long as there are any. The time is
  polynomial, and on a layout with places to wait it mostly is all.
- **A search for the rest.** Where vehicles are left that can only go to nodes that others want too,
  such moves are tried, one after another, and behind each of them those of the second kind; but
  none after which some two vehicles could not both finish, were they alone, as two that meet on a
  single track. Groups that have no node in common are searched one by one, in several tries with
  the vehicles in another order each time, and of each at most `budget` states are looked at. A
  budget that is used up counts as a no.

So a yes is always right, since moves were found. A no may be wrong only where the budget was used
up.

Sets of nodes are whole numbers here, with a bit for each node (`lanes.py`), so that a look is
quick.
"""
from __future__ import annotations

import itertools
import random
from collections.abc import Collection, Mapping, Sequence
from dataclasses import dataclass

from .search_space import SearchSpace, State
from .lanes import Ground, Way
from .plan import Moves

BUDGET = 300
"""So many states are looked at where a look does not say another number."""

TRY = 20
"""So many states a try looks at, or one for each vehicle: each second try twice as many, each
fourth one four times, and so on."""


@dataclass(frozen=True)
class Found:
    """Vehicles that finish by these moves; `left` has of each vehicle how many nodes of its way are
    before it behind them. The others stay where they are or go ahead to make room."""

    finishing: frozenset[str]
    moves: Moves
    left: Mapping[str, int]


def found_in(space: SearchSpace, state: State) -> Found:
    lanes, names = space.lanes, space.names
    moves = [(names[vehicle], lanes[vehicle].end - to) for vehicle, to in state.moves]
    left = {name: lane.end - at for name, lane, at in zip(names, lanes, state.at)}
    return Found(frozenset(name for name, nodes in left.items() if not nodes), moves, left)


def along(
    ways: Mapping[str, Way],
    walls: Collection[str],
    moves: Moves,
    ground: Ground | None = None,
    *,
    settle: bool = True,
) -> Found:
    """Returns who finishes by those of these moves that can be made, and behind them, if these are
    to be made, by moves that take nothing from anybody."""
    space = SearchSpace(ways, walls, ground)
    state = space.start()
    space.follow(state, moves)
    if settle:
        space.settle(state)
    return found_in(space, state)


def look(
    ways: Mapping[str, Way],
    walls: Collection[str] = (),
    budget: int = BUDGET,
    wanted: Collection[str] | None = None,
    ground: Ground | None = None,
) -> Found:
    """Returns an order of moves by which all of the wanted vehicles finish, or, where none are
    named, all that can. Where it is not found, the best that was."""
    space = SearchSpace(ways, walls, ground)
    first = space.start()
    space.settle(first)
    if wanted is None:
        goal = space.goal(first)
    else:
        goal = frozenset(vehicle for vehicle, name in enumerate(space.names) if name in wanted)
        if not goal.isdisjoint(space.lost(first)):
            return found_in(space, first)
    state = first
    for group in space.groups(first):
        here = goal.intersection(group)
        together = space.together(state, here)
        if wanted is not None and together != here:
            break
        state = search(space, state, group, together, budget)
        if wanted is not None and not space.has_all(state, here):
            break
    return found_in(space, state)


def search(
    space: SearchSpace, first: State, group: Sequence[int], goal: frozenset[int], budget: int
) -> State:
    """Returns a state behind this one, after moves of the group alone, in which those of the goal
    have finished; or, where none is found in so many, that in which the most have. It is tried
    again and again, with the vehicles in another order each time: a search that has begun badly
    takes long to get out of it, and one in another order seldom begins so. Each second try is
    longer."""
    chance, order, best = random.Random(0), list(group), first
    for n in itertools.count(1):
        found, looked, is_all = tried(
            space, first, order, goal, min(max(TRY, len(order)) * (n & -n), budget)
        )
        if space.count(found, group) > space.count(best, group) or space.has_all(found, goal):
            best = found
        budget -= looked
        if is_all or budget <= 0 or space.has_all(best, goal):
            break
        chance.shuffle(order)
    return best


def tried(
    space: SearchSpace, first: State, order: Sequence[int], goal: frozenset[int], most: int
) -> tuple[State, int, bool]:
    """Returns the best state that is found in so many, with those vehicles first that come first
    here; how many were looked at; and whether there are no others."""
    best, count, looked = first, space.count(first, order), 0
    seen, rows = {tuple(first.at)}, [space.steps(first, order, goal)]
    while not space.has_all(best, goal) and rows and looked < most:
        state = next(rows[-1], None)
        if state is None:
            rows.pop()
            continue
        space.settle(state, order)
        key = tuple(state.at)
        if key in seen:
            continue
        seen.add(key)
        looked += 1
        over = space.count(state, order)
        if over > count or space.has_all(state, goal):
            best, count = state, over
        if goal.isdisjoint(space.waiting_for_good(state)):
            rows.append(space.steps(state, order, goal))
    return best, looked, not rows


def finishing(
    ways: Mapping[str, Way], walls: Collection[str] = (), budget: int = BUDGET
) -> frozenset[str]:
    """Returns the vehicles that finish by some order of moves: all of them where the look finds
    one, else those of the best that it has found."""
    return look(ways, walls, budget).finishing


def after_release(ways: Mapping[str, Way], vehicle: str, nodes: int) -> dict[str, Way]:
    """Returns the ways once the next `nodes` nodes were released to the vehicle, and it has gone
    over them."""
    return {**ways, vehicle: ways[vehicle][nodes:]}
