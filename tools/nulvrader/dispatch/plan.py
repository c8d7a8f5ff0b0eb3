"""The standing plan: moves one after another by which vehicles finish.

The dispatcher keeps one all the while. A release or an order is made only together with a plan for
what is then, and until a better one is found the dispatcher follows the one it has. So its
invariant is, behind each turn: the moves of the plan can be made as they stand, over nodes that
are free then, and all whom it names finish by them. Where it keeps all others able to finish later,
the first of its moves can be made at once, or as soon as a vehicle has driven off a node that it
still holds: as long as vehicles drive what they are given, something can always move, however
short the look is. Where it does not, one that stands has to go on first: a vehicle that is paused,
or one without an order in a dead end or on the way of others; or what is closed has to be opened.

What is here is a plain check of that. It shares nothing with the search that finds the moves."""
from __future__ import annotations

from collections.abc import Collection, Mapping, Sequence
from dataclasses import dataclass

Moves = Sequence[tuple[str, int]]
"""Moves one after another: a vehicle, and how many nodes of its way are before it afterwards."""


@dataclass(frozen=True)
class Plan:
    """A plan for vehicles on these ways, with these walls: who finishes by these moves. Each way
    begins with the last node that its vehicle holds. `is_joined`: who makes the moves keeps all
    others able to finish later; else one that stands may have to go on before."""

    ways: Mapping[str, Sequence[str]]
    walls: Collection[str]
    moves: Moves
    finishing: frozenset[str]
    is_joined: bool = True

    def fault(self) -> str | None:
        """Returns what is wrong with the plan, or None where it can be carried out."""
        at = {name: 0 for name in self.ways}
        on: dict[str, set[str]] = {}
        for name, way in self.ways.items():
            on.setdefault(way[0], set()).add(name)
        for name, left in self.moves:
            way = self.ways[name]
            while len(way) - 1 - at[name] > left:
                on[way[at[name]]].discard(name)
                at[name] += 1
                here = way[at[name]]
                by = on.setdefault(here, set())
                if by or here in self.walls:
                    return f'{name} is to go to {here}, where {min(by, default="a wall")} is then'
                by.add(name)
        for name in sorted(self.finishing):
            if name not in at or at[name] < len(self.ways[name]) - 1:
                return f'{name} does not finish'
        return None

    def can_move(self) -> bool:
        """Whether one of those that finish has something before it, and may go on."""
        return self.is_joined and any(len(self.ways[name]) > 1 for name in self.finishing)
