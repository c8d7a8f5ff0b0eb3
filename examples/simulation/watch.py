"""What is watched while a plant runs: circles of vehicles that wait for each other's track."""
from __future__ import annotations

from collections.abc import Collection, Sequence

from nulvrader.desk.questions import BlockedOrder

from .truth import Wrong

Circle = tuple[BlockedOrder, ...]
"""Vehicles each of which waits for track that the next one holds, and the last for the first: none
of them gets free by itself."""


def circles(waits: Sequence[BlockedOrder]) -> list[Circle]:
    """Returns the circles among what the desk shows, each from the vehicle of the least name on."""
    left = {wait.vehicle: wait for wait in waits if wait.in_circle}
    found = []
    while left:
        circle = [left.pop(min(left))]
        while circle[-1].by in left:
            circle.append(left.pop(circle[-1].by))
        found.append(tuple(circle))
    return found


class Circles:
    """The circles of a plant, and since when each lasts. One that lasts longer than `most` seconds
    is `Wrong`: orders and released track alone have made it, and nothing but a cancel ends it."""

    def __init__(self, most: float) -> None:
        self.most, self.longest = most, 0.0
        self._since: dict[Circle, float] = {}

    def look(self, waits: Sequence[BlockedOrder], excused: Collection[str], now: float) -> None:
        """Takes who waits for whom in this moment. The time of a circle begins anew where one in it
        is excused: it does not go on for another reason."""
        found = [
            circle
            for circle in circles(waits)
            if not any(str(wait.vehicle) in excused for wait in circle)
        ]
        self._since = {circle: self._since.get(circle, now) for circle in found}
        for circle, since in self._since.items():
            self.longest = max(self.longest, now - since)
            if now - since > self.most:
                told = (
                    f'{wait.vehicle} waits at {wait.at} for {wait.what}, which {wait.by} holds'
                    for wait in circle
                )
                raise Wrong(
                    f'a circle from {since:.0f} s on, for {now - since:.0f} s: {"; ".join(told)}'
                )
