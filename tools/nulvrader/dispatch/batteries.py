"""The batteries of vehicles, as gateways tell them on a socket."""
from __future__ import annotations

import time
from collections.abc import Callable, Collection, Mapping

from ..board.words_socket import Heard

AGE = 600.0
"""What a vehicle has told counts for so many seconds."""

Batteries = Callable[[Collection[str]], Mapping[str, float]]
"""Returns the charge in percent of those of these vehicles that have told it."""


def untold(_: Collection[str]) -> Mapping[str, float]:
    """Returns nothing: no vehicle has told its charge."""
    return {}


class ToldBatteries:
    """What was told last of each vehicle."""

    def __init__(self, heard: Heard, clock: Callable[[], float] = time.monotonic) -> None:
        self.heard, self.clock = heard, clock
        self._last: dict[str, tuple[float, float]] = {}  # by vehicle its charge, and when

    def of(self, vehicles: Collection[str]) -> Mapping[str, float]:
        """Returns the charge of those of these vehicles that have told it lately."""
        self.heard.known = frozenset(vehicles)
        now = self.clock()
        for vehicle, words in self.heard.take().items():
            charges = [one.battery for one in words if one.battery is not None]
            if charges:
                self._last[vehicle] = charges[-1], now
        self._last = {
            vehicle: (charge, at)
            for vehicle, (charge, at) in self._last.items()
            if vehicle in self.heard.known and now - at <= AGE
        }
        return {vehicle: charge for vehicle, (charge, _) in self._last.items()}
