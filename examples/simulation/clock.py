"""The time of a plant: seconds from 0 on, in which things happen one after another."""
from __future__ import annotations

import heapq
import itertools
import time
from collections.abc import Callable


class Clock:
    """What is to happen, by its moment. With a `pace` so many seconds of the plant go by in one of
    real time at most; without, it runs as fast as it can."""

    def __init__(self, pace: float | None = None) -> None:
        self.now = 0.0
        self.pace = pace
        self._begun = time.monotonic()
        self._count = itertools.count()
        self._rows: list[tuple[float, int, Callable[[], None]]] = []

    def after(self, seconds: float, what: Callable[[], None]) -> None:
        """Has something happen in so many seconds."""
        heapq.heappush(self._rows, (self.now + seconds, next(self._count), what))

    def every(self, seconds: float, what: Callable[[], None], first: float = 0.0) -> None:
        """Has something happen again and again."""

        def turn() -> None:
            self.after(seconds, turn)
            what()

        self.after(first, turn)

    def run(self, until: Callable[[], bool]) -> None:
        """Lets things happen until it is time to end, which is looked at before each."""
        while self._rows and not until():
            moment, _, what = heapq.heappop(self._rows)
            if self.pace is not None:
                ahead = (moment / self.pace) - (time.monotonic() - self._begun)
                if ahead > 0:
                    time.sleep(ahead)
                else:
                    self._begun -= ahead  # it is late: from here on the pace holds anew
            self.now = max(self.now, moment)
            what()
