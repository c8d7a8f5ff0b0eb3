"""What a run of a plant has shown."""
from __future__ import annotations

from collections import Counter
from collections.abc import Callable
from dataclasses import dataclass, field

from nulvrader.dispatch.shut_in import BEFORE, BY_ITSELF, SHUT_IN

LONG = 300.0
"""A wait of more seconds is kept with its reason; so is the longest, however long it is."""

TIME_OVER = 'the time was over'
"""Why a plant stands that has only run as long as it was to."""


@dataclass
class Day:
    """What a run has shown. Times are in seconds of the plant, but `real`."""

    seconds: float = 0.0
    real: float = 0.0
    done: int = 0
    stopped: dict[str, str] = field(default_factory=dict)  # by job why
    stands: str | None = None  # where the plant stood for good: who waits for what
    waited: dict[str, float] = field(
        default_factory=dict
    )  # by vehicle, with an order and nothing to do
    ordered: dict[str, float] = field(default_factory=dict)  # by vehicle, with an order
    longest: float = 0.0
    long: dict[tuple[str, float], tuple[float, str]] = field(
        default_factory=dict
    )  # by vehicle and beginning how long, and why at last
    circle: float = 0.0  # how long vehicles waited for each other at most
    counts: Counter[str] = field(default_factory=Counter)
    cancels: list[str] = field(
        default_factory=list
    )  # the dispatcher's lines on orders that it cancels
    shut: dict[tuple[str, float], tuple[float, str]] = field(
        default_factory=dict
    )  # by vehicle and beginning how long it was shut in, and why

    def made(self) -> list[str]:
        """Returns the vehicles that were shut in by the dispatcher itself, or nobody knows why, for
        longer than it takes the dispatcher to see that it was a look that was too short; and the
        orders that it cancelled for that."""
        by_itself = BEFORE, BY_ITSELF
        found = self.longest_shut_in(
            lambda seconds, why: why in by_itself and seconds > SHUT_IN + 5
        )
        return [*found, *(line for line in self.cancels if line.endswith(by_itself))]

    def longest_shut_in(
        self, which: Callable[[float, str], bool] = lambda seconds, why: True
    ) -> list[str]:
        """Returns the times that vehicles were shut in, in lines, the longest first."""
        rows = sorted(self.shut.items(), key=lambda row: -row[1][0])
        return [
            f'{vehicle} was shut in for {seconds:.0f} s from {since:.0f} s on, {why}'
            for (vehicle, since), (seconds, why) in rows
            if which(seconds, why)
        ]

    def stopped_for(self, why: str) -> int:
        """Returns how many jobs were stopped for this reason."""
        return sum(1 for told in self.stopped.values() if told == why)

    def per_hour(self) -> float:
        return self.done * 3600 / self.seconds

    def waiting(self) -> float:
        """Returns which part of the time with an order the vehicles waited, from 0 to 1."""
        return sum(self.waited.values()) / (sum(self.ordered.values()) or 1)

    def has_waited(self, vehicle: str, since: float, now: float, why: str) -> None:
        """Counts that a vehicle with an order still waits, and why."""
        if now - since > min(LONG, self.longest):
            self.long[vehicle, since] = now - since, why
        self.longest = max(self.longest, now - since)

    def longest_waits(self, count: int = 5) -> list[str]:
        """Returns the longest wait and why it was, in lines, and the next of those that were
        long."""
        rows = sorted(self.long.items(), key=lambda row: -row[1][0])[:count]
        rows = [row for row in rows if row[1][0] >= min(LONG, self.longest)]
        return [
            f'{vehicle} waited for {seconds:.0f} s from {since:.0f} s on: {why}'
            for (vehicle, since), (seconds, why) in rows
        ]
