"""Which vehicles others shut in, since when, and what has led to it."""
from __future__ import annotations

from collections.abc import Mapping, Sequence
from dataclasses import dataclass, replace

from ..common.names import natural
from .memory import Memory
from .judge import Judge
from .traffic import Traffic

MOST_TIMES = 64
"""Where the look has so many times as many states, since nothing moves, who is shut in does not get
free."""

SHUT_IN = 60.0
"""Nor does one that has been shut in for so many seconds, if a longer look finds nothing either."""

LONGER = 4
"""That look has so many times as many states, as has the first one of all."""

BY_ITSELF = 'by this dispatcher itself'
"""Why vehicles are shut in where nothing but what the dispatcher has done can have led to it: that
is not to happen."""

BEFORE = 'before this dispatcher began'
"""Why they are where they were so in its first turn."""


@dataclass(frozen=True)
class Course:
    """What a vehicle is to do: its order if it goes on with one, its way, how many edges are not
    released, and where the order ends."""

    order: str | None
    way: Sequence[str]
    left: int = 0
    end: str | None = None


def is_on_course(before: Course | None, now: Course, asked: str | None) -> bool:
    """Whether a vehicle does what it was to do: it goes on with its order, or has just the order
    that the dispatcher has asked for; or it stands where it stood, or where its order has ended."""
    if now.order is not None and (before is None or before.order != now.order):
        return asked == now.order
    if before is None or now.order is None and before.order is not None and before.left > 0:
        return False
    return tuple(before.way[-len(now.way) :]) == tuple(now.way)


def changes(
    before: Mapping[str, Course], now: Mapping[str, Course], asked: Mapping[str, str | None]
) -> str:
    """Returns which vehicles are not on the course that they had: by people, by what has failed, or
    since the dispatcher has cancelled their order."""
    found = []
    for name, course in now.items():
        if is_on_course(before.get(name), course, asked[name]):
            continue
        if course.order is None:
            found.append(f'{name} stands at {course.way[0]}')
        else:
            found.append(f'{name} goes on to {course.end}')
    return 'since ' + ', '.join(sorted(found, key=natural)) if found else BY_ITSELF


class ShutIn:
    """Sees in each turn who is shut in, and notes in the memory of the vehicles since when, and
    why."""

    def __init__(self, judge: Judge, memory: Mapping[str, Memory]) -> None:
        self.judge, self.memory = judge, memory
        self._courses: Mapping[
            str, Course
        ] | None = None  # of all vehicles, at the end of the last turn
        self._could: frozenset[str] = frozenset()  # who finishes, as the turn begins
        self._changes = BEFORE

    def told(self) -> dict[str, tuple[float, str]]:
        """Returns the vehicles that are shut in: since when, and why."""
        found = ((name, one.shut_in, one.shut_by) for name, one in self.memory.items())
        return {
            name: (since, why)
            for name, since, why in found
            if since is not None and why is not None
        }

    def _courses_now(self, traffic: Traffic) -> dict[str, Course]:
        found = {}
        for name, way in traffic.ways_later().items():
            one = self.memory[name]
            found[name] = Course(
                None if name in traffic.parked else one.order, way, one.left, one.end
            )
        return found

    def begin_turn(self, traffic: Traffic) -> None:
        """Sees who finishes before the dispatcher does anything. In its first turn it has no moves
        in mind, so the look is longer."""
        if self._courses is None:
            self._could = self.judge.look_longer(traffic, LONGER)
        else:
            self._could = self.judge.finish_later(traffic)
            self._changes = changes(
                self._courses,
                self._courses_now(traffic),
                {name: one.asked for name, one in self.memory.items()},
            )

    def turn_failed(self) -> None:
        """Notes what was released in a turn that has ended early."""
        if self._courses is not None:
            self._courses = {
                name: self._with_less(course, self.memory[name])
                for name, course in self._courses.items()
            }

    def _with_less(self, course: Course, one: Memory) -> Course:
        return (
            replace(course, left=min(course.left, one.left))
            if course.order == one.order
            else course
        )

    def end_turn(self, traffic: Traffic, now: float) -> list[str]:
        """Returns the vehicles that go on with an order, are shut in and do not get free. One that
        stands still, or has no order, is seen to be shut in at once, not only when it goes on: what
        was done just before is the reason."""
        self._courses = self._courses_now(traffic)
        found = self._courses.keys() - self.judge.finish_later(traffic)
        for name, one in self.memory.items():
            if name not in found:
                one.shut_in = one.shut_by = None
                continue
            one.shut_in = now if one.shut_in is None else one.shut_in
            one.shut_by = one.shut_by or (BY_ITSELF if name in self._could else self._changes)
        stay = [name for name in sorted(found, key=natural) if self._stays_so(name, traffic, now)]
        return [name for name in stay if name in traffic.ways]

    def _stays_so(self, name: str, traffic: Traffic, now: float) -> bool:
        """Whether a vehicle that is shut in does not get free: nothing moves, or it has been so for
        a while, by a longer look too."""
        if self.judge.times >= MOST_TIMES:
            return True
        one = self.memory[name]
        if one.shut_in is None or now - one.shut_in < SHUT_IN:
            return False
        if name not in self.judge.look_longer(traffic, LONGER):
            return True
        one.shut_in = one.shut_by = None
        return False
