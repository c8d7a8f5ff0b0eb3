"""What a run of a plant is told as: its plans by name, the dispatchers that it can have, and its
figures in lines."""
from __future__ import annotations

import os
import signal
import tempfile
from collections import Counter
from collections.abc import Callable, Mapping

from nulvrader.desk.client import Desk
from nulvrader.dispatch.dispatcher import Dispatcher
from nulvrader.dispatch.shared import Settings
from nulvrader.dispatch.judge import Judge

from .day import Day
from .desks import Served
from .floors import FLOORS, Floor
from .grounds import Dispatching
from .others import FirstCome, NoLook
from .plan import Plan
from .plant import Plant

DISPATCHERS = {
    'look': 'that of tools/dispatch',
    'free': 'the same, but it releases whatever is free, without the look',
    'whole': 'first come, first served, which releases whole ways',
}
SILENT = 60.0

Maker = Callable[[Desk, Callable[[str], None], Callable[[], float]], Dispatching]


def maker(kind: str, floor: Floor, batteries: Mapping[str, float]) -> Maker:
    """Makes dispatchers of a kind, who know the chargers of the floor and are told of batteries."""
    layout, chargers = floor.layout(), {node: frozenset[str]() for node in floor.chargers}

    def make(desk: Desk, say: Callable[[str], None], clock: Callable[[], float]) -> Dispatching:
        if kind == 'whole':
            return FirstCome(desk, layout, say=say, clock=clock)
        judge = NoLook() if kind == 'free' else Judge()
        return Dispatcher(
            desk,
            layout,
            Settings(silent=SILENT),
            judge=judge,
            chargers=chargers,
            batteries=lambda known: {name: batteries[name] for name in known if name in batteries},
            say=say,
            clock=clock,
        )

    return make


def folder() -> str | None:
    """Returns where files lie in memory, if there is such a folder."""
    return '/dev/shm' if os.access('/dev/shm', os.W_OK | os.X_OK) else None


def run(program: str, plan: Plan, kind: str, say: Callable[[str], None] = lambda line: None) -> Day:
    """Returns a run over the program and a new file, which is removed at its end."""
    with tempfile.TemporaryDirectory(dir=folder()) as place:
        served = Served(program, os.path.join(place, 'plant.db'))
        batteries: dict[str, float] = {}
        floor = FLOORS[plan.floor]().with_chargers(plan.chargers)
        make = maker(kind, floor, batteries)
        return Plant(plan, served, make, say, batteries=batteries).run()


def end_by_signal() -> None:
    """Has SIGTERM end the program as Ctrl-C does, so that what it has started ends with it."""

    def end(*_: object) -> None:
        raise KeyboardInterrupt

    signal.signal(signal.SIGTERM, end)
    signal.signal(signal.SIGINT, end)


def told(day: Day) -> list[str]:
    """Returns the figures of a run, in lines."""
    reasons = Counter(day.stopped.values())
    lines = [
        (
            f'{day.done} jobs done and {len(day.stopped)} stopped, in'
            f' {day.seconds / 60:.0f} minutes of the plant and {day.real:.0f} s of real time'
        ),
        (
            f'{day.per_hour():.0f} jobs an hour; vehicles with an order waited for'
            f' {100 * day.waiting():.0f} % of that time, the longest wait was {day.longest:.0f} s'
        ),
    ]
    lines += [
        f'vehicles waited for each other for {day.circle:.0f} s at most',
        *day.longest_waits(),
    ]
    lines += [f'stopped: {count} because {why}' for why, count in sorted(reasons.items())]
    lines += [f'vehicles were shut in {len(day.shut)} times', *day.longest_shut_in()[:5]]
    lines += [f'the dispatcher: {line}' for line in day.cancels]
    lines += [f'{name}: {count}' for name, count in sorted(day.counts.items())]
    return lines if day.stands is None else [*lines, f'it stands: {day.stands}']
