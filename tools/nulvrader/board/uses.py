"""Follows what each vehicle does, so that it is known how each was used: free, busy, waiting and so
on, and `unseen` while nobody looked."""
from __future__ import annotations

from .news import News
from .record import Record, moment_of, text_of
from .shown_rows import DESK, VEHICLE, WAIT, ShownVehicle

STATES = ('free', 'busy', 'waiting', 'paused', 'not_ready', 'astray', 'silent')
UNSEEN = 'unseen'
EVERY = 10_000  # milliseconds from one note of the last look to the next
UNTIL = 'seen until'  # the row of the table `meta` with the last look


def state_of(vehicle: ShownVehicle, waits: bool) -> str:
    """Returns the one of `STATES` in which a vehicle is, the worst one."""
    if vehicle['silent'] is not None:
        return 'silent'
    if vehicle['astray']:
        return 'astray'
    if not vehicle['ready']:
        return 'not_ready'
    if vehicle['paused']:
        return 'paused'
    if vehicle['order_name'] is None:
        return 'free'
    return 'waiting' if waits else 'busy'


def last_look(record: Record) -> int | None:
    """Returns the moment of the last look of an earlier run, None where there was none."""
    ((newest,),) = record.rows('SELECT max(at) FROM vehicle_uses')
    times = [at for at in (record.meta(UNTIL), newest) if at is not None]
    return moment_of(max(times)) if times else None


class Uses:
    """The states of the vehicles, of which each change is kept. What an earlier run has kept ends
    with its last look."""

    def __init__(self, news: News) -> None:
        self.news = news
        self.states: dict[str, str] = {}
        self.noted = 0  # when the last look was noted
        last = last_look(news.record)
        if last is not None:
            for (vehicle,) in news.record.rows('SELECT vehicle FROM vehicles'):
                self._change(last, str(vehicle), UNSEEN)

    def turn(self, at: int) -> None:
        """Looks at all vehicles, at a moment."""
        desk = self.news.shown.get(DESK, '')
        is_seen = bool(desk and desk['up'] and not desk['other'])
        waits = {name for name, wait in self.news.shown.all(WAIT).items() if wait['stands']}
        for name, vehicle in self.news.shown.all(VEHICLE).items():
            state = state_of(vehicle, name in waits) if is_seen else UNSEEN
            if self.states.get(name) != state:
                self._change(at, name, state)
        if at - self.noted >= EVERY or at < self.noted:
            self.noted = at
            self.news.record.set_meta(UNTIL, text_of(at))

    def _change(self, at: int, vehicle: str, state: str) -> None:
        self.states[vehicle] = state
        self.news.record.use(at, vehicle, state)
