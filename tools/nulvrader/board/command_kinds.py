"""The kinds of commands of the page: what each needs, the look at what it will do, and how it is
carried out. Their titles, and what their fields are called, are rows of the table of messages."""
from __future__ import annotations

from collections.abc import Callable, Mapping
from dataclasses import dataclass

from ..desk.client import Desk
from . import command_calls as calls
from . import instructed, order_previews, previews
from .messages import Line, say
from .previews import Look
from .scene import Scene
from .stocktakes import stocktake

Values = Mapping[str, str]


@dataclass(frozen=True)
class Field:
    """What a command needs: `kind` is what the page offers for it: `name`, `load`, `station`,
    `job`, `vehicle`, `vehicles`, `node`, `thing` (a node or an edge), `release`, `update`,
    `moment`, `priority`, `place`, `stops` or `file`. `given` makes a
    value to begin with."""

    name: str
    kind: str
    optional: bool = False
    given: Callable[[], str] | None = None

    @property
    def row(self) -> str:
        """Its name behind `field.` in the table of messages."""
        is_any = self.kind == 'station' and self.optional
        return f'{self.name}.checking' if is_any else self.name

    def label(self) -> str:
        """Returns what it is called, in English."""
        return say(f'field.{self.row}')


@dataclass(frozen=True)
class Kind:
    """A kind of command: what it needs, the look at what it will do, and how it is done, with what
    to say then. `adds` is what it needs besides, which the look adds. One that has `tell` is not
    for the desk: it changes the file at a path, by which the dispatcher is told."""

    fields: tuple[Field, ...]
    look: Callable[[Scene, Values], Look]
    do: Callable[[Desk, Values], list[Line]]
    adds: tuple[Field, ...] = ()
    tell: Callable[[str, Desk, Values], list[Line]] | None = None


def new_name(front: str) -> Callable[[], str]:
    """Returns what makes a name that was not used before."""
    return lambda: order_previews.new_name(front)


VEHICLE, NODE, LOAD = Field('vehicle', 'vehicle'), Field('node', 'node'), Field('load', 'load')
VEHICLES, REFERENCE = Field('vehicles', 'vehicles'), Field('ref', 'name')
STATION = Field('station', 'station', optional=True)  # without a name it is the checking place
RELEASE = Field('edges', 'release', given=lambda: order_previews.FREE)
THING = Field('thing', 'thing')
OPEN_ORDER = Field('order', 'name'), Field('update', 'update')
COMMANDS: dict[str, Kind] = {
    'order': Kind(
        (VEHICLE, Field('stops', 'stops'), RELEASE, Field('order', 'name', given=new_name('O'))),
        order_previews.start_order,
        calls.start_order,
    ),
    'drive': Kind(
        (VEHICLE, NODE, RELEASE, Field('order', 'name', given=new_name('D'))),
        order_previews.start_drive,
        calls.start_drive,
    ),
    'advance': Kind((VEHICLE, RELEASE), order_previews.advance, calls.advance, OPEN_ORDER),
    'cancel': Kind((VEHICLE,), previews.cancel, calls.cancel),
    'pause': Kind((VEHICLE,), previews.pause, calls.pause),
    'resume': Kind((VEHICLE,), previews.resume, calls.resume),
    'pause_all': Kind((), previews.pause_all, calls.to_all(Desk.pause), (VEHICLES,)),
    'resume_all': Kind((), previews.resume_all, calls.to_all(Desk.resume), (VEHICLES,)),
    'place': Kind((VEHICLE, NODE), previews.place, calls.place, (REFERENCE,)),
    'resync': Kind((VEHICLE,), previews.resync, calls.resync),
    'register': Kind((Field('load', 'name'), STATION), previews.register_load, calls.register),
    'correct': Kind((LOAD, STATION), previews.correct_load, calls.correct, (REFERENCE,)),
    'leave': Kind((LOAD,), previews.leave_load, calls.leave, (REFERENCE,)),
    'job': Kind(
        (LOAD, Field('to', 'station'), Field('job', 'name', given=new_name('J'))),
        previews.add_job,
        calls.add_job,
    ),
    'stop': Kind((Field('job', 'job'),), previews.stop_job, calls.stop_job),
    'urgency': Kind(
        (
            Field('job', 'job'),
            Field('due', 'moment', optional=True),
            Field('priority', 'priority', optional=True),
            Field('truck', 'name', optional=True),
            Field('place', 'place', optional=True),
        ),
        previews.urge,
        calls.nothing,
        tell=instructed.urge,
    ),
    'close': Kind((THING,), previews.close, calls.nothing, tell=instructed.close),
    'open': Kind((THING,), previews.reopen, calls.nothing, tell=instructed.reopen),
    'stocktake': Kind((Field('file', 'file'),), stocktake, calls.stocktake, (REFERENCE,)),
}
