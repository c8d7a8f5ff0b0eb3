"""Reads what is said of a command, and checks each value before anything is looked at or sent."""
from __future__ import annotations

import re
from collections.abc import Mapping
from dataclasses import dataclass

from ..common.instructions import MOST_PLACE, MOST_PRIORITY, due_time
from ..common.layouts import Layout
from ..common.names import BadName, VehicleKey, is_name, quoted
from ..common.tables import BODY
from ..common.text import shown as printable
from . import order_previews
from .command_kinds import COMMANDS, Field
from .messages import Line

NAME = 80  # characters of a name that is told
CUT = 40  # and of another value
EDGES, UPDATES = 999, 4_294_967_295  # the largest numbers
MOST = {
    'release': EDGES,
    'update': UPDATES,
    'priority': MOST_PRIORITY,
    'place': MOST_PLACE,
}


class NoCommand(ValueError):
    """What was said is no command, or a value in it is wrong. `line` is the sentence of it, and
    `str()` the same in English."""

    def __init__(self, line: Line):
        super().__init__(line.words())
        self.line = line


@dataclass(frozen=True)
class AskedCommand:
    """A command as it is asked for: its name and its values, each a text of its kind."""

    name: str
    values: Mapping[str, str]


def wrong(name: str, /, **values: object) -> NoCommand:
    """Returns what is wrong, by the row `wrong.` and this name."""
    return NoCommand(Line(f'wrong.{name}', values))


def read_command(said: Mapping[str, object], layout: Layout, is_whole: bool) -> AskedCommand:
    """Returns the command that was said. `is_whole` says that it has to have what the look adds."""
    name, told = said.get('command'), said.get('values')
    if not isinstance(name, str) or name not in COMMANDS or not isinstance(told, dict):
        raise wrong('command')
    kind = COMMANDS[name]
    fields = {field.name: field for field in (*kind.fields, *kind.adds)}
    values = {}
    for key, value in told.items():
        if key not in fields:
            raise wrong('value', key=f'{key[:CUT]!a}')
        if not isinstance(value, str):
            raise wrong('text', field=fields[key].row)
        # No spaces around a value, but its line ends stay, so that `check` refuses them: a name
        # that was pasted with the next line is perhaps not the one that was meant.
        values[key] = value if fields[key].kind == 'file' or '\n' in value else value.strip()
    for field in fields.values():
        is_needed = is_whole if field in kind.adds else not field.optional
        if values.get(field.name):
            check(field, values[field.name], layout)
        elif is_needed:
            raise wrong('missing', field=field.row)
    return AskedCommand(name, values)


def check(field: Field, text: str, layout: Layout) -> None:
    """Checks a value by the kind of its field. `NoCommand` where it is none."""
    check_name(field, text)
    if field.kind == 'release' and text in order_previews.WAYS:
        return
    most = MOST.get(field.kind)
    if most is not None and not (re.fullmatch('[0-9]{1,10}', text) and int(text) <= most):
        raise wrong('number', field=field.row, text=f'{text[:CUT]!a}', most=most)
    if field.kind == 'station' and text not in layout.stations:
        raise wrong('station', station=printable(text, NAME))
    if field.kind == 'node' and text not in layout.nodes:
        raise wrong('node', node=printable(text, NAME))
    if field.kind == 'thing':
        check_thing(text, layout)
    if field.kind == 'moment':
        check_moment(text)
    if field.kind == 'file':
        check_file(text)


def check_name(field: Field, text: str) -> None:
    """Checks what names something."""
    if field.kind in ('vehicle', 'vehicles'):
        for name in text.split() if field.kind == 'vehicles' else [text]:
            check_vehicle(name)
    elif field.kind in ('name', 'load', 'job') and not is_name(text):
        raise wrong('name', text=quoted(text), what=field.name)
    elif field.kind == 'stops':
        check_stops(text)


def check_vehicle(text: str) -> None:
    try:
        VehicleKey.parse(text)
    except BadName:
        raise wrong('vehicle', text=quoted(text)) from None


def check_stops(text: str) -> None:
    try:
        stops = order_previews.stops_of(text)
    except order_previews.BadStops as fault:
        raise NoCommand(fault.line) from None
    for stop in stops:
        if not is_name(stop.job):
            raise wrong('name', text=quoted(stop.job), what='job')


def check_thing(text: str, layout: Layout) -> None:
    kind, _, name = text.partition(' ')
    known = {'node': layout.nodes, 'edge': layout.edges}.get(kind, ())
    if name not in known:
        raise wrong('thing', thing=printable(text, NAME))


def check_moment(text: str) -> None:
    try:
        due_time(text)
    except ValueError:
        raise wrong('moment', text=f'{text[:CUT]!a}') from None


def check_file(text: str) -> None:
    if re.search('[\ud800-\udfff]', text):
        raise wrong('bytes')
    if len(text.encode()) > BODY:
        raise wrong('long', most=BODY)
