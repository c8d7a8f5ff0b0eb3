"""The commands of `tools/ask`: what each is made of, the types of its arguments, and the tables and
JSON that it prints."""
from __future__ import annotations

import argparse
import json
from collections.abc import Callable, Sequence
from dataclasses import dataclass
from typing import Any

from ..desk import arguments
from ..desk.client import Desk
from ..common.names import LARGEST, BadName, checked, new_reference, quoted
from ..common.text import shown


class UsageError(Exception):
    """A command is not carried out, since its arguments or its file are wrong. Its `str()` is a
    sentence."""


@dataclass(frozen=True)
class Output:
    """What a command prints: `text` for people, `value` as JSON for programs."""

    text: str
    value: object


AddArgument = Callable[[argparse.ArgumentParser], None]
Run = Callable[[Desk, argparse.Namespace], Output]


@dataclass(frozen=True)
class Subcommand:
    """A command: its name, a sentence on what it does, the arguments of an example, the number of
    requests that it costs, the function that adds its arguments to a parser, and the function that
    runs it. `changes` says that it may change something at the desk."""

    name: str
    does: str
    example: str
    cost: str
    add: AddArgument
    run: Run
    changes: bool


def subcommand(
    into: list[Subcommand], example: str, *adds: AddArgument, cost: str = '1', changes: bool = False
) -> Callable[[Run], Run]:
    """Returns a decorator that makes a command of a function and appends it to a list. The command
    has the name of the function, and its sentence is the function's docstring."""

    def add(parser: argparse.ArgumentParser) -> None:
        for add_argument in adds:
            add_argument(parser)

    def made(run: Run) -> Run:
        name = run.__name__.replace('_', '-')
        into.append(
            Subcommand(
                name, ' '.join((run.__doc__ or '').split()), example, cost, add, run, changes
            )
        )
        return run

    return made


def argument(*names: str, **how: Any) -> AddArgument:
    """Returns a function that adds an argument or an option to a parser, as `add_argument` takes
    it."""

    def add(parser: argparse.ArgumentParser) -> None:
        parser.add_argument(*names, **how)

    return add


def name_argument(name: str, what: str, **how: Any) -> AddArgument:
    """Returns a function that adds an argument whose value is a name; `what` says of what, as in
    `load`."""
    return argument(name, type=name_type(what), metavar=what.upper(), **how)


def name_type(what: str) -> Callable[[str], str]:
    """Returns the type of an argument that is a name; `what` says of what."""

    def read(text: str) -> str:
        try:
            return checked(text, what)
        except BadName as fault:
            raise argparse.ArgumentTypeError(str(fault)) from None

    return read


def number(text: str) -> int:
    """Reads an argument that is a number of a call, 0 to 4294967295."""
    if not (text.isascii() and text.isdigit() and len(text) <= 20 and int(text) <= LARGEST):
        raise argparse.ArgumentTypeError(f'{quoted(text)} is no whole number from 0 to {LARGEST}')
    return int(text)


REFERENCE = name_argument(
    '--ref',
    'reference',
    help='its reference, used only once (default: a new one that begins with the day)',
)
VEHICLE = argument('vehicle', type=arguments.vehicle, metavar='VEHICLE', help='as KIT/0001')
LOAD = name_argument('load', 'load')


def reference(args: argparse.Namespace) -> str:
    """Returns the reference that was given, or else a new one. It is noted in the arguments, so
    that the same call can be sent again."""
    args.ref = args.ref or new_reference()
    return str(args.ref)


def table(heads: Sequence[str], rows: Sequence[Sequence[object]]) -> str:
    """Returns a table for people. None is a dash, and True a `yes`."""
    lines = [list(heads)] + [[cell(value) for value in row] for row in rows]
    widths = [max(len(line[column]) for line in lines) for column in range(len(heads))]
    return '\n'.join(
        '  '.join(text.ljust(width) for text, width in zip(line, widths)).rstrip() for line in lines
    )


def cell(value: object) -> str:
    """Returns a value as a table shows it."""
    if isinstance(value, bool):
        return 'yes' if value else '-'
    if isinstance(value, (list, tuple)):
        return ' '.join(shown(str(one)) for one in value) or '-'
    return '-' if value is None else shown(str(value))


def as_json(value: object) -> str:
    """Returns a value as JSON; the key of a vehicle is `KIT/0001`."""
    return json.dumps(value, default=str)
