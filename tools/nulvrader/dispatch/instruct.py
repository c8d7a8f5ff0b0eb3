"""The commands by which people instruct the dispatcher: `job`, `close` and `open`."""
from __future__ import annotations

import argparse
import functools
import os
import sys
from collections.abc import Callable, Collection, Mapping, Sequence
from dataclasses import replace

from ..common import entry
from ..common.names import BadName, checked, natural
from ..common.text import shown
from ..desk import arguments
from ..desk.client import Desk, NoAnswer, Refused
from ..common.instructions import (
    MOST_PLACE,
    MOST_PRIORITY,
    Instructions,
    NoInstructions,
    Urgency,
    due_time,
    moment_of,
)
from ..common.instructions_file import changing, read_file

PLACE = 'NULVRADER_INSTRUCTIONS'  # the variable with the path of the file
DONE, UNKNOWN, WRONG, NO_ANSWER = range(4)
LINE = 500  # the most characters of a line about what is wrong


class NoSuchName(Exception):
    """A name that the desk or the file does not have. Its `str()` is a sentence."""


def add_file(words: argparse.ArgumentParser) -> None:
    """Adds `--instructions`."""
    known = os.environ.get(PLACE)
    text = 'what people say to the dispatcher: the file of `job`, `close` and `open`'
    text += f' (default: {known})' if known else ''
    words.add_argument(
        '--instructions', default=known, metavar='FILE', help=text.replace('%', '%%')
    )


def named(text: str) -> str:
    """Returns a name."""
    try:
        return checked(text)
    except BadName as fault:
        raise argparse.ArgumentTypeError(str(fault)) from None


def due(text: str) -> int | None:
    """Returns a moment in seconds since 1970, or None for `none`."""
    try:
        return None if text == 'none' else due_time(text)
    except ValueError as fault:
        raise argparse.ArgumentTypeError(f'{fault} or 2026-12-24T08:00, nor none') from None


def truck(text: str) -> str | None:
    """Returns the name of a truck, or None for `none`."""
    return None if text == 'none' else named(text)


SAID = ('due', 'priority', 'truck', 'place')
"""What may be said of a job."""


def run_job(words: Sequence[str], text: str) -> int:
    """Runs the command `job`, and returns its status."""
    parser = entry.parser(text)
    parser.add_argument('job', nargs='?', type=named, metavar='JOB')
    add = functools.partial(parser.add_argument, default=argparse.SUPPRESS)
    add('--due', type=due, metavar='TIME', help='or none')
    priorities = range(MOST_PRIORITY + 1)
    help_text = f'0, as without it, to {MOST_PRIORITY}, which comes first'
    add('--priority', type=int, choices=priorities, metavar='NUMBER', help=help_text)
    add('--truck', type=truck, metavar='NAME', help='the truck that it is for, or none')
    places = range(1, MOST_PLACE + 1)
    help_text = 'its place there, from 1: it comes behind all with smaller ones'
    add('--place', type=int, choices=places, metavar='NUMBER', help=help_text)
    add_file(parser)
    arguments.add_desk(parser)
    said = parser.parse_args(words)
    if said.job is None and any(hasattr(said, name) for name in SAID):
        parser.error('--due, --priority, --truck and --place are of a job: name it')
    desk = _desk_of(parser, said)
    return _done(parser, said, lambda: _job(said, desk))


def _desk_of(parser: argparse.ArgumentParser, said: argparse.Namespace) -> Desk:
    """Returns the desk that the options name. If these are wrong the program ends with status 2."""
    try:
        return arguments.desk_of(said)
    except (OSError, ValueError) as fault:
        parser.error(shown(str(fault), LINE))


def _job(said: argparse.Namespace, desk: Desk) -> None:
    if not any(hasattr(said, name) for name in SAID):
        jobs = read_file(said.instructions).jobs
        for job, one in sorted(jobs.items(), key=lambda row: natural(row[0])):
            if said.job in (None, job):
                print(_told_urgency(job, one))
        return
    with changing(said.instructions) as (before, write):
        # (while no other command writes, so that none takes a job for ended that has begun since)
        live = desk.jobs()
        if said.job not in live:
            raise NoSuchName(f'the desk has no live job {said.job}')
        one = _said_of(said, before.jobs.get(said.job, Urgency()))
        write(before.with_job(said.job, one, live))
    print(_told_urgency(said.job, one))


def _said_of(said: argparse.Namespace, before: Urgency) -> Urgency:
    """Returns how urgent a job is, as the options say; what they do not name stays."""
    values = {name: getattr(said, name, getattr(before, name)) for name in SAID}
    if values['truck'] is None:
        if getattr(said, 'place', None):
            raise NoInstructions(f'{said.job} is of no truck: name it by --truck')
        values['place'] = 0
    elif not values['place']:
        raise NoInstructions(
            f'{said.job} has no place in truck {values["truck"]}: say it by --place'
        )
    return Urgency(**values)


def _told_urgency(job: str, one: Urgency) -> str:
    when = 'not due'
    if one.due is not None:
        when = f'due {moment_of(one.due).astimezone().strftime("%Y-%m-%d %H:%M %Z")}'
    where = '' if one.truck is None else f', place {one.place} of truck {one.truck}'
    return f'{job}: {when}, priority {one.priority}{where}'


def run_close(words: Sequence[str], text: str) -> int:
    """Runs the command `close`, and returns its status."""
    parser = entry.parser(text)
    _add_names(parser)
    arguments.add_desk(parser)
    said = parser.parse_args(words)
    desk = _desk_of(parser, said)
    return _done(parser, said, lambda: _close(said, desk))


def run_open(words: Sequence[str], text: str) -> int:
    """Runs the command `open`, and returns its status."""
    parser = entry.parser(text)
    _add_names(parser)
    said = parser.parse_args(words)
    return _done(parser, said, lambda: _open(said))


def _add_names(parser: argparse.ArgumentParser) -> None:
    parser.add_argument('names', nargs='*', type=named, metavar='NAME', help='a node or an edge')
    group = parser.add_mutually_exclusive_group()
    for kind in ('node', 'edge'):
        group.add_argument(
            f'--{kind}',
            dest='kinds',
            action='store_const',
            const=(kind,),
            default=('node', 'edge'),
            help=f'the names are of {kind}s',
        )
    add_file(parser)


def _close(said: argparse.Namespace, desk: Desk) -> None:
    if not said.names:
        _tell_closed(said)
        return
    layout = desk.layout()
    if layout is None:
        raise NoSuchName('the desk has no layout yet')
    known = {'node': set(layout.nodes), 'edge': set(layout.edges)}
    found = _found(said.names, said.kinds, known, 'the layout has no node or edge {}')
    with changing(said.instructions) as (before, write):
        write(
            replace(before, nodes=before.nodes | found['node'], edges=before.edges | found['edge'])
        )
    _tell(found, 'closed')


def _open(said: argparse.Namespace) -> None:
    if not said.names:
        _tell_closed(said)
        return
    with changing(said.instructions) as (before, write):
        known = {'node': before.nodes, 'edge': before.edges}
        found = _found(said.names, said.kinds, known, 'no node or edge {} is closed')
        write(
            replace(before, nodes=before.nodes - found['node'], edges=before.edges - found['edge'])
        )
    _tell(found, 'open')


def _found(
    names: Sequence[str], kinds: Sequence[str], known: Mapping[str, Collection[str]], none: str
) -> dict[str, set[str]]:
    """Returns the names by their kinds. `NoSuchName` where one is of none or of two."""
    found: dict[str, set[str]] = {'node': set(), 'edge': set()}
    for name in names:
        of = [kind for kind in kinds if name in known[kind]]
        if not of:
            raise NoSuchName(none.format(name))
        if len(of) > 1:
            raise NoSuchName(f'{name} is a node and an edge: say which, by --node or --edge')
        found[of[0]].add(name)
    return found


def _tell_closed(said: argparse.Namespace) -> None:
    known: Instructions = read_file(said.instructions)
    chosen = {'node': known.nodes, 'edge': known.edges}
    _tell({kind: chosen[kind] for kind in said.kinds}, 'closed')


def _tell(names: Mapping[str, Collection[str]], what: str) -> None:
    for kind, row in names.items():
        for name in sorted(row, key=natural):
            print(f'{kind} {name} is {what}')


def _done(
    parser: argparse.ArgumentParser, said: argparse.Namespace, what: Callable[[], None]
) -> int:
    """Does it, and returns the status of the program."""
    if not said.instructions:
        parser.error(f'there is no file: name it by --instructions, or the variable {PLACE}')
    try:
        what()
        sys.stdout.flush()
        return DONE
    except BrokenPipeError:
        raise
    except (NoSuchName, Refused) as fault:
        status, told = UNKNOWN, str(fault)
    except NoAnswer as fault:
        status, told = NO_ANSWER, str(fault)
    except NoInstructions as fault:
        status, told = WRONG, str(fault)
    except OSError as fault:
        status, told = WRONG, f'{fault.filename or said.instructions}: {fault.strerror}'
    print(shown(f'{parser.prog}: {told}', LINE), file=sys.stderr)
    return status
