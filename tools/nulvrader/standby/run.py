"""Reads the command line of `tools/standby`, and runs its commands."""
from __future__ import annotations

import argparse
import sys

from ..common import entry
from ..common.text import shown_lines
from . import checks, gluster, status
from .holder import StandbySettings, run as run_holder

PATIENCE = 15.0


def port_number(word: str) -> int:
    """Reads a port from the command line."""
    number = int(word)
    if not 1 <= number <= 65535:
        raise ValueError(word)
    return number


def seconds(word: str) -> float:
    """Reads a number of seconds from the command line."""
    number = float(word)
    if not 0.1 <= number <= 3600:
        raise ValueError(word)
    return number


def parser_of(text: str) -> argparse.ArgumentParser:
    """Returns the parser of the command line; `text` is the head of its help."""
    parser = entry.parser(text, 'standby')
    commands = parser.add_subparsers(dest='command', required=True, metavar='COMMAND')
    add_run(
        commands.add_parser('run', help='waits for the lock, and serves the file while it is held')
    )
    add_status(commands.add_parser('status', help='says how `run` is on this machine'))
    add_check(commands.add_parser('check', help='says what is not as it must be'))
    add_options(
        commands.add_parser('options', help="prints the commands that set a volume's options")
    )
    return parser


def add_run(command: argparse.ArgumentParser) -> None:
    """Adds the arguments of `run`."""
    add = command.add_argument
    add('--program', required=True, metavar='FILE', help='the program of the desk')
    add('--db', required=True, metavar='FILE', help='the file of the desk')
    add('--socket', required=True, metavar='PATH', help='the Unix socket that clients use')
    add('--port', type=port_number, default=8080, help='the port of the desk (default: 8080)')
    add('--group', help='the group that may open the socket')
    add('--state', metavar='FILE', help='the file that says how it is, for `status`')
    help_text = 'the longest time that a proof of the lock may take (default: 15)'
    add('--patience', type=seconds, default=PATIENCE, metavar='SECONDS', help=help_text)


def add_status(command: argparse.ArgumentParser) -> None:
    """Adds the arguments of `status`."""
    command.add_argument('--state', required=True, metavar='FILE', help='the file of `run --state`')
    help_text = 'a lock that was proved so long ago is held no more (default: 15)'
    command.add_argument(
        '--within', type=seconds, default=PATIENCE, metavar='SECONDS', help=help_text
    )


def add_check(command: argparse.ArgumentParser) -> None:
    """Adds the arguments of `check`."""
    add = command.add_argument
    add('--db', required=True, metavar='FILE', help='the file of the desk, on the volume')
    add('--volume', metavar='NAME', help='the volume of GlusterFS, if it is one')
    add(
        '--options',
        metavar='FILE',
        help=f'the options that it must have (default: {gluster.OPTIONS})',
    )
    add('--no-cluster', action='store_true', help='Corosync, Pacemaker and sbd are not looked at')


def add_options(command: argparse.ArgumentParser) -> None:
    """Adds the arguments of `options`."""
    command.add_argument('volume', metavar='VOLUME', type=gluster.volume_name, help='its name')
    help_text = f'the options (default: {gluster.OPTIONS})'
    command.add_argument('--options', metavar='FILE', help=help_text)


def print_options(args: argparse.Namespace) -> int:
    """Prints the commands that set the options of a volume. Returns the status."""
    try:
        for option, value in gluster.read_options(args.options or gluster.OPTIONS).items():
            print(f'gluster volume set {args.volume} {option} {value}')
    except (OSError, ValueError) as fault:
        print(f'standby: {fault}', file=sys.stderr)
        return 2
    return 0


def print_check(args: argparse.Namespace) -> int:
    """Prints what is wrong. Returns the status, 1 if anything is."""
    try:
        wanted = gluster.read_options(args.options or gluster.OPTIONS)
    except (OSError, ValueError) as fault:
        print(f'standby: {fault}', file=sys.stderr)
        return 2
    found = checks.check_all(args.db, args.volume, wanted, with_cluster=not args.no_cluster)
    for line in found.notes:
        print(f'standby: {shown_lines(line, 4000)}')
    for line in found.wrong:
        print(f'standby: WRONG: {shown_lines(line, 4000)}')
    if not found.wrong:
        print('standby: nothing is wrong')
    return 1 if found.wrong else 0


def run(arguments: list[str], text: str) -> int:
    """Runs `tools/standby`, and returns its status; `text` is the head of its help."""
    args = parser_of(text).parse_args(arguments)
    if args.command == 'run':
        names = ('program', 'db', 'port', 'socket', 'group', 'state', 'patience')
        return run_holder(StandbySettings(**{name: getattr(args, name) for name in names}))
    if args.command == 'status':
        found = status.read(args.state, args.within)
        print(f'standby: {found}')
        return found.status
    return print_options(args) if args.command == 'options' else print_check(args)
