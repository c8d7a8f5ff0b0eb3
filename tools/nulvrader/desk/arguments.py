"""Adds the arguments that the programs share: where the desk is and who asks, and the types of
arguments."""
from __future__ import annotations

import argparse
import os
from typing import Any, TypedDict, Union

from .client import Desk
from ..common.names import BadName, VehicleKey
from ..common.plain_files import read_text
from ..common.text import shown
from .transport import ADDRESS
from .wire import FORMS

PLACE = 'NULVRADER_DESK'  # the variable with the address of the desk
PASSWORD = 'NULVRADER_PASSWORD'  # the variable with the password for a proxy
Adder = Union[argparse.ArgumentParser, 'argparse._ArgumentGroup']


class DeskOptions(TypedDict):
    """The arguments of `Desk` that the command line gives."""

    address: str
    timeout: float
    user: str | None
    password: str | None
    cafile: str | None


def add_desk(
    parser: Adder,
    *,
    desk_into: Adder | None = None,
    default: str | None = ADDRESS,
    front: str = '',
    is_behind: bool = False,
    waits: str = 'how long to wait for a whole answer of the desk',
) -> None:
    """Adds the options that say where the desk is and who asks. `desk_into` is a group for
    `--desk`, and `front` stands before the names of the others, as in `--desk-user`. With
    `is_behind` they are those behind a command, which have no defaults. `waits` is the help of
    `--timeout`."""

    def add(option: str, group: Adder, value: object, **how: Any) -> None:
        group.add_argument(option, default=argparse.SUPPRESS if is_behind else value, **how)

    known = os.environ.get(PLACE, default) if default else None
    text = f'the running desk, its socket, or the proxy in front of it: {FORMS}'
    text += f' (default: {known})' if known else ''
    add('--desk', desk_into or parser, known, metavar='ADDRESS', help=text.replace('%', '%%'))
    text = f'the user name for the proxy; the password is in the variable {PASSWORD}'
    add(f'--{front}user', parser, None, dest='desk_user', metavar='NAME', help=text)
    text = 'a file whose first line is the password for the proxy'
    option = f'--{front}password-file'
    add(option, parser, None, dest='desk_password_file', metavar='FILE', help=text)
    text = "a PEM file with the authority of the proxy's certificate, with https"
    add(f'--{front}ca', parser, None, dest='desk_ca', metavar='FILE', help=text)
    text = f'{waits} (default: 10)'
    add('--timeout', parser, 10.0, type=seconds, metavar='SECONDS', help=text)


def desk_of(args: argparse.Namespace) -> Desk:
    """Returns the desk that the options name. Raises ValueError for a wrong address, and OSError
    for a file that can't be read."""
    return Desk(**options_of(args))


def options_of(args: argparse.Namespace) -> DeskOptions:
    """Returns the arguments of `Desk` that the options give."""
    file = args.desk_password_file
    return {
        'address': args.desk,
        'timeout': args.timeout,
        'user': args.desk_user,
        'password': first_line(file) if file else os.environ.get(PASSWORD),
        'cafile': args.desk_ca,
    }


def first_line(path: str) -> str:
    """Returns the first line of a regular file, without its end."""
    return read_text(path, 4096).decode(errors='replace').partition('\n')[0].rstrip('\r')


def seconds(text: str) -> float:
    """Reads a time of more than 0 and less than 3,600 seconds."""
    try:
        found = float(text)
    except ValueError:
        found = 0.0
    if not 0 < found < 3600:
        raise argparse.ArgumentTypeError(
            f'{shown(text, 40)} is no number of seconds between 0 and 3600'
        )
    return found


def vehicle(text: str) -> VehicleKey:
    """Reads the key of a vehicle, as KIT/0001."""
    try:
        return VehicleKey.parse(text)
    except BadName as fault:
        raise argparse.ArgumentTypeError(str(fault)) from None
