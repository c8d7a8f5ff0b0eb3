"""The command line of the gateway: reads it, and runs the gateway until a signal ends it."""
from __future__ import annotations

import argparse
import re
import signal
import sys
import threading
from types import FrameType

from ..common import entry
from ..desk import arguments
from ..desk.client import Desk
from .broker import Address, Broker, NoLibrary
from .carrier import Gateway
from .inbox import FRONT, Inbox
from .log import Log, Tally, say
from .telemetry import TelemetrySender

LOCAL = ('localhost', '127.0.0.1', '::1')


class NotStarted(Exception):
    """The gateway can't be started. Its `str()` is a sentence that says why."""


def host_and_port(text: str) -> tuple[str, int]:
    """Reads a host and a port."""
    host, _, port = text.rpartition(':')
    if not host or not re.fullmatch('[0-9]{1,5}', port) or not 0 < int(port) < 65536:
        raise argparse.ArgumentTypeError(f'{text!r} is not HOST:PORT')
    return host.strip('[]'), int(port)


def topic_front(text: str) -> str:
    """Reads what stands before a vehicle in a topic."""
    if not re.fullmatch('[^/+#]+(/[^/+#]+)*', text):
        raise argparse.ArgumentTypeError(f'{text!r} is not the beginning of a topic')
    return text


def parser_of(text: str) -> argparse.ArgumentParser:
    """Returns the parser of the command line; `text` is the head of its help."""
    line = entry.parser(text, 'gateway')
    arguments.add_desk(line, front='desk-')
    add = line.add_argument
    add('--broker', type=host_and_port, default='127.0.0.1:1883', metavar='HOST:PORT')
    add('--user', help='the user name for the broker')
    add('--password-file', metavar='FILE', help='a file whose first line is the password')
    help_text = "use TLS; a PEM file with the authority of the broker's certificate"
    add('--ca', metavar='FILE', help=help_text)
    help_text = "a PEM file with the gateway's certificate for the broker, which wants one"
    add('--cert', metavar='FILE', help=help_text)
    add('--key', metavar='FILE', help='a PEM file with the key of that certificate')
    help_text = 'the part of a topic before MANUFACTURER/SERIAL'
    add('--front', type=topic_front, default=FRONT, help=help_text)
    help_text = 'a vehicle whose messages are fetched before its first state'
    vehicle = arguments.vehicle
    add('--vehicle', type=vehicle, action='append', default=[], metavar='VEHICLE', help=help_text)
    help_text = 'the name of the list in an instantActions message'
    add('--instant-list', default='actions', metavar='NAME', help=help_text)
    help_text = (
        'a socket on which a board or a dispatcher (their --words) is told what vehicles say of'
    )
    help_text += ' themselves; may be repeated'
    add('--board', metavar='FILE', action='append', default=[], help=help_text)
    help_text = 'seconds from one turn to the next (default: 1)'
    add('--every', type=arguments.seconds, default=1.0, metavar='SECONDS', help=help_text)
    return line


def parsed(line: list[str], text: str) -> argparse.Namespace:
    """Reads the command line. A wrong one ends the program with status 2."""
    parser = parser_of(text)
    args = parser.parse_args(line)
    if args.password_file and not args.user:
        parser.error('--password-file needs --user')
    if bool(args.cert) != bool(args.key):
        parser.error('--cert and --key need one another')
    if args.cert and not args.ca:
        parser.error('--cert needs --ca')
    return args


def address_of(args: argparse.Namespace) -> Address:
    """Returns where the broker is, and how the gateway proves there who it is."""
    host, port = args.broker
    password = arguments.first_line(args.password_file) if args.password_file else None
    if password is not None and not args.ca and host not in LOCAL:
        say('the password goes to the broker without TLS: give --ca')
    return Address(host, port, args.user, password, args.ca, args.cert, args.key)


def gateway_of(args: argparse.Namespace) -> Gateway:
    """Starts a gateway as the command line says. Raises `NotStarted`."""
    try:
        desk: Desk = arguments.desk_of(args)
        inbox = Inbox(Tally(say), args.front)
        broker = Broker(address_of(args), inbox, Log(say), args.front)
    except (NoLibrary, OSError, ValueError) as fault:
        raise NotStarted(str(fault)) from None
    vehicles = [str(key) for key in args.vehicle]
    telemetry = [TelemetrySender(path, Log(say)) for path in args.board]
    return Gateway(
        desk,
        broker,
        inbox,
        vehicles,
        front=args.front,
        instant_list=args.instant_list,
        telemetry=telemetry,
    )


def ended() -> threading.Event:
    """Returns an event that is set once SIGINT or SIGTERM has come. The signal also ends what waits
    at that moment, as for an answer of the desk."""
    over = threading.Event()

    def end(_number: int, _frame: FrameType | None) -> None:
        over.set()
        raise SystemExit(0)

    for number in (signal.SIGINT, signal.SIGTERM):
        signal.signal(number, end)
    return over


def run(line: list[str], text: str) -> int:
    """Runs the gateway; `text` is the head of its help. Returns the status, 1 where it can't be
    started."""
    args = parsed(line, text)
    over = ended()
    try:
        gateway = gateway_of(args)
    except NotStarted as fault:
        print(f'gateway: {fault}', file=sys.stderr)
        return 1
    while not over.wait(args.every):
        gateway.turn()
    return 0
