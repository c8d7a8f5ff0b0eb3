"""The command line of the board: reads it, starts all parts, and ends them."""
from __future__ import annotations

import argparse
import functools
import signal
import socket
import sqlite3
import threading

from ..common import entry
from ..desk import arguments
from ..desk.client import Desk
from ..drawing.floor_plan import BadPlan, FloorPlan, read_plan
from .alarms import Alarms
from .api.routes import Api
from .api.watch import Watch
from .api.watched_desk import DeskMeter, WatchedDesk
from .poller import Asker, Followers, ShownFile
from .commands import Commands
from .dispatcher_words import DispatcherWords
from .fleet import Fleet
from .shown_layout import ShownLayout
from .command_log import CommandLog
from .guard import Guard
from .instructed import Instructed
from .journal import log
from .news import News
from .pages import Board, Pages
from .record import NoRecord, Record
from .same_desk import SameDesk
from .server import Server, listening_at, listening_in
from .page_state import Shown
from .stock import Stores
from .uses import Uses
from .words_keeper import Keeper
from .words_socket import Heard, hearing_in

PATIENCE = 0.5  # seconds for an answer of the desk, at the end


def words(text: str) -> argparse.ArgumentParser:
    """Returns the options of the command line. `text` is the head of the help."""
    line = entry.parser(text, 'board')
    arguments.add_desk(line, front='desk-')
    add = line.add_argument
    add(
        '--db',
        default='board.db',
        metavar='FILE',
        help='where it keeps what it saw (default: board.db)',
    )
    add('--port', type=int, default=8081, help='the port of the page, 0 for any (default: 8081)')
    socket_text = (
        'listen on this socket in the place of a port, for a proxy: its group alone may open it'
    )
    add('--socket', metavar='FILE', help=socket_text)
    words_text = 'a socket on which gateways tell it what vehicles say (gateway --board)'
    add('--words', metavar='FILE', help=words_text)
    waits_text = 'a file in which a dispatcher writes why vehicles and jobs wait (dispatch --waits)'
    add('--waits', metavar='FILE', help=waits_text)
    told_text = 'what people say to the dispatcher, in its file, which this board shows and changes'
    add('--instructions', metavar='FILE', help=told_text)
    add('--days', type=int, default=30, help='how many days it keeps changes (default: 30)')
    silent = 'a vehicle of which no state has come for so long is shown as silent (default: 10)'
    add('--silent', type=arguments.seconds, default=10.0, metavar='SECONDS', help=silent)
    late = 'a job that waits for longer is an alarm (default: 30)'
    add('--late', type=float, default=30.0, metavar='MINUTES', help=late)
    positions = 'where nodes are, in metres, and a picture of the hall (docs/BOARD.md, The map)'
    add('--positions', metavar='FILE', help=positions)
    add('--read-only', action='store_true', help='no commands')
    name = (
        'a host name that a proxy uses for it, as desk.example or desk.example:8443; may be'
        ' repeated'
    )
    add('--name', action='append', default=[], metavar='HOST', help=name)
    user = 'the header in which a proxy names the user, for the record of commands'
    add('--user-header', metavar='NAME', help=user)
    return line


class Unready(Exception):
    """What can't be had, or not any more. Its `str()` is a sentence."""


def listener_of(said: argparse.Namespace) -> socket.socket:
    """Returns what the board listens on: a port of this machine, or a socket in a folder."""
    try:
        return listening_at(said.port) if said.socket is None else listening_in(said.socket)
    except (OSError, OverflowError) as fault:
        raise Unready(
            f'{f"port {said.port}" if said.socket is None else said.socket}: {fault}'
        ) from None


def heard_of(said: argparse.Namespace) -> Heard | None:
    """Returns what hears what gateways tell of vehicles; None where that isn't wanted."""
    if said.words is None:
        return None
    try:
        return Heard(hearing_in(said.words))
    except OSError as fault:
        raise Unready(f'{said.words}: {fault}') from None


def plan_of(said: argparse.Namespace) -> FloorPlan | None:
    """Returns where the nodes are; None where no file says so."""
    return None if said.positions is None else read_plan(said.positions)


def signalled() -> threading.Event:
    """Returns what is set once SIGINT or SIGTERM has come."""
    over = threading.Event()
    for number in (signal.SIGINT, signal.SIGTERM):
        signal.signal(number, lambda *_: over.set())
    return over


def wait_for_the_end(over: threading.Event, asker: Asker, server: Server) -> bool:
    """Waits for a signal. False where a thread has ended by itself."""
    while not over.wait(1):
        if not (asker.is_alive() and server.is_alive()):
            return False
    return True


def commands_of(
    said: argparse.Namespace, desk: Desk, drawn: ShownLayout, news: News, asker: Asker
) -> Commands | None:
    """Returns the commands, None where there are none. What an earlier run has sent without hearing
    of it is told."""
    if said.read_only:
        return None
    commands = Commands(
        desk, drawn, news, CommandLog(said.db, news.shown.event), asker, said.instructions
    )
    try:
        commands.tell_left()
    except NoRecord as fault:
        log(f'the commands of an earlier run can not be told: {fault}')
    return commands


def serve(said: argparse.Namespace) -> bool:
    """Asks the desk and serves pages until a signal comes. False where it ends by a fault."""
    listener = listener_of(said)
    try:
        meter, options = DeskMeter(), arguments.options_of(said)
        desks = WatchedDesk(meter, **options), WatchedDesk(meter, **options)
        record = Record(said.db)
        news = News(Shown(), record)
        plan = plan_of(said)
        drawn = ShownLayout(news, plan)
        heard = heard_of(said)
        follow = functools.partial(followers_of, news, said)
        asker = Asker(desks[0], news, drawn, follow, said.days, heard)
        commands = commands_of(said, desks[1], drawn, news, asker)
        api = Api(record, Watch(said.db, news.shown, asker, meter))
    except (NoRecord, BadPlan, OSError, ValueError, sqlite3.Error) as fault:
        raise Unready(str(fault)) from None
    port = int(listener.getsockname()[1]) if said.socket is None else None
    guard = Guard(port, said.name)
    board = Board(news.shown, record, asker, guard, commands, said.user_header, api, plan)
    server = Server(listener, Pages(board))
    over = signalled()
    api.feed.begin()
    asker.start()
    server.start()
    if heard is not None:
        heard.start()
    print(f'listening on {said.socket or f"http://127.0.0.1:{port}/"}', flush=True)
    told = wait_for_the_end(over, asker, server)
    server.stop()
    asker.stop(PATIENCE)
    if heard is not None:
        heard.stop()
    api.feed.stop()
    if commands is not None:
        commands.log.close()
    record.close()
    return told


def followers_of(news: News, said: argparse.Namespace) -> Followers:
    """Returns those that take the answers, by what the record has."""
    stores, fleet = Stores(news), Fleet(news, int(said.silent * 1000))
    keeper, alarms = Keeper(news), Alarms(news, int(said.late * 60_000))
    uses = Uses(news)
    files: list[ShownFile] = []
    if said.waits is not None:
        files.append(DispatcherWords(news.shown, said.waits))
    if said.instructions is not None:
        files.append(Instructed(news.shown, said.instructions))
    news.commit()
    return Followers(stores, fleet, SameDesk(news.record), keeper, alarms, uses, files)


def run(line: list[str], text: str) -> int:
    """Runs the board; `text` is the head of its help. The status: 1 where something can't be had or
    fails, 2 where the line is wrong."""
    try:
        return 0 if serve(words(text).parse_args(line)) else 1
    except Unready as fault:
        log(str(fault))
        return 1
