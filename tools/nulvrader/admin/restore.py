"""`nulvrader restore`: puts a copy back in the place of an installed desk's file, by the ten steps
of docs/OPERATE.md. It does and checks what it can, and asks a person to do the rest."""
from __future__ import annotations

import argparse
import contextlib
import os
import pwd
import shutil
import sqlite3
import sys
import time
from collections.abc import Callable
from typing import NoReturn

from ..common import entry
from ..common.counts import CountFile
from ..common.names import VehicleKey
from ..common.plain_files import PATH, read_text
from ..common.text import shown
from ..desk import questions
from ..desk.client import Desk, NoAnswer, Refused
from ..file import opening, stopped_file, tables
from . import conf, copies, init, units
from .units import AdminError

STEPS = 10
ROWS = 1000  # the most rows of a count that are sent at once: 65 bytes each
STOP = """Stop all vehicles, take their loads off, and clear their orders on them, so that their
states have an empty orderId and no actionStates. Nothing may move until the end."""


class NoInput(Exception):
    """Standard input has ended, so nobody answers a question."""


def ask(question: str) -> str:
    """Asks a person a question, and returns the answer. Raises `NoInput`."""
    try:
        return input(f'{question} ').strip()
    except EOFError:
        raise NoInput from None


def want_yes(question: str) -> None:
    """Asks a person until the answer is yes."""
    while ask(f'{question} [yes]') != 'yes':
        print('Write yes once it is done, or end this by Ctrl-C.')


class Restore:
    """Puts a copy back: a method for each step, whose docstring is printed before it."""

    def __init__(
        self, copy: str, values: dict[str, str], has_systemd: bool, program: str = entry.PROGRAM
    ) -> None:
        self.copy, self.db, self.program = copy, values['NULVRADER_DB'], program
        self.kept = self._copy_privately(copy)
        self.desk = Desk(values['NULVRADER_DESK'], timeout=30)
        self.beside = units.beside(values)
        self.has_systemd = has_systemd
        self.stamp = time.strftime('%Y%m%dT%H%M%S', time.gmtime())
        self.count = 0
        with stopped_file.opened(self.kept) as connection:
            self._read(connection)

    def _copy_privately(self, copy: str) -> str:
        """Copies the copy, and its log, to one file where only root writes, and returns its path.
        This file is what is read, checked and put in place: the folder of the copy may belong to
        another user, who could replace the copy meanwhile."""
        self.place = copies.own_folder('restore-')
        made, folder = (os.path.join(self.place.name, name) for name in ('made.db', 'taken'))
        os.mkdir(folder)
        try:
            taken = opening.copy_into(copy, folder)
            copies.make(taken, made)
        except BlockingIOError:
            raise AdminError(f'{shown(copy, PATH)}: {stopped_file.LOCKED}') from None
        except copies.CopyError as fault:
            raise AdminError(f'{shown(copy, PATH)}: {fault.why}') from None
        shutil.rmtree(folder)
        return made

    def _read(self, connection: sqlite3.Connection) -> None:
        """Reads the layout, the waiting jobs and the vehicles of the copy."""
        self.layout = stopped_file.layout_in(connection)
        jobs = stopped_file.rows_in(connection, tables.JobRow)
        self.waiting = sorted(job.id for job in jobs if job.phase == 'waiting')
        self.vehicles = sorted(stopped_file.vehicles_in(connection, self.layout))

    def ref(self) -> str:
        """Returns a reference that was never used."""
        self.count += 1
        return f'restore-{self.stamp}-{self.count}'

    def unit(self, verb: str, *names: str) -> None:
        """Starts or stops units. Where systemd does not run, a person is asked to."""
        if self.has_systemd:
            units.systemctl(verb, *names)
        else:
            want_yes(f'{verb} {" ".join(names)}: systemd does not run here.')

    def vehicles_stand(self) -> None:
        """Stop all vehicles."""
        want_yes(STOP)

    def clients_are_stopped(self) -> None:
        """Stop the gateways, the dispatcher, and all other clients."""
        self._mark()
        self.unit('stop', units.GATEWAY, *self.beside, units.TIMER)
        want_yes('Are the gateways of other machines, and all other clients, stopped?')

    def _mark(self) -> None:
        """Keeps the programs beside the desk from being started until the last step."""
        if os.path.isdir(os.path.dirname(units.MARK)):
            init.put(
                units.MARK, f'{shown(self.copy, PATH)} is being put back\n'.encode(), init.CLIENTS
            )

    def file_is_replaced(self) -> None:
        """Stop the desk, move its old files away, and put the copy in their place."""
        new = self._make()
        self.unit('stop', units.DESK)
        self._move_aside()
        os.rename(new, self.db)
        copies.sync(os.path.dirname(self.db))
        print(f'{self.db} is {shown(self.copy, PATH)}')

    def _make(self) -> str:
        """Puts the copy beside the old file, and has the desk check it. Returns its path."""
        new = f'{self.db}.new'
        copies.remove(new)
        try:
            self._put(new)
            copies.check(self.program, new, init.as_the_desk())
            copies.remove_beside(new)  # the report changes nothing
        except (copies.CopyError, OSError):
            copies.remove(new)
            raise
        copies.sync(new)
        print(f'the desk reads the copy: {copies.loads_in(self.kept)} loads')
        return new

    def _put(self, new: str) -> None:
        """Copies the copy to a new file that belongs to the desk's user."""
        owner = None
        if init.as_the_desk():
            found = pwd.getpwnam(init.USER)
            owner = found.pw_uid, found.pw_gid
        copies.put(self.kept, new, 0o640, owner)

    def _move_aside(self) -> None:
        """Moves the old files into a new folder, the file itself first: without it no desk starts.
        Both folders are open meanwhile, so that nobody can put a link in their place."""
        flags = os.O_RDONLY | os.O_DIRECTORY | os.O_NOFOLLOW | os.O_CLOEXEC
        with contextlib.ExitStack() as stack:
            here = os.open(os.path.dirname(self.db), flags & ~os.O_NOFOLLOW)
            stack.callback(os.close, here)
            taken = set(os.listdir(here))
            names = (
                f'aside-{self.stamp}{more}' for more in ('', *map('-{}'.format, range(2, 100)))
            )
            name = next(name for name in names if name not in taken)
            os.mkdir(name, 0o750, dir_fd=here)
            aside = os.open(name, flags, dir_fd=here)
            stack.callback(os.close, aside)
            found = os.listdir(here)
            for old in (os.path.basename(self.db) + end for end in copies.BESIDE):
                if old in found:
                    os.rename(old, old, src_dir_fd=here, dst_dir_fd=aside)
            os.fsync(aside)
            os.fsync(here)
        print('the old files are in', os.path.join(os.path.dirname(self.db), name))

    def jobs_are_noted(self) -> None:
        """Note the jobs that wait in the copy."""
        print(f'{len(self.waiting)} jobs wait in the copy: {" ".join(self.waiting)}')

    def desk_is_started(self) -> None:
        """Start the desk, the gateways still stopped."""
        self.unit('start', units.SOCKET, units.DESK)
        init.wait_for(self.desk)

    def vehicles_are_placed(self) -> None:
        """Resync and place each vehicle where it stands."""
        print('Register a vehicle that the copy does not know: nulvrader ask register-vehicle')
        wanted: dict[VehicleKey, str] = {}
        for key in self.vehicles:
            self.desk.resync(key)
            wanted[key] = self._stands(key, wanted)
        left = list(wanted)
        while left:
            placed = [key for key in left if self._place(key, wanted[key])]
            left = [key for key in left if key not in placed]
            if left and not placed:
                self._make_room(left[0])
        self._check_holds()

    def _stands(self, key: VehicleKey, others: dict[VehicleKey, str]) -> str:
        """Asks a person at which node a vehicle stands."""
        known = self.desk.vehicle(key).node
        while True:
            node = ask(f'{key}: at which node does it stand? [{known}]') or known
            if node not in self.layout.nodes:
                print(f'There is no node {shown(node, 40)}.')
            elif node in others.values():
                print(f'Another vehicle stands at {node}, as you have said.')
            else:
                return node

    def _place(self, key: VehicleKey, node: str) -> bool:
        """Places a vehicle. False if another vehicle holds the node."""
        try:
            self.desk.place(key, self.ref(), node)
        except Refused as fault:
            if fault.name != 'Held':
                raise
            return False
        return True

    def _make_room(self, key: VehicleKey) -> None:
        """Places a vehicle at a free node, since the others wait for it in a circle."""
        held = questions.held(self.desk).nodes
        free = [node for node in self.layout.nodes if node not in held]
        if not free:
            raise AdminError('no node is free to place a vehicle at meanwhile')
        self.desk.place(key, self.ref(), free[0])

    def _check_holds(self) -> None:
        """Raises `AdminError` where a vehicle holds more than the node where it stands."""
        holds = questions.held(self.desk)
        if holds.edges or len(holds.nodes) != len(set(holds.nodes.values())):
            raise AdminError(
                'a vehicle holds more than the node where it stands: GET /report/holds'
            )
        print(f'{len(holds.nodes)} vehicles hold a node each, and no order is open')

    def jobs_are_stopped(self) -> None:
        """Stop the jobs that wait."""
        self._each(self.waiting, self.desk.stop_job, 'JobState')

    def loads_are_corrected(self) -> None:
        """Correct the loads on vehicles to the checking place."""
        found = questions.stock(self.desk).vehicles.values()
        loads = [load for carried in found for load in carried]
        self._each(loads, lambda load: self.desk.correct_load(load, self.ref()), '')

    def _each(self, names: list[str], call: Callable[[str], None], done: str) -> None:
        """Makes a call for each name. The refusal `done` says that nothing is left to do."""
        for name in names:
            try:
                call(name)
                print(name, 'is done')
            except Refused as fault:
                if fault.name != done:
                    raise

    def stations_are_counted(self) -> None:
        """Count all stations."""
        text = 'Count all stations. The file of the count (station,load), or later:'
        path = ask(text)
        if path == 'later':
            print('A count later is `nulvrader ask stocktake`.')
            return
        try:
            count = CountFile(read_text(path))
        except OSError as fault:
            print(fault)
            return self.stations_are_counted()
        lacking = sorted(set(self.layout.stations) - set(count.stations()))
        if count.faults or lacking:
            lines = [shown(str(one), 1000) for one in count.faults]
            lines += [f'station {name} is not counted: write {name},' for name in lacking]
            print('\n'.join(lines))
            return self.stations_are_counted()
        self._send_count(count)

    def _send_count(self, count: CountFile) -> None:
        """Sends a count in parts, each of whole stations."""
        parts: list[list[str]] = [[]]
        for name in count.stations():
            found = (row for row in count.rows if row.station == name)
            rows = [f'{row.station},{row.load or ""}\n' for row in found]
            if len(parts[-1]) + len(rows) > ROWS:
                parts.append([])
            parts[-1] += rows
        for part in parts:
            result = self.desk.stocktake(self.ref(), ''.join(['station,load\n', *part]).encode())
            print(f'{result.moved} loads were moved by the count')
            for load in result.unknown:
                print(f'{load} is unknown: register it where it stands, if it has not left')

    def clients_are_started(self) -> None:
        """Start the gateways, and what else was stopped."""
        if os.path.lexists(units.MARK):
            os.remove(units.MARK)
        self.unit('start', *self._wanted(), units.TIMER)
        print('Once each vehicle has posted a state, orders may be given, by names never used.')
        print('The board knows the newer file: stop it, move its board.db* away, and start it.')

    def _wanted(self) -> list[str]:
        """Returns the units that run beside the desk."""
        has_gateway = self.has_systemd and units.is_enabled(units.GATEWAY)
        return sorted({*self.beside, *([units.GATEWAY] if has_gateway else [])})

    def steps(self) -> list[Callable[[], None]]:
        """Returns all steps in their order."""
        return [
            self.vehicles_stand,
            self.clients_are_stopped,
            self.file_is_replaced,
            self.jobs_are_noted,
            self.desk_is_started,
            self.vehicles_are_placed,
            self.jobs_are_stopped,
            self.loads_are_corrected,
            self.stations_are_counted,
            self.clients_are_started,
        ]


def stop_at(step: int, why: str) -> NoReturn:
    """Ends the program, and says how to go on."""
    print(f'restore: {why}', file=sys.stderr)
    print(f'restore: stopped at step {step}; go on by --from {step}', file=sys.stderr)
    if os.path.lexists(units.MARK):
        text = 'until the last step no dispatcher, gateway or board is started, since there is'
        print(f'restore: {text} {units.MARK}', file=sys.stderr)
    raise SystemExit(1)


def carry_out(restore: Restore, first: int) -> None:
    """Takes the steps from step `first` on."""
    for number, step in enumerate(restore.steps(), 1):
        if number < first:
            continue
        print(f'\n{number}. {step.__doc__}')
        try:
            step()
        except (AdminError, copies.CopyError, Refused, NoAnswer, OSError, sqlite3.Error) as fault:
            stop_at(number, fault.told() if isinstance(fault, Refused) else str(fault))
        except (NoInput, KeyboardInterrupt):
            stop_at(number, 'nobody answers')


def run(arguments: list[str], text: str) -> int:
    """Runs `restore`, and returns its status; `text` is the head of its help."""
    parser = entry.parser(text, 'restore')
    parser.add_argument('copy', metavar='COPY.db', help='the copy that is put back')
    help_text = 'the step with which to go on, 1 to 10 (default: 1)'
    choices = range(1, STEPS + 1)
    parser.add_argument(
        '--from', type=int, dest='first', choices=choices, metavar='STEP', help=help_text
    )
    help_text = 'the program of the desk (default: that beside this one)'
    parser.add_argument('--program', default=entry.PROGRAM, metavar='FILE', help=help_text)
    args: argparse.Namespace = parser.parse_args(arguments)
    try:
        units.want_root()
        if args.first is None:
            units.want_no_restore()
        restore = Restore(args.copy, conf.values(), units.runs(), args.program)
    except (AdminError, stopped_file.Unread, OSError, ValueError) as fault:
        print(f'restore: {fault}', file=sys.stderr)
        return 1
    with restore.place:
        carry_out(restore, args.first or 1)
    return 0
