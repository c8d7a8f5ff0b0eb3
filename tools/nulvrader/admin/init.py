"""`nulvrader init`: makes the file of an installed desk with its layout, and starts the desk."""
from __future__ import annotations

import argparse
import grp
import os
import pwd
import subprocess
import sys
import time
from collections.abc import Mapping

from ..common import entry
from ..common.layouts import LayoutFile
from ..common.plain_files import read_text
from ..common.text import shown
from ..desk.answers import refused
from ..desk.client import Answer, Desk, NoAnswer
from ..file import reasons, stopped_file, tables
from . import conf, units
from .copies import RunAs
from .units import AdminError

LONGEST = 10_000  # the most characters of a line
PATIENCE = 60.0  # seconds until a desk that is started answers
USER = 'desk'  # the user of the desk
CLIENTS = 'desk-clients'  # the group that may ask the desk, and so may read its layout
REQUEST = b'PUT /layout HTTP/1.1\r\nContent-Length: %d\r\nConnection: close\r\n\r\n%s'


def as_the_desk() -> RunAs:
    """Returns as whom the desk's program runs: as its user, if there is one and root runs this."""
    if os.geteuid() != 0 or USER not in (one.pw_name for one in pwd.getpwall()):
        return {}
    return {'user': USER, 'group': USER, 'extra_groups': []}


def read_layout(path: str) -> bytes:
    """Reads a layout file, and raises `AdminError` with each fault of it if no desk takes it."""
    data = read_text(path)
    layout = LayoutFile(data)
    if layout.faults:
        lines = [shown(str(one), LONGEST) for one in layout.faults]
        raise AdminError('\n'.join([f'{shown(path, LONGEST)} is no layout:', *lines]))
    return data


def is_made(db: str, wanted: bytes) -> bool:
    """Whether the file is there with this layout and without a vehicle or a load, as an `init` that
    was stopped has left it. A file without a layout, or with nothing in it, counts as not made.
    Raises `AdminError` for any other file."""
    if reasons.check_file(db).is_new:
        return False
    try:
        with stopped_file.opened(db) as connection:
            layout = stopped_file.layout_in(connection)
            vehicles = stopped_file.rows_in(connection, tables.VehicleRow)
            loads = stopped_file.rows_in(connection, tables.LoadRow)
            is_used = any(vehicles) or any(loads)
    except stopped_file.Unread as fault:
        raise AdminError(f'there is a file already: {fault}') from None
    if not layout.nodes:
        return False
    if is_used or layout.csv() != LayoutFile(wanted).layout().csv():
        command = f'systemctl enable --now {" ".join(names(conf.values()))}'
        text = f"{db} is a desk's file with a layout, and stays as it is"
        raise AdminError(f'{text}. To start it: {command}')
    return True


def make_file(program: str, db: str, layout: bytes) -> None:
    """Makes the file with its layout, by one request to the program. Raises `AdminError`."""
    moment = str(time.time_ns() // 1_000_000)
    command = [program, 'replay', '--db', db, '--at', moment]
    request = REQUEST % (len(layout), layout)
    done = subprocess.run(
        command, input=request, capture_output=True, check=False, umask=0o027, **as_the_desk()
    )
    head, _, body = done.stdout.partition(b'\r\n\r\n')
    if done.returncode or not head.startswith(b'HTTP/1.1 '):
        why = done.stderr.decode(errors='replace').strip()
        raise AdminError(f'{db} can not be made: {why} (nulvrader why --user {USER} says more)')
    status = int(head[9:12])
    if status != 200:
        raise AdminError(f'the desk does not take the layout: {refused(Answer(status, body))}')


def put(path: str, data: bytes, group: str) -> None:
    """Replaces a file as a whole. A group may read the new one, if the group exists and root runs
    this; else only the user who runs this."""
    with open(f'{path}.new', 'wb', opener=_private) as file:
        file.write(data)
        os.fsync(file.fileno())
        found = [one.gr_gid for one in grp.getgrall() if one.gr_name == group]
        if found and os.geteuid() == 0:
            os.fchown(file.fileno(), 0, found[0])
        os.fchmod(file.fileno(), 0o640)
    os.replace(f'{path}.new', path)


def _private(path: str, flags: int) -> int:
    """Opens a new file that no other user may read."""
    return os.open(path, flags | os.O_CLOEXEC, 0o600)


def wait_for(desk: Desk) -> None:
    """Returns once the desk answers. Raises `AdminError` if that takes longer than PATIENCE."""
    ends = time.monotonic() + PATIENCE
    while True:
        try:
            desk.hold_report()
            return
        except NoAnswer as fault:
            if time.monotonic() > ends:
                raise AdminError(f'{fault} (journalctl -u {units.DESK} says why)') from None
        time.sleep(0.2)


def names(values: Mapping[str, str]) -> list[str]:
    """Returns the units of the desk and of the programs beside it."""
    return [units.SOCKET, units.DESK, units.TIMER, *units.beside(dict(values))]


def start(values: Mapping[str, str]) -> None:
    """Enables the desk and the programs beside it, and starts them, if systemd runs here."""
    if not units.runs():
        units.systemctl('enable', *names(values))
        print('systemd does not run here: the units are enabled, and not started')
        return
    units.systemctl('enable', '--now', *names(values))
    wait_for(Desk(values['NULVRADER_DESK']))
    print('the desk answers at', values['NULVRADER_DESK'])


def carry_out(args: argparse.Namespace) -> None:
    """Makes the file with its layout, and starts the desk."""
    values = conf.values()
    layout = read_layout(args.layout)
    if not args.no_start:
        units.want_root()
        units.want_no_restore()
    if not is_made(values['NULVRADER_DB'], layout):
        make_file(args.program, values['NULVRADER_DB'], layout)
    put(values['NULVRADER_LAYOUT'], layout, CLIENTS)
    print(f'{values["NULVRADER_DB"]} has the layout of {shown(args.layout, LONGEST)}')
    if args.no_start:
        return
    start(values)
    if any('board' in unit for unit in units.beside(values)):
        name = values['NULVRADER_NAME']
        print(f'the board: https://{name}/board/ (docs/OPERATE.md, *TLS, and who may do what*)')


def run(arguments: list[str], text: str) -> int:
    """Runs `init`, and returns its status; `text` is the head of its help."""
    parser = entry.parser(text, 'init')
    parser.add_argument(
        'layout', metavar='LAYOUT.csv', help='the layout, as docs/PROFILE.md has it'
    )
    parser.add_argument('--no-start', action='store_true', help='make the file alone')
    help_text = 'the program of the desk (default: that beside this one)'
    parser.add_argument('--program', default=entry.PROGRAM, metavar='FILE', help=help_text)
    try:
        carry_out(parser.parse_args(arguments))
    except (AdminError, OSError, KeyError) as fault:
        print(f'init: {fault}', file=sys.stderr)
        return 1
    return 0
