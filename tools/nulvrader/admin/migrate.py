"""`nulvrader migrate` without a file: asks first, keeps a copy of the installed desk's file, and
migrates the file. Only the copy leads back."""
from __future__ import annotations

import contextlib
import os
import sqlite3
import subprocess
import sys
import time

from ..common import entry
from ..common.plain_files import NotPlain
from ..file import database, opening
from . import conf, copies, init, units
from .units import AdminError

HEAD = """Migrates the file of the installed desk, if it is of the first schema: asks first, stops
the desk, keeps a copy from before beside the other copies, migrates the file, and starts the desk.
With --db FILE it is the command of the program itself, which docs/OPERATE.md describes. It ends
with 0 if the file is migrated, or need not be, else with 1 and the reason. It is run by root."""
QUESTION = 'Migrate it? Only the copy from before, with the older package, leads back. [yes] '


def is_first(db: str) -> bool:
    """Whether a file is of the first schema. Raises `AdminError` if it can't be read."""
    if not os.path.exists(db):
        return False
    try:
        with opening.opened(db) as connection:
            return database.tables_of(connection).is_first
    except (NotPlain, OSError, sqlite3.Error, database.TooMany) as fault:
        raise AdminError(f'{db}: {fault}') from None


def keep(db: str, folder: str) -> str:
    """Copies the file, which no desk has open, into the folder of the copies, and returns the path
    of the copy. No backup removes it, since its name is not one of theirs."""
    stem = os.path.splitext(os.path.basename(db))[0]
    copy = os.path.join(folder, f'{stem}-first-schema-{time.strftime("%Y%m%dT%H%M%SZ")}.db')
    try:
        with copies.own_folder('migrate-') as own:
            made = os.path.join(own, 'made.db')
            with opening.opened(db, alone=True, folder=own) as connection:
                with contextlib.closing(sqlite3.connect(made)) as other:
                    connection.backup(other)
            copies.put(made, copy, 0o600)
    except FileExistsError:
        raise AdminError(f'{copy} is there already') from None
    except (NotPlain, OSError, sqlite3.Error) as fault:
        raise AdminError(f'{db} can not be copied: {fault}') from None
    copies.sync(folder)
    return copy


def migrate(program: str, db: str) -> None:
    """Runs the program to migrate the file, as the user of the desk. Raises `AdminError`."""
    command = [program, 'migrate', '--db', db]
    done = subprocess.run(
        command, stdin=subprocess.DEVNULL, capture_output=True, text=True, **init.as_the_desk()
    )
    if done.returncode:
        raise AdminError(f'{db} is not migrated: {done.stderr.strip()} (docs/OPERATE.md says why)')


def says_yes() -> bool:
    """Asks a person whether to migrate the file, and returns whether the answer is yes."""
    try:
        return input(QUESTION).strip() == 'yes'
    except EOFError:
        return False


def carry_out(program: str) -> None:
    """Stops the desk, copies and migrates its file, and starts the desk again."""
    values = conf.values()
    db = values['NULVRADER_DB']
    runs = units.runs()
    if runs:
        units.systemctl('stop', units.DESK)
    print('a copy from before:', keep(db, values['NULVRADER_BACKUPS']))
    migrate(program, db)
    print(db, 'is migrated')
    if runs and units.is_enabled(units.DESK):
        units.systemctl('start', units.DESK)


def run(arguments: list[str]) -> int:
    """Runs `migrate` for an installed desk, and returns its status."""
    parser = entry.parser(HEAD, 'migrate')
    parser.add_argument('--yes', action='store_true', help='migrate it without a question')
    text = 'end with 0 if the file is of the first schema, and with 1 if not; do nothing'
    parser.add_argument('--look', action='store_true', help=text)
    text = 'the program of the desk (default: that beside this one)'
    parser.add_argument('--program', default=entry.PROGRAM, metavar='FILE', help=text)
    args = parser.parse_args(arguments)
    db = conf.values()['NULVRADER_DB']
    try:
        if not is_first(db):
            print(f'{db} is not of the first schema: there is nothing to migrate')
            return int(args.look)
        print(f'{db} is of the first schema')
        if args.look:
            return 0
        units.want_root()
        if not args.yes and not says_yes():
            raise AdminError('nothing is done')
        carry_out(args.program)
    except (AdminError, OSError) as fault:
        print(f'migrate: {fault}', file=sys.stderr)
        return 1
    return 0
