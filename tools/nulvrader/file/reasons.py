"""Finds the reasons why a desk does not start on a file and a port, or has ended: sentences that
say what to do. The file, what lies beside it and the machine are only read. Names in them may be
anybody's, so they are printed by `shown`."""
from __future__ import annotations

import itertools
import os
import time

from ..common import plain_files
from ..common.plain_files import NotPlain
from ..standby import lock
from . import machine, opening
from .contents import (
    Findings,
    command_text,
    noting_faults,
    check_table_names,
    check_rows_of,
    path_text,
)
from .machine import Program, User

ROOM = 1_000_000  # bytes: with less on the disk a desk that begins or copies its log fails
LAST_SECOND = 4102444799  # of 2099


def find_reasons(path: str, port: int | None, user: User, rows_of_a_rule: int) -> Findings:
    """Finds the reasons on this file, port and user, with at most `rows_of_a_rule` rows for each
    rule that rows break."""
    findings = Findings()
    if not 0 <= time.time() <= LAST_SECOND:
        findings.reasons.append('The clock is not between 1970 and 2099 (`fault: Clock`): set it.')
    is_free, holders = _check_path(findings, path, user)
    if port is not None:
        _check_port(findings, path, port, user, holders)
    elif holders:
        findings.reasons.append(_has_file(path, holders))
    if is_free and os.path.exists(path):
        check_rows_of(findings, path, rows_of_a_rule)
    return findings


def check_file(path: str) -> Findings:
    """Finds whether the file is a desk's, by its tables alone; its rows are not read. That a desk
    would begin a new warehouse is a reason, too."""
    findings = Findings()
    if not os.path.exists(path):
        findings.note_new(f'There is no file {path_text(path)}.')
    else:
        noting_faults(findings, path, lambda: check_table_names(findings, path))
    if findings.is_new:
        why = ' '.join(findings.notes)
        text = f'No desk is started, since it would begin a new warehouse: {why} {MAKE}'
        findings.reasons.append(text)
    return findings


MAKE = (
    '`nulvrader init LAYOUT.csv` makes a file with a layout, `nulvrader restore COPY.db` '
    'puts a copy back.'
)


# ---- the port


def _has_file(path: str, holders: list[Program]) -> str:
    """Returns the sentence that these programs have the file open, and what to do."""
    whose = ' and '.join(map(str, holders))
    return (
        f'{whose} has {path_text(path)} open, and a desk needs its file to itself (`fault:'
        ' Storage`): end it, or name another file.'
    )


def _check_port(
    findings: Findings, path: str, port: int, user: User, holders: list[Program]
) -> None:
    """Notes which programs listen on the port, which of them have the file open, and whether the
    user may use the port."""
    listeners = machine.who_listens(port)
    for listener in listeners:
        if listener.program in holders:
            findings.reasons.append(
                f'A desk is running already: {listener.program} has {path_text(path)} open and'
                f' listens on port {port}. Ask that one, or end it first.'
            )
        else:
            who = listener.program or f'a program of the user {listener.user} (root sees which)'
            findings.reasons.append(
                f'{who} listens on port {port} of {listener.address} (`fault: Net`): end it, or'
                ' name another port.'
            )
    rest = [
        holder for holder in holders if holder not in [listener.program for listener in listeners]
    ]
    if rest:
        findings.reasons.append(_has_file(path, rest))
    if user.uid != 0 and port < machine.first_port():
        findings.reasons.append(
            f'The user {user} may not use a port below {machine.first_port()} (`fault: Net`): name'
            f' another one than {port}.'
        )


# ---- the folder, the file, the rights and the disk


def _check_path(findings: Findings, path: str, user: User) -> tuple[bool, list[Program]]:
    """Notes what keeps the user from the file. Returns whether its rows may be read, and which
    programs have it open."""
    path = os.path.abspath(path)
    folder = os.path.dirname(path)
    elsewhere = lock.reason(path)
    if elsewhere:
        findings.reasons.append(elsewhere)
        return False, []
    reason = _folder(folder, user) or (
        _file(path, user) if os.path.exists(path) else _new_file(path, user)
    )
    if reason:
        findings.reasons.append(reason + ' (`fault: Storage`)')
        return False, []
    _check_disk(findings, folder, user)
    if not os.path.exists(path):
        findings.note_new(
            f'There is no file {path_text(path)}: a desk that is started makes it, and begins a new'
            ' warehouse.'
        )
        return False, []
    holders = [
        holder
        for name in (path, path + '-wal')
        if os.path.exists(name)
        for holder in machine.who_has(name)
    ]
    is_locked = not holders and machine.is_locked(path)
    if is_locked:
        findings.reasons.append(
            f'A program has a lock on {path_text(path)} (`fault: Storage`): as root, this says'
            ' which. End it.'
        )
    return not holders and not is_locked, list(dict.fromkeys(holders))


def _check_disk(findings: Findings, folder: str, user: User) -> None:
    """Notes that the disk of a folder is full."""
    free = machine.free_bytes(folder, user)
    if free < ROOM:
        findings.reasons.append(
            f'The disk of {path_text(folder)} is full: {free} bytes are free, and a desk needs'
            f' {ROOM} (`fault: Storage`). Make room.'
        )


def _folder(folder: str, user: User) -> str | None:
    """Returns what is wrong with the folder or one above it."""
    parts = itertools.accumulate(
        folder.split('/')[1:], lambda above, name: above + '/' + name, initial=''
    )
    for part in (one or '/' for one in parts):
        if not os.path.exists(part):
            return (
                f'The folder {path_text(part)} is missing: make it, `mkdir -p'
                f' {command_text(folder)}`, or name another file.'
            )
        if not os.path.isdir(part):
            return f'{path_text(part)} is not a folder: name another file.'
        if not user.may(part, os.X_OK):
            return (
                f'The user {user} may not enter the folder {path_text(part)}'
                f' ({machine.owner(part)}): {GRANT}'
            )
    return None


GRANT = 'give the right, by `chmod` or `chown`, or run the desk as another user.'


def _new_file(path: str, user: User) -> str | None:
    """Returns what keeps the user from making a file at a path."""
    return (
        None
        if user.may(os.path.dirname(path), os.W_OK)
        else _no_writing(os.path.dirname(path), user)
    )


def _no_writing(folder: str, user: User) -> str:
    """Returns the sentence that the user may not make files in a folder, and what to do."""
    return (
        f'The user {user} may not make files in the folder {path_text(folder)}'
        f' ({machine.owner(folder)}): {_mounted(folder) or GRANT}'
    )


def _mounted(path: str) -> str | None:
    """Returns what to do where the disk of a path is mounted read-only, else None."""
    readable = os.statvfs(path).f_flag & os.ST_RDONLY
    return 'its disk is mounted read-only: mount it read-write.' if readable else None


def _file(path: str, user: User) -> str | None:
    """Returns what is wrong with the file, the log beside it, or the folder in which the log is to
    be made."""
    if os.path.isdir(path):
        return (
            f'{path_text(path)} is a folder: name a file in it, as'
            f' {path_text(os.path.join(path, "warehouse.db"))}.'
        )
    for end in ('', *opening.BESIDE):
        try:
            plain_files.check(path + end)
        except NotPlain as fault:
            return f'{fault}: {"remove it" if end else "name another file"}.'
    for name in (path, path + '-wal'):
        for bit, what in ((os.R_OK, 'read'), (os.W_OK, 'write')):
            if os.path.exists(name) and not user.may(name, bit):
                return (
                    f'The user {user} may not {what} {path_text(name)} ({machine.owner(name)}): '
                    f'{bit == os.W_OK and _mounted(name) or GRANT}'
                )
    return None if os.path.exists(path + '-wal') else _new_file(path, user)
