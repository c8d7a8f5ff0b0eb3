"""Checks the file of a desk that does not start: whether a desk can read it, whether its tables are
a desk's, and which of its rows break which rule."""
from __future__ import annotations

import dataclasses
import shlex
import sqlite3
from collections.abc import Callable

from ..common import plain_files
from ..common.plain_files import PATH, NotPlain
from ..common.text import shown
from . import database, opening
from .rows import BadRows, read_first_rows, read_rows
from .rules import Broken, broken_rules

COPY = 'docs/OPERATE.md, "Putting a copy back"'
OTHER_FILE = f'Name the file of a desk, or put a copy back: {COPY}.'
NAMES = 1000  # the most characters of a line with names of the file


@dataclasses.dataclass
class Findings:
    """What was found: the reasons why a desk doesn't start, and notes that are none. `is_new` says
    that a desk would begin a new warehouse, `may_pass` that the file could not be read this time
    and perhaps can be later."""

    reasons: list[str] = dataclasses.field(default_factory=list)
    notes: list[str] = dataclasses.field(default_factory=list)
    is_new: bool = False
    may_pass: bool = False

    def note_new(self, text: str) -> None:
        """Notes why a desk would begin a new warehouse."""
        self.notes.append(text)
        self.is_new = True


def path_text(path: str) -> str:
    """Returns a path as a sentence shows it."""
    return shown(path, PATH)


def command_text(path: str) -> str:
    """Returns a path as a shell command shows it."""
    return path_text(shlex.quote(path))


def check_table_names(findings: Findings, path: str) -> None:
    """Notes what is wrong with the names and forms of the tables. The log beside the file is read
    only where the file itself lacks the tables, as a young one may."""
    plain_files.check(path)
    if not _check_is_database(findings, path):
        return
    for has_log in (False, True):
        try:
            with opening.opened(path, has_log=has_log) as connection:
                found = database.tables_of(connection)
        except sqlite3.Error as error:
            if has_log or opening.is_bounded(error):
                raise
            continue
        if found.is_second:
            return
    if found.is_first:
        findings.reasons.append(_first(path))
    else:
        _note_other_tables(findings, path, found)


def check_rows_of(findings: Findings, path: str, rows_of_a_rule: int) -> None:
    """Notes what is wrong with the file and its rows. No other program has the file open, and this
    user may read it."""

    def check() -> None:
        if _check_is_database(findings, path):
            with opening.opened(path) as connection:
                _check_tables(findings, path, connection, rows_of_a_rule)

    noting_faults(findings, path, check)


def noting_faults(findings: Findings, path: str, check: Callable[[], object]) -> None:
    """Runs a check, and notes as a reason what keeps it from reading the file."""
    try:
        check()
    except (sqlite3.Error, MemoryError, UnicodeError) as error:
        if opening.is_of_the_machine(error):
            findings.may_pass = True
            findings.reasons.append(_not_read(path, opening.why_unread(error)))
            return
        findings.reasons.append(
            f'{path_text(path)} is damaged: {shown(opening.why_unread(error))} (`fault: Storage` or'
            f' `Damaged`). Put a copy back: {COPY}.'
        )
    except BadRows as error:
        findings.reasons.append(
            f'{path_text(path)} is damaged: {error} (`fault: Damaged`). Put a copy back: {COPY}.'
        )
    except database.TooMany as error:
        findings.reasons.append(f'{path_text(path)} is not looked into: {error}. {OTHER_FILE}')
    except NotPlain as error:
        findings.reasons.append(f'{error}. {OTHER_FILE}')
    except OSError as error:
        findings.may_pass = not isinstance(error, PermissionError)
        findings.reasons.append(_not_read(path, str(error)))


def _not_read(path: str, why: str) -> str:
    """Returns the sentence that a file could not be read this time, and what to do."""
    return (
        f'The rows of {path_text(path)} could not be read: {shown(why, PATH)}. Run this as root,'
        ' with room for a copy of the file in the folder TMPDIR.'
    )


def _check_is_database(findings: Findings, path: str) -> bool:
    """Notes why the file is no database that may be read, if so. Returns whether it is one."""
    if opening.has_journal(path):
        findings.reasons.append(
            f'{path_text(path)}-journal lies beside the file: another SQLite was stopped in the'
            ' middle of a change (`fault: Storage`). Roll it back: `sqlite3'
            f" {command_text(path)} 'SELECT 1 FROM sqlite_master'`."
        )
    elif opening.is_empty(path):
        findings.note_new(
            f'{path_text(path)} is empty: a desk that is started makes its tables in it.'
        )
    elif not opening.has_head(path):
        findings.reasons.append(
            f'{path_text(path)} is no database: it begins with {opening.head_of(path)!r} (`fault:'
            f' Storage`). {OTHER_FILE}'
        )
    else:
        return True
    return False


def _check_tables(
    findings: Findings, path: str, connection: sqlite3.Connection, rows_of_a_rule: int
) -> None:
    """Notes damage of the file, what a desk's SQL does not read, and what is wrong with the tables
    and their rows."""
    damage = database.integrity(connection)
    if damage:
        findings.reasons.append(
            f'{path_text(path)} is damaged, as SQLite says (`fault: Storage` or `Damaged`). Put a'
            f' copy back: {COPY}.{_lines(damage)}'
        )
        return
    findings.reasons += [
        f'A desk reads no file that has {shown(what, NAMES)} (`fault: Storage`): {do}.'
        for what, do in database.unread(connection)
    ]
    found = database.tables_of(connection)
    if found.others:
        findings.notes.append(
            f"Not a desk's: {shown(', '.join(found.others), NAMES)}. If a desk says `fault:"
            " Storage` for no other reason, its SQL can't read one of these, such as a view in"
            " words of SQL that it lacks, or rows that are older than a column with a default."
        )
    if found.is_first:
        _check_first(findings, path, connection, rows_of_a_rule)
    elif found.is_second:
        _check_second(findings, path, connection, rows_of_a_rule)
    else:
        _note_other_tables(findings, path, found)


def _note_other_tables(findings: Findings, path: str, found: database.Tables) -> None:
    """Notes what a file has whose tables are not a desk's."""
    if found.is_bare:
        findings.note_new(
            f'{path_text(path)} is a database without a table: a desk that is started makes its'
            ' tables in it.'
        )
    elif found.is_foreign and found.odd:
        findings.reasons.append(
            f"{path_text(path)} is another application's database, in which a desk can't make its"
            f" tables (`fault: Damaged`): name another file.{_lines(found.odd)}"
        )
    elif found.is_foreign:
        findings.reasons.append(
            f"{path_text(path)} is another application's database: its tables are"
            f" {shown(', '.join(found.others), NAMES)}. A desk would make its own tables in it:"
            " name another file."
        )
    else:
        lines = [f'the table {name} is missing' for name in found.missing] + found.odd
        findings.reasons.append(
            f"The tables of {path_text(path)} aren't those of a desk (`fault: Damaged`). Make them"
            f" those of docs/TABLES.md, or put a copy back: {COPY}.{_lines(lines)}"
        )


def _lines(lines: list[str]) -> str:
    """Returns lines as they stand below a reason."""
    return ''.join('\n  ' + shown(line, NAMES) for line in lines)


def _check_second(
    findings: Findings, path: str, connection: sqlite3.Connection, rows_of_a_rule: int
) -> None:
    """Notes what is wrong with the rows of a file of the second schema."""
    rows = read_rows(connection)
    _note_breaches(findings, path, list(broken_rules(rows, rows_of_a_rule)))
    findings.reasons += [
        f'{shown(other, NAMES)} may refuse a row of the desk (`fault: Storage`): drop it.'
        for other in database.unique_indexes(connection)
    ]
    findings.notes.append(
        f'{path_text(path)} is of the second schema, so there is nothing to migrate, and has'
        f' {len(rows.load)} loads, {len(rows.job)} jobs, {len(rows.vehicle)} vehicles and'
        f' {len(rows.journey)} open orders.'
    )


def _check_first(
    findings: Findings, path: str, connection: sqlite3.Connection, rows_of_a_rule: int
) -> None:
    """Notes what is wrong with the rows of a file of the first schema; where nothing is, that the
    file has to be migrated."""
    broken = list(broken_rules(read_first_rows(connection), rows_of_a_rule))
    _note_breaches(findings, path, broken)
    if not broken:
        findings.reasons.append(_first(path))


def _first(path: str) -> str:
    """Returns the sentence that a file is of the first schema, and how to migrate it."""
    return (
        f'{path_text(path)} is of the first schema, as an earlier desk made it (`fault: Damaged`).'
        f" Copy it, `sqlite3 {command_text(path)} '.backup before.db'`, and migrate it: `./desk"
        f' migrate --db {command_text(path)}` (docs/OPERATE.md, *Migrate a file*). With the'
        ' package `nulvrader migrate` does both.'
    )


def _note_breaches(findings: Findings, path: str, broken: list[Broken]) -> None:
    """Notes the breaches, each below the rule that it breaks."""
    if not broken:
        return
    lines = [
        f'Rows of {path_text(path)} break rules of the desk (`fault: Damaged`). Undo what was'
        f' written into the file, or put a copy back: {COPY}.'
    ]
    for one in broken:
        lines.append(f'  rule "{one.rule.name}": {one.rule.text}')
        lines += [f'    {breach}' for breach in one.first]
        if one.more:
            lines.append(f'    and {one.more} more')
    findings.reasons.append('\n'.join(lines))
