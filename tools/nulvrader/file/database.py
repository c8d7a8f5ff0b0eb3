"""Says whether the tables of a database are a desk's, as docs/TABLES.md has it under "Whose file is
a desk's".

The file may be anybody's. So no statement here names a view, a virtual table or a table whose
constraints are expressions: SQLite would compile the view, call the module of the virtual table and
compute the expressions, which may take any time. Their rows in SQLite's schema table are read."""
from __future__ import annotations

import collections
import contextlib
import dataclasses
import re
import sqlite3
from collections.abc import Iterator
from typing import NamedTuple

from .tables import KEYS, SECOND, TABLES, columns_of

# The most tables, indexes, views and triggers that are read: a desk's file has 37.
MOST_ENTRIES = 10_000
MOST_TEXT = 10_000_000  # the most characters of their statements
VIRTUAL = re.compile(r'\s*CREATE\s+VIRTUAL\b', re.I)
OWN = 'sqlite_'  # how the names of SQLite's own tables and indexes begin


class SchemaEntry(NamedTuple):
    """A row of SQLite's schema table: a table, a view, a trigger or an index, with the statement
    that makes it."""

    kind: str
    name: str
    table: str
    text: str

    @property
    def is_table(self) -> bool:
        """Whether it is a table that is not virtual."""
        return self.kind == 'table' and not VIRTUAL.match(_bare(self.text))


class TooMany(Exception):
    """The schema table has more rows or text than is read. Its `str()` says so."""


def all_entries_in(connection: sqlite3.Connection) -> list[SchemaEntry]:
    """Returns the rows of SQLite's schema table, except for the indexes of keys."""
    rows = connection.execute(
        'SELECT type, name, tbl_name, sql FROM sqlite_master WHERE sql NOT NULL'
    )
    found, size = [], 0
    for row in rows:
        entry = SchemaEntry(*map(_text, row))
        found.append(entry)
        size += sum(map(len, entry))
        if len(found) > MOST_ENTRIES:
            raise TooMany(f'it has more than {MOST_ENTRIES} tables, indexes, views and triggers')
        if size > MOST_TEXT:
            raise TooMany(f'its tables are written with more than {MOST_TEXT} characters')
    return found


def entries_in(connection: sqlite3.Connection) -> list[SchemaEntry]:
    """Returns the rows of SQLite's schema table that are not SQLite's own."""
    return [entry for entry in all_entries_in(connection) if not entry.name.lower().startswith(OWN)]


def _text(value: object) -> str:
    """Returns a value of the schema table, which has texts alone unless it is damaged."""
    return value if isinstance(value, str) else repr(value)


def integrity(connection: sqlite3.Connection) -> list[str]:
    """Returns how the file is damaged: what SQLite's own check finds, at most ten lines, and rows
    of the schema table that SQLite never writes. Tables whose constraints are expressions are left
    out of SQLite's check."""
    odd = connection.execute(
        """
        SELECT rowid FROM sqlite_master
        WHERE type NOT IN ('table', 'index', 'view',
        'trigger') OR typeof(name) != 'text' OR typeof(tbl_name) != 'text'
          OR typeof(sql) NOT IN ('text',
          'null') OR sql IS NULL AND name NOT GLOB 'sqlite_autoindex_' || tbl_name || '_[1-9]*'
        """
    ).fetchmany(10)
    told = [f'row {row} of sqlite_master is damaged' for row, in odd]
    tables = [entry for entry in all_entries_in(connection) if entry.is_table]
    plain = [entry.name for entry in tables if is_plain(connection, entry)]
    if len(plain) == len(tables):
        checks = ['PRAGMA integrity_check(10)']
    else:
        checks = [f'PRAGMA integrity_check({_quoted(name)})' for name in plain]
    return [line for check in checks for line in _checked(connection, check)][:10] + told


def _checked(connection: sqlite3.Connection, check: str) -> list[str]:
    """Returns what a check of SQLite says."""
    try:
        return [_text(line) for line, in connection.execute(check) if line != 'ok']
    except UnicodeDecodeError as error:  # by a text of SQLite that has bytes of the file
        return [error.object.decode(errors='backslashreplace')]


def is_plain(connection: sqlite3.Connection, table: SchemaEntry) -> bool:
    """Whether a table has no CHECK, no generated column, and no index on an expression or with
    WHERE."""
    hidden = any(
        column[6] for column in connection.execute(f'PRAGMA table_xinfo({_quoted(table.name)})')
    )
    return (
        not hidden
        and not _has_check(table.text)
        and next(_indexes_unread(connection, table.name), None) is None
    )


def _quoted(name: str) -> str:
    """Returns a name in quotes, as SQL has it."""
    doubled = name.replace('"', '""')
    return f'"{doubled}"'


@dataclasses.dataclass(frozen=True)
class Tables:
    """The tables of a database, compared with those of a desk."""

    others: list[str]  # tables and views that are not a desk's
    missing: list[str]  # the tables of a desk that it lacks
    odd: list[str]  # what is not as in a desk's tables, each a sentence

    @property
    def is_foreign(self) -> bool:
        """Whether it has tables, and none of a desk's."""
        return set(self.missing) == set(TABLES) and bool(self.others)

    @property
    def is_bare(self) -> bool:
        """Whether it has no table at all."""
        return set(self.missing) == set(TABLES) and not self.others and not self.odd

    @property
    def is_first(self) -> bool:
        """Whether its tables are those of the first schema."""
        return set(self.missing) == set(SECOND) and not self.odd

    @property
    def is_second(self) -> bool:
        """Whether its tables are those of the second schema."""
        return not self.missing and not self.odd


def tables_of(connection: sqlite3.Connection) -> Tables:
    """Compares the tables of a database with those of a desk; case does not count in their names,
    as in SQL."""
    entries = entries_in(connection)
    tables = {entry.name: entry for entry in entries if entry.kind == 'table'}
    odd = [
        f"the {entry.kind} {entry.name} has a name of a desk's table"
        for entry in entries
        if entry.name.lower() in TABLES and (entry.kind != 'table' or entry.name not in TABLES)
    ]
    for name in TABLES:
        if name in tables and not tables[name].is_table:
            odd.append(f'the table {name} is virtual')
        elif name in tables:
            odd += [
                f'the table {name} {what}' for what in _oddities(connection, tables[name], entries)
            ]
    for name in sorted(set(tables) - set(TABLES)):
        for parent in _parents(connection, tables[name]):
            if parent.lower() in TABLES:
                odd.append(f'the table {name} of others refers to {parent} by a foreign key')
    others = sorted(
        entry.name
        for entry in entries
        if entry.kind in ('table', 'view') and entry.name.lower() not in TABLES
    )
    return Tables(others, [name for name in TABLES if name not in tables], odd)


def _parents(connection: sqlite3.Connection, table: SchemaEntry) -> list[str]:
    """Returns the tables to which a table refers by foreign keys, each once."""
    if not table.is_table:
        return []
    return list(
        dict.fromkeys(
            _text(row[2])
            for row in connection.execute(f'PRAGMA foreign_key_list({_quoted(table.name)})')
        )
    )


def unique_indexes(connection: sqlite3.Connection) -> list[str]:
    """Returns the unique indexes on a desk's tables that a desk does not make: with one SQLite may
    refuse a row of the desk."""
    return [
        f'the unique index {name} on the table {table}'
        for table in TABLES
        for _, name, unique, origin, _ in connection.execute(f'PRAGMA index_list("{table}")')
        if unique and origin == 'c'
    ]


def unread(connection: sqlite3.Connection) -> Iterator[tuple[str, str]]:
    """Yields what keeps a desk's SQL from reading the file at all, even if it is in tables that are
    not a desk's, and what to do."""
    entries = entries_in(connection)
    names = {
        kind: {entry.name.lower() for entry in entries if entry.kind == kind}
        for kind in ('table', 'view')
    }
    for entry in entries:
        if entry.kind == 'table' and not entry.is_table:
            yield f'the virtual table {entry.name}', 'drop it'
    for entry in entries:
        if entry.kind == 'trigger' and entry.table.lower() in names['view']:
            yield f'the trigger {entry.name} on the view {entry.table}', 'drop it'
        elif entry.kind == 'trigger' and entry.name.lower() in names['table'] | names['view']:
            yield (
                f'the trigger {entry.name} with the name of a table or a ' 'view'
            ), 'make it under another name'
    triggers = _triggers_of(entries)
    for table in (entry for entry in entries if entry.is_table):
        if 'references' in table.text.lower():
            yield from _unread_row(connection, table, triggers)
    if connection.execute('PRAGMA auto_vacuum').fetchone()[0]:
        yield 'auto-vacuum', 'turn it off by `PRAGMA auto_vacuum = NONE; VACUUM`'
    if connection.execute('PRAGMA encoding').fetchone()[0] != 'UTF-8':
        yield 'its texts in UTF-16', 'copy its tables into a new file'


def _unread_row(
    connection: sqlite3.Connection, table: SchemaEntry, triggers: dict[str, list[str]]
) -> Iterator[tuple[str, str]]:
    """Yields what keeps a desk's SQL from reading a table that refers to another one."""
    frozen = next(_unread_on(connection, table.name, triggers), None)
    if frozen:
        yield f'the table {table.name}, which refers to another one and {frozen}', 'drop that'
    if not is_plain(connection, table):
        return
    with contextlib.suppress(sqlite3.OperationalError):  # a foreign key that refers to no key
        for name, row, parent, _ in connection.execute(
            f'PRAGMA foreign_key_check({_quoted(table.name)})'
        ).fetchmany(10):
            yield (
                (
                    f'a row of the table {_text(name)}, rowid {row}, that refers to no row of'
                    f' {_text(parent)}'
                ),
                'delete it',
            )


def _triggers_of(entries: list[SchemaEntry]) -> dict[str, list[str]]:
    """Returns the names of the triggers, by the names of their tables in lower case."""
    found: dict[str, list[str]] = collections.defaultdict(list)
    for entry in entries:
        if entry.kind == 'trigger':
            found[entry.table.lower()].append(entry.name)
    return found


def _unread_on(
    connection: sqlite3.Connection, table: str, triggers: dict[str, list[str]]
) -> Iterator[str]:
    """Yields the triggers and indexes of a table that keep a desk's SQL from reading it."""
    for name in triggers.get(table.lower(), ()):
        yield f'has the trigger {name}'
    yield from _indexes_unread(connection, table)


def _indexes_unread(connection: sqlite3.Connection, table: str) -> Iterator[str]:
    """Yields the indexes of a table that have WHERE or an expression."""
    for _, name, _, _, is_partial in connection.execute(
        f'PRAGMA index_list({_quoted(table)})'
    ).fetchall():
        if is_partial:
            yield f'has the index {name} with WHERE'
        elif any(
            row[1] == -2
            for row in connection.execute(f'PRAGMA index_xinfo({_quoted(name)})').fetchall()
        ):
            yield f'has the index {name} on an expression'


def _oddities(
    connection: sqlite3.Connection, entry: SchemaEntry, entries: list[SchemaEntry]
) -> Iterator[str]:
    """Yields what of a desk's table is not as a desk makes it."""
    table = entry.name
    columns, keys = columns_of(table), [key.split() for key in KEYS[table]]
    found = connection.execute(f'PRAGMA table_xinfo("{table}")').fetchall()
    names = [column.name for column in columns]
    if [row[1] for row in found] != names:
        yield f'has the columns {", ".join(row[1] for row in found)}, and not {", ".join(names)}'
        return
    for (_, name, kind, not_null, default, key, hidden), wanted in zip(found, columns):
        if kind.upper() not in (('INT', 'INTEGER') if wanted.is_number else ('TEXT',)):
            yield f'has the column {name} of the type {kind}'
        if not key and bool(not_null) == wanted.may_be_null:
            yield f'has the column {name} that {"may not" if not_null else "may"} be NULL'
        if default is not None and default.upper() != 'NULL':
            yield f'has the column {name} with the default {default}'
        if hidden:
            yield f'has the column {name} that is generated'
    written = _keys(connection, table)
    if {frozenset(key) for key in written} != {frozenset(key) for key in keys}:
        yield f'has the keys {_keys_text(written)}, and not {_keys_text(keys)}'
    options = _options(entry)
    if options is None or not options.strict:
        yield "isn't STRICT"
    if options and options.without_rowid:
        yield 'is WITHOUT ROWID'
    if connection.execute(f'PRAGMA foreign_key_list("{table}")').fetchall():
        yield 'has a foreign key'
    yield from _rules_in_text(entry.text)
    yield from _unread_on(connection, table, _triggers_of(entries))


def _keys_text(keys: list[list[str]]) -> str:
    """Returns keys as a sentence shows them: `(id), (job, kind)`."""
    return ', '.join(f'({", ".join(key)})' for key in keys)


class Options(NamedTuple):
    """The options of a table, which stand behind its columns."""

    without_rowid: int
    strict: int


def _options(table: SchemaEntry) -> Options | None:
    """Returns the options of a table, or None where SQLite does not make the table. SQLite lists
    them only after it has compiled all views; so the table is made in a database of its own."""
    with contextlib.closing(sqlite3.connect(':memory:')) as alone:
        try:
            alone.execute(table.text)
        except (sqlite3.Error, sqlite3.Warning):
            return None
        names = 'SELECT wr, strict FROM pragma_table_list WHERE lower(name) = ?'
        told = alone.execute(names, (table.name.lower(),)).fetchone()
    return told and Options(*told)


def _keys(connection: sqlite3.Connection, table: str) -> list[list[str]]:
    """Returns the columns of each key of a table: first of a primary key that is the rowid, which
    has no index, then of the keys with an index. `DESC` and a collation stand behind a column."""
    found = []
    indexes = connection.execute(f'PRAGMA index_list("{table}")').fetchall()
    for _, name, _, origin, _ in indexes:
        if origin != 'c':
            parts = connection.execute(f'PRAGMA index_xinfo("{name}")').fetchall()
            said = [
                column
                + (' DESC' if desc else '')
                + ('' if collation == 'BINARY' else ' COLLATE ' + collation)
                for _, _, column, desc, collation, key in parts
                if key
            ]
            found.append((int(name.rpartition('_')[2]), said))
    rowid = [row[1] for row in connection.execute(f'PRAGMA table_xinfo("{table}")') if row[5]]
    if any(origin == 'pk' for _, _, _, origin, _ in indexes):
        rowid = []
    return [*([rowid] if rowid else []), *(said for _, said in sorted(found))]


def _rules_in_text(text: str) -> Iterator[str]:
    """Yields what only the statement that makes a table shows."""
    if _has_check(text):
        yield 'has a CHECK'
    if re.search(r'\bAUTOINCREMENT\b', _bare(text), re.I):
        yield 'has AUTOINCREMENT'
    if re.search(r'\bCOLLATE\s+(?!BINARY\b)', _bare(text), re.I):
        yield 'has a collation'


def _has_check(text: str) -> bool:
    """Whether the statement that makes a table has a CHECK."""
    return re.search(r'\bCHECK\s*\(', _bare(text), re.I) is not None


def _bare(text: str) -> str:
    """Returns an SQL statement without comments, quoted names and texts, and with blanks for byte
    order marks, as SQLite reads them. One of these that is not closed reaches to the end of the
    statement, so that each character is read once."""
    quoted = (
        r'--[^\n]*|/\*.*?(?:\*/|\Z)|\'(?:[^\']|\'\')*+(?:\'|\Z)|"(?:[^"]|"")*+(?:"|\Z)'
        r'|`(?:[^`]|``)*+(?:`|\Z)|\[[^\]]*+(?:\]|\Z)'
    )
    return re.sub(quoted, ' ', text, flags=re.S).replace('\ufeff', ' ')
