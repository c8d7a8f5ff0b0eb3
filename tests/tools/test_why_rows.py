"""Shows that `tools/why` tells each broken rule of a damaged file by its name and the rows that
break it, and so a table that is no desk's."""
import contextlib
import dataclasses
import os
import random
import re
import shutil
import sqlite3
import unittest
from typing import Any

from tests.support.breaks_alone import ALONE, DRIVE_BREAKS
from tests.support.breaks import BREAKS
from nulvrader.file.rows import read_rows
from nulvrader.file.rules import RULES
from tests.support.damages import DRIVEN, FILLED, SHAPES, asked, damaged
from tests.support.desks import AT, run
from tests.support.records import breaches
from tests.support.scripts import SCRIPTS
from tests.support.why_files import WhyTest, told

SHAPES_TOLD = [
    'the table used is missing',
    'the table trip is missing',
    'the table act is missing',
    'the table capacity has the column capacity that may be NULL',
    'is of the first schema',
    "the table used isn't STRICT",
    'the table used has the columns kind, id, at, and not kind, id',
    'the table other of others refers to load by a foreign key',
]
DAMAGES = int(os.environ.get('DAMAGES', '28'))  # changes at random, of the database and of the log


# Tables whose SQL texts say what nothing else of SQLite tells, and what is told of that.
SAID_BY_TEXTS = (
    (
        (
            'DROP TABLE used; CREATE TABLE used (kind TEXT, id TEXT CHECK (id > 0), PRIMARY'
            ' KEY (kind, id)) STRICT'
        ),
        'the table used has a CHECK',
    ),
    (
        ('DROP TABLE used; CREATE TABLE used (kind TEXT NOT NULL, id TEXT PRIMARY KEY)' ' STRICT'),
        'has the keys (id), and not (kind, id)',
    ),
    (
        (
            'DROP TABLE used; CREATE TABLE used (kind TEXT, id TEXT, PRIMARY KEY (kind, id'
            ' DESC)) STRICT'
        ),
        'has the keys (kind, id DESC)',
    ),
    (
        (
            "DROP TABLE used; CREATE TABLE used (kind TEXT, id TEXT DEFAULT 'a', PRIMARY"
            " KEY (kind, id)) STRICT"
        ),
        "with the default 'a'",
    ),
    (
        'DROP TABLE node; CREATE TABLE node (id TEXT COLLATE NOCASE PRIMARY KEY) STRICT',
        'the table node has',
    ),
    (
        'DROP TABLE node; CREATE TABLE NODE (id TEXT PRIMARY KEY) STRICT',
        "the table NODE has a name of a desk's table",
    ),
    (
        (
            'DROP TABLE meta; CREATE TABLE meta (id INTEGER PRIMARY KEY, schema INTEGER NOT'
            ' NULL UNIQUE) STRICT; INSERT INTO meta VALUES (1, 2)'
        ),
        'the table meta has the keys (id), (schema), and not (id)',
    ),
    (
        'DROP TABLE used; CREATE VIEW used AS SELECT id AS kind, id FROM node',
        "the view used has a name of a desk's table",
    ),
)

# What others put into a file so that a desk reads none of it, and what is told of that.
PARENT = (
    'CREATE TABLE above (id INTEGER PRIMARY KEY); CREATE TABLE "be""low" (above INTEGER'
    ' REFERENCES above); '
)
UNREAD: list[tuple[Any, ...]] = [
    ('CREATE VIRTUAL TABLE mine USING fts5(text)', 'the virtual table mine'),
    (
        (
            'CREATE VIEW mine AS SELECT id FROM load; CREATE TRIGGER more INSTEAD OF INSERT'
            ' ON mine BEGIN SELECT 1; END'
        ),
        'the trigger more on the view mine',
    ),
    (
        ('CREATE TABLE mine (a); CREATE TRIGGER MINE AFTER INSERT ON mine BEGIN SELECT' ' 1; END'),
        'the trigger MINE with the name of a table',
    ),
    (
        PARENT + 'INSERT INTO "be""low" VALUES (7)',
        'a row of the table be"low, rowid 1, that refers to no row of above',
    ),
    (
        PARENT + 'CREATE TRIGGER more AFTER INSERT ON "be""low" BEGIN SELECT 1; END',
        'the table be"low, which refers to another one and has the trigger more',
    ),
    (
        PARENT + 'CREATE INDEX more ON "be""low" (above) WHERE above > 7',
        'be"low, which refers to another one and has the index more with WHERE',
    ),
    (
        'PRAGMA journal_mode = DELETE; PRAGMA auto_vacuum = FULL; VACUUM',
        'auto-vacuum',
        '`PRAGMA auto_vacuum = NONE; VACUUM`',
    ),
    (
        (
            'CREATE TABLE mine (a); INSERT INTO mine VALUES (1); ALTER TABLE mine ADD'
            ' COLUMN b DEFAULT 7'
        ),
        None,
    ),
]


class Pairs(WhyTest):
    def pairs(self, statements: str) -> Any:
        """The rules that a file breaks once this was written into it, each with the rows that are
        told."""
        self.fill(statements)
        found = told(self.db).reasons
        if not found:
            return set()
        self.assertEqual(len(found), 1, found)
        self.assertIn(f'Rows of {self.db} break rules of the desk (`fault: Damaged`)', found[0])
        pairs, rule = set(), None
        for line in found[0].splitlines()[1:]:
            head = re.match(r'  rule "(.*?)": ', line)
            if head:
                rule = head[1]
            else:
                pairs.add((rule, line.strip().split(': ')[0]))
        return pairs


class Drives(Pairs):
    """A file with a drive under way, beside an order."""

    script = FILLED + DRIVEN

    def test_nothing_broken(self) -> None:
        self.fill()
        self.assertEqual(told(self.db).reasons, [])
        self.assertIn('has 6 loads, 5 jobs, 3 vehicles and 2 open orders', self.look(expected=0))

    def test_each_statement(self) -> None:
        for statement, rule, rows in DRIVE_BREAKS:
            with self.subTest(statement):
                self.assertIn((rule, rows), self.pairs(statement))


class Rows(Pairs):
    def test_each_statement(self) -> None:
        for statement, rule, rows in BREAKS:
            with self.subTest(statement):
                self.assertIn((rule, rows), self.pairs(statement))

    def test_each_rule(self) -> None:
        """One statement for each rule, which breaks no other one, where that can be: what is told
        is all that is broken."""
        self.assertEqual(
            {rule.name for rule in RULES}, {rule for rule, _, _ in ALONE} | {'one row a key'}
        )
        for rule, statement, wanted in ALONE:
            with self.subTest(rule):
                self.assertEqual(self.pairs(statement), wanted)

    def test_a_key_twice(self) -> None:
        """SQLite keeps keys apart by their indexes, so that rows with one key are in no sound
        file."""
        with contextlib.closing(sqlite3.connect(self.filled)) as base:
            rows = read_rows(base)
        for table, name in (
            ('load', 'load L1'),
            ('act', 'act O2, 0'),
            ('journey', 'journey O2'),
            ('capacity', 'capacity KIT/0001'),
        ):
            twice = dataclasses.replace(
                rows, **{table: [*getattr(rows, table), getattr(rows, table)[0]]}
            )
            self.assertIn(
                ('one row a key', name),
                {(found.rule.name, found.rows) for found in breaches(twice)},
            )
        other = dataclasses.replace(rows, act=[*rows.act, rows.act[0]._replace(order_id='O9')])
        self.assertIn(
            ('one row a key', 'acts that pick J2'),
            {(found.rule.name, found.rows) for found in breaches(other)},
        )

    def test_limits(self) -> None:
        with contextlib.closing(sqlite3.connect(self.filled)) as base:
            rows = read_rows(base)
        for table, most, name in (
            ('edge', 1500, 'edges'),
            ('station', 500, 'stations'),
            ('vehicle', 100, 'vehicles'),
            ('load', 10**6, 'loads'),
            ('job', 10**6, 'jobs'),
        ):
            row = getattr(rows, table)[0]
            for count, wanted in ((most, []), (most + 1, [name])):
                many = dataclasses.replace(rows, **{table: [row] * count})
                limits = next(rule for rule in RULES if rule.name == 'limits')
                self.assertEqual([of for of, _ in limits.check(many)], wanted)

    def test_lawful_files(self) -> None:
        """Nothing is told of a file that the program has made, with the log beside it and
        without."""
        for name, script in SCRIPTS.items():
            with self.subTest(name):
                self.db = os.path.join(
                    self.folder, f'{name.replace(" ", "-").replace(",", "").replace(";", "")}.db'
                )
                run('replay', '--db', self.db, '--at', AT, stdin=asked(script))
                self.assertEqual(told(self.db).reasons, [])
        for log in (False, True):
            self.fill(log=log)
            said = self.look(expected=0)
            self.assertIn('is of the second schema, so there is nothing to migrate', said)
            self.assertIn('has 6 loads, 5 jobs, 3 vehicles and 1 open orders', said)
            self.assertIn('nothing keeps a desk from starting', said)

    def test_rows_in_the_log(self) -> None:
        """What was written last stands in the log alone, and is looked at, too."""
        self.fill(log=True)
        with contextlib.closing(sqlite3.connect(self.db)) as base:
            base.execute('PRAGMA wal_autocheckpoint = 0')
            base.executescript("DELETE FROM hold WHERE id = 'N4'")
            for end in ('', '-wal'):
                shutil.copyfile(self.db + end, self.db + end + '.kept')
        for end in ('', '-wal'):
            os.replace(self.db + end + '.kept', self.db + end)
        with contextlib.suppress(FileNotFoundError):
            os.remove(self.db + '-shm')
        self.assertIn(
            '    node N4: vehicle KIT/0001 holds it, and it has no row in `hold`\n', self.look()
        )

    def test_many_rows(self) -> None:
        """Ten of each rule are told, and all of them by `--all`."""
        self.fill(
            "WITH more (n) AS (VALUES (10) UNION ALL SELECT n + 1 FROM more WHERE n < 40) INSERT"
            " INTO node SELECT 'M ' || n FROM more"
        )
        said = self.look()
        self.assertEqual(said.count('is no name'), 10)
        self.assertIn('    and 21 more\n', said)
        self.assertEqual(self.look('--all').count('is no name'), 31)

    def test_names_that_are_no_text(self) -> None:
        self.fill("UPDATE load SET id = CAST(x'ff20' AS TEXT) WHERE id = 'L3'")
        self.assertIn(r"load \xff : '\udcff ' is no name", self.look())


class Files(WhyTest):
    def test_tables_of_another_shape(self) -> None:
        for statements, text in zip(SHAPES, SHAPES_TOLD, strict=True):
            with self.subTest(text):
                self.fill(statements)
                self.check_fault('Damaged', text)

    def test_what_sql_texts_say_besides(self) -> None:
        for statements, text in SAID_BY_TEXTS:
            with self.subTest(text):
                self.fill(statements)
                self.check_fault('Damaged', text)

    def test_what_the_tables_may_not_have(self) -> None:
        for statements, text in (
            (
                'CREATE TRIGGER mine AFTER INSERT ON load BEGIN SELECT 1; END',
                'the table load has the trigger mine',
            ),
            (
                'CREATE TRIGGER "MINE" AFTER DELETE ON JOB BEGIN SELECT 1; END',
                'the table job has the trigger MINE',
            ),
            (
                "CREATE INDEX mine ON job (load) WHERE phase <> 'done'",
                'the table job has the index mine with WHERE',
            ),
            (
                'CREATE INDEX mine ON job (load, length(id))',
                'the table job has the index mine on an expression',
            ),
        ):
            with self.subTest(text):
                self.fill(statements)
                self.check_fault('Damaged', text)

    def test_what_no_file_may_have(self) -> None:
        """Things of others that keep the desk's SQL from reading any of the file."""
        for statements, *texts in UNREAD:
            with self.subTest(statements):
                self.fill(statements)
                self.assertEqual(
                    run('report', '--db', self.db, 'holds'), (1, b'', b'fault: Storage\n')
                )
                if texts == [None]:
                    self.assertIn(
                        "Not a desk's: mine. If a desk says `fault: Storage` for no other reason",
                        self.look(expected=0),
                    )
                else:
                    self.check_fault('Storage', *texts)

    def test_a_file_in_utf_16(self) -> None:
        with contextlib.closing(sqlite3.connect(self.db)) as base:
            base.executescript("PRAGMA encoding = 'UTF-16'; CREATE TABLE mine (a)")
        self.check_fault('Storage', 'its texts in UTF-16')

    def test_what_makes_no_difference(self) -> None:
        """Other ways to write the same tables, and what else may lie beside them."""
        for statements in (
            (
                'CREATE TABLE notes (a); CREATE VIEW more AS SELECT * FROM load; CREATE INDEX mine'
                ' ON load (kind)'
            ),
            (
                'CREATE TABLE notes (a); CREATE TRIGGER more AFTER INSERT ON notes BEGIN SELECT 1;'
                ' END; CREATE INDEX mine ON notes (a) WHERE a > 1'
            ),
            (
                'ALTER TABLE used RENAME TO old; create table "used" (kind text not null, id text'
                ' default null -- CHECK (1)\n, constraint k primary key (kind, id), unique (kind,'
                ' id)) strict; INSERT INTO used SELECT * FROM old; DROP TABLE old'
            ),
            'DROP INDEX load_station; DROP INDEX job_load',
            (
                'DROP TABLE meta; CREATE TABLE meta (id INTEGER PRIMARY KEY, schema INTEGER NOT'
                ' NULL) STRICT; INSERT INTO meta VALUES (1, 2)'
            ),
        ):
            with self.subTest(statements):
                self.fill(statements)
                self.assertEqual(run('report', '--db', self.db, 'holds')[0], 0)
                self.assertEqual(told(self.db).reasons, [])

    def test_a_unique_index_of_others(self) -> None:
        """The desk starts, and fails at a row that the index refuses."""
        self.fill('CREATE UNIQUE INDEX mine ON job (load, phase, origin, target, id)')
        self.assertIn('the unique index mine on the table job', self.look())

    def test_changes_at_random(self) -> None:
        """Wherever the program tells a fault, a reason is told; and no change is too odd to be
        looked at."""
        faults = 0
        for number in range(DAMAGES):
            for end in ('', '-wal'):
                self.fill(log=end == '-wal')
                with open(self.db + end, 'rb') as file:
                    data = damaged(file.read(), random.Random(number))
                with open(self.db + end, 'wb') as file:
                    file.write(data)
                with self.subTest(end=end, number=number):
                    found = told(self.db)
                    status, _, said = run('report', '--db', self.db, 'holds')
                    faults += status
                    if status:
                        self.assertNotEqual(found.reasons, [], said)
        self.assertGreater(faults, DAMAGES // 4)


if __name__ == '__main__':
    unittest.main()
