"""Shows what others may have beside the tables of a desk, and where a desk makes none of its
own, since a name is taken or referred to: it ends with `fault: Damaged`, the file stays as it
is, and `tools/why` says so."""
import contextlib
import sqlite3
import tempfile
import unittest
from typing import Any

from nulvrader.file.tables import TABLES
from tests.support.records import FOLDER, copied
from tests.support.desks import AT
from tests.support.forms import FormsTest, plain
from tests.support.why_files import told

INDEXES = {'load_station', 'load_vehicle', 'job_load', 'job_target'}
# What others may have in the file of a desk: what they write before the desk begins there, and what
# they write then.
BESIDE = {
    'nothing': ('', ''),
    'a table with an index': (
        (
            "CREATE TABLE other (a TEXT); CREATE INDEX by_a ON other (a); INSERT INTO other VALUES"
            " ('b'), (NULL)"
        ),
        '',
    ),
    'a table with an index and a view': (
        (
            'CREATE TABLE other (a TEXT); CREATE INDEX by_a ON other (a); CREATE VIEW some AS'
            ' SELECT a FROM other'
        ),
        '',
    ),
    'a table that refers to itself, and to none that is there': (
        (
            'CREATE TABLE other (id TEXT PRIMARY KEY, next TEXT REFERENCES other, more TEXT'
            ' REFERENCES nodes (id)); INSERT INTO other VALUES (\'a\', NULL, NULL), (\'b\', \'a\','
            ' NULL)'
        ),
        '',
    ),
    'a table, and one that refers to it': (
        'CREATE TABLE other (a TEXT)',
        'CREATE TABLE more (a TEXT REFERENCES other, b INTEGER CHECK (b > 0))',
    ),
    'a table that refers to itself and counts': (
        '',
        (
            'CREATE TABLE other (id INTEGER PRIMARY KEY AUTOINCREMENT, next INTEGER REFERENCES'
            ' other); INSERT INTO other (next) VALUES (NULL), (1)'
        ),
    ),
    'a table of a longer name, that refers to none that is there': (
        '',
        'CREATE TABLE nodes (id TEXT REFERENCES nodes_of (id))',
    ),
    'a view, and one of a table of the desk': (
        'CREATE TABLE other (a TEXT); CREATE VIEW some AS SELECT a FROM other',
        "CREATE VIEW waiting AS SELECT id FROM job WHERE phase = 'waiting'",
    ),
    'no index of the desk': (
        '',
        (
            'DROP INDEX load_station; DROP INDEX load_vehicle; DROP INDEX job_load; DROP INDEX'
            ' job_target'
        ),
    ),
    'the name of an index of the desk': (
        'CREATE TABLE other (a TEXT); CREATE INDEX job_load ON other (a)',
        '',
    ),
    'more indexes': (
        '',
        'CREATE INDEX by_phase ON job (phase); CREATE INDEX by_kind ON load (kind, id DESC)',
    ),
    'a UNIQUE index': ('', 'CREATE UNIQUE INDEX one_at_a_node ON vehicle (node)'),
    'a table made again': (
        '',
        (
            'DROP TABLE node; CREATE TABLE other (a TEXT); CREATE TABLE node (id TEXT PRIMARY KEY)'
            ' STRICT'
        ),
    ),
    'one that referred to a name, and is gone': (
        'CREATE TABLE note (load TEXT REFERENCES load); DROP TABLE note',
        '',
    ),
    'one that referred to a table, and is gone': (
        '',
        'CREATE TABLE note (load TEXT REFERENCES load); DROP TABLE note',
    ),
}
# What they may not write then.
NOT_BESIDE = {
    **{'no ' + table: 'DROP TABLE ' + table for table in TABLES},
    'a table of another name': 'DROP TABLE node; CREATE TABLE nodes (id TEXT PRIMARY KEY) STRICT',
    'a table in capitals': 'DROP TABLE node; CREATE TABLE NODE (id TEXT PRIMARY KEY) STRICT',
    'a table in quotes with a capital': (
        'DROP TABLE node; CREATE TABLE "Node" (id TEXT PRIMARY KEY) STRICT'
    ),
    'a view of a table of the desk': (
        'DROP TABLE node; CREATE VIEW node AS SELECT start AS id FROM edge'
    ),
    'a view of another table': (
        'DROP TABLE node; CREATE TABLE other (id TEXT PRIMARY KEY) STRICT; CREATE VIEW node AS'
        ' SELECT id FROM other'
    ),
    'an index': (
        'DROP TABLE node; CREATE TABLE other (id TEXT PRIMARY KEY) STRICT; CREATE INDEX node ON'
        ' other (id)'
    ),
    'a foreign key': 'CREATE TABLE note (load TEXT REFERENCES load)',
    'a foreign key to another table': 'CREATE TABLE note (a TEXT REFERENCES job)',
    'a foreign key in capitals': (
        'CREATE TABLE note (load TEXT REFERENCES "LOAD" (id) ON DELETE CASCADE)'
    ),
    'a foreign key of two columns': (
        'CREATE TABLE note (m TEXT, s TEXT, FOREIGN KEY (m, s) REFERENCES vehicle (manufacturer,'
        ' serial))'
    ),
    'a foreign key beside another': (
        'CREATE TABLE other (a TEXT); CREATE TABLE note (a TEXT REFERENCES other, b TEXT REFERENCES'
        ' used (id))'
    ),
    'a foreign key before its table': (
        'DROP TABLE node; CREATE TABLE other (id TEXT PRIMARY KEY, a TEXT REFERENCES edge); CREATE'
        ' TABLE node (id TEXT PRIMARY KEY) STRICT'
    ),
}
# Where no desk begins: a name is taken, or is referred to.
NO_DESK = {
    **{
        'a foreign key to ' + table: f'CREATE TABLE note (a TEXT REFERENCES {table})'
        for table in TABLES
    },
    'a foreign key from a column of its name': 'CREATE TABLE note (load TEXT REFERENCES load)',
    'a foreign key in quotes': (
        'CREATE TABLE note (a TEXT, FOREIGN KEY (a) REFERENCES "Used" (id) ON DELETE SET NULL)'
    ),
    'a foreign key in capitals': (
        'CREATE TABLE other (a TEXT); CREATE TABLE note (a TEXT REFERENCES other, b TEXT REFERENCES'
        ' NODE (id))'
    ),
    'a table that refers to itself': (
        'CREATE TABLE node (id TEXT PRIMARY KEY, next TEXT REFERENCES node)'
    ),
    'a table, and one that refers to it': (
        'CREATE TABLE load (id TEXT PRIMARY KEY); CREATE TABLE note (load TEXT REFERENCES load);'
        ' CREATE TABLE last (a TEXT)'
    ),
    'a table': 'CREATE TABLE hold (a TEXT)',
    'a table of the second schema': 'CREATE TABLE journey (a TEXT)',
    'a table with a key': 'CREATE TABLE node (id INTEGER PRIMARY KEY)',
    'a table in capitals': 'CREATE TABLE other (a TEXT); CREATE TABLE LEG (a TEXT)',
    'an index': 'CREATE TABLE other (a TEXT); CREATE INDEX used ON other (a)',
    'a view named trip': 'CREATE TABLE other (a TEXT); CREATE VIEW trip AS SELECT a FROM other',
    'a view named load': 'CREATE TABLE other (a TEXT); CREATE VIEW load AS SELECT a FROM other',
}


class Beside(FormsTest):
    def made(self) -> tuple[Any, Any]:
        """What SQLite lists of the file, and the rows of each table of others."""
        with (
            tempfile.TemporaryDirectory(dir=FOLDER) as folder,
            contextlib.closing(sqlite3.connect(copied(self.db, folder))) as base,
        ):
            self.assertEqual(base.execute('PRAGMA integrity_check').fetchall(), [('ok',)])
            listed = set(base.execute('SELECT type, name, tbl_name, sql FROM sqlite_master'))
            others = {name for kind, name, *_ in listed if kind == 'table' and name not in TABLES}
            return listed, {
                name: base.execute('SELECT * FROM ' + name).fetchall() for name in others
            }

    def test_what_may_be_beside(self) -> None:
        """A desk begins beside it, without the index whose name is taken, and serves a transport;
        what others have stays."""
        for what, (before, behind) in BESIDE.items():
            with self.subTest(what):
                self.remove()
                self.execute(before)
                others, rows = self.made()
                self.assertEqual(self.replay(), (0, b'', b''))
                listed, rows_then = self.made()
                self.assertEqual((others - listed, rows_then), (set(), rows))
                names = {
                    name
                    for _, name, *_ in listed - others
                    if not name.startswith('sqlite_autoindex_')
                }
                self.assertEqual(names, {*TABLES} | INDEXES - {name for _, name, *_ in others})
                self.execute(behind)
                made = self.made()
                self.check_transport()
                self.assertEqual(self.made(), made)
                # of a unique index it is told that it may refuse a row
                self.assertEqual(
                    ['the unique index' in reason for reason in told(self.db).reasons],
                    [True] * ('UNIQUE' in behind),
                )

    def test_what_may_not_be_beside(self) -> None:
        for what, behind in NOT_BESIDE.items():
            with self.subTest(what):
                self.remove()
                self.assertEqual(self.replay(), (0, b'', b''))
                self.execute(behind)
                self.check_refused('replay', '--db', self.db, '--at', AT)

    def test_a_foreign_key_from_the_start(self) -> None:
        """A table of others that has referred to one of the desk's before that was made."""
        self.write(2, plain('load'), before='CREATE TABLE note (load TEXT REFERENCES load);')
        self.check_refused('replay', '--db', self.db, '--at', AT)

    def test_where_no_desk_begins(self) -> None:
        for what, before in NO_DESK.items():
            with self.subTest(what):
                self.remove()
                self.execute(before)
                self.check_refused('replay', '--db', self.db, '--at', AT)


if __name__ == '__main__':
    unittest.main()
