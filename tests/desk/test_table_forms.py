"""Shows that the desk serves over tables that others have typed where they have its columns and
rules, in whatever form, and tells them rightly; where they have another rule it ends with
`fault: Damaged`, and the file stays as it is.

`tools/why` says the same of each, and a file of the first schema is migrated."""
import unittest

from tests.support.records import broken, rows_of
from tests.support.first_schema import BEGUN, BEGUN_MOVED
from tests.support.desks import AT, run
from tests.support.calls import state
from tests.support.script_calls import FINISHED, accepted, answers_of, bytes_of, holds, ok, stands
from tests.support.forms import FormsTest, typed
from tests.support.why_files import told

ORDER, VEHICLE, JOB = 'PRIMARY KEY (order_id)', 'UNIQUE (manufacturer, serial)', 'UNIQUE (job)'

# Other texts for the same tables: those that the first schema has as well, and those that the
# second has besides.
SAME = {
    'two keys in the other order': typed('trip', ORDER, JOB, VEHICLE),
    'the primary key last': typed('trip', JOB, VEHICLE, ORDER),
    'keys at their columns': typed(
        'trip', VEHICLE, job='TEXT NOT NULL UNIQUE', order_id='TEXT PRIMARY KEY'
    ),
    'the columns of a key in the other order': typed(
        'trip', ORDER, 'UNIQUE (serial, manufacturer)', 'CONSTRAINT one_job UNIQUE (job)'
    ),
    'a key twice': typed(
        'trip', ORDER, VEHICLE, JOB, 'UNIQUE (serial, manufacturer)', job='TEXT NOT NULL UNIQUE'
    ),
    'another key as the primary one': typed(
        'trip', 'PRIMARY KEY (job)', VEHICLE, 'UNIQUE (order_id)'
    ),
    'the primary key as one of others, too': typed(
        'trip', 'UNIQUE (order_id)', VEHICLE, JOB, ORDER
    ),
    'the primary key again, and a key that rises': typed(
        'trip', ORDER, 'UNIQUE (order_id)', VEHICLE, 'UNIQUE (job ASC)'
    ),
    'a primary key in the other order': typed('leg', 'PRIMARY KEY (k, order_id)'),
    'a primary key that rises, and INT in it': typed(
        'leg', 'PRIMARY KEY (order_id ASC, k)', k='INT'
    ),
    'a primary key twice': typed('used', 'PRIMARY KEY (kind, id)', 'UNIQUE (kind, id)'),
    'a primary key twice, in either order': typed(
        'used', 'PRIMARY KEY (kind, id)', 'UNIQUE (id, kind)'
    ),
    'what a conflict does anyhow': typed('used', 'PRIMARY KEY (kind, id) ON CONFLICT ABORT'),
    'no key as the primary one': typed('used', 'UNIQUE (kind, id)'),
    'no key as the primary one, in the other order': typed('used', 'UNIQUE (id, kind)'),
    'a key of one column': typed('node', id='TEXT UNIQUE NOT NULL'),
    'a key of one column twice': typed('node', id='TEXT UNIQUE PRIMARY KEY'),
    'a key of one column twice, at it and behind it': typed(
        'node', 'UNIQUE (id)', id='TEXT PRIMARY KEY'
    ),
    'a key of one column twice, the second time falling': typed(
        'node', 'UNIQUE (id DESC)', id='TEXT PRIMARY KEY'
    ),
    'a primary key with a name': typed('node', 'CONSTRAINT one PRIMARY KEY (id)'),
    'quotes of texts, and a column that rises': (
        "CREATE TABLE 'node' ('id' TEXT PRIMARY KEY ASC) STRICT;"
    ),
    'the number of the schema': typed('meta', 'PRIMARY KEY (id)', id='INT'),
    'its key that is NOT NULL': typed('meta', id='INT NOT NULL PRIMARY KEY'),
    'its key as one of others': typed('meta', 'UNIQUE (id)'),
    'its key that is the rowid': typed('meta', id='INTEGER PRIMARY KEY'),
    'its key that is the rowid, behind the columns': typed(
        'meta', 'PRIMARY KEY (id)', id='INTEGER'
    ),
    'its key that is the rowid and NOT NULL': typed('meta', 'PRIMARY KEY (id)'),
    'its key that is the rowid, NOT NULL at it, and INT': typed(
        'meta', id='INTEGER PRIMARY KEY NOT NULL', schema='INT NOT NULL'
    ),
    'its key that is the rowid, whatever the order': typed('meta', 'PRIMARY KEY (id DESC)'),
    'its key that is the rowid and UNIQUE': typed('meta', id='INTEGER PRIMARY KEY UNIQUE'),
    'its key that is the rowid, NOT NULL and UNIQUE twice': typed(
        'meta', 'UNIQUE (id)', id='INTEGER NOT NULL UNIQUE PRIMARY KEY'
    ),
    'quotes, capitals and a comment': (
        typed('job', id='text -- CHECK (1)\nprimary key')
        .replace('target', '"target"')
        .replace('CREATE', 'create')
    ),
    'what is so anyhow': typed(
        'load', 'PRIMARY KEY (id ASC)', id='TEXT NULL COLLATE BINARY', station='TEXT DEFAULT NULL'
    ),
    'NULL of columns that may be': typed(
        'load', 'PRIMARY KEY (id)', station='TEXT NULL', manufacturer='TEXT DEFAULT NULL'
    ),
}
SAME_SECOND = {
    'a key before the primary one': typed('journey', VEHICLE, ORDER),
    'a key in the other order behind the primary one': typed(
        'journey', ORDER, 'UNIQUE (serial, manufacturer)'
    ),
    'a primary key as one of others, too': typed('journey', 'UNIQUE (order_id)', VEHICLE, ORDER),
    'a primary key of two columns last': typed(
        'act', 'UNIQUE (job, kind)', 'PRIMARY KEY (order_id, n)'
    ),
    'two keys of two columns in the other order': typed(
        'act', 'UNIQUE (kind, job)', 'PRIMARY KEY (n, order_id)'
    ),
    'a primary key of two columns twice': typed(
        'act', 'PRIMARY KEY (order_id, n)', 'UNIQUE (order_id, n)', 'UNIQUE (job, kind ASC)'
    ),
    'a vehicle in the other order': typed('capacity', 'PRIMARY KEY (serial, manufacturer)'),
    'a vehicle as the primary key': typed(
        'journey', 'PRIMARY KEY (serial, manufacturer)', order_id='TEXT NOT NULL UNIQUE'
    ),
    'INT': typed('capacity', 'PRIMARY KEY (manufacturer, serial)', capacity='INT NOT NULL'),
}
OTHER = {
    'a key that is the rowid, counted': typed('meta', id='INTEGER PRIMARY KEY AUTOINCREMENT'),
    'a key that falls, and so is no rowid': typed('meta', id='INTEGER PRIMARY KEY DESC'),
    'a key that is the rowid, and a key more': typed(
        'meta', 'UNIQUE (schema)', id='INTEGER PRIMARY KEY'
    ),
    'a key that is the rowid, and UNIQUE in falling order': typed(
        'meta', 'UNIQUE (id DESC)', id='INTEGER PRIMARY KEY'
    ),
    'a key that is the rowid, and with a column more': typed(
        'meta', 'UNIQUE (id, schema)', id='INTEGER PRIMARY KEY'
    ),
    'another column that is the rowid': typed('meta', schema='INTEGER PRIMARY KEY'),
    'no key of the job': typed('trip', ORDER, VEHICLE),
    'no key of the vehicle': typed('trip', ORDER, JOB),
    'no key but the primary one': typed('trip', ORDER),
    'another key as the primary one, and an order that may be NULL': typed(
        'trip', 'PRIMARY KEY (job)', VEHICLE, 'UNIQUE (order_id)', order_id='TEXT'
    ),
    'one key in place of two': typed('trip', ORDER, 'UNIQUE (manufacturer, serial, job)'),
    'three keys in place of two': typed(
        'trip', ORDER, JOB, 'UNIQUE (manufacturer)', 'UNIQUE (serial)'
    ),
    'a key more': typed('trip', ORDER, VEHICLE, JOB, 'UNIQUE (start)'),
    'a key by another collation': typed('trip', ORDER, VEHICLE, 'UNIQUE (job COLLATE NOCASE)'),
    'a key that falls': typed('trip', ORDER, VEHICLE, 'UNIQUE (job DESC)'),
    'a key more of two columns': typed('edge', 'PRIMARY KEY (id)', 'UNIQUE (start, finish)'),
    'a key more of half of the primary one': typed(
        'used', 'PRIMARY KEY (kind, id)', id='TEXT UNIQUE'
    ),
    'a primary key by another collation': typed('used', 'PRIMARY KEY (kind, id COLLATE NOCASE)'),
    'a primary key again by another collation': typed(
        'node', 'UNIQUE (id COLLATE NOCASE)', id='TEXT PRIMARY KEY'
    ),
    'a primary key that falls': typed('node', id='TEXT PRIMARY KEY DESC'),
    'a primary key that falls in its second column': typed('used', 'PRIMARY KEY (kind, id DESC)'),
    'a primary key again in the other order, which falls': typed(
        'used', 'PRIMARY KEY (kind, id)', 'UNIQUE (id, kind DESC)'
    ),
    'a key that may be NULL': typed('node', id='TEXT UNIQUE'),
    'no key': typed('node'),
    'half of a key': typed('leg', ORDER),
    'a key of another column': typed('leg', 'PRIMARY KEY (order_id, edge)'),
    'a key of a column more': typed('leg', 'PRIMARY KEY (order_id, k, edge)'),
    'not STRICT': typed('node', 'PRIMARY KEY (id)', end=''),
    'not STRICT, and a key that may be NULL': typed('node', end='', id='TEXT PRIMARY KEY'),
    'WITHOUT ROWID': typed('node', 'PRIMARY KEY (id)', end='STRICT, WITHOUT ROWID'),
    'a CHECK': typed('node', 'PRIMARY KEY (id)', 'CHECK (length(id) > 0)'),
    'a CHECK that all rows keep': typed('node', 'PRIMARY KEY (id)', 'CHECK (1)'),
    'a CHECK at a column': typed('node', id="TEXT PRIMARY KEY CHECK (id <> '')"),
    'a CHECK beside the keys': typed('trip', ORDER, VEHICLE, JOB, 'CHECK (first <= base)'),
    'a default': typed('station', 'PRIMARY KEY (id)', capacity='INTEGER NOT NULL DEFAULT 1'),
    'a default of a key': typed('node', id="TEXT PRIMARY KEY DEFAULT 'N1'"),
    'a default that is no constant': typed('node', id='TEXT PRIMARY KEY DEFAULT CURRENT_TIMESTAMP'),
    'a collation of a key': typed('node', id='TEXT COLLATE NOCASE PRIMARY KEY'),
    'a collation of another column': typed(
        'edge', 'PRIMARY KEY (id)', finish='TEXT NOT NULL COLLATE RTRIM'
    ),
    'a foreign key': typed('edge', 'PRIMARY KEY (id)', start='TEXT NOT NULL REFERENCES node (id)'),
    'a foreign key behind the columns': typed(
        'trip', ORDER, VEHICLE, JOB, 'FOREIGN KEY (job) REFERENCES job'
    ),
    'a foreign key of the key to itself': typed(
        'edge', 'PRIMARY KEY (id)', 'FOREIGN KEY (id) REFERENCES edge (id)'
    ),
    'a foreign key to no table': typed(
        'node', id='TEXT PRIMARY KEY REFERENCES other (id) ON DELETE CASCADE'
    ),
    'a foreign key to another\'s table': (
        typed('node', id='TEXT PRIMARY KEY REFERENCES other')
        + ' CREATE TABLE other (id TEXT PRIMARY KEY);'
    ),
    'a column that may be NULL': typed('edge', 'PRIMARY KEY (id)', start='TEXT'),
    'a column that may not be': typed('load', 'PRIMARY KEY (id)', station='TEXT NOT NULL'),
    'a number that may be NULL': typed('station', 'PRIMARY KEY (id)', capacity='INTEGER'),
    'a column of another type': typed('leg', 'PRIMARY KEY (order_id, k)', k='TEXT NOT NULL'),
    'a text in place of a number': typed('station', 'PRIMARY KEY (id)', capacity='TEXT NOT NULL'),
    'a number in place of a text': typed('node', id='INT PRIMARY KEY'),
    'a fraction': typed('station', 'PRIMARY KEY (id)', capacity='REAL NOT NULL'),
    'bytes': typed('node', id='BLOB PRIMARY KEY'),
    'a column of any type': typed('edge', 'PRIMARY KEY (id)', start='ANY NOT NULL'),
    'a column more': typed('edge', 'length INTEGER', 'PRIMARY KEY (id)'),
    'a column more behind the key': typed('node', 'x INTEGER', id='TEXT PRIMARY KEY'),
    'a column less': 'CREATE TABLE edge (id TEXT PRIMARY KEY, start TEXT NOT NULL) STRICT;',
    'a column of another name': (
        'CREATE TABLE edge (id TEXT PRIMARY KEY, start TEXT NOT NULL, target TEXT NOT NULL) STRICT;'
    ),
    'a column in capitals': 'CREATE TABLE node (ID TEXT PRIMARY KEY) STRICT;',
    'columns in another order': (
        'CREATE TABLE edge (id TEXT PRIMARY KEY, finish TEXT NOT NULL, start TEXT NOT NULL) STRICT;'
    ),
    'columns of a key in another order': (
        'CREATE TABLE used (id TEXT, kind TEXT, PRIMARY KEY (kind, id)) STRICT;'
    ),
}
OTHER_SECOND = {
    'no key of a journey\'s vehicle': typed('journey', ORDER),
    'half of a key of a journey\'s vehicle': typed('journey', ORDER, 'UNIQUE (manufacturer)'),
    'a vehicle as the primary key, and an order that may be NULL': typed(
        'journey', 'PRIMARY KEY (manufacturer, serial)', 'UNIQUE (order_id)', order_id='TEXT'
    ),
    'a foreign key of two columns': typed(
        'journey', ORDER, VEHICLE, 'FOREIGN KEY (manufacturer, serial) REFERENCES vehicle'
    ),
    'a confirmed update that may not be NULL': typed(
        'journey', ORDER, VEHICLE, confirmed='INTEGER NOT NULL'
    ),
    'a capacity that may be NULL': typed(
        'capacity', 'PRIMARY KEY (manufacturer, serial)', capacity='INTEGER'
    ),
    'two keys in place of one': typed(
        'act', 'PRIMARY KEY (order_id, n)', 'UNIQUE (job)', 'UNIQUE (kind)'
    ),
    'half of a primary key': typed('act', ORDER, 'UNIQUE (job, kind)'),
    'half of another key': typed('act', 'PRIMARY KEY (order_id, n)', 'UNIQUE (job)'),
    'no other key': typed('act', 'PRIMARY KEY (order_id, n)'),
    'another key more, of half of one': typed(
        'act', 'PRIMARY KEY (order_id, n)', 'UNIQUE (job, kind)', 'UNIQUE (job)'
    ),
    'another primary key, and places that may be NULL': typed(
        'act', 'PRIMARY KEY (job, kind)', 'UNIQUE (order_id, n)', order_id='TEXT', n='INTEGER'
    ),
    'a CHECK of an act': typed(
        'act', 'PRIMARY KEY (order_id, n)', 'UNIQUE (job, kind)', "CHECK (kind IN ('pick', 'drop'))"
    ),
}

# All tables as a person may type them, and rows of them, some with a number that is given, the
# least one and the greatest, too.
BY_HAND = '''
-- where the loads are
create table load (
    id text primary key,
    kind text not null,     -- station, vehicle, checking or left
    station text,
    manufacturer text,
    serial text
) strict;
create table "job" (
    "id" text not null primary key, "load" text not null,
    "origin" text not null, "target" text not null,
    "phase" text not null
) strict;
create table [hold] (
    [kind] text not null, [id] text not null,
    manufacturer text not null, serial text not null,
    constraint one_holder primary key (kind, id)
) strict;
create table `used` (`kind` text, `id` text, primary key (`kind`, `id`)) strict;
/* the layout,
   and what the file is */
Create Table If Not Exists station (id Text, node Text Not Null, capacity Int Not Null,
  Primary Key (id)) Strict;
Create Table edge (id Text Constraint named Primary Key, start Text Not Null,
  finish Text Not Null) Strict;
Create Table node (id Text, Primary Key (id)) Strict;
Create Table meta (id Int, schema Int Not Null, Primary Key (id)) Strict;
create table vehicle (
    manufacturer text, serial text,
    node text not null,          -- where it stands
    rest_edge text null, rest_node text null,
    last_header integer, reported text,
    ready integer not null, paused integer not null,
    order_header integer not null, order_at integer not null,
    instant_header integer not null, instant_at integer not null,
    pending text default null,
    primary key (manufacturer, serial)
) strict;
create table leg(order_id text,k int,edge text not null,primary key(order_id,k))strict;
create table trip (
    order_id text,
    manufacturer text not null, serial text not null,
    job text not null, start text not null,
    first integer not null, base integer not null,
    sent integer not null, confirmed integer, seen integer not null,
    pick_at integer not null, drop_at integer not null,
    pick_status text not null, drop_status text not null,
    constraint one_order primary key (order_id),
    constraint one_trip_of_a_vehicle unique (manufacturer, serial),
    constraint one_trip_of_a_job unique (job)
) strict;
create table capacity (manufacturer text, serial text, capacity int not null,
  primary key (manufacturer, serial)) strict;
create table journey (
    order_id text not null primary key,
    manufacturer text not null, serial text not null,
    start text not null,
    first integer not null, base integer not null,
    sent integer not null, confirmed integer, seen integer not null,
    unique (manufacturer, serial)
) strict;
create table act (
    order_id text, n int,
    job text not null, kind text not null,     -- pick or drop
    place_at int not null, status text not null,
    primary key (order_id, n), constraint once unique (job, kind)
) strict;
INSERT INTO meta VALUES (1, 2);
INSERT INTO node VALUES ('N1'), ('N2'), ('N3'), ('N4');
DELETE FROM node WHERE id = 'N2';
INSERT INTO node VALUES ('N5');
INSERT INTO edge (rowid, id, start, finish) VALUES (-9223372036854775808, 'E13', 'N1', 'N3'), (0,
  'E31', 'N3', 'N1');
INSERT INTO station (rowid, id, node, capacity) VALUES (9223372036854775807, 'A', 'N1', 1), (-1,
  'B', 'N3', 2);
INSERT INTO vehicle VALUES ('KIT', '0001', 'N1', NULL, NULL, 1, NULL, 1, 0, 1, 1700000000000, 0,
  0, NULL);
INSERT INTO leg VALUES ('O1', 0, 'E13');
INSERT INTO load VALUES ('L1', 'station', 'A', NULL, NULL);
INSERT INTO job VALUES ('J1', 'L1', 'A', 'B', 'riding');
INSERT INTO hold VALUES ('node', 'N1', 'KIT', '0001'), ('edge', 'E13', 'KIT', '0001'), ('node',
  'N3', 'KIT', '0001');
INSERT INTO used VALUES ('order', 'O1');
INSERT INTO capacity VALUES ('KIT', '0001', 1);
INSERT INTO journey VALUES ('O1', 'KIT', '0001', 'N1', 0, 1, 0, NULL, 0);
INSERT INTO act (rowid, order_id, n, job, kind, place_at, status) VALUES
  (-2, 'O1', 0, 'J1', 'pick', 0, 'WAITING'), (7, 'O1', 1, 'J1', 'drop', 1, 'WAITING');
'''


class TableForms(FormsTest):
    def test_the_same_rules(self) -> None:
        """A whole transport is served, and told by the next start."""
        for form, text in {**SAME, **SAME_SECOND}.items():
            with self.subTest(form):
                self.write(2, text)
                self.assertEqual(told(self.db).reasons, [])
                self.check_transport()
                self.assertEqual(broken(rows_of(self.db)), [])

    def test_other_rules(self) -> None:
        for form, text in {**OTHER, **OTHER_SECOND}.items():
            with self.subTest(form):
                self.write(2, text)
                self.check_refused('replay', '--db', self.db, '--at', AT)

    def test_the_same_rules_migrated(self) -> None:
        """A file of the first schema with an open trip has the rows of the second one."""
        for form, text in SAME.items():
            with self.subTest(form):
                self.write(1, text, BEGUN)
                self.assertEqual(run('migrate', '--db', self.db), (0, b'migrated\n', b''))
                rows = rows_of(self.db)
                self.assertEqual((rows['meta'], rows['trip']), ([(1, 2)], []))
                self.assertEqual({table: rows[table] for table in BEGUN_MOVED}, BEGUN_MOVED)
                self.assertEqual(broken(rows), [])
                self.assertEqual(told(self.db).reasons, [])

    def test_other_rules_migrated(self) -> None:
        for form, text in OTHER.items():
            with self.subTest(form):
                self.write(1, text)
                self.check_refused('migrate', '--db', self.db)

    def test_all_tables_typed_by_hand(self) -> None:
        """An open order is told, and carried out."""
        self.execute(BY_HAND)
        self.assertEqual((told(self.db).reasons, broken(rows_of(self.db))), ([], []))
        script = [
            holds('node N1 KIT/0001', 'node N3 KIT/0001', 'edge E13 KIT/0001', of=6),
            stands('L1', 'station A', 'J1'),
            accepted(state(2, 'O1', node='N3', sequence=2, statuses=FINISHED)),
            stands('L1', 'station B'),
            holds('node N3 KIT/0001', of=6),
            ok(
                'GET /report/stock',
                None,
                (
                    'station A at N1: 0 of 1, reserved 0\nstation B at N3: 1 of 2, reserved 0\n '
                    ' L1\nchecking: 0\nvehicle KIT/0001: 0\nleft: 0\n'
                ),
            ),
        ]
        status, out, said = self.replay(b''.join(map(bytes_of, script)))
        self.assertEqual((status, said), (0, b''))
        self.assertEqual(answers_of(out), [line[2:] for line in script])
        self.assertEqual((told(self.db).reasons, broken(rows_of(self.db))), ([], []))


if __name__ == '__main__':
    unittest.main()
