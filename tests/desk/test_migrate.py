"""Shows that `migrate` moves each file of the first schema with all its rows, in the file or in
its log, and leaves a file as it is that it refuses."""
from __future__ import annotations

import os
import sqlite3
import tempfile
import unittest
from typing import Any

from nulvrader.file.tables import SECOND, TABLES, columns
from tests.support.calls import REPORTS, advance, request, state
from tests.support.desks import AT, run
from tests.support.first_file import FILES, FirstFile, OLD_TRIPS
from tests.support.first_schema import (
    BEGUN,
    BEGUN_MOVED,
    CANCELLED,
    FRAME,
    LAYOUT,
    MESSAGE,
    committed,
)
from tests.support.records import FOLDER, rows_of
from tests.support.script_calls import (
    FIRST_EDGE,
    accepted,
    answers_of,
    bytes_of,
    holds,
    load,
    ok,
    stands,
)
from tests.support.scripts import SCRIPTS

PICKED = [('O1.0', 'FINISHED')]

# Besides the scripts of others: an update is confirmed, and its order goes on.
MOVED = {
    **SCRIPTS,
    'an update is confirmed': FIRST_EDGE
    + [
        accepted(state(2, 'O1', statuses=PICKED)),
        ok(*advance('O1', 1, 1), '{"orderUpdateId":1}'),
        accepted(state(3, 'O1', 1, 'N2', 2, PICKED)),
        holds('node N2 KIT/0001', 'node N3 KIT/0001', 'edge E23 KIT/0001'),
        accepted(state(4, 'O1', 1, 'N3', 4, PICKED + [('O1.1', 'RUNNING')])),
        stands('L1', 'vehicle KIT/0001', 'J1'),
        accepted(state(5, 'O1', 1, 'N3', 4, PICKED + [('O1.1', 'FINISHED')])),
        stands('L1', 'station B'),
    ],
}

# How many statements are in the file, and how many more commits in the log: all is in the log;
# older frames stand behind those of the last rows; the log is so long that it is copied into the
# file before more is written.
LOGS = ((0, 0), (20, 0), (0, 1000))


def is_new(lines: Any) -> bool:
    """Whether there is what no desk of the first schema has: a vehicle for more than one load, or a
    drive."""
    return any(
        status == 200
        and (line == 'POST /drives' or isinstance(body, dict) and body.get('capacity', 1) > 1)
        for line, body, status, _ in lines
    )


class Migrate(FirstFile):
    def test_an_open_order(self) -> None:
        """It is moved once, its message is the same to the byte, and the vehicle carries it out."""
        self.write(BEGUN)
        self.assertEqual(run('report', '--db', self.db, 'stock'), (1, b'', b'fault: Damaged\n'))
        self.assertEqual(self.moved(), BEGUN_MOVED)
        moved = self.bytes()
        self.refused()
        self.assertEqual(self.bytes(), moved)
        self.goes_on()

    def goes_on(self) -> None:
        """The order that is begun has its message, and is carried out."""
        self.check(
            ok('GET /uagv/v2/KIT/0001/order', None, MESSAGE),
            holds('node N1 KIT/0001', 'node N2 KIT/0001', 'edge E12 KIT/0001'),
            accepted(state(2, 'O1', statuses=[('O1.0', 'FINISHED')])),
            stands('L1', 'vehicle KIT/0001', 'J1'),
            ok(*advance('O1', 1, 1), '{"orderUpdateId":1}'),
            accepted(state(3, 'O1', 1, 'N3', 4, [('O1.0', 'FINISHED'), ('O1.1', 'FINISHED')])),
            stands('L1', 'station B'),
        )

    def test_a_vehicle_that_is_astray(self) -> None:
        self.write(CANCELLED)
        self.assertEqual(self.moved(), {'capacity': [('KIT', '0001', 1)], 'journey': [], 'act': []})
        self.check(holds('node N1 KIT/0001', 'node N2 KIT/0001', 'edge E12 KIT/0001'))

    def test_no_vehicle(self) -> None:
        self.write(LAYOUT)
        self.assertEqual(self.moved(), {'capacity': [], 'journey': [], 'act': []})
        self.check(stands('L1', 'station A'))

    def test_nothing_yet(self) -> None:
        self.write()
        self.assertEqual(self.moved(), {'capacity': [], 'journey': [], 'act': []})

    def test_tables_of_others(self) -> None:
        """They stay, rows and all."""
        self.write(
            BEGUN,
            (
                "CREATE TABLE note (a TEXT); INSERT INTO note VALUES ('b'); CREATE INDEX by_a ON"
                " note (a);CREATE VIEW standing AS SELECT id FROM load"
            ),
        )
        self.assertEqual(run('migrate', '--db', self.db), (0, b'migrated\n', b''))
        with self.other() as base:
            self.assertEqual(
                base.execute('SELECT a, id FROM note, standing').fetchall(), [('b', 'L1')]
            )
            self.assertEqual(base.execute('PRAGMA integrity_check').fetchall(), [('ok',)])
        self.check(ok('GET /uagv/v2/KIT/0001/order', None, MESSAGE))

    def test_rows_in_the_log(self) -> None:
        """They are moved as those in the file are."""
        for inside, commits in LOGS:
            with self.subTest(inside=inside, commits=commits):
                self.write_anew(BEGUN)
                self.put_in_log(inside, commits)
                before = self.bytes()
                front = committed(before['-wal'])
                self.assertGreater(len(front), commits * (FRAME + 4096))
                self.assertEqual(len(before['-wal']) > len(front), inside > 0)
                self.assertEqual(self.moved(), BEGUN_MOVED)
                self.assertEqual(self.bytes()[''] != before[''], commits > 0)
                self.goes_on()

    def test_a_log_that_is_refused(self) -> None:
        """Both files stay as they are; a second refusal changes no byte."""
        for inside, commits in LOGS:
            with self.subTest(inside=inside, commits=commits):
                self.write_anew(BEGUN, "UPDATE trip SET pick_status = 'DONE'")
                self.put_in_log(inside, commits)
                self.refused()
                once = self.bytes()
                self.refused()
                self.assertEqual(self.bytes(), once)

    def test_a_file_that_is_not_there(self) -> None:
        """Nor is an empty one of the first schema. What is left, as by any opening, is a database
        without a table, in which a desk begins."""
        for made in (False, True):
            with self.subTest(made=made):
                self.remove()
                if made:
                    open(self.db, 'wb').close()
                self.assertEqual(run('migrate', '--db', self.db), (1, b'', b'fault: Damaged\n'))
                self.assertEqual(self.dump(), [])
                self.refused()
                self.check(load('L1'), stands('L1', 'checking'))

    def take_back(self, second: Any) -> list[Any]:
        """Writes a file of the first schema with the rows of one of the second, in which each
        vehicle carries one load. It gives its trips."""
        rows, base = {}, sqlite3.connect(second)
        for table in TABLES:
            if table not in ('meta', 'trip') + SECOND:
                rows[table] = base.execute('SELECT * FROM ' + table).fetchall()
        rows['trip'] = base.execute(OLD_TRIPS).fetchall()
        self.assertEqual(
            len(rows['trip']), base.execute('SELECT count(*) FROM journey').fetchone()[0]
        )
        base.close()
        self.write()
        base = sqlite3.connect(self.db)
        for table, found in rows.items():
            for row in found:
                base.execute(f'INSERT INTO {table} VALUES ({", ".join("?" * len(row))})', row)
        base.commit()
        base.close()
        return [dict(zip(columns('trip'), row)) for row in rows['trip']]

    def tells_all(self, lines: Any) -> Any:
        """All that can be asked is answered over the file as in memory after these requests."""
        rows = rows_of(self.db)
        names = [f'{row[0]}/{row[1]}' for row in rows['vehicle']]
        asked = [*[call.target for call in REPORTS], *['/loads/' + row[0] for row in rows['load']]]
        for name in names:
            asked += [
                '/vehicles/' + name,
                f'/uagv/v2/{name}/order',
                f'/uagv/v2/{name}/instantActions',
            ]
        self.answers_as_in_memory(lines, [('GET', path, b'') for path in asked], {200, 204})
        return names

    def changes_all(self, lines: Any) -> None:
        """Each vehicle is told to pause and is asked again, a load comes and goes, and all is told:
        over the file as in memory."""
        more = [('POST', '/loads', b'{"load":"more"}')]
        for name in self.tells_all(lines):
            more += [
                ('POST', f'/vehicles/{name}/{call}', b'') for call in ('pause', 'resync', 'cancel')
            ]
            more += [
                ('GET', f'/uagv/v2/{name}/instantActions', b''),
                ('GET', '/vehicles/' + name, b''),
            ]
        more += [
            ('POST', '/loads/more/leave', b'{"ref":"more"}'),
            *[('GET', call.target, b'') for call in REPORTS],
        ]
        told = self.answers_as_in_memory(lines, more, {200, 204, 409})
        self.assertEqual((told[0], told[-1 - len(REPORTS) :]), (200, [200] * (1 + len(REPORTS))))
        with tempfile.TemporaryDirectory(dir=FOLDER) as folder:
            first, self.db = self.db, os.path.join(folder, 'plain.db')
            self.check(*lines)
            self.answers_as_in_memory(lines, more, {200, 204, 409})
            self.assertEqual(rows_of(self.db), rows_of(first))

    def answers_as_in_memory(self, lines: Any, requests: Any, statuses: Any) -> list[Any]:
        """Requests are answered over the file as in memory after these lines, with no other
        statuses."""
        asked = b''.join(
            request(f'{method} {path}', None if method == 'GET' else body)
            for method, path, body in requests
        )
        of_file = run('replay', '--db', self.db, '--at', AT, stdin=asked)
        in_memory = run(
            'replay', '--db', 'memory', '--at', AT, stdin=b''.join(map(bytes_of, lines)) + asked
        )
        self.assertEqual((of_file[0], of_file[2], in_memory[0], in_memory[2]), (0, b'', 0, b''))
        told = answers_of(of_file[1])
        self.assertEqual(told, answers_of(in_memory[1])[len(lines) :])
        self.assertEqual(len(told), len(requests))
        self.assertLessEqual({status for status, _ in told}, statuses)
        return [status for status, _ in told]

    def test_each_script(self) -> None:
        """What a script has come to after its last request, and after every second one before (of a
        long one eight), is moved, each second time out of the log: it tells what it tells in
        memory, and goes on as it would have gone on, the last with calls that change something.
        """
        moved, ended, trips = 0, set(), []
        for title, lines in MOVED.items():
            for cut in (*range(1, len(lines), max(2, len(lines) // 8)), len(lines)):
                if is_new(lines[:cut]):
                    break
                with (
                    self.subTest(title, cut=cut),
                    tempfile.TemporaryDirectory(dir=FOLDER) as folder,
                ):
                    second = self.db = os.path.join(folder, 'second.db')
                    self.check(*lines[:cut])
                    self.db = os.path.join(folder, 'first.db')
                    trips += self.take_back(second)
                    if moved % 2:
                        self.put_in_log()
                    self.assertEqual(run('migrate', '--db', self.db), (0, b'migrated\n', b''))
                    self.assertEqual(rows_of(self.db), rows_of(second))
                    if cut == len(lines):
                        self.changes_all(lines)
                        ended.add(title)
                    else:
                        self.tells_all(lines[:cut])
                        self.check(*lines[cut:])
                    moved += 1
        self.assertEqual(ended, {title for title, lines in MOVED.items() if not is_new(lines)})
        of_messages = {(trip['sent'], trip['first'], trip['confirmed']) for trip in trips}
        self.assertLessEqual({(0, 0, None), (0, 0, 0), (1, 1, 0), (1, 1, 1)}, of_messages)
        self.assertLessEqual({0, 1, 2}, {trip['seen'] for trip in trips})

    def test_no_rows_of_a_trip(self) -> None:
        """Rows of an open order that break a rule, and a vehicle with more loads than one place
        holds."""
        self.refuse_each(
            BEGUN,
            (
                "UPDATE trip SET pick_status = 'DONE'",
                "UPDATE trip SET pick_at = 1",
                "UPDATE trip SET job = 'J2'",
                "UPDATE trip SET base = 3",
                "UPDATE trip SET serial = '0002'",
                "UPDATE trip SET drop_status = 'FINISHED'",
                'DELETE FROM trip',
                'DELETE FROM leg WHERE k = 1',
                "UPDATE leg SET edge = 'E21' WHERE k = 0",
                "UPDATE job SET phase = 'done'",
                'DELETE FROM used',
                "DELETE FROM hold WHERE id = 'E12'",
                (
                    "INSERT INTO load VALUES ('L2', 'vehicle', NULL, 'KIT', '0001'), ('L3',"
                    " 'vehicle', NULL, 'KIT', '0001')"
                ),
            ),
        )

    def test_what_is_not_moved(self) -> None:
        """Rows that break a rule, a table that is missing or has the number of another schema, and
        names that are taken."""
        self.refuse_each(
            CANCELLED,
            (
                "DELETE FROM hold WHERE id = 'N2'",
                "UPDATE load SET station = 'Z'",
                "UPDATE vehicle SET rest_node = NULL",
                "INSERT INTO leg VALUES ('O1', 0, 'E12')",
                "UPDATE meta SET schema = 2",
                "DELETE FROM meta",
                "DROP TABLE used",
                (
                    "INSERT INTO trip VALUES ('O2', 'KIT', '0001', 'J1', 'N1', 0, 0, 0, NULL, 0, 0,"
                    " 2, 'WAITING', 'WAITING')"
                ),
                'CREATE TABLE act (a TEXT)',
                'CREATE VIEW journey AS SELECT id FROM load',
                'CREATE INDEX capacity ON load (id)',
                'CREATE TABLE CAPACITY (a TEXT)',
                'CREATE TABLE note (a TEXT REFERENCES load (id))',
                'CREATE TABLE note (a TEXT REFERENCES journey (order_id))',
            ),
        )

    def remove(self) -> None:
        for end in FILES:
            if os.path.exists(self.db + end):
                os.remove(self.db + end)

    def write_anew(self, *texts: Any) -> None:
        self.remove()
        self.write(*texts)

    def refuse_each(self, rows: Any, texts: Any) -> None:
        """With each of these statements besides, a file of these rows isn't moved, nor where they
        are in the log."""
        for text in texts:
            with self.subTest(text):
                self.write_anew(rows, text)
                self.refused()
                self.put_in_log()
                self.refused()


if __name__ == '__main__':
    unittest.main()
