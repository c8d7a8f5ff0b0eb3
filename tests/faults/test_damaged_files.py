"""Shows that the program, over files and logs that were changed at random, tells that they are
damaged or can't be read, or serves rows that break no rule, and never ends in another way or
takes long.

A change is of a byte, a run of bytes, a page, or an end that is cut. The files are those of a
new desk, of each script in `faults.py`, and of one with a row of each kind, each with all in
the log, all in the database, and some in either; of a changed log the calls up to some one are
served. The last test changes two files of the first schema, which `migrate` moves. DAMAGES sets
how many changes of each are tried."""
import os
import random
import sqlite3
import tempfile
import unittest
from typing import Any

from tests.support.breaks_alone import DRIVE_BREAKS
from tests.support.breaks import BREAKS
from tests.support.calls import REPORTS, request
from tests.support.fault_files import ALL, remove
from tests.support.faults import STORAGE, Script, full_log, lines, scripts
from nulvrader.file.tables import SECOND, TABLES
from tests.support.records import (
    FOLDER,
    answers_of_rows,
    broken,
    checkpoint,
    copied,
    rows_of,
)
from tests.support.damages import DRIVEN, FILLED, FINISHED, SHAPES, asked, damaged
from tests.support.answers import answers_of
from tests.support.first_schema import BEGUN, FIRST, committed
from tests.support.first_schema import LAYOUT as NO_VEHICLE
from tests.support.desks import AT, run
from tests.support.calls import advance, state
from tests.support.script_calls import drive, job, load, ok, order

DAMAGES = int(os.environ.get('DAMAGES', '28'))
SECONDS = 10
WRITES = [
    load('L8', 'A'),
    load('L9'),
    ok('POST /loads/L3/correct', {'ref': 'R2', 'station': 'D'}),
    job('J8', 'L6', 'C'),
    advance('O2', 1, 1),
    state(4, 'O2', 1, 'N5', 4, [('O2.0', FINISHED), ('O2.1', FINISHED)]),
    ok('POST /vehicles/KIT/0002/place', {'ref': 'R3', 'node': 'N8'}),
    order('O4', 'J5', 1),
    state(2, node='N6', statuses=[('instant-1', FINISHED)], serial='0003'),
    ok('POST /stocktakes/R4', 'station,load\nB,L6\nD,L2\nD,L3\n'),
    ok('POST /loads/L9/leave', {'ref': 'R5'}),
    ok('DELETE /jobs/J8'),
    ok('POST /vehicles/KIT/0001/resync', ''),
    drive('G2', 'N7', 0, '0002'),
]


def reads_of(rows: Any) -> list[Any]:
    """What is asked of a file: the reports, the exports, each vehicle with its messages, loads and
    jobs of which there are some, and one of each that isn't."""
    keys = [f'{row[0]}/{row[1]}' for row in rows['vehicle']]
    return [
        *[call.target for call in REPORTS],
        *['/vehicles/' + key for key in keys],
        *[f'/uagv/v2/{key}/{topic}' for key in keys for topic in ('order', 'instantActions')],
        *['/loads/' + row[0] for row in rows['load'][:8]],
        '/loads/no',
        *[f'/jobs/{row[0]}/phase' for row in rows['job'][:8]],
        '/jobs/no/phase',
    ]


class FilesTest(unittest.TestCase):
    def setUp(self) -> None:
        self.folder = tempfile.TemporaryDirectory(dir=FOLDER)
        self.db = os.path.join(self.folder.name, 'damaged.db')

    def tearDown(self) -> None:
        self.folder.cleanup()

    def replay(self, stdin: bytes) -> tuple[list[tuple[Any, Any]], Any]:
        """What the program answers, and what it says at its end; it is one of the ends that
        docs/HTTP.md has."""
        status, out, said = run('replay', '--db', self.db, '--at', AT, stdin=stdin, limit=SECONDS)
        self.assertIn(
            (status, said), ((0, b''), (1, b'fault: Damaged\n'), (1, b'fault: Storage\n'))
        )
        found, left = answers_of(out)
        self.assertEqual(left, b'')
        refused = [answer for answer in found if answer.status == 503]
        if said == b'fault: Storage\n' and out:
            self.assertTrue(out.endswith(STORAGE))
            self.assertEqual(len(refused), 1)
            found.pop()
        else:
            self.assertEqual(refused, [])
            self.assertTrue(status == 0 or out == b'')
        return [(answer.status, answer.body) for answer in found], said.decode().strip()

    def files(self) -> Any:
        found = {}
        for end in ('', '-wal'):
            if os.path.exists(self.db + end):
                with open(self.db + end, 'rb') as file:
                    found[end] = file.read()
        return found

    def put(self, files: Any) -> None:
        remove(self.db)
        for end, data in files.items():
            with open(self.db + end, 'wb') as file:
                file.write(data)

    def checked(self) -> Any:
        """The rows as another SQLite reads them, which break no rule; none where it can't."""
        try:
            rows = rows_of(self.db, check=False)
        except (sqlite3.DatabaseError, UnicodeDecodeError):
            return None
        self.assertEqual(broken(rows), [])
        return rows

    def look(self, reads: Any, known: Any) -> tuple[Any, Any, bool] | tuple[Any, None, bool]:
        """The program is asked all that it tells of a file. What it answers is what a desk of the
        rows tells that another SQLite reads there, or, where that reads none, of rows that are
        known to have been there. It gives what the program says at its end, the rows that it has
        told of, none where it has answered nothing, and whether the other one reads them.
        """
        found, said = self.replay(b''.join(request('GET ' + target) for target in reads))
        if not said:
            self.assertEqual(len(found), len(reads))
        if not found:
            return said, None, True
        rows = self.checked()
        fit = known if rows is None else [rows]
        for one in fit:
            if found == answers_of_rows(one, reads[: len(found)]):
                return said, one, rows is not None
        wanted = answers_of_rows(fit[-1], reads[: len(found)])
        pairs = zip(reads, found, wanted)
        others = [(target, *pair) for target, *pair in pairs if pair[0] != pair[1]]
        self.fail(f'{"no rows" if rows is None else "other rows"}: {others}')


class Damaged(FilesTest):
    def into_database(self) -> None:
        """What the log has is put into the database, and the log is gone."""
        checkpoint(self.db)
        self.assertEqual(list(self.files()), [''])

    def kinds_of(self, script: Any) -> Any:
        """The files that a script leaves, each with the end of the name of the one that is
        changed."""
        kinds, half = {}, len(script.requests) // 2
        script.start(self.db)
        self.replay(script.input)
        kinds['the log of all'] = self.files(), '-wal'
        self.into_database()
        kinds['the database'] = self.files(), ''
        script.start(self.db)
        self.replay(b''.join(script.requests[:half]))
        self.into_database()
        self.replay(b''.join(script.requests[half:]))
        kinds['the log'] = self.files(), '-wal'
        kinds['the database beside a log'] = self.files(), ''
        for kind, (files, end) in list(kinds.items()):
            if not files.get('-wal') and kind != 'the database':
                # a new desk writes nothing but its tables, so in the second way the log stays empty
                self.assertEqual(script.requests, [], kind)
                del kinds[kind]
                continue
            self.put(files)
            self.assertEqual(rows_of(self.db), script.rows[-1])
        return kinds

    def played(self) -> Any:
        filled = Script(lines(FILLED)).play(self.folder.name)
        self.assertEqual({answer.status for answer in answers_of(filled.out)[0]}, {200})
        self.assertEqual({table for table in TABLES if not filled.rows[-1][table]}, {'trip'})
        found = {
            'a row of each kind': filled,
            'a drive under way': Script(lines(FILLED + DRIVEN)),
            'a new desk': Script([]),
            **scripts(),
            'a full log': full_log(),
        }
        for name, script in found.items():
            with tempfile.TemporaryDirectory(dir=FOLDER) as folder:
                script.play(folder)
            for rows in script.rows:
                self.assertEqual(broken(rows), [], name)
        return found

    def check_damaged(self, files: Any, statements: str) -> None:
        """The files are damaged once these statements were carried out, and stay as they are
        then."""
        self.put(files)
        base = sqlite3.connect(self.db)
        base.executescript(statements)
        base.close()
        changed = self.files()
        self.assertNotEqual(changed, files)
        self.assertEqual(self.replay(request('GET /report/stock')), ([], 'fault: Damaged'))
        self.assertEqual(run('report', '--db', self.db, 'stock'), (1, b'', b'fault: Damaged\n'))
        self.assertEqual(self.files()[''], changed[''])
        self.assertEqual(committed(self.files()['-wal']), b'')

    def test_rows_that_break_a_rule(self) -> None:
        """Of each the desk tells."""
        played = self.played()
        for name, breaks in (
            ('a row of each kind', BREAKS),
            ('a drive under way', DRIVE_BREAKS),
        ):
            files, _ = self.kinds_of(played[name])['the database']
            for statement, _, _ in breaks:
                with self.subTest(statement):
                    self.check_damaged(files, statement)

    def test_tables_of_another_shape(self) -> None:
        files, _ = self.kinds_of(self.played()['a row of each kind'])['the database']
        for statements in SHAPES:
            with self.subTest(statements):
                self.check_damaged(files, statements)

    def test_fronts(self) -> None:
        """Each front of each script, with nothing changed: what the desk tells is what the model
        says of the rows."""
        looked = 0
        for name, script in self.played().items():
            script.start(self.db)
            for number in range(len(script.requests) + 1):
                with self.subTest(name, number=number):
                    self.replay(b''.join(script.requests[number - 1 : number] if number else []))
                    self.assertEqual(
                        self.look(reads_of(script.rows[-1]), []), ('', script.rows[number], True)
                    )
                    looked += 1
        self.assertGreater(looked, 80)

    def kind_of(self, found: Any, last: Any, changed: bytes, end: str) -> str:
        """What has become of the rows, in words."""
        if found == last:
            return 'the same'
        if end:
            return 'fewer calls'
        if any(found[table] for table in found if table != 'meta'):
            return 'other rows'
        # A file of no byte, and one of a byte alone, is taken for one in which no desk was made
        # yet.
        self.assertLessEqual(len(changed), 1)
        return 'a new desk'

    def test_changes_at_random(self) -> None:
        told: dict[Any, Any] = {}
        for name, script in self.played().items():
            kinds, rows, reads = self.kinds_of(script), script.rows, reads_of(script.rows[-1])
            self.put(kinds['the database'][0])
            written, _ = self.replay(asked(WRITES))
            after = rows_of(self.db)
            for number in range(DAMAGES):
                kind = sorted(kinds)[number % len(kinds)]
                files, end = kinds[kind]
                with self.subTest(name, kind=kind, number=number):
                    changed = damaged(
                        files[end],
                        random.Random(f'{name} {number}'),
                        len(committed(files[end])) if end else 0,
                    )
                    self.put({**files, end: changed})
                    found: Any
                    said, found, read = self.look(reads, rows if end else rows[-1:])
                    what = said or self.kind_of(found, rows[-1], changed, end)
                    what += '' if read else ', unread by another SQLite'
                    if found and end:
                        self.assertTrue(found in rows, 'rows that the desk never had')
                    if not said:
                        # It goes on from these rows, and is asked again.
                        answers, said = self.replay(asked(WRITES))
                        self.assertTrue(said or len(answers) == len(WRITES))
                        if found == rows[-1]:
                            self.assertEqual(answers, written[: len(answers)])
                        self.look(reads, [after])
                        what += ', and then ' + said if said else ''
                    told[name, kind, what] = told.get((name, kind, what), 0) + 1
            if ALL:
                for (of, kind, what), count in sorted(told.items()):
                    if of == name:
                        print(f'{of}, {kind}: {what}: {count}')
        # Some changes are told, or end the log, and some touch nothing that is looked at.
        for kind, (_, end) in kinds.items():
            met = {
                what: sum(count for of, count in told.items() if of[1:] == (kind, what))
                for _, _, what in told
            }
            for what in ('the same', 'fewer calls' if end else 'fault: Storage'):
                self.assertGreater(met.get(what, 0), sum(met.values()) // 20, (kind, what))


class BeforeAMove(FilesTest):
    def first_rows(self) -> Any:
        """All rows of the file of the first schema, as another SQLite reads them; none where it
        can't."""
        with tempfile.TemporaryDirectory(dir=self.folder.name) as folder:
            base = sqlite3.connect(copied(self.db, folder))
            try:
                return {
                    table: sorted(base.execute(f'SELECT * FROM {table} NOT INDEXED'), key=repr)
                    for table in TABLES
                    if table not in SECOND
                }
            except (sqlite3.DatabaseError, UnicodeDecodeError):
                return None
            finally:
                base.close()

    def test_changes_at_random(self) -> None:
        """It is moved, and then it has the rows of a lawful world, or it isn't, and has the rows
        that it had."""
        told: dict[Any, Any] = {}
        for name, text in (('an open order', BEGUN), ('no vehicle', NO_VEHICLE)):
            remove(self.db)
            base = sqlite3.connect(self.db)
            base.executescript(FIRST + text)
            base.close()
            first = self.files()['']
            self.assertEqual(run('migrate', '--db', self.db), (0, b'migrated\n', b''))
            moved = rows_of(self.db)
            reads = reads_of(moved)
            for number in range(DAMAGES):
                with self.subTest(name, number=number):
                    self.put({'': damaged(first, random.Random(f'{name} {number}'))})
                    before = self.first_rows()
                    status, out, said = run('migrate', '--db', self.db, limit=SECONDS)
                    what: Any
                    found: Any
                    if status == 0:
                        self.assertEqual((out, said), (b'migrated\n', b''))
                        said, found, read = self.look(reads, [moved])
                        rows: Any = said or ('the same' if found == moved else 'other rows')
                        what = f'moved, {rows}' + ('' if read else ', unread by another SQLite')
                    else:
                        self.assertIn(
                            (status, out, said),
                            ((1, b'', b'fault: Damaged\n'), (1, b'', b'fault: Storage\n')),
                        )
                        self.assertEqual(self.first_rows(), before)
                        what = said.decode().strip()
                    told[name, what] = told.get((name, what), 0) + 1
            if ALL:
                print(
                    '\n'.join(
                        f'a move of {moved}: {what}: {count}'
                        for (moved, what), count in sorted(told.items())
                        if moved == name
                    )
                )
        for what in ('moved, the same', 'fault: Storage'):
            self.assertGreater(
                sum(count for met, count in told.items() if met[1] == what), DAMAGES // 5, what
            )


if __name__ == '__main__':
    unittest.main()
