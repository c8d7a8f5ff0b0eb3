"""Shows that a layout which is exported and given to a new desk gives the same answers, and
that the export of jobs lists the live ones alone and reads no more of the file for the others.

The other tests have all four exports among their calls."""
import contextlib
import os
import random
import sqlite3
import tempfile
import unittest
from typing import Any

from tests.support import calls
from tests.support.answers import answers_of
from tests.support.desks import AT, Serving, over_sockets, run
from tests.support.records import FOLDER, rows_of
from tests.support.script_calls import LAYOUT, bytes_of
from tests.support.scripts import SCRIPTS
from tests.support.streets import Streets, streets_for

from nulvrader.common.layouts import read_layout
from nulvrader.desk.exports import read_layout as read_export

LIVE = 300
JOBS_HEAD = b'job,load,from,to,phase,manufacturer,serialNumber,order\n'


def answered(db: str, *asked: bytes) -> list[Any]:
    """What the program answers, each with the status 200."""
    status, out, said = run('replay', '--db', db, '--at', AT, stdin=b''.join(asked), limit=600)
    if (status, said) != (0, b''):
        raise AssertionError((status, said))
    found, left = answers_of(out)
    if left or [answer.status for answer in found] != [200] * len(asked):
        raise AssertionError((found, left))
    return [answer.body for answer in found]


class Layouts(unittest.TestCase):
    def setUp(self) -> None:
        folder = tempfile.TemporaryDirectory(dir=FOLDER)
        self.addCleanup(folder.cleanup)
        self.folder = folder.name

    def exported(self, name: str, rows: Any) -> tuple[Any, Any]:
        """What a desk exports to which these rows were given as its layout, and its file."""
        db = os.path.join(self.folder, name)
        _, export = answered(db, calls.layout(rows).to_bytes(), calls.LAYOUT_EXPORT.to_bytes())
        return export, db

    def test_what_is_exported_gives_the_same_layout(self) -> None:
        """The rows of a file may be in any order, and the names in quotes; a desk that is given
        what another one exports has the same rows in its file and exports the same bytes."""
        head, *rows = LAYOUT.splitlines()
        random.Random(3).shuffle(rows)
        mixed = '\r\n'.join(
            [head, *rows[1:], ','.join(f'"{field}"' for field in rows[0].split(','))]
        )
        given = {
            'sorted': LAYOUT,
            'mixed': mixed,
            'one node': 'kind,id,from,to\nnode,N1,,\n',
            'streets': Streets(3, 3).rows(),
            'many': streets_for(100).rows(),
        }
        for name, text in given.items():
            with self.subTest(name):
                export, db = self.exported(name, text)
                again, other = self.exported(name + ' again', export)
                self.assertEqual(again, export)
                self.assertEqual(rows_of(other), rows_of(db))
                self.assertEqual(export, read_layout(text.encode()).csv())
        self.assertEqual(self.exported('mixed twice', mixed)[0].decode(), LAYOUT)

    def test_a_desk_with_an_exported_layout_answers_the_same(self) -> None:
        """As one with the file that the first was given: the worked examples are answered as they
        say."""
        export, _ = self.exported('plant', LAYOUT)
        for title, lines in SCRIPTS.items():
            if lines[0][:2] != ('PUT /layout', LAYOUT):
                continue
            asked = [calls.layout(export).to_bytes(), *map(bytes_of, lines[1:])]
            with self.subTest(title):
                status, out, said = run(
                    'replay', '--db', 'memory', '--at', AT, stdin=b''.join(asked)
                )
                self.assertEqual((status, said), (0, b''))
                told = [(answer.status, answer.body.decode()) for answer in answers_of(out)[0]]
                self.assertEqual(told, [line[2:] for line in lines])

    def test_the_largest_layout(self) -> None:
        """A file may end without a line end, and an export does not. So that of a file of 65,536
        bytes is a byte too long for a body, and is taken without its last line end."""
        rows = ['kind,id,from,to', *(f'node,N{at:03d},,' for at in range(500))]
        rows += [f'edge,E{at:031d},N000,N001' for at in range(1239)]
        text = '\n'.join([*rows, f'station,{"S" * 31},N000,999'])
        self.assertEqual(len(text), 65_536)
        export, db = self.exported('largest', text)
        self.assertEqual(export.decode(), text + '\n')
        self.assertEqual(read_export(export), read_layout(text.encode()))
        refused = run('replay', '--db', 'memory', '--at', AT, stdin=calls.layout(export).to_bytes())
        self.assertIn(b'{"name":"TooLarge","refusal":3}', refused[1])
        again, other = self.exported('largest again', export[:-1])
        self.assertEqual((again, rows_of(other)), (export, rows_of(db)))

    def test_a_desk_without_a_layout(self) -> None:
        (told,) = answered('memory', calls.LAYOUT_EXPORT.to_bytes())
        self.assertEqual(told, b'kind,id,from,to\n')
        refused = run('replay', '--db', 'memory', '--at', AT, stdin=calls.layout(told).to_bytes())
        self.assertIn(b'{"name":"LayoutBad","refusal":32}', refused[1])


def filled(db: str, ended: Any) -> Any:
    """A file with so many ended jobs beside the live ones, whose names stand between theirs.
    Returns the rows of the live ones by name."""
    answered(
        db,
        calls.layout('kind,id,from,to\nnode,N1,,\nstation,A,N1,999\nstation,B,N1,999\n').to_bytes(),
        calls.vehicle('0001', 'N1').to_bytes(),
        calls.state(1).to_bytes(),
    )
    step = max(1, ended // LIVE)
    live = [
        (f'J{number * step:07d}.1', f'L{number:04d}', 'A', 'B', 'waiting') for number in range(LIVE)
    ]
    phases = 'done', 'stopped'
    with contextlib.closing(sqlite3.connect(db)) as base, base:
        loads = [(f'L{number:04d}', 'station', 'A') for number in range(LIVE)]
        base.executemany(
            'INSERT INTO load (id, kind, station) VALUES (?, ?, ?)',
            [*loads, ('M', 'checking', None)],
        )
        base.executemany('INSERT INTO job VALUES (?, ?, ?, ?, ?)', live)
        gone = ((f'J{number:07d}', 'M', 'A', 'B', phases[number % 2]) for number in range(ended))
        base.executemany('INSERT INTO job VALUES (?, ?, ?, ?, ?)', gone)
    return live


def told_of(rows: Any, riding: Any = None) -> bytes:
    """The export of these jobs, of which one may ride by the order O1."""
    ends = {riding: ',KIT,0001,O1'}
    lines = (','.join(row) + ends.get(row[0], ',,,') for row in rows)
    return JOBS_HEAD + ''.join(line + '\n' for line in lines).encode()


def bytes_read(desk: Any) -> int:
    """How many bytes a process has read so far, from files and from sockets."""
    with open(f'/proc/{desk.process.pid}/io') as file:
        return int(dict(line.split(': ') for line in file)['rchar'])


@over_sockets
class LiveJobs(unittest.TestCase):
    def look(self, ended: Any) -> Any:
        """The export of jobs as some begin to ride, are stopped and are added. Returns how many
        bytes the desk reads for the last one."""
        with tempfile.TemporaryDirectory(dir=FOLDER) as folder:
            db = os.path.join(folder, 'jobs.db')
            live = filled(db, ended)
            with Serving(db) as desk:
                line = desk.connect()
                self.addCleanup(line.close)

                def ask(call: Any) -> Any:
                    status, body = desk.ask(call.method, call.target, call.body and call.data, line)
                    self.assertEqual(status, 200, body)
                    return body

                self.assertEqual(ask(calls.JOBS_EXPORT), told_of(live))
                ask(calls.order('O1', live[7][0], 0))
                ask(calls.stop_job(live[9][0]))
                ask(calls.job('J', 'L0009', 'B'))
                now = [
                    ('J', *live[9][1:]),
                    *live[:7],
                    (*live[7][:4], 'riding'),
                    live[8],
                    *live[10:],
                ]
                self.assertEqual(ask(calls.JOBS_EXPORT), told_of(now, live[7][0]))
                before = bytes_read(desk)
                self.assertEqual(ask(calls.JOBS_EXPORT), told_of(now, live[7][0]))
                return bytes_read(desk) - before

    @unittest.skipUnless(
        os.access('/proc/self/io', os.R_OK), 'what a program reads is not told here'
    )
    def test_ended_jobs_cost_nothing(self) -> None:
        """Beside 100,000 ended jobs the desk reads as many bytes for the export as beside 100."""
        self.assertEqual(self.look(100_000), self.look(100))


if __name__ == '__main__':
    unittest.main()
