"""Scripts of requests with the answers and the rows after each, and what must hold of a file
once the program that served a script on it has met a fault: what was answered is kept, the call
that met it has been carried out or not at all, and the rest of the script goes on from there to
the same rows. Besides, files that are moved to the second schema, and what must hold of one once
a fault was met amid its move.

By default a sample of all faults is tried; all of them where the variable FAULTS is `all`, or every
n-th from the k-th on (counted from 0) where FAULTS_PART is besides `k/n`."""
from __future__ import annotations

import functools
import os
import re
import socket
import sqlite3
import tempfile
import unittest
from collections.abc import Sequence
from typing import Any

from tests.support import first_schema
from tests.support.calls import REPORTS, state
from tests.support.desks import AT, DESK, read_all, run
from tests.support.fault_files import digest_of, files_of, put, tables_of
from tests.support.programs import ROOT
from tests.support.records import FOLDER, rows_of
from tests.support.script_calls import (
    AT_A,
    CUT,
    Case,
    accepted,
    answers_of,
    bytes_of,
    holds,
    load,
    ok,
    order,
    refused,
    stands,
)
from tests.support.scripts import SCRIPTS
from tests.support.tracing import Process

CLOSES = (
    b'HTTP/1.1 503 Service Unavailable\r\nContent-Length: %d\r\nContent-Type:'
    b' application/json\r\nConnection: close\r\n\r\n%s'
)
MEMORY, STORAGE = (
    CLOSES % (len(body), body)
    for body in (b'{"name":"Memory","refusal":90}', b'{"name":"Storage","refusal":91}')
)


def example(name: str) -> list[bytes]:
    """The requests of a file of the examples, as bytes."""
    with open(os.path.join(ROOT, 'examples', name), 'rb') as file:
        data = file.read()
    found = []
    while data:
        end = data.index(b'\r\n\r\n') + 4
        for line in data[:end].split(b'\r\n'):
            if line.lower().startswith(b'content-length:'):
                end += int(line.split(b':')[1])
        found.append(data[:end])
        data = data[end:]
    return found


def lines(script: Sequence[Any]) -> list[bytes]:
    return [bytes_of(line) for line in script]


# The vehicle of the cancelled order is placed anew, and picks the load up by the next one.
AGAIN = SCRIPTS['an order is cancelled on its way'] + [
    order('O2', 'J2', 1),
    accepted(state(3, 'O2', node='N1', sequence=2, statuses=[('O2.0', 'FINISHED')])),
    stands('L1', 'vehicle KIT/0001', 'J2'),
]
COUNTED = AT_A + [
    load('L3', 'C'),
    load('L4'),
    ok('POST /stocktakes/R2', 'station,load\nA,\nB,L4\nC,L1\nC,L9\n', ''),
    refused('POST /stocktakes/R2', 'station,load\nA,\nB,L4\nC,L1\nC,L9\n', 409, 'RefUsed', 49),
    ok('POST /loads/L3/leave', {'ref': 'R3'}),
    accepted(state(2)),
    ok('POST /stocktakes/R4', 'station,load\nB,\nC,L1\nC,L4\n', ''),
    ok('POST /stocktakes/R5', 'station,load\nB,\nC,L1\nC,L4\n', ''),
    *[(call.line, None, 200, '') for call in REPORTS],
]

# So many registrations that a few calls later the log is full, and what it has goes to the
# database.
FILL = [bytes_of(load(f'C{number:04d}')) for number in range(172)]


class Script:
    """The requests, and once it is played the answer of each and the rows before and after:
    `rows[n]` after n calls. It begins on a new file, or on one that has served other requests
    before. Where it is cut, the last of its requests is the front of one, which is refused where
    the input ends."""

    def __init__(
        self, requests: list[bytes], before: Sequence[bytes] = (), cut: bool = False
    ) -> None:
        self.requests, self.before, self.cut = requests, before, cut
        self.files: dict[str, bytes] = {}

    def start(self, db: str) -> None:
        """The files are there with which the script begins."""
        put(db, self.files)

    def play(self, folder: str) -> Script:
        if not hasattr(self, 'rows'):
            db = os.path.join(folder, 'played.db')
            if self.before:
                status, _, said = run('replay', '--db', db, '--at', AT, stdin=b''.join(self.before))
                if (status, said) != (0, b''):
                    raise AssertionError((status, said))
                self.files = files_of(db)
            self.answers: list[bytes] = []
            self.rows: list[Any] = []
            for number in range(len(self.requests) + 1):
                status, out, said = run(
                    'replay',
                    '--db',
                    db,
                    '--at',
                    AT,
                    stdin=b''.join(self.requests[number - 1 : number]),
                )
                if (status, said) != (0, b''):
                    raise AssertionError((status, out, said))
                if number:
                    self.answers.append(out)
                self.rows.append(rows_of(db))
            self.out = b''.join(self.answers)
            self.input = b''.join(self.requests)
        return self

    def begun(self, given: int) -> tuple[int, bool]:
        """How many requests are whole in so many bytes of the input, and whether there is more."""
        number = 0
        while number < len(self.requests) - self.cut and given >= len(self.requests[number]):
            given -= len(self.requests[number])
            number += 1
        return number, given > 0

    def whole(self, out: bytes) -> int:
        """How many answers an output has whole, of which it must be a front."""
        if not self.out.startswith(out):
            raise AssertionError(out[-300:])
        number = 0
        while number < len(self.answers) and len(out) >= len(self.answers[number]):
            out = out[len(self.answers[number]) :]
            number += 1
        return number


@functools.lru_cache(None)
def scripts() -> dict[str, Script]:
    return {
        'a first load': Script(example('first-load.http')),
        'a transport': Script(example('transport.http')),
        'a cancelled order': Script(lines(AGAIN)),
        'a stocktake': Script(lines(COUNTED)),
        'one state for the whole way': Script(
            lines(SCRIPTS['one state tells of the whole way, and again moves nothing'])
        ),
        'two loads in one order': Script(
            lines(SCRIPTS['a vehicle for two carries two loads in one order'])
        ),
        'a drive': Script(
            lines(SCRIPTS['a drive takes a load along; a job in each of its phases'])
        ),
        'a request that is cut': Script(CUT, cut=True),
    }


@functools.lru_cache(None)
def full_log() -> Script:
    """A transport amid which the log is full."""
    requests = example('transport.http')
    return Script(requests[4:], requests[:4] + FILL)


CHECKED: dict[Any, Any] = {}


def check_kept(
    test: unittest.TestCase, script: Script, db: str, answered: int, more: bool = True
) -> Any:
    """The file has the rows after so many calls, or one more where that is allowed, and the rest of
    the script goes on from there. It gives how many calls are in the file; -1 where it is no desk's
    yet: it is missing, has no table, or its first page, which the desk writes but for a byte and
    then whole, is not there yet. What has been checked is not checked again over the same bytes.
    """
    key = id(script), answered, more, digest_of(db)
    if key not in CHECKED:
        CHECKED[key] = check_anew(test, script, db, answered, more)
    return CHECKED[key]


def check_anew(test: unittest.TestCase, script: Script, db: str, answered: int, more: bool) -> int:
    try:
        rows = rows_of(db) if os.path.exists(db) else None
    except sqlite3.DatabaseError:
        with open(db, 'rb') as file:
            test.assertEqual((answered, script.files, file.read(1)), (0, {}, b'\0'))
        rows = None
    at = answered
    if rows is None:
        test.assertEqual((answered, script.files), (0, {}), 'the file is empty')
    elif rows != script.rows[answered]:
        test.assertTrue(more, 'the rows are others')
        at += 1
        test.assertEqual(rows, script.rows[at])
    rest = script.requests[at:]
    status, out, said = run('replay', '--db', db, '--at', AT, stdin=b''.join(rest))
    test.assertEqual((status, said), (0, b''))
    test.assertEqual(out, b''.join(script.answers[at:]))
    test.assertEqual(rows_of(db), script.rows[-1])
    return -1 if rows is None else at


STOCK = (
    'station A at N1: 1 of 1, reserved 0\n  L1\nstation B at N3: 0 of 1, reserved %d\nstation C at'
    ' N3: 0 of 2, reserved 0\nchecking: 0\n%sleft: 0\n'
)


class Move:
    """A file of the first schema, which another SQLite writes; the rows of its tables before the
    move, and those that it has after it; and requests that a desk answers then. Its rows stand in
    the database, or all of them in the log beside it.
    """

    WORDS = DESK, 'migrate', '--db'

    def __init__(self, rows: str, logged: bool, moved: dict[str, list[Any]], *asked: Case) -> None:
        self.asked = asked
        self.moved: dict[str, list[Any]] = {
            'meta': [(1, 2)],
            'trip': [],
            'capacity': [],
            'journey': [],
            'act': [],
            **moved,
        }
        with tempfile.TemporaryDirectory(dir=FOLDER) as folder:
            db = os.path.join(folder, 'first.db')
            base = sqlite3.connect(db)
            if logged:
                base.execute('PRAGMA journal_mode = WAL')
            base.executescript(first_schema.FIRST + rows)
            self.files = files_of(db)
            self.before = tables_of(db)
            base.close()
        self.after = {**self.before, **self.moved}

    def start(self, db: str) -> None:
        put(db, self.files)

    def check(self, test: unittest.TestCase, db: str, told: bool) -> Any:
        """The file has the rows before the move or those after it, and these where it was told that
        it is moved; then it is moved, or is moved already, and a desk starts on it. It gives which
        rows they were. What has been checked is not checked again over the same bytes.
        """
        key = id(self), told, digest_of(db)
        if key not in CHECKED:
            CHECKED[key] = self.check_anew(test, db, told)
        return CHECKED[key]

    def check_anew(self, test: unittest.TestCase, db: str, told: bool) -> str:
        rows = tables_of(db)
        moved = told or rows != self.before
        test.assertEqual(rows, self.after if moved else self.before)
        test.assertEqual(
            run('migrate', '--db', db),
            (1, b'', b'fault: Damaged\n') if moved else (0, b'migrated\n', b''),
        )
        test.assertEqual(tables_of(db), self.after)
        status, out, said = run('replay', '--db', db, '--at', AT, stdin=b''.join(lines(self.asked)))
        test.assertEqual((status, said), (0, b''))
        test.assertEqual(answers_of(out), [line[2:] for line in self.asked])
        test.assertEqual(run('report', '--db', db, 'stock'), (0, self.asked[-1][3].encode(), b''))
        test.assertEqual(tables_of(db), self.after)
        return 'after' if moved else 'before'


@functools.lru_cache(None)
def moves() -> dict[str, Move]:
    """The files of the first schema that are moved: one with an order under way, and one with no
    vehicle."""
    found = {}
    for logged in (False, True):
        where = ', in the log' if logged else ''
        found['an order under way' + where] = Move(
            first_schema.BEGUN,
            logged,
            {
                'capacity': [('KIT', '0001', 1)],
                'journey': [('O1', 'KIT', '0001', 'N1', 0, 1, 0, None, 0)],
                'act': [
                    ('O1', 0, 'J1', 'pick', 0, 'WAITING'),
                    ('O1', 1, 'J1', 'drop', 2, 'WAITING'),
                ],
            },
            ok('GET /uagv/v2/KIT/0001/order', None, first_schema.MESSAGE),
            holds('node N1 KIT/0001', 'node N2 KIT/0001', 'edge E12 KIT/0001'),
            stands('L1', 'station A', 'J1'),
            ok('GET /report/stock', None, STOCK % (1, 'vehicle KIT/0001: 0\n')),
        )
        found['no vehicle' + where] = Move(
            first_schema.LAYOUT,
            logged,
            {},
            holds(),
            stands('L1', 'station A'),
            ok('GET /report/stock', None, STOCK % (0, '')),
        )
    return found


def port_of(process: Process) -> int | None:
    """The port on which the program that is traced listens, once it says so; none where it ends
    before."""
    while not process.out.endswith(b'\n'):
        if process.ended.wait(0.001):
            return None
    said = re.fullmatch(rb'listening on 127\.0\.0\.1:(\d+)\n', process.out)
    assert said, process.out
    return int(said.group(1))


def asks(port: Any, request: bytes) -> bytes:
    """What one connection is answered, as far as it comes."""
    with socket.create_connection(('127.0.0.1', port), timeout=300) as plain:
        try:
            plain.sendall(request)
            plain.shutdown(socket.SHUT_WR)
            return read_all(plain)
        except OSError:
            # the other end has closed it, with bytes that it hasn't read
            return b''
