"""Shows that the program serves a file with as many loads, jobs, orders and references as there may
be, and refuses the next ones.

Another SQLite fills the tables that the program has made, beside 500 stations, 1,500 edges and 100
vehicles, but for one row of each. The desk adds these, refuses the next ones, and takes a state.
Its answers, its reports and its rows at the end are those that loops write out, and it takes
no more memory than docs/PERFORMANCE.md says. There are 1,000,000 of each where NULVRADER_LONG is 1,
and then it says what it took; else there are 1,000, of which none is refused."""
from __future__ import annotations

import contextlib
import http.client
import itertools
import os
import sqlite3
import tempfile
import time
import unittest

from tests.support import calls
from tests.support.answers import LONG, answers_of
from tests.support.calls import Call
from tests.support.desks import AT, Serving, over_sockets, run
from tests.support.full_file import (
    BEYOND,
    LAST,
    LIMIT,
    SECONDS,
    SET_UP,
    export,
    fill,
    holds,
    jobs,
    jobs_export,
    layout_export,
    load_row,
    places,
    stock,
    used,
    vehicles_export,
)
from tests.support.memory_told import memory, memory_that_is_told, with_memory
from tests.support.records import broken, rows_of


class Steps:
    """Says how long each step took, where all limits are met."""

    def __init__(self) -> None:
        self.begun = time.monotonic()

    def end(self, what: str) -> None:
        now = time.monotonic()
        if LONG:
            print(f'{what}: {now - self.begun:.1f} s', flush=True)
        self.begun = now


@with_memory
@over_sockets
class FullFile(unittest.TestCase):
    def setUp(self) -> None:
        folder = tempfile.TemporaryDirectory()
        self.addCleanup(folder.cleanup)
        self.db = os.path.join(folder.name, 'full.db')

    def test_a_full_file(self) -> None:
        status, out, said = run(
            'replay',
            '--db',
            self.db,
            '--at',
            AT,
            stdin=b''.join(map(Call.to_bytes, SET_UP)),
            limit=SECONDS,
        )
        self.assertEqual(
            (status, said, [answer.status for answer in answers_of(out)[0]]),
            (0, b'', [200] * len(SET_UP)),
        )
        steps = Steps()
        fill(self.db)
        steps.end('rows written')
        # (these are written out before there is a connection, on which the desk waits ten seconds)
        texts = stock(), holds(), export(), jobs_export(), vehicles_export(), layout_export()
        told = list(zip(calls.REPORTS, texts, strict=True))
        steps.end('reports wanted')
        with Serving(self.db, 1) as desk:
            steps.end('opened')
            opened = memory(desk.process.pid)
            with contextlib.closing(
                http.client.HTTPConnection('127.0.0.1', desk.port, timeout=SECONDS)
            ) as line:
                for call, wanted in LAST + [(call, LIMIT) for call in BEYOND if LONG]:
                    self.assertEqual(
                        desk.ask(call.method, call.target, call.data, line), wanted, call
                    )
                steps.end('calls answered')
                for call, text in told:
                    self.assertTrue(
                        desk.ask(call.method, call.target, None, line) == (200, text), call
                    )
                steps.end('reports told')
                most = memory(desk.process.pid)
            self.assertEqual((desk.process.wait(SECONDS), desk.said.read()), (0, b''))
            steps.end('closed')
        self.check_rows()
        steps.end('rows read')
        if LONG:
            print(f'memory: {opened} kB at the opening, {most} kB at the end')
            self.assertLessEqual(most, memory_that_is_told())

    def check_rows(self) -> None:
        """Another SQLite finds a sound file with just the rows of the end."""
        with contextlib.closing(sqlite3.connect(self.db)) as base:
            self.assertEqual(base.execute('PRAGMA integrity_check').fetchall(), [('ok',)])
            rows = itertools.starmap(load_row, places())
            for table, by, wanted in (
                ('load', 'id', rows),
                ('job', 'id', jobs()),
                ('used', 'kind, id', used()),
            ):
                found = base.execute(f'SELECT * FROM {table} ORDER BY {by}')
                self.assertTrue(
                    all(one == other for one, other in itertools.zip_longest(found, wanted)), table
                )
            acts = base.execute(
                'SELECT order_id, n, status FROM act ORDER BY order_id, n'
            ).fetchall()
        self.assertEqual(
            acts,
            [
                ('O1', 0, 'FINISHED'),
                ('O1', 1, 'WAITING'),
                ('O2', 0, 'WAITING'),
                ('O2', 1, 'WAITING'),
            ],
        )
        if not LONG:
            self.assertEqual(broken(rows_of(self.db)), [])


if __name__ == '__main__':
    unittest.main()
