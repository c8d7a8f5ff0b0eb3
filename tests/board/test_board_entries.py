"""Shows that the record is searched, filtered and read page by page, on the page and as a file, and
that what is asked in hostile ways finds nothing else and makes nobody wait."""

from __future__ import annotations

import contextlib
import csv
import io
import json
import os
import re
import sqlite3
import tempfile
import threading
import time
import unittest
from typing import Any
from unittest import mock

from tests.support.board_page import Page
from tests.support.board_record import Recorded
from tests.support.board_run import Watching
from nulvrader.board import entries
from nulvrader.board.entries import PAGE, BadQuestion, csv_of, page_of
from nulvrader.board.events import BOARD, VEHICLE, Cause, Event
from nulvrader.board.record import Record

BEGUN = 1_796_000_000_000  # 2026-11-30T00:53:20Z


class Finds(Recorded):
    def setUp(self) -> None:
        super().setUp()
        self.add('load', 'load.picked', VEHICLE, before='station A', load='L1', vehicle='KIT/0001')
        self.add(
            'load', 'load.left', Cause('person', 'anna', 'leave', 1), before='station B', load='L2'
        )
        self.add('job', 'job.added', Cause('client', call='job'), after='B', job='J1', load='L1')
        more = {'vehicles': ['KIT/0001', 'KIT/0002']}
        self.add('wait', 'wait.circle', BOARD, vehicle='KIT/0001', more=more)
        self.record.commit()

    def add(
        self, kind: str, what: str, cause: Cause, before: str | None = None,
        after: str | None = None, more: dict[str, Any] | None = None, **about: str | None,
    ) -> None:  # fmt: skip
        """An entry, a minute after the last."""
        count = self.record.rows('SELECT count(*) FROM events')[0][0]
        event = Event(kind, what, cause, about, before, after, more or {})
        self.record.event(BEGUN + 60_000 * count, event)

    def found(self, **asked: str) -> list[int]:
        """The numbers of what is found."""
        return [event['n'] for event in page_of(self.path, asked)['events']]

    def test_each_filter(self) -> None:
        cases: tuple[tuple[dict[str, str], list[int]], ...] = (
            ({}, [4, 3, 2, 1]),
            ({'vehicle': 'KIT/0001'}, [4, 1]),
            ({'load': 'L1'}, [3, 1]),
            ({'job': 'J1'}, [3]),
            ({'who': 'anna'}, [2]),
            ({'kind': 'load'}, [2, 1]),
            ({'cause': 'client'}, [3]),
            ({'thing': 'L1'}, [3, 1]),
            ({'thing': 'B'}, [3, 2]),
            ({'thing': 'KIT/0001', 'kind': 'wait'}, [4]),
            ({'text': 'PICKED l1'}, [1]),
            ({'from': '2026-11-30T00:55:20Z'}, [4, 3]),
            ({'to': '2026-11-30T00:55:20Z'}, [2, 1]),
            ({'from': str(BEGUN + 60_000), 'to': str(BEGUN + 120_000)}, [2]),
            ({'from': '2026-11-30', 'to': '2026-12-01'}, [4, 3, 2, 1]),
            ({'before': '3'}, [2, 1]),
            ({'text': 'no such'}, []),
        )
        for asked, numbers in cases:
            self.assertEqual(self.found(**asked), numbers, asked)

    def test_page_by_page(self) -> None:
        """All that is kept, each once."""
        for number in range(2 * PAGE):
            self.add('load', 'load.left', BOARD, before='checking', load=f'X{number}')
        self.record.commit()
        seen: list[int] = []
        asked: dict[str, str] = {}
        for is_older in (True, True, False):
            told = page_of(self.path, asked)
            self.assertEqual(told['older'], is_older)
            seen += [event['n'] for event in told['events']]
            asked = {'before': str(seen[-1])}
        self.assertEqual(seen, list(range(2 * PAGE + 4, 0, -1)))

    def test_a_file(self) -> None:
        """Each column and each row; what a table of numbers would compute is a text."""
        self.add('load', 'load.left', Cause('person', '=1+1', 'leave'), load='-1+L')
        self.add('said', 'said.error', VEHICLE, after='@SUM(A1)\n"x",y', more={'refers': ''})
        self.record.commit()
        rows = list(csv.DictReader(csv_of(self.path, {}).decode().splitlines(keepends=True)))
        self.assertEqual([row['n'] for row in rows], ['6', '5', '4', '3', '2', '1'])
        self.assertEqual((rows[1]['who'], rows[1]['load']), ("'=1+1", "'-1+L"))
        self.assertEqual(rows[0]['after'], '\'@SUM(A1)\n"x",y')
        self.assertEqual(rows[5]['words'], 'KIT/0001 picked L1 up at A')
        self.assertEqual(rows[5]['at'], '2026-11-30T00:53:20.000Z')
        only = list(csv.DictReader(csv_of(self.path, {'who': 'anna'}).decode().splitlines()))
        self.assertEqual([row['n'] for row in only], ['2'])

    def test_a_file_that_is_split_otherwise(self) -> None:
        """By whatever a table of numbers splits it, no cell begins as a formula; split by commas,
        each text is the same but for apostrophes."""
        nasty = "x;=cmd|' /C calc'!A0;", 'x;"=1+1";y', '\t=1', 'a\t +1;\u00a0-1', '"=1', 'x;"""'
        lines = 'x\r\n@SUM(A1)', 'x\n=1', 'x\r-1', ' =1', '\n"+1', 'x\u2028=1', '; ;\t"" =1\n'
        wide = '\uff1d1+1', 'x; \uff0b1', '\t\uff0d1', '\u3000\uff201'
        texts = [*nasty, *lines, *wide, 'it was at B - 1; a=b, c-d']
        for text in texts:
            self.add('said', 'said.error', VEHICLE, after=text, more={'text': text, 'hint': text})
        self.record.commit()
        file = csv_of(self.path, {'kind': 'said'}).decode()
        signs = '=+-@\uff1d\uff0b\uff0d\uff20'
        cells = [
            cell
            for separator in ',;\t'
            for row in csv.reader(io.StringIO(file, newline=''), delimiter=separator)
            for cell in row
        ]
        cells += re.split('[;\t\r\n]', file)  # without regard to quotes
        self.assertEqual([cell for cell in cells if cell.strip(' \t\r\n"')[:1] in (*signs,)], [])
        rows = list(csv.DictReader(io.StringIO(file, newline=''), strict=True))
        found = [row['after'].replace("'", '') for row in rows]
        self.assertEqual(found, [text.replace("'", '') for text in reversed(texts)])
        self.assertEqual(rows[0]['after'], texts[-1])
        for row, text in zip(rows, reversed(texts)):
            told = json.loads(row['more'])['hint']
            self.assertEqual(told.replace("'", ''), text.replace("'", ''))

    def test_hostile_questions(self) -> None:
        """None is taken for SQL, and none changes anything."""
        for nasty in ("' OR 1=1 --", '"; DROP TABLE events; --', '%', '_', '\x00', 'x' * 100_000):
            for name in (
                'vehicle',
                'load',
                'job',
                'station',
                'kind',
                'cause',
                'who',
                'thing',
                'text',
            ):
                self.assertEqual(self.found(**{name: nasty}), [], (name, nasty[:20]))
            for name in ('from', 'to', 'before'):
                with self.assertRaises(BadQuestion):
                    self.found(**{name: nasty})
        self.assertEqual(self.found(other='x'), [4, 3, 2, 1])

    def test_a_question_that_takes_too_long(self) -> None:
        """It is ended, and others may write meanwhile."""
        rows = [(f'{"x" * 50} {number}',) for number in range(50_000)]
        base = self.record._base
        base.execute('BEGIN')
        at = '2026-11-30T00:00:00.000Z'
        line = f"INSERT INTO events (at, kind, what, words, cause) VALUES ('{at}', '', '', ?, '')"
        base.executemany(line, rows)
        base.execute('COMMIT')
        begun = time.monotonic()
        with mock.patch.object(entries, 'SECONDS', -1.0), mock.patch.object(entries, 'STEPS', 100):
            with self.assertRaises(BadQuestion) as failed:
                self.found(text='no such word')
        self.assertIn('too long', str(failed.exception))
        self.assertLess(time.monotonic() - begun, 30)
        with mock.patch.object(entries, 'SECONDS', 600.0):  # however busy the machine is
            self.assertEqual(self.found(text='x 49999'), [4 + 50_000])


class Searched(unittest.TestCase):
    """Readers search all the time, while the board writes."""

    def test_the_log(self) -> None:
        """It is begun anew between them, and so stays short: it is on the disk of the desk."""
        with tempfile.TemporaryDirectory() as folder:
            path = os.path.join(folder, 'board.db')
            written = Record(path)
            self.addCleanup(written.close)
            row = "INSERT INTO events (at, kind, what, words, cause) VALUES (?, 'x', 'x', ?, 'x')"
            with contextlib.closing(sqlite3.connect(path)) as base:
                base.executemany(row, [('2026-12-01T06:00:00.000Z', 'x' * 200)] * 100_000)
                base.commit()
                base.execute('PRAGMA wal_checkpoint(TRUNCATE)')
            over = threading.Event()

            def search() -> None:
                while not over.is_set():
                    page_of(path, {'text': 'zzz'})

            searching = [threading.Thread(target=search) for _ in range(6)]
            for one in searching:
                one.start()
            begun, longest = time.monotonic(), 0
            with contextlib.closing(sqlite3.connect(path, isolation_level=None)) as base:
                while time.monotonic() < begun + 10:
                    base.execute(row, ('2026-12-01T06:00:00.000Z', 'y' * 20_000))
                    longest = max(longest, os.path.getsize(f'{path}-wal'))
                    time.sleep(0.01)
                wrote = base.execute("SELECT count(*) FROM events WHERE words > 'y'").fetchone()[0]
            over.set()
            for one in searching:
                one.join(60)
            self.assertGreater(wrote * 20_000, 3 * (longest - 4_000_000))


class Asked(Watching):
    def test_by_the_board(self) -> None:
        """A page of entries, a file, and a refusal; other sites are refused as with all."""
        self.desk.correct_load('L2', 'R1', 'B')
        self.said('L2 was corrected or counted: it is at B, it was at A')
        status, _, told = self.board.ask('GET', '/record?load=L2')
        self.assertEqual(status, 200)
        (event,) = json.loads(told)['events']
        self.assertEqual(
            (event['what'], event['before'], event['after']),
            ('load.moved', 'station A', 'station B'),
        )
        status, headers, told = self.board.ask('GET', '/record.csv?load=L2')
        self.assertEqual((status, headers['Content-Type']), (200, 'text/csv; charset=utf-8'))
        self.assertEqual(len(told.decode().splitlines()), 2)
        self.assertEqual(self.board.ask('GET', '/record?before=x')[0], 400)
        for headers in ({'Host': 'evil.example'}, {'Sec-Fetch-Site': 'cross-site'}):
            for path in ('/record', '/record.csv'):
                self.assertIn(self.board.ask('GET', path, None, headers)[0], (403, 421))


class OnThePage(Page):
    def test_it_is_found(self) -> None:
        """By a word and by a thing; with its cause; and what comes meanwhile is found too."""
        self.desk.correct_load('L2', 'R1', 'B')
        self.browser.click('#tab-events')
        moved = 'L2 was corrected or counted: it is at B, it was at A'
        self.sees('#events', moved, 'by another client of the desk, call: correct or stocktake')
        self.desk.register_load('L7', 'A')
        self.sees('#events', 'L7 is registered at A')
        self.browser.write('#find-thing', 'L2')
        self.misses('#events .events', 'L7')
        self.sees('#events', moved)
        self.assertIn('thing=L2', self.browser.value('#events .file', 'href') or '')
        self.desk.leave_load('L2', 'R2')
        self.sees('#events .events', 'L2 has left, it was at B')
        self.browser.write('#find-text', 'no such thing')
        self.sees('#events', 'Nothing was found.')

    def test_older_entries(self) -> None:
        """The page has the last; older ones come page by page."""
        for number in range(260):
            self.desk.register_load(f'X{number:03d}')
        self.sees('#tab-stock', '262')
        self.browser.click('#tab-events')
        self.sees('#events .events', 'X259 is registered')
        self.misses('#events .events', 'X002 is registered')
        self.browser.press('Older entries', '#events')
        self.sees('#events .events', 'X002 is registered', 'X259 is registered')
        count = 'return document.querySelectorAll("#events .event").length'
        self.assertEqual(self.browser.run(count), 260)


if __name__ == '__main__':
    unittest.main()
