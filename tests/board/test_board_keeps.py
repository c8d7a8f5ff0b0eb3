"""Shows what the board keeps over the real program in its record, through restarts, and what it
removes."""
from __future__ import annotations

import json
import os
import re
import signal
import sqlite3
import time
import unittest

from tests.support.board_run import ONE, TOOLS, TWO, Watching, until
from nulvrader.board.figures import HOUR
from nulvrader.board.record_tables import OLD

PICKED = ('O1.0', 'FINISHED')
DROPPED = ('O1.1', 'FINISHED')
# A row of each table that grows, by its columns; the first one gets a mark.
ROWS: dict[str, dict[str, object]] = {
    'load_moves': {'load': '', 'to_place': 'left', 'at': ''},
    'vehicle_states': {
        'vehicle': '',
        'node': 'N1',
        'ready': 1,
        'paused': 0,
        'astray': 0,
        'at': '',
    },
    'hold_changes': {'name': '', 'kind': 'node', 'at': ''},
    'waits': {
        'vehicle': '',
        'kind': 'node',
        'name': 'N1',
        'holder': 'KIT/0001',
        'began': '',
        'ended': '',
    },
    'desk_times': {'fault': '', 'answers': 0, 'at': ''},
    'commands': {
        'who': '',
        'command': 'leave',
        'said': '{}',
        'done': 1,
        'answer': '',
        'at': '',
    },
    'events': {'words': '', 'kind': 'load', 'what': 'load.moved', 'cause': '', 'at': ''},
    'vehicle_batteries': {'vehicle': '', 'at': ''},
    'vehicle_uses': {'vehicle': '', 'state': 'free', 'at': ''},
    'alarms': {
        'key': '',
        'kind': 'disk',
        'level': 'alarm',
        'words': '',
        'todo': '',
        'more': '{}',
        'began': '',
        'ended': '',
    },
    'jobs': {'job': '', 'load': 'L1', 'phase': 'done', 'ended': ''},
}


class Keeps(Watching):
    def test_a_board_that_is_killed(self) -> None:
        """Its file is whole; started again it goes on from there, and sees what has moved
        meanwhile."""
        self.desk.correct_load('L2', 'R1', 'B')
        since = self.wait('load', 'L2', place='station B')['since']
        self.rows("SELECT place FROM loads WHERE load = 'L2'", [('station B',)])
        self.board.stop(signal.SIGKILL)
        self.assertEqual(self.board.rows('PRAGMA integrity_check'), [('ok',)])
        self.desk.correct_load('L1', 'R2', 'C')
        self.board = self.plant.board()
        self.wait('load', 'L1', place='station C')
        self.assertEqual(self.board.get('load', 'L2'), {'place': 'station B', 'since': since})
        moves = [('L2', 'station A', 'station B'), ('L1', 'station A', 'station C')]
        question = 'SELECT load, from_place, to_place FROM load_moves ORDER BY n'
        self.rows(question, moves)
        self.said('L2 was corrected or counted: it is at B, it was at A')

    def test_an_order_that_goes_on(self) -> None:
        """A board that is started again does not tell once more of an order that it has told of; it
        tells of its end."""
        self.desk.add_job('J1', 'L1', 'B')
        self.desk.start_order('O1', ONE, job='J1', edges=1)
        begins = 'Order O1 of KIT/0001, 2 edges: pick L1 at A, drop L1 at B'
        self.said(begins)
        self.wait('vehicle', 'KIT/0001', order_name='O1')
        self.board.stop()
        self.board = self.plant.board()
        until(lambda: self.board.get('way', 'KIT/0001'), 'the order is known')
        self.said(begins)
        self.assertEqual(
            [event['text'] for event in self.board.events if 'Order' in event['text']], [begins]
        )
        self.board.stop()
        self.desk.place(ONE, 'R1', 'N1')
        self.board = self.plant.board()
        self.said('Order O1 of KIT/0001 is over: it ended while the board did not look')

    def test_anyone_reads_at_any_time(self) -> None:
        base = sqlite3.connect(f'file:{self.board.db}?mode=ro', uri=True)
        self.addCleanup(base.close)
        self.assertEqual(base.execute('PRAGMA journal_mode').fetchall(), [('wal',)])
        base.execute('BEGIN')
        before = base.execute('SELECT count(*) FROM load_moves').fetchall()
        self.desk.correct_load('L2', 'R1', 'B')
        self.wait('load', 'L2', place='station B')
        self.assertEqual(base.execute('SELECT count(*) FROM load_moves').fetchall(), before)
        base.execute('COMMIT')
        until(
            lambda: base.execute('SELECT count(*) FROM load_moves').fetchall() == [(1,)], 'the move'
        )

    def test_the_questions_of_the_page(self) -> None:
        """docs/BOARD_API.md has two, and board.db answers each, as the page of a day's figures
        answers its own: here after a job that was waited for and done."""
        with open(os.path.join(TOOLS, '..', 'docs', 'BOARD_API.md')) as file:
            section = file.read().split('## Questions to board.db')[1]
        text = section.split('```sql')[1].split('```')[0]
        questions = re.findall(r'-- [^\n]*\n([^;]*);', text)
        self.assertEqual(len(questions), 2)
        begun = time.monotonic()
        self.plant.vehicle(TWO, 'N2')
        self.desk.add_job('J1', 'L1', 'B')
        self.wait('job', 'J1', target='B')
        self.desk.start_order('O1', ONE, job='J1', edges=0)
        self.wait('job', 'J1', phase='riding')
        self.plant.state(ONE, 'N1', 'O1', 0, 0, (PICKED,))
        self.wait('wait', 'KIT/0001', name='N2', stands=True)
        self.wait('load', 'L1', place='vehicle KIT/0001')
        self.desk.place(TWO, 'R1', 'N4')
        until(lambda: not self.board.get('wait', 'KIT/0001'), 'the way is free')
        self.desk.advance(ONE, 'O1', 1, 2)
        self.plant.state(ONE, 'N3', 'O1', 1, 4, (PICKED, DROPPED))
        self.assertTrue(self.board.do('leave', load='L2')['done'])
        self.rows("SELECT phase FROM jobs WHERE job = 'J1'", [('done',)])
        self.rows("SELECT place FROM loads WHERE load = 'L1'", [('station B',)])
        seconds = time.monotonic() - begun
        where, commands = [self.board.rows(question) for question in questions]
        way = [('station A', 'vehicle KIT/0001'), ('vehicle KIT/0001', 'station B')]
        self.assertEqual([row[1:] for row in where], way)
        self.assertEqual([row[1:3] for row in commands], [('', 'leave')])
        now = round(1000 * time.time())
        told = json.loads(self.board.ask('GET', f'/day?begin={now - HOUR}&end={now + HOUR}')[2])
        self.assertEqual(told['hours'], [1, 0])
        self.assertTrue(0 <= told['took'] <= seconds + 1, (told, seconds))
        (place,) = told['places']
        self.assertEqual((place['kind'], place['name'], place['count']), ('node', 'N2', 1))
        self.assertTrue(0 <= place['seconds'] <= seconds + 1, (place, seconds))
        self.assertEqual([cause['state'] for cause in told['causes']], ['free'])
        free = {row['vehicle']: row['seconds']['free'] for row in told['vehicles']}
        self.assertEqual(set(free), {'KIT/0001', 'KIT/0002'})
        self.assertTrue(all(0 < one <= seconds + 60 for one in free.values()), free)

    def test_a_board_that_is_killed_at_many_moments(self) -> None:
        """Whenever it is killed its file is whole, and what it says of a load fits together: each
        move begins where the one before it ended, and the last one leads to where the load is."""
        question = "SELECT from_place, to_place FROM load_moves WHERE load = 'L1' ORDER BY n"
        for turn in range(8):
            self.desk.correct_load('L1', f'R{turn}', 'CB'[turn % 2])
            time.sleep(0.15 * turn)
            self.board.stop(signal.SIGKILL)
            self.assertEqual(self.board.rows('PRAGMA integrity_check'), [('ok',)])
            moves = self.board.rows(question)
            self.assertEqual(
                [before for before, _ in moves],
                ['station A', *(after for _, after in moves)][: len(moves)],
            )
            place = self.board.rows("SELECT place FROM loads WHERE load = 'L1'")
            self.assertEqual(place, [(moves[-1][1] if moves else 'station A',)])
            self.board = self.plant.board()
        self.wait('load', 'L1', place='station B')
        self.rows("SELECT place FROM loads WHERE load = 'L1'", [('station B',)])
        self.rows('SELECT kind, name, vehicle FROM holds', [('node', 'N1', 'KIT/0001')])

    def test_old_rows_are_removed(self) -> None:
        """Of each table that grows; younger rows stay."""
        self.board.stop()
        self.assertEqual(ROWS.keys(), OLD.keys())
        base = sqlite3.connect(self.board.db)
        for mark, seconds in (('old', 90000), ('new', 80000)):
            at = time.strftime('%Y-%m-%dT%H:%M:%S.000Z', time.gmtime(time.time() - seconds))
            for table, row in ROWS.items():
                values = [
                    at if name in ('at', 'began', 'ended') else value for name, value in row.items()
                ]
                marks = ', '.join('?' * len(row))
                base.execute(
                    f'INSERT INTO {table} ({", ".join(row)}) VALUES ({marks})', [mark, *values[1:]]
                )
        base.commit()
        base.close()
        self.board = self.plant.board('--days', '1')
        for table, row in ROWS.items():
            mark = next(iter(row))
            self.rows(f"SELECT {mark} FROM {table} WHERE {mark} IN ('old', 'new')", [('new',)])


if __name__ == '__main__':
    unittest.main()
