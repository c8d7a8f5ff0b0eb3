"""Shows why vehicles and jobs wait, as the dispatcher says it in a file and a board reads it, and
that each reason says what ends it."""
from __future__ import annotations

import json
import os
import stat
import subprocess
import sys
import tempfile
import time
import unittest

from nulvrader.board.dispatcher_words import DispatcherWords
from nulvrader.board.page_state import Shown
from nulvrader.board.shown_rows import WHY
from nulvrader.common.reasons import (
    MOST,
    OLD,
    TEXT,
    NoReasons,
    Reasons,
    read,
    read_file,
    write_file,
)
from nulvrader.dispatch.published import EVERY, Published
from tests.support.desks import over_sockets
from tests.support.dispatching import ONE, TWO, OverADesk
from tests.support.programs import PATIENCE, TOOLS

WAITS = {'KIT/0001': 'charges', 'job J1': 'no vehicle is free'}


class Files(unittest.TestCase):
    def setUp(self) -> None:
        self.folder = self.enterContext(tempfile.TemporaryDirectory())
        self.path = os.path.join(self.folder, 'waits.json')

    def test_what_is_written_is_read(self) -> None:
        """The group may read it, and nobody else; nothing else is left in the folder."""
        before = os.umask(0o077)
        self.addCleanup(os.umask, before)
        for n in range(3):
            write_file(self.path, Reasons(n, WAITS))
            self.assertEqual(read_file(self.path), Reasons(n, WAITS))
        self.assertEqual(stat.S_IMODE(os.stat(self.path).st_mode), 0o640)
        self.assertEqual(os.listdir(self.folder), ['waits.json'])

    def test_what_says_nothing(self) -> None:
        for data in (
            b'',
            b'{}',
            b'[1]',
            b'[' * 100_000,
            b'{"at":1e400,"waits":{}}',
            b'{"at":NaN,"waits":{}}',
            b'{"at":true,"waits":{}}',
            b'{"at":-1,"waits":{}}',
            b'{"at":1,"waits":[]}',
            b'\xff',
        ):
            with self.subTest(data[:20]), self.assertRaises(NoReasons):
                read(data)

    def test_what_is_left_out(self) -> None:
        """Names that are none, texts that are none, and what is too much; a text is cut, and has
        nothing that steers a terminal."""
        waits = {'x': 'a', 'job ': 'a', 'a/b/c': 'a', 'job a b': 'a', 'KIT/0001': 7}
        waits |= {'job J1': 'é\x1b[2J' + 'x' * 5000}
        data = json.dumps({'at': 1, 'waits': waits}).encode()
        (row,) = read(data).waits.items()
        self.assertEqual((row[0], row[1][:9]), ('job J1', 'é\\x1b[2Jx'[:9]))
        self.assertLessEqual(len(row[1]), TEXT)
        many = {f'job J{n}': 'w' for n in range(MOST + 500)}
        self.assertEqual(len(read(json.dumps({'at': 1, 'waits': many}).encode()).waits), MOST)

    def test_what_is_no_regular_file(self) -> None:
        os.mkfifo(self.path)
        with self.assertRaises(NoReasons):
            read_file(self.path)
        with self.assertRaises(OSError):
            write_file(self.path, Reasons())
        with self.assertRaises(NoReasons):
            read_file('/dev/zero')

    def test_when_it_is_written(self) -> None:
        """Where something has changed, and else now and then; a fault is told once."""
        lines: list[str] = []
        now = 1000.0
        published = Published(self.path, lines.append, lambda: now)
        rows: tuple[tuple[float, dict[str, str], int], ...] = (
            (0.0, WAITS, 1000),
            (1.0, WAITS, 1000),
            (1.0, {}, 1002),
            (EVERY - 1, {}, 1002),
            (1.0, {}, 1008),
        )
        for seconds, waits, at in rows:
            now += seconds
            published.tell(waits)
            self.assertEqual(read_file(self.path).at, at)
        os.unlink(self.path)
        os.mkdir(self.path)
        for _ in range(3):
            now += EVERY
            published.tell({})
        self.assertEqual(len(lines), 1)
        os.rmdir(self.path)
        now += EVERY
        published.tell({})
        self.assertEqual(lines[1:], [f'{self.path} can be written again'])

    def test_what_a_board_shows(self) -> None:
        """What the file says, as long as that is new."""
        shown, now = Shown(), 1000.0
        words = DispatcherWords(shown, self.path, lambda: now)
        rows: tuple[dict[str, str], ...] = (WAITS, {'job J1': 'others'}, {}, WAITS)
        for waits in rows:
            write_file(self.path, Reasons(now, waits))
            words.due = 0.0
            words.turn()
            self.assertEqual(shown.all(WHY), waits)
        ages: tuple[tuple[float, dict[str, str]], ...] = ((OLD, WAITS), (1.0, {}))
        for seconds, left in ages:
            now += seconds
            words.due = 0.0
            words.turn()
            self.assertEqual(shown.all(WHY), left)


@over_sockets
class OverTheProgram(OverADesk):
    """What is published of vehicles and jobs that wait."""

    def unfit(self) -> None:
        for key, node in ((ONE, 'ab'), (TWO, 'cb')):
            self.told(key, node, mode='MANUAL')

    def test_each_reason_says_what_ends_it(self) -> None:
        self.unfit()
        self.desk.add_job('J1', 'L1', 'B')
        self.turn()
        found = self.dispatcher.reasons()
        self.assertEqual(found['job J1'], 'no vehicle is free, until one may take a job again')
        self.assertEqual((found['KIT/0001'], found['KIT/0002']), ('is not ready',) * 2)
        self.told(ONE, 'ab')
        self.turn()
        self.desk.add_job('J2', 'L2', 'B')
        self.turn()
        found = self.dispatcher.reasons()
        self.assertEqual(found['job J2'], 'no vehicle is free, until one has ended its order')
        self.assertEqual(found['KIT/0002'], 'is not ready')

    def test_the_program_writes_it(self) -> None:
        """Until it is killed; then it is old soon."""
        self.unfit()
        self.desk.add_job('J1', 'L1', 'B')
        path = os.path.join(self.folder.name, 'waits.json')
        line = [sys.executable, os.path.join(TOOLS, 'dispatch'), '--desk', self.address]
        line += ['--every', '0.1', '--waits', path]
        with subprocess.Popen(line, stdout=subprocess.DEVNULL) as program:
            self.addCleanup(program.kill)
            ends = time.monotonic() + PATIENCE
            while not os.path.exists(path) or not read_file(path).waits:
                self.assertLess(time.monotonic(), ends)
                time.sleep(0.05)
            program.kill()
        found = read_file(path)
        self.assertEqual(found.waits['job J1'][:18], 'no vehicle is free')
        self.assertLess(abs(found.at - time.time()), PATIENCE)


if __name__ == '__main__':
    unittest.main()
