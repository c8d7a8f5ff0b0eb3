"""Shows that `nulvrader init` makes the file of a desk, and makes none by accident."""
from __future__ import annotations

import contextlib
import os
import pathlib
import signal
import sqlite3
import stat
import subprocess
import sys
import time
import unittest

from tests.support.desks import DESK
from tests.support.installed import CLI, Installed, LAYOUT


class Made(Installed):
    def test_init(self) -> None:
        """It makes a file with the layout; a second time it changes nothing."""
        self.assertEqual(self.init()[0::2], (0, ''))
        with contextlib.closing(sqlite3.connect(self.db)) as base:
            self.assertEqual(base.execute('SELECT count(*) FROM node').fetchone(), (3,))
        with open(self.path('etc.csv'), encoding='utf-8') as file:
            self.assertEqual(file.read(), LAYOUT)
        mode = os.stat(self.path('etc.csv')).st_mode
        self.assertEqual(stat.S_IMODE(mode), 0o640, 'not for other users of the machine')
        with self.serving() as desk:
            desk.register_load('L1', 'A')
        self.is_refused('is a desk\'s file with a layout, and stays as it is')

    def is_refused(self, why: str) -> str:
        """There is a file already, which stays as it is; what is said."""
        stands = pathlib.Path(self.db).read_bytes()
        status, out, said = self.init()
        self.assertEqual((status, out), (1, ''))
        self.assertIn(why, said)
        self.assertEqual(pathlib.Path(self.db).read_bytes(), stands)
        return said

    def test_another_layout(self) -> None:
        """A file that has one gets no other; it is said how that file is started."""
        self.init()
        self.write('layout.csv', LAYOUT.replace('A,N1,2', 'A,N1,3'))
        said = self.is_refused('To start it: systemctl enable --now nulvrader-proxy.socket ')
        self.assertIn(' nulvrader-desk.service nulvrader-backup.timer nulvrader-board', said)

    def clear(self) -> None:
        """Removes what an init has made."""
        for name in os.listdir(self.here):
            if name.startswith('warehouse') or name.startswith('etc'):
                os.remove(self.path(name))

    def test_an_init_that_is_killed(self) -> None:
        """At whatever moment: the next one makes the file, or finds it whole, and goes on."""
        for moment in (0.1, 0.2, 0.3, 0.4, 0.5, 0.6):
            line = [sys.executable, CLI, 'init', self.path('layout.csv'), '--no-start']
            with subprocess.Popen(
                [*line, '--program', DESK],
                env={**os.environ, 'NULVRADER_CONF': self.path('conf')},
                stdout=subprocess.DEVNULL,
                start_new_session=True,
            ) as first:
                time.sleep(moment)
                os.killpg(first.pid, signal.SIGKILL)
            self.assertEqual(self.init()[0::2], (0, ''))
            self.assertEqual(self.run_cli('why', '--db', self.db)[0], 0)
            self.clear()

    def test_a_full_disk(self) -> None:
        """Nothing counts as made, and the next one makes it."""
        for most in (0, 600, 20_000):
            line = ['sh', '-c', f'ulimit -f {most // 512}; exec "$@"', '-', sys.executable, CLI]
            done = subprocess.run(
                [*line, 'init', self.path('layout.csv'), '--no-start', '--program', DESK],
                env={**os.environ, 'NULVRADER_CONF': self.path('conf')},
                capture_output=True,
                text=True,
            )
            self.assertEqual(done.returncode, 1, most)
            self.assertRegex(
                done.stderr, r'\Ainit: .* can not be made: .*why --user desk says more'
            )
            self.assertFalse(os.path.exists(self.path('etc.csv')))
            self.assertEqual(self.init()[0::2], (0, ''))
            self.clear()

    def test_what_an_interrupted_init_has_left(self) -> None:
        """A desk's file without a layout: it gets one."""
        line = [DESK, 'replay', '--db', self.db, '--at', '0']
        subprocess.run(line, stdin=subprocess.DEVNULL, check=True)
        if os.geteuid() == 0:
            for name in os.listdir(self.here):
                os.chmod(self.path(name), 0o666)
        self.assertEqual(self.init()[0::2], (0, ''))

    def test_it_goes_on(self) -> None:
        """The file has its layout, and nothing else was done: what was left out is done."""
        self.init()
        os.remove(self.path('etc.csv'))
        self.assertEqual(self.init()[0::2], (0, ''))
        self.assertTrue(os.path.exists(self.path('etc.csv')))

    def test_what_is_not_taken(self) -> None:
        """A file of others, a pipe, a wrong layout: nothing is made."""
        self.write('layout.csv', LAYOUT.replace('E32,N3', 'E32,N9'))
        status, out, said = self.init()
        self.assertEqual((status, out), (1, ''))
        self.assertIn('is no layout:\n', said)
        self.assertFalse(os.path.exists(self.db))
        self.write('layout.csv', LAYOUT)
        with contextlib.closing(sqlite3.connect(self.db)) as base:
            base.execute('CREATE TABLE item (id)')
        self.assertIn('there is a file already', self.init()[2])
        os.remove(self.db)
        os.mkfifo(self.db)
        self.assertIn('there is a file already', self.init()[2])
        self.assertFalse(os.path.exists(self.path('etc.csv')))

    def test_what_may_pass_is_tried_again(self) -> None:
        """A desk's file that can't be looked at for want of room is no reason to stay down: the
        status is the one with which systemd starts the unit again."""
        self.init()
        line = ['sh', '-c', 'ulimit -f 0; exec "$@"', '-', sys.executable, CLI, 'why']
        done = subprocess.run(
            [*line, '--file-only', '--db', self.db], stdout=subprocess.PIPE, text=True
        )
        self.assertEqual(done.returncode, 255, done.stdout)
        self.assertIn('could not be read', done.stdout)

    def test_a_file_is_never_made_by_accident(self) -> None:
        """The unit starts a desk only if `why --file-only` ends with 0; it says what to do else."""
        names = {'none': 'There is no file', 'empty': 'is empty', 'bare': 'without a table'}
        others = {'erp': "another application's database", 'letter': 'is no database'}
        self.write('empty', '')
        self.write('letter', 'Dear reader\n')
        for name, text in (('bare', 'DROP TABLE item'), ('erp', 'SELECT 1')):
            with contextlib.closing(sqlite3.connect(self.path(name))) as base:
                base.execute('CREATE TABLE item (id)')
                base.execute(text)
        os.mkfifo(self.path('pipe'))
        before = sorted(os.listdir(self.here))
        for name, text in {**names, **others, 'pipe': 'FIFO'}.items():
            status, out, said = self.run_cli('why', '--file-only', '--db', self.path(name))
            self.assertEqual((status, said, out.count('\n')), (1, '', 1), name)
            self.assertIn(text, out)
            self.assertEqual('`nulvrader init LAYOUT.csv`' in out, name in names)
        for name in names:
            out = self.run_cli('why', '--db', self.path(name))[1]
            self.assertIn('why: a desk that is started would begin a new warehouse.\n', out)
            self.assertNotIn('nothing keeps', out)
        self.assertEqual(sorted(os.listdir(self.here)), before)
        self.init()
        self.assertEqual(self.run_cli('why', '--file-only'), (0, '', ''))
        with contextlib.closing(sqlite3.connect(self.db)) as base:
            base.execute('PRAGMA wal_checkpoint(truncate)')
        self.assertEqual(self.run_cli('why', '--file-only'), (0, '', ''))


if __name__ == '__main__':
    unittest.main()
