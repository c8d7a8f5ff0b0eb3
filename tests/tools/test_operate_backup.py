"""Shows that the copies of docs/OPERATE.md are made, kept and removed as the page says."""
from __future__ import annotations

import contextlib
import os
import shutil
import sqlite3
import subprocess
import sys
import unittest
from typing import Any

from tests.support.desks import DESK, Serving, over_sockets, run
from tests.support.operating import Program, TOOLS
from tests.support.records import rows_of
from tests.support.script_calls import LAYOUT, load, ok, vehicle

# What stands for the command `systemctl`: it writes down what it is told, and which copies there
# are then.
SYSTEMCTL = '''#!/bin/sh
echo "$* $(ls copies/*.new/copy.db 2>/dev/null | grep -c new)" >> told
[ "$1" != is-active ] || cat active
[ "$1" != "$(cat fails)" ]
'''


class Backup(Program):
    def setUp(self) -> None:
        super().setUp()
        self.write([ok('PUT /layout', LAYOUT), vehicle('0001', 'N1'), load('L1', 'A'), load('L2')])
        self.systemctl('active')

    def systemctl(self, active: Any, fails: str = 'nothing') -> None:
        for name, text in (
            ('systemctl', SYSTEMCTL),
            ('active', active + '\n'),
            ('fails', fails),
            ('told', ''),
        ):
            with open(self.path(name), 'w') as file:
                file.write(text)
        os.chmod(self.path('systemctl'), 0o755)

    def back_up(self, *words: str, db: str | None = None) -> tuple[Any, Any, Any, Any]:
        line = [
            sys.executable,
            os.path.join(TOOLS, 'backup'),
            '--db',
            db or self.db,
            '--to',
            self.path('copies'),
        ]
        done = subprocess.run(
            [*line, '--program', DESK, *words],
            capture_output=True,
            text=True,
            timeout=600,
            cwd=self.folder.name,
            env={**os.environ, 'PATH': self.folder.name + ':' + os.environ['PATH']},
        )
        with open(self.path('told')) as file:
            return done.returncode, done.stdout, done.stderr, file.read().splitlines()

    def copies(self) -> Any:
        return (
            sorted(os.listdir(self.path('copies'))) if os.path.exists(self.path('copies')) else []
        )

    def test_a_copy(self) -> None:
        """It has the rows of the file, and is one file; the unit is stopped before it is made, and
        started behind."""
        status, out, said, told = self.back_up('--unit', 'desk.service')
        self.assertEqual((status, said), (0, ''))
        (name,) = self.copies()
        self.assertRegex(name, r'^warehouse-\d{8}T\d{6}Z\.db$')
        self.assertEqual(out, f'{self.path("copies", name)}: 2 loads\n')
        self.assertEqual(
            told, ['is-active desk.service 0', 'stop desk.service 0', 'start desk.service 1']
        )
        copy = self.path('copies', name)
        self.assertEqual(rows_of(copy), rows_of(self.db))
        self.assertEqual(
            run('report', '--db', copy, 'stock'), run('report', '--db', self.db, 'stock')
        )

    def test_a_unit_that_is_stopped(self) -> None:
        self.systemctl('inactive')
        self.assertEqual(
            self.back_up('--unit', 'desk.service')[::3], (0, ['is-active desk.service 0'])
        )

    def test_a_unit_that_does_not_start_or_stop(self) -> None:
        for fails, wanted in (('start', 'started again'), ('stop', 'stopped')):
            self.systemctl('active', fails)
            status, out, said, told = self.back_up('--unit', 'desk.service')
            self.assertEqual(
                (status, out, said), (1, '', f'backup: desk.service can not be {wanted}\n')
            )
            self.assertEqual(told[-1].split()[0], 'start')
        self.assertEqual([name for name in self.copies() if not name.endswith('.new')], [])

    def test_the_oldest_are_removed(self) -> None:
        os.mkdir(self.path('copies'))
        others = ['warehouse-20200101T000000Z.db', 'warehouse-20210101T000000Z.db']
        for name in [*others, 'warehouse.txt', 'other-20200101T000000Z.db']:
            open(self.path('copies', name), 'w').close()
        self.assertEqual(self.back_up('--keep', '2')[0], 0)
        found = self.copies()
        self.assertEqual(len(found), 4)
        self.assertLess({others[1], 'warehouse.txt', 'other-20200101T000000Z.db'}, set(found))

    def test_files_of_which_there_is_no_copy(self) -> None:
        """None that isn't there, none of others, and none whose rows break a rule; the unit is
        started all the same."""
        with contextlib.closing(sqlite3.connect(self.path('others.db'))) as base:
            base.execute('CREATE TABLE others (a)')
        unlawful = shutil.copy(self.db, self.path('unlawful.db'))
        if os.path.exists(self.db + '-wal'):
            shutil.copy(self.db + '-wal', unlawful + '-wal')
        with contextlib.closing(sqlite3.connect(unlawful)) as base:
            base.execute("UPDATE load SET station = 'Z' WHERE id = 'L1'")
            base.commit()
        for name, wanted in (
            ('none.db', 'it can not be copied to .*none.db: there is no such file'),
            ('others.db', 'it can not be copied to .*others.db: it has no tables of a desk'),
            (
                'unlawful.db',
                'the desk does not open the copy .*/unlawful.new/copy.db: fault: Damaged',
            ),
        ):
            self.systemctl('active')
            status, out, said, told = self.back_up('--unit', 'desk.service', db=self.path(name))
            self.assertEqual((status, out), (1, ''), name)
            self.assertRegex(said, f'^backup: .*{wanted}\n$')
            self.assertEqual([line.split()[0] for line in told], ['is-active', 'stop', 'start'])
        self.assertEqual(self.copies(), ['unlawful.new'])

    @over_sockets
    def test_a_desk_that_runs(self) -> None:
        with Serving(self.db):
            status, out, said, _ = self.back_up()
        self.assertEqual((status, out, self.copies()), (1, '', []))
        self.assertRegex(
            said,
            '^backup: .*: database is locked: ask the desk that has it open, or stop it first\n$',
        )


if __name__ == '__main__':
    unittest.main()
