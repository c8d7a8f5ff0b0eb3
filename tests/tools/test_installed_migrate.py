"""Shows that `nulvrader migrate` moves the file of a desk that does not run, and what it says of
any other."""
from __future__ import annotations

import contextlib
import os
import pathlib
import sqlite3
import unittest
from unittest import mock

from nulvrader import cli
from tests.support.desks import DESK
from tests.support.first_schema import BEGUN, FIRST
from tests.support.installed import Installed


class Migrated(Installed):
    """A file of the first schema, and what `nulvrader migrate` does with it where no file is
    named."""

    def setUp(self) -> None:
        super().setUp()
        with contextlib.closing(sqlite3.connect(self.db)) as base:
            base.executescript(FIRST + BEGUN)
        os.chmod(self.db, 0o666)
        os.mkdir(self.path('copies'))
        with open(self.path('conf'), 'a', encoding='utf-8') as file:
            file.write(f'NULVRADER_BACKUPS={self.path("copies")}\n')

    def schema(self, db: str) -> int:
        """The number of the schema of a file."""
        with contextlib.closing(sqlite3.connect(db)) as base:
            return int(base.execute('SELECT schema FROM meta').fetchone()[0])

    def migrate(self, *words: str, said: str = '') -> tuple[int, str, str]:
        """Runs the command: its status, what it prints, and what it says on standard error."""
        return self.run_cli('migrate', '--program', DESK, *words, said=said)

    def test_it_is_asked_first(self) -> None:
        """Nothing is done without a yes."""
        before = pathlib.Path(self.db).read_bytes()
        status, out, _ = self.run_cli('why', '--file-only')
        self.assertEqual(status, 1)
        self.assertIn('With the package `nulvrader migrate` does both.', out)
        self.assertEqual(self.migrate('--look')[0], 0)
        for answer in ('', '\n', 'no\n', 'y\n'):
            status, _, said = self.migrate(said=answer)
            self.assertEqual(status, 1)
            self.assertRegex(said, r'\Amigrate: nothing is done\n\Z')
        self.assertEqual(pathlib.Path(self.db).read_bytes(), before)
        self.assertEqual(os.listdir(self.path('copies')), [])

    def test_it_is_migrated(self) -> None:
        """With a yes it is, and a copy from before is kept, which no backup removes."""
        status, out, said = self.migrate(said='yes\n')
        self.assertEqual((status, said), (0, ''))
        self.assertIn(f'{self.db} is migrated', out)
        (copy,) = os.listdir(self.path('copies'))
        self.assertEqual(self.schema(self.db), 2)
        self.assertEqual(self.schema(self.path('copies', copy)), 1)
        self.assertEqual(self.run_cli('why', '--file-only'), (0, '', ''))
        words = ['--db', self.db, '--to', self.path('copies'), '--keep', '1', '--program', DESK]
        self.assertEqual(self.run_cli('backup', *words)[0], 0)
        self.assertEqual(len(os.listdir(self.path('copies'))), 2)
        self.assertEqual(self.migrate('--look')[0], 1)
        status, out, _ = self.migrate('--yes')
        self.assertEqual(status, 0)
        self.assertIn('there is nothing to migrate', out)

    def test_what_can_not_be_migrated(self) -> None:
        """Rows that break a rule: the file stays of its schema."""
        with contextlib.closing(sqlite3.connect(self.db)) as base:
            base.execute("DELETE FROM hold WHERE id = 'N2'")
            base.commit()
        status, _, said = self.migrate('--yes')
        self.assertEqual(status, 1)
        self.assertIn('is not migrated: fault: Damaged', said)
        self.assertEqual(self.schema(self.db), 1)

    def test_with_a_file_it_is_the_programs_own(self) -> None:
        with mock.patch.object(os, 'execv', side_effect=SystemExit) as called:
            with mock.patch.dict(os.environ, {'NULVRADER_DB': self.db}):
                for words in (['migrate', '--db', 'x'], ['migrate', '--db=x']):
                    self.assertRaises(SystemExit, cli.run, words)
        self.assertEqual(called.call_count, 2)


if __name__ == '__main__':
    unittest.main()
