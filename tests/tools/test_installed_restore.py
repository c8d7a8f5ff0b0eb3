"""Shows that `nulvrader restore` puts a copy back by the steps of docs/OPERATE.md, or leaves the
desk with its file."""
from __future__ import annotations

import contextlib
import io
import os
import pathlib
import shutil
import sqlite3
import struct
import subprocess
import sys
import unittest
from collections.abc import Callable, Iterator, Sequence
from typing import Any
from unittest import mock

from nulvrader.admin import conf, init, migrate, restore, units
from nulvrader.desk.client import Desk
from nulvrader.file import opening
from tests.support.desks import DESK, Serving, over_sockets
from tests.support.installed import CLI, Installed, ONE, TWO, answering


def journal_naming(file: str, base: str) -> bytes:
    """A journal of a database that SQLite takes back, and that names a journal of several
    databases, which SQLite then deletes (https://sqlite.org/fileformat2.html, and
    `sqlite3PagerEndTransaction`)."""
    head = pathlib.Path(base).read_bytes()
    page, name = int.from_bytes(head[16:18], 'big'), file.encode()
    magic = bytes.fromhex('d9d505f920a163d7')
    journal = magic + struct.pack('>IIIII', 0, 0, len(head) // page, 512, page)
    last = struct.pack('>I', 0x40000000 // page + 1) + name
    return journal.ljust(512, b'\0') + last + struct.pack('>II', len(name), sum(name)) + magic


@over_sockets
class PutBack(Installed):
    """A copy of a warehouse with two vehicles, a job that waits, and a load."""

    def setUp(self) -> None:
        super().setUp()
        self.init()
        with self.serving() as desk:
            desk.register_vehicle(ONE, 'N1')
            desk.register_vehicle(TWO, 'N2')
            desk.register_load('L1', 'A')
            desk.add_job('J1', 'L1', 'B')
        words = ['--db', self.db, '--to', self.path('copies'), '--program', DESK]
        self.assertEqual(self.run_cli('backup', *words)[0], 0)
        (name,) = os.listdir(self.path('copies'))
        self.copy = self.path('copies', name)

    def take(
        self, answers: Sequence[str | Callable[[], str]], first: int = 1
    ) -> tuple[str, list[tuple[str, ...]]]:
        """Puts the copy back, with these answers; what is said, and what systemd is told. The desk
        is started as that is said."""
        told: list[tuple[str, ...]] = []
        stack = contextlib.ExitStack()
        self.addCleanup(stack.close)

        def systemctl(*words: str) -> None:
            told.append(words)
            if words[0] == 'start' and 'nulvrader-desk.service' in words:
                running = stack.enter_context(Serving(self.db))
                made.desk = Desk(f'127.0.0.1:{running.port}', timeout=60)

        self.enterContext(mock.patch.object(units, 'MARK', self.path('mark')))
        with mock.patch.dict(os.environ, {'NULVRADER_CONF': self.path('conf')}):
            made = restore.Restore(self.copy, conf.values(), True, DESK)
        with (
            mock.patch('builtins.input', answering(answers)),
            mock.patch.object(units, 'systemctl', systemctl),
            mock.patch.object(units, 'is_enabled', lambda unit: unit == units.GATEWAY),
            open(self.path('said'), 'w+', encoding='utf-8') as said,
            contextlib.redirect_stdout(said),
            contextlib.redirect_stderr(said),
        ):
            with made.place, contextlib.suppress(SystemExit):
                restore.carry_out(made, first)
            said.seek(0)
            text = said.read()
        self.desk = made.desk
        return text, told

    def test_all_steps(self) -> None:
        """The vehicles have changed places, so one is placed elsewhere meanwhile; the load stands
        at B."""
        count = self.write('count.csv', 'station,load\nA,\nB,L1\nB,L9\n')
        lacks = self.write('lacks.csv', 'station,load\nB,L1\n')
        answers = ['no', 'yes', 'yes', 'N9', 'N2', 'N2', 'N1', self.path('none'), lacks, count]
        text, told = self.take(answers)
        self.assertEqual(
            [words[0] for words in told],
            ['stop', 'stop', 'start', 'start'],
            'clients, desk, desk, clients',
        )
        for line in (
            'There is no node N9.',
            'Another vehicle stands at N2, as you have said.',
            '1 jobs wait in the copy: J1',
            '2 vehicles hold a node each, and no order is open',
            'J1 is done',
            'station A is not counted: write A,',
            '1 loads were moved by the count',
            'L9 is unknown: register it where it stands, if it has not left',
        ):
            self.assertIn(line, text)
        self.assertEqual(self.desk.vehicle(ONE).node, 'N2')
        self.assertEqual(self.desk.vehicle(TWO).node, 'N1')
        load = self.desk.load('L1')
        self.assertEqual((load.place, load.job), ('station B', None))
        (aside,) = (name for name in os.listdir(self.here) if name.startswith('aside-'))
        self.assertIn('warehouse.db', os.listdir(self.path(aside)))
        self.assertEqual(
            told[-1], ('start', *sorted({*units.beside({}), units.GATEWAY}), units.TIMER)
        )

    def test_it_goes_on_where_it_was_stopped(self) -> None:
        """Nobody answers at step 6: the desk runs, and the steps from there on follow later."""
        text, told = self.take(['yes', 'yes', 'N1'])
        self.assertIn('stopped at step 6; go on by --from 6', text)
        self.assertEqual(len(told), 3)
        self.assertTrue(os.path.exists(self.path('mark')), 'no dispatcher starts at a boot')
        desk = self.desk
        with mock.patch.object(restore, 'Desk', lambda *_, **__: desk):
            text, told = self.take(['N1', 'N2', 'later'], 6)
        self.assertNotIn('go on by', text)
        self.assertEqual([words[0] for words in told], ['start'])
        self.assertFalse(os.path.exists(self.path('mark')))

    def test_while_a_copy_is_being_put_back(self) -> None:
        """Neither a second restore nor an init begins, and each says how to go on; the first one
        has ended where nobody knows that any more, as at a power failure."""
        self.write('mark', '')
        self.enterContext(mock.patch.object(units, 'MARK', self.path('mark')))
        self.enterContext(mock.patch.dict(os.environ, {'NULVRADER_CONF': self.path('conf')}))
        for run, words in (
            (restore.run, [self.copy, '--program', DESK]),
            (init.run, [self.path('layout.csv'), '--program', DESK]),
        ):
            with contextlib.redirect_stderr(io.StringIO()) as said:
                self.assertEqual(run(words, 'text'), 1)
            self.assertIn('a copy is being put back: go on by', said.getvalue())
        self.assertTrue(os.path.exists(self.path('mark')))

    def test_before_the_first_yes_nothing_is_done(self) -> None:
        before = sorted(os.listdir(self.here))
        text, told = self.take([])
        self.assertIn('stopped at step 1', text)
        self.assertEqual((told, sorted(set(os.listdir(self.here)) - {'said'})), ([], before))

    def test_a_copy_of_two_files(self) -> None:
        """What is in the log of the copy alone is put back, too."""
        for name in os.listdir(self.here):
            if name.startswith('warehouse'):
                shutil.copy(self.path(name), self.path(f'two-{name}'))
        self.copy = self.path('two-warehouse.db')
        pathlib.Path(self.path('two-warehouse.db-shm')).unlink(missing_ok=True)
        self.assertGreater(os.path.getsize(self.path('two-warehouse.db-wal')), 0)
        self.take(['yes', 'yes', 'N1', 'N2', 'later'])
        self.assertEqual(self.desk.load('L1').job, None)
        self.assertEqual(self.desk.vehicle(TWO).node, 'N2')

    def what_stands(self) -> dict[str, bytes]:
        """The desk's file and its log."""
        paths = (pathlib.Path(self.db + end) for end in ('', '-wal'))
        return {path.name: path.read_bytes() for path in paths}

    def test_a_copy_that_the_desk_does_not_read(self) -> None:
        """Its rows break a rule: the desk goes on with its file, and nothing is left."""
        stands = self.what_stands()
        with contextlib.closing(sqlite3.connect(self.copy)) as base:
            base.execute("UPDATE load SET station = 'B'")
            base.commit()
        text, told = self.take(['yes', 'yes'])
        self.assertIn('the desk does not open the copy', text)
        self.assertIn('stopped at step 3; go on by --from 3', text)
        self.assertEqual([words[0] for words in told], ['stop'], 'the clients, and not the desk')
        self.assertEqual(self.what_stands(), stands)
        left = [name for name in os.listdir(self.here) if 'new' in name or 'aside' in name]
        self.assertEqual(left, [])

    def test_a_link_in_the_place_of_what_the_desk_reads(self) -> None:
        """While the desk reads the copy in its folder, its user puts a link there: root makes no
        file where the link leads."""
        wanted = self.path('nologin')
        program = self.write('program', f'#!/bin/sh\nrm -f "$3"\nln -s {wanted} "$3"\n')
        os.chmod(program, 0o755)
        with mock.patch.dict(os.environ, {'NULVRADER_CONF': self.path('conf')}):
            made = restore.Restore(self.copy, conf.values(), True, program)
        with made.place, contextlib.redirect_stdout(io.StringIO()):
            with self.assertRaises(OSError):  # no link is put in place, either
                made._make()
        self.assertFalse(os.path.lexists(wanted))

    def test_a_journal_in_the_place_of_what_the_desk_reads(self) -> None:
        """While the desk reads the copy in its folder, its user puts a database with a journal
        there, which names a file of root's: it is not deleted."""
        secret = self.write('secret', 'x')
        evil = self.path('evil.db')
        with contextlib.closing(sqlite3.connect(evil)) as base:
            base.execute('CREATE TABLE load (id)')
            base.commit()
        pathlib.Path(self.path('evil-journal')).write_bytes(journal_naming(secret, evil))
        program = self.write(
            'program', f'#!/bin/sh\nmv {evil} "$3"\nmv {self.path("evil-journal")} "$3-journal"\n'
        )
        os.chmod(program, 0o755)
        with mock.patch.dict(os.environ, {'NULVRADER_CONF': self.path('conf')}):
            made = restore.Restore(self.copy, conf.values(), True, program)
        with made.place, contextlib.redirect_stdout(io.StringIO()):
            made._make()
        self.assertTrue(os.path.exists(secret))

    def test_a_copy_from_before_that_is_replaced(self) -> None:
        """While the file of the first schema is copied before it is migrated, the user of the
        copies puts a link in the place of the copy: root makes no file where the link leads."""
        wanted, folder = self.path('nologin'), self.path('copies')
        real = opening.opened

        @contextlib.contextmanager
        def opened(*words: Any, **more: Any) -> Iterator[sqlite3.Connection]:
            with real(*words, **more) as base:
                for name in os.listdir(folder):
                    if 'first-schema' in name:
                        os.remove(os.path.join(folder, name))
                        os.symlink(wanted, os.path.join(folder, name))
                yield base

        with mock.patch.object(opening, 'opened', opened):
            copy = migrate.keep(self.db, folder)
        self.assertFalse(os.path.lexists(wanted))
        with contextlib.closing(sqlite3.connect(copy)) as base:
            self.assertEqual(base.execute('SELECT count(*) FROM load').fetchone(), (1,))

    def test_a_full_disk(self) -> None:
        """There is no room for the copy: the desk goes on with its file, and nothing is left."""
        stands = self.what_stands()
        line = f'ulimit -f 4; exec {sys.executable} {CLI} restore {self.copy} --program {DESK}'
        done = subprocess.run(
            ['sh', '-c', line],
            input='yes\nyes\nyes\nyes\n',
            capture_output=True,
            text=True,
            env={**os.environ, 'NULVRADER_CONF': self.path('conf')},
        )
        self.assertEqual((done.returncode, done.stdout), (1, ''))
        self.assertRegex(done.stderr, '^restore: ')
        self.assertEqual(self.what_stands(), stands)
        left = [name for name in os.listdir(self.here) if 'new' in name or 'aside' in name]
        self.assertEqual(left, [])

    def test_a_kill_while_the_file_is_replaced(self) -> None:
        """At each step: no desk starts on a file that is neither the old one as a whole nor the
        copy; taken again from there on, the copy is put back."""
        old = self.what_stands()
        for number in range(3):
            with self.subTest(number):
                with self.killed_at(number):
                    self.take(['yes', 'yes'])
                status = self.run_cli('why', '--file-only')[0]
                self.assertTrue(status == 1 or self.what_stands() == old)
                text, _ = self.take(['N1', 'N2', 'later'], 3)
                self.assertNotIn('stopped at', text)
                self.assertEqual(self.desk.vehicle(TWO).node, 'N2')
                self.doCleanups()
                self.setUp()
                old = self.what_stands()

    @contextlib.contextmanager
    def killed_at(self, number: int) -> Iterator[None]:
        """The program is killed as it renames for the so manieth time."""
        real, calls = os.rename, iter(range(100))

        class Killed(BaseException):
            pass

        def rename(source: str, to: str, **folders: int) -> None:
            if 'warehouse' in source and next(calls) == number:
                raise Killed
            real(source, to, **folders)

        with mock.patch.object(os, 'rename', rename), contextlib.suppress(Killed):
            yield

    def test_a_copy_that_is_replaced_meanwhile(self) -> None:
        """While it asks, another desk's file is put in the place of the copy: what was checked is
        put back."""
        other = self.path('other.db')
        with Serving(other):
            pass

        def swap() -> str:
            os.replace(other, self.copy)
            return 'yes'

        text, _ = self.take(['yes', swap, 'N1', 'N2', 'later'])
        self.assertIn('2 vehicles hold a node each', text)
        self.assertEqual(self.desk.load('L1').place, 'station A')

    @unittest.skipIf(os.geteuid(), 'only root gives a folder to another user')
    def test_a_file_that_the_owner_of_the_copies_may_not_read(self) -> None:
        """The folder of the copies is of a user, who puts a link, or a name, of a file of root's in
        the place of the copy or of its log, before the restore or while it asks; nothing of that
        file is put in place."""
        secret = self.path('secret')
        shutil.copy(self.copy, secret)
        os.chmod(secret, 0o600)
        makers: dict[str, Callable[[str, str], None]] = {'link': os.symlink, 'name': os.link}
        for end in ('', '-wal'):
            for what, make in makers.items():
                with self.subTest(end=end, what=what):
                    place = self.path(f'of-another{end}-{what}')
                    os.mkdir(place)
                    name = os.path.join(place, 'warehouse.db')
                    shutil.copy(self.copy, name)
                    os.chmod(name, 0o644)
                    if not end:
                        os.remove(name)
                    make(secret, name + end)
                    os.chown(place, 65534, 65534)
                    status, out, said = self.run_cli('restore', name)
                    self.assertEqual((status, out), (1, ''))
                    self.assertRegex(said, '^restore: .*(it is a link|Permission denied)')

    def test_a_link_in_the_place_of_the_folder_of_old_files(self) -> None:
        """The user of the desk puts a link where the old files are to be moved, or in the place of
        the new file; it is not followed."""
        target = self.path('elsewhere')
        os.mkdir(target)
        real = os.mkdir

        def mkdir(path: str, mode: int = 0o777, *, dir_fd: int | None = None) -> None:
            real(path, mode, dir_fd=dir_fd)
            if path.startswith('aside-'):
                os.rmdir(path, dir_fd=dir_fd)
                os.symlink(target, path, dir_fd=dir_fd)

        with mock.patch.object(os, 'mkdir', mkdir):
            text, _ = self.take(['yes', 'yes'])
        self.assertIn('stopped at step 3', text)
        self.assertEqual(os.listdir(target), [])
        os.remove(f'{self.db}.new')
        os.symlink(os.path.join(target, 'made'), f'{self.db}.new')
        self.take(['N1', 'N2', 'later'], 3)
        self.assertEqual(os.listdir(target), [])

    def test_what_is_no_copy(self) -> None:
        for name in ('none.db', 'layout.csv'):
            status, out, said = self.run_cli('restore', self.path(name))
            self.assertEqual((status, out), (1, ''))
            self.assertRegex(said, '^restore: ')


if __name__ == '__main__':
    unittest.main()
