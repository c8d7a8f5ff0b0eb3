"""Shows that `nulvrader backup` copies the file of a desk while it runs, and leaves no half of a
copy."""
from __future__ import annotations

import contextlib
import os
import pathlib
import re
import sqlite3
import subprocess
import sys
import threading
import time
import unittest
from unittest import mock

from nulvrader.desk.client import Desk, NoAnswer
from tests.support import proxies
from tests.support.desks import DESK, over_sockets
from tests.support.installed import CLI, Installed, OTHER
from tests.support.programs import TOOLS, module
from tests.support.proxies import Proxy


@over_sockets
class Copied(Installed):
    def setUp(self) -> None:
        super().setUp()
        self.init()

    def back_up(self, desk: Desk) -> tuple[int, str, str]:
        """Makes a copy while the desk runs."""
        words = ['--db', self.db, '--to', self.path('copies'), '--program', DESK]
        return self.run_cli('backup', '--desk', desk.address, *words)

    def loads_of(self, copy: str) -> int:
        """How many loads a copy has, by the desk itself."""
        done = subprocess.run([DESK, 'report', '--db', copy, 'stock'], stdout=subprocess.PIPE)
        return done.stdout.count(b'\n  ')

    def test_while_the_desk_serves_others(self) -> None:
        """Loads are registered all the time: a copy has each one that was registered before, and no
        hole."""
        over = threading.Event()
        with self.serving() as desk:
            done: list[str] = []

            def register() -> None:
                while not over.is_set():
                    desk.register_load(f'L{len(done)}')
                    done.append('')

            thread = threading.Thread(target=register)
            thread.start()
            try:
                for _ in range(2):
                    before = len(done)
                    status, out, said = self.back_up(Desk(desk.address))
                    self.assertEqual((status, said), (0, ''))
                    told = re.fullmatch(r'(\S+): (\d+) loads; other clients waited [\d.]+ s\n', out)
                    assert told is not None, out
                    self.assertTrue(before <= int(told[2]) <= len(done) + 1)
                    self.assertEqual(self.loads_of(told[1]), int(told[2]))
                    with contextlib.closing(sqlite3.connect(told[1])) as base:
                        names = {row[0] for row in base.execute('SELECT id FROM load')}
                    self.assertEqual(names, {f'L{n}' for n in range(int(told[2]))})
                    os.remove(told[1])
            finally:
                over.set()
                thread.join()

    def test_a_desk_that_is_stopped(self) -> None:
        with self.serving() as desk:
            desk.register_load('L1')
        status, out, said = self.back_up(desk)
        self.assertEqual((status, said), (0, ''))
        self.assertRegex(out, r'^\S+: 1 loads\n$')

    def test_what_is_configured(self) -> None:
        """Without an option the file, its desk and the folder are those of nulvrader.conf, whatever
        signs their names have."""
        with self.serving() as desk:
            desk.register_load('L1')
            with open(self.path('conf'), 'a', encoding='utf-8') as file:
                file.write(f'NULVRADER_BACKUPS="{self.path("the copies")}"\n')
            status, out, said = self.run_cli('backup', '--program', DESK)
        self.assertEqual((status, said), (0, ''))
        self.assertRegex(out, r'/the copies/warehouse-\S+: 1 loads; other clients waited')
        os.remove(self.path('conf'))
        status, _, said = self.run_cli('backup', '--program', DESK)
        self.assertEqual(status, 2)
        self.assertIn('required: --db, --to', said)

    def test_a_full_disk(self) -> None:
        """There is no copy, and nothing is left."""
        line = f'ulimit -f 4; exec {sys.executable} {CLI} backup --program {DESK} --db {self.db}'
        with self.serving() as desk:
            for words in ('', f'--desk {desk.address}'):
                done = subprocess.run(
                    ['sh', '-c', f'{line} --to {self.path("copies")} {words}'],
                    capture_output=True,
                    text=True,
                )
                self.assertEqual((done.returncode, done.stdout), (1, ''))
                self.assertRegex(done.stderr, r'\Abackup: .*\n\Z')
                self.assertEqual(os.listdir(self.path('copies')), [])
            desk.register_load('L1')

    def test_a_backup_that_is_killed(self) -> None:
        """The desk goes on, there is no copy, and the next one is made."""
        with self.serving() as desk:
            words = ['--db', self.db, '--to', self.path('copies'), '--program', DESK]
            for moment in (0.2, 0.4, 0.6):
                with subprocess.Popen(
                    [sys.executable, CLI, 'backup', '--desk', desk.address, *words],
                    stdout=subprocess.DEVNULL,
                ) as one:
                    time.sleep(moment)
                    one.kill()
                desk.register_load(f'L{moment}'.replace('.', ''))
            found = os.listdir(self.path('copies')) if os.path.exists(self.path('copies')) else []
            for name in found:
                if name.endswith('.db'):
                    self.loads_of(self.path('copies', name))
                    for left in os.listdir(self.path('copies')):
                        if left.startswith(name):  # the copy, and the log that was made beside it
                            os.remove(self.path('copies', left))
            status, out, said = self.back_up(desk)
        self.assertEqual((status, said), (0, ''))
        self.assertIn(': 3 loads; ', out)
        self.assertEqual(len(os.listdir(self.path('copies'))), 1)

    @unittest.skipUnless(os.geteuid() == 0, 'root alone becomes another user')
    def test_whose_folder_it_is(self) -> None:
        """Root goes on as the user whose folder it is, who may have put links there."""
        line = ['/usr/bin/python3', CLI]
        try:
            subprocess.run([*line, '-V'], check=True, user=OTHER, stdout=subprocess.DEVNULL)
        except (OSError, subprocess.CalledProcessError):
            self.skipTest('another user may not run the programs here')
        os.mkdir(self.path('copies'))
        os.chown(self.path('copies'), OTHER, OTHER)
        with open(self.path('conf'), 'a', encoding='utf-8') as file:
            file.write(f'NULVRADER_BACKUPS={self.path("copies")}\n')
        env = {**os.environ, 'NULVRADER_CONF': self.path('conf')}
        done = subprocess.run(
            [*line, 'backup', '--program', DESK], env=env, capture_output=True, text=True
        )
        self.assertEqual((done.returncode, done.stderr), (0, ''))
        (copy,) = pathlib.Path(self.path('copies')).iterdir()
        self.assertEqual((copy.stat().st_uid, copy.stat().st_mode & 0o777), (OTHER, 0o600))

    def test_a_desk_on_another_port(self) -> None:
        """The file has a desk, and nobody listens where the desk should be: there is no copy."""
        with self.serving():
            status, out, said = self.back_up(Desk('127.0.0.1:1'))
        self.assertEqual((status, out), (1, ''))
        self.assertIn('database is locked', said)

    def test_who_else_writes(self) -> None:
        """A file that is changed while the desk is held is of another desk: there is no copy."""
        backup = module('backup')
        real = backup.copy_bytes

        def copy_bytes(file: str, to: str, ask: object) -> None:
            real(file, to, ask)
            with open(self.db, 'ab') as other:
                other.write(b'x')

        os.mkdir(self.path('new'))
        with self.serving() as desk, mock.patch.object(backup, 'copy_bytes', copy_bytes):
            with self.assertRaisesRegex(backup.CopyError, 'was changed while it was copied'):
                backup.copy_held(desk, self.db, self.path('new', 'copy.db'))

    @unittest.skipIf(proxies.MISSING, proxies.WHY)
    def test_a_proxy(self) -> None:
        """It keeps a connection, and the desk serves others meanwhile: the desk is not held."""
        with self.serving() as desk:
            proxy = Proxy(int(desk.address.rpartition(':')[2]), 1)
            self.addCleanup(proxy.close)
            front = Desk(f'http://127.0.0.1:{proxy.port}', user='anna', password='anna!')
            with self.assertRaisesRegex(NoAnswer, 'as a proxy does'):
                with front.held():
                    self.fail('it is not held')

    def test_what_is_held(self) -> None:
        """Nobody else is answered meanwhile; a connection that was lost is noticed."""
        with self.serving() as desk:
            other = Desk(desk.address, timeout=1)
            with desk.held() as ask:
                self.assertRaises(NoAnswer, other.hold_report)
                ask()
            desk.hold_report()
            with self.assertRaises(NoAnswer):
                with desk.held():
                    assert desk._wire is not None
                    desk._wire.end()


class OwnerOfCopies(Installed):
    """Who makes a copy where root asks for it."""

    @unittest.skipIf(os.geteuid(), 'only root becomes another user')
    def test_groups(self) -> None:
        """root's backup goes on as the user of the copies, in the groups of the desk's file and
        socket; the user of the desk puts a link in the place of the file: its group is not
        taken."""
        folder = self.path('copies')
        os.mkdir(folder)
        os.chown(folder, OTHER, OTHER)
        secret = self.write('secret', 'x')
        os.chown(secret, 0, 42)
        link = self.path('link')
        os.symlink(secret, link)
        plain = self.write('plain', 'x')
        os.chown(plain, OTHER, 4321)
        text = (
            'import os, runpy, sys; sys.argv = ["backup"]; '
            'become = runpy.run_path(sys.orig_argv[3])["become_owner"]; '
            'become(os.lstat(sys.orig_argv[4]), *sys.orig_argv[5:]); '
            'print(os.getgroups(), os.getuid())'
        )
        line = [sys.executable, '-c', text, os.path.join(TOOLS, 'backup'), folder, link, plain]
        env = {**os.environ, 'PYTHONPATH': TOOLS}
        done = subprocess.run(line, capture_output=True, text=True, env=env)
        self.assertEqual(done.stdout, f'[4321] {OTHER}\n', done.stderr)
