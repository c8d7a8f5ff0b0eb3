"""Shows that a copy of a desk's file goes where it has to, whole or not at all, whoever has been
in the folder."""
from __future__ import annotations

import contextlib
import datetime
import os
import signal
import socket
import sqlite3
import subprocess
import time
import unittest

from tests.support.attacked_file import Attack, DESK, SECRET, ended, ran, started
from tests.support.desks import Serving
from tests.support.installed import OTHER
from tests.support.programs import PATIENCE, until

COPY = 'warehouse-%s.db'
DATE = '%Y%m%dT%H%M%SZ'
PYTHON = '/usr/bin/python3'  # which another user may read


class Copies(Attack):
    """Somebody has been in the folder of the copies, or a backup is stopped at some moment."""

    def setUp(self) -> None:
        super().setUp()
        self.fill()
        os.mkdir(self.path('copies'))

    def words(self, *more: str) -> list[str]:
        return ['backup', '--db', self.db, '--to', self.path('copies'), '--program', DESK, *more]

    def copies(self) -> list[str]:
        return sorted(os.listdir(self.path('copies')))

    def slow_program(self) -> str:
        """A program in the place of the desk that goes on until it is killed."""
        self.write('slow', f'#!/bin/sh\ntouch {self.path("began")}\nexec sleep 600\n')
        os.chmod(self.path('slow'), 0o755)
        return self.path('slow')

    def check_a_copy(self, name: str) -> None:
        """A file with the name of a copy is a whole one."""
        with contextlib.closing(sqlite3.connect(self.path('copies', name))) as base:
            self.assertEqual(base.execute('PRAGMA integrity_check').fetchall(), [('ok',)], name)
            (loads,) = base.execute('SELECT count(*) FROM load').fetchone()
        with contextlib.closing(sqlite3.connect(self.db)) as base:
            self.assertEqual(base.execute('SELECT count(*) FROM load').fetchone(), (loads,), name)

    def test_links_at_the_names_of_copies(self) -> None:
        """A link to another file lies at the name of the new copy, or of what becomes it: the other
        file stays as it is, and so does the link."""
        os.symlink(self.victim, self.path('copies', 'warehouse.new'))
        now = datetime.datetime.now(datetime.timezone.utc)
        for second in range(int(PATIENCE) * 2):
            name = COPY % (now + datetime.timedelta(seconds=second)).strftime(DATE)
            os.symlink(self.victim, self.path('copies', name))
        told = ran(*self.words())
        self.check_sentence(told, 'links')
        self.assertIn('is there already', told.said)
        self.assertEqual(self.read(self.victim).decode(), SECRET)
        for name in self.copies():
            if name != 'warehouse.new':
                self.assertEqual(os.readlink(self.path('copies', name)), self.victim)

    @unittest.skipIf(os.geteuid(), 'only root becomes another user')
    def test_the_folder_of_another_user(self) -> None:
        """The user whose folder it is keeps the desk busy, and puts a link into the place of what
        root has made there meanwhile: root writes nothing through it."""
        copies, owned = self.path('copies'), self.path('owned')
        os.chmod(self.above.name, 0o711)
        os.chmod(self.folder, 0o711)
        os.chown(copies, OTHER, OTHER)
        line = ['setpriv', f'--reuid={OTHER}', f'--regid={OTHER}', '--clear-groups', 'sh', '-ec']
        line += [
            f'cd {copies}; mv warehouse.new gone; mkdir -m 777 warehouse.new; cd warehouse.new;'
        ]
        line[-1] += f'ln -s {owned} copy.db'
        with Serving(self.db) as desk, socket.create_connection(('127.0.0.1', desk.port)) as kept:
            kept.send(b'GET ')
            process = started(*self.words('--desk', f'127.0.0.1:{desk.port}'), python=PYTHON)
            until(lambda: os.path.exists(self.path('copies', 'warehouse.new')), 'root has begun')
            subprocess.run(line, check=True)
            kept.close()
            told = ended(process)
        self.assertEqual(told.status, 1, told.text)
        self.assertFalse(os.path.lexists(owned))

    def test_names_among_the_copies(self) -> None:
        """Names with line ends or dashes, folders and links with the name of a copy, and names with
        later dates lie in the folder: the new copy is kept, and nothing else than old copies is
        removed."""
        others = ['-rf', COPY % '20200101T000000Z' + '\n', 'warehouse-20200101T00000\u0660Z.db']
        late = [COPY % f'2099010{day}T000000Z' for day in (1, 2, 3)]
        old = [COPY % f'2020010{day}T000000Z' for day in (3, 4)]
        for name in others + late + old:
            self.write(os.path.join('copies', name), '')
        os.mkdir(self.path('copies', COPY % '20200101T000000Z'))
        os.symlink(self.victim, self.path('copies', COPY % '20200102T000000Z'))
        before = set(self.copies())
        told = ran(*self.words('--keep', '1'))
        self.assertEqual((told.status, told.said), (0, ''))
        self.assertEqual(before - set(self.copies()), set(old))
        (name,) = set(self.copies()) - before
        self.check_a_copy(name)

    def test_no_folder(self) -> None:
        """A FIFO, a file or a device is the place of the copies."""
        os.rmdir(self.path('copies'))
        for kind in ('a FIFO', 'a device'):
            self.put(kind, self.path('copies'))
            self.check_sentence(ran(*self.words()), kind)
            self.clear(self.path('copies'))

    def test_a_full_disk(self) -> None:
        """The disk of the copies is full: there is no half copy with the name of a copy."""
        done = subprocess.run(
            ['mount', '-t', 'tmpfs', '-o', 'size=16k', 'tmpfs', self.path('copies')],
            capture_output=True,
            check=False,
        )
        if done.returncode:
            self.skipTest('no disk of a given size can be mounted here')
        try:
            self.check_sentence(ran(*self.words()), 'full')
            self.assertEqual([name for name in self.copies() if name.startswith('warehouse-')], [])
        finally:
            subprocess.run(['umount', self.path('copies')], check=True)

    def test_two_at_once(self) -> None:
        """A second backup is started while one is at work: it says so, and changes nothing."""
        first = started(*self.words('--program', self.slow_program()))
        try:
            until(lambda: os.path.exists(self.path('began')), 'the first one is at work')
            before = self.copies()
            told = ran(*self.words())
            self.check_sentence(told, 'second')
            self.assertIn('another backup is at work', told.said)
            self.assertEqual(self.copies(), before)
        finally:
            self.end_of(first)

    def end_of(self, process: 'subprocess.Popen[bytes]') -> None:
        """Kills a backup, and what it has started."""
        children = f'/proc/{process.pid}/task/{process.pid}/children'
        with contextlib.suppress(OSError), open(children, encoding='ascii') as file:
            for number in file.read().split():
                os.kill(int(number), signal.SIGKILL)
        process.kill()
        process.wait(PATIENCE)
        for stream in (process.stdout, process.stderr):
            assert stream is not None
            stream.close()

    def test_a_kill_at_any_moment(self) -> None:
        """A backup is killed at some moment: what has the name of a copy is a whole one, and the
        next backup is as if nothing had been."""
        for turn in range(8):
            process = started(*self.words())
            time.sleep(turn * 0.05)
            self.end_of(process)
            for name in self.copies():
                if name.startswith('warehouse-'):
                    self.check_a_copy(name)
        process = started(*self.words('--program', self.slow_program()))
        until(lambda: os.path.exists(self.path('began')), 'the copy is made')
        self.end_of(process)
        time.sleep(1)  # the next name has another second
        told = ran(*self.words('--keep', '1'))
        self.assertEqual((told.status, told.said), (0, ''))
        (name,) = self.copies()
        self.check_a_copy(name)

    def test_a_page_in_the_place_of_another_file(self) -> None:
        """The page of `map --watch` is a link, or another file: that file stays as it is."""
        self.write('layout.csv', 'kind,id,from,to\nnode,N1,,\n')
        os.symlink(self.victim, self.path('page.html'))
        for page in (self.path('page.html'), self.victim, self.path('layout.csv')):
            words = ('--desk', '127.0.0.1:1', '--watch', page)
            told = ran('map', *words)
            self.check_sentence(told, page)
            self.assertIn('is no page of this program', told.said)
        self.assertEqual(self.read(self.victim).decode(), SECRET)
