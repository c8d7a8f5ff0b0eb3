"""Shows that root's tools do nothing with root's rights in a folder of another user, at whichever
moment that user puts something else in its place."""
from __future__ import annotations

import argparse
import contextlib
import os
import runpy
import sqlite3
import sys
import unittest
from unittest import mock
from typing import Any

from nulvrader.file import opening
from tests.support.attacked_file import DESK, Attack
from tests.support.installed import OTHER
from tests.support.programs import TOOLS, module

LOOKS = 8  # more often than a tool looks at the folder


@unittest.skipIf(os.geteuid(), 'only root becomes another user')
class ExchangedLinks(Attack):
    """The user who owns the folder above that of the copies has a link there, to a folder of that
    user at some moments and to root's at others."""

    def setUp(self) -> None:
        super().setUp()
        self.fill()
        os.chmod(self.above.name, 0o711)
        os.chmod(self.folder, 0o711)
        self.link = self.path('home', 'copies')
        for name in ('home', 'own', 'roots', 'friends'):
            os.mkdir(self.path(name))
        for name, user in (('home', OTHER), ('own', OTHER), ('friends', OTHER - 1)):
            os.chown(self.path(name), user, user)

    def point_to(self, target: str) -> None:
        """Puts a link to another folder in the place of the last one."""
        with contextlib.suppress(FileNotFoundError):
            os.remove(self.link)
        os.symlink(target, self.link)
        os.lchown(self.link, OTHER, OTHER)

    def back_up(self, targets: list[str], below: str = '') -> None:
        """Runs the tool as root in a process of its own. Before it looks at the link for the nth
        time the link is pointed to the nth folder."""
        child = os.fork()
        if child == 0:
            os.dup2(os.open(os.devnull, os.O_WRONLY), 1)
            os.dup2(1, 2)
            try:
                self.run_tool(iter(targets), os.path.join(self.link, below) if below else self.link)
            finally:
                os._exit(0)
        os.waitpid(child, 0)

    def run_tool(self, targets: Any, to: str) -> None:
        def looking(real: Any) -> Any:
            def look(path: Any, *more: Any, **named: Any) -> Any:
                if not isinstance(path, int) and os.geteuid() == 0:
                    if os.fspath(path) == self.link:
                        self.point_to(next(targets))
                return real(path, *more, **named)

            return look

        words = ['backup', '--db', self.db, '--to', to, '--program', DESK]
        with mock.patch.multiple(
            os, stat=looking(os.stat), lstat=looking(os.lstat), open=looking(os.open)
        ):
            with mock.patch.object(sys, 'argv', words):
                runpy.run_path(os.path.join(TOOLS, 'backup'), run_name='__main__')

    def check_owners(self, what: object) -> None:
        """Nothing of root lies in a folder of another user, nothing of a friend's anywhere, and
        nothing is in a folder that the link should not lead to."""
        self.assertEqual(os.listdir(self.path('roots')), [], what)
        self.assertEqual(os.listdir(self.path('friends')), [], what)
        for name in os.listdir(self.path('own')):
            self.assertEqual(os.lstat(self.path('own', name)).st_uid, OTHER, (what, name))

    def test_at_each_look(self) -> None:
        """One look, or all but one, find another folder than the rest."""
        own = self.path('own')
        for other in (self.path('roots'), self.path('friends')):
            for one in range(LOOKS):
                for first, rest in ((own, other), (other, own)):
                    targets = [first if look == one else rest for look in range(LOOKS * 9)]
                    self.point_to(rest)
                    self.back_up(targets)
                    self.check_owners((one, first, rest))

    def test_a_new_folder(self) -> None:
        """The folder of the copies is not there, and the link above it leads to root's."""
        self.point_to(self.path('roots'))
        self.back_up([self.path('roots')] * LOOKS * 9, 'new')
        self.check_owners('new')


@unittest.skipIf(os.geteuid(), 'only root gives a folder to another user')
class ExchangedFile(Attack):
    """The user whose folder it is puts something else in the place of the desk's file."""

    def test_a_fifo_after_the_check(self) -> None:
        """It is a FIFO once the file has been opened and looked at: SQLite, which would wait for
        ever, opens another path."""
        self.fill()
        os.chown(self.folder, OTHER, OTHER)
        real = sqlite3.connect

        def connect(path: str, *more: Any, **named: Any) -> sqlite3.Connection:
            os.remove(self.db)
            os.mkfifo(self.db)
            self.assertNotIn(self.db, path)
            return real(path, *more, **named)

        with mock.patch.object(sqlite3, 'connect', connect):
            with opening.opened(self.db) as base:
                self.assertEqual(len(base.execute('SELECT id FROM meta').fetchall()), 1)

    def test_the_folder_of_a_page(self) -> None:
        """A link to root's folder is in the place of the page's after the first page: the next one
        is not written there."""
        tool = module('map')
        for name in ('pages', 'roots'):
            os.mkdir(self.path(name))
        said = argparse.Namespace(watch=self.path('pages', 'a.html'), desk='x', every=1)
        turns = iter((None, KeyboardInterrupt()))

        def sleep(_: float) -> None:
            if (fault := next(turns)) is not None:
                raise fault
            os.rename(self.path('pages'), self.path('moved'))
            os.symlink(self.path('roots'), self.path('pages'))

        with mock.patch.multiple(tool, asked=mock.DEFAULT, drawing=lambda *_: 'x'):
            with mock.patch.object(tool.time, 'sleep', sleep):
                self.assertRaises(KeyboardInterrupt, tool.watch, None, said, None)
        self.assertEqual(os.listdir(self.path('roots')), [])
        self.assertEqual(os.listdir(self.path('moved')), ['a.html'])
