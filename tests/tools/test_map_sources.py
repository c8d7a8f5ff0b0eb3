"""Shows that `tools/map` draws the same of a running desk as of its file, and says in a line why
it draws nothing."""
from __future__ import annotations

import contextlib
import os
import re
import signal
import socket
import sqlite3
import subprocess
import sys
import tempfile
import unittest
from collections.abc import Iterator
from typing import Any

from tests.support.desks import AT, over_sockets, requests_of
from tests.support.drawing import (
    LINES,
    MAP,
    PLAIN,
    Picture,
    check_the_picture_of_the_page,
    drawn,
    plain,
    refused,
)
from tests.support.programs import ROOT, matched
from tests.support.script_calls import bytes_of


class OfAFile(unittest.TestCase):
    """Files that are none of a desk, or a desk's that is open, are told in a line, and are left as
    they are."""

    def setUp(self) -> None:
        self.folder = tempfile.TemporaryDirectory()
        self.db = os.path.join(self.folder.name, 'map.db')

    def tearDown(self) -> None:
        self.folder.cleanup()

    def test_no_file(self) -> None:
        self.assertEqual(refused('--db', self.db), self.db + ': there is no such file')
        self.assertEqual(os.listdir(self.folder.name), [])

    def test_no_tables_of_a_desk(self) -> None:
        other = os.path.join(self.folder.name, 'other.db')
        with contextlib.closing(sqlite3.connect(other)) as base:
            base.execute('CREATE TABLE node (name TEXT)')
        with open(other, 'rb') as file:
            tables = file.read()
        none = ': it has no tables of a desk'
        odd = ": its tables aren't those of a desk: the table node has the columns name, and not id"
        for data, said in ((b'', none), (b'kind,id,from,to\n' * 100, none), (tables, odd)):
            with open(self.db, 'wb') as file:
                file.write(data)
            self.assertEqual(refused('--db', self.db), self.db + said)
            with open(self.db, 'rb') as file:
                self.assertEqual(file.read(), data)

    def test_no_file_to_be_opened(self) -> None:
        said = refused('--db', self.folder.name)
        self.assertEqual(said, self.folder.name + ': it is a folder, and not a regular file')

    def test_a_file_that_a_desk_has_open(self) -> None:
        plain(self.db, b''.join(map(bytes_of, LINES)))
        with contextlib.closing(sqlite3.connect(self.db, isolation_level=None)) as base:
            base.execute('PRAGMA locking_mode = EXCLUSIVE')
            base.execute('BEGIN EXCLUSIVE')
            self.assertEqual(
                refused('--db', self.db),
                self.db + ': database is locked: ask the desk that has it open, or stop it first',
            )
            base.execute('ROLLBACK')
        self.assertIn(b'</svg>', drawn('--db', self.db))

    def test_a_name_with_marks_of_an_address(self) -> None:
        db = os.path.join(self.folder.name, 'a ?mode=memory#b%20.db')
        plain(db, b''.join(map(bytes_of, LINES)))
        self.assertEqual(set(Picture(drawn('--db', db)).nodes), {'N1', 'N2', 'N3'})

    def test_the_picture_of_the_page(self) -> None:
        """The file that a plain desk makes of the same requests is drawn so, too."""
        with open(os.path.join(ROOT, 'examples', 'map.http'), 'rb') as file:
            data = file.read()
        self.assertEqual(plain(self.db, data).count(b'HTTP/1.1 200 OK'), len(requests_of(data)))
        check_the_picture_of_the_page(self, self.db)


@over_sockets
class OfADesk(unittest.TestCase):
    def setUp(self) -> None:
        self.folder = tempfile.TemporaryDirectory()
        self.db = os.path.join(self.folder.name, 'map.db')

    def tearDown(self) -> None:
        self.folder.cleanup()

    @contextlib.contextmanager
    def serving(self) -> Iterator[Any]:
        """The port of a plain desk that serves one connection and no more."""
        plain(self.db, b''.join(map(bytes_of, LINES)))
        words = [sys.executable, PLAIN, self.db, AT, '0']
        with subprocess.Popen(
            words, stdout=subprocess.PIPE, stderr=subprocess.PIPE, text=True
        ) as desk:
            try:
                assert desk.stdout and desk.stderr
                yield int(desk.stdout.readline().rsplit(':')[-1])
                self.assertEqual((desk.wait(300), desk.stderr.read()), (0, ''))
            finally:
                desk.kill()

    def test_one_connection(self) -> None:
        with self.serving() as port:
            running = drawn('--desk', f'127.0.0.1:{port}')
        self.assertEqual(running, drawn('--db', self.db))
        self.assertEqual(len(Picture(running).vehicles), 2)

    def test_a_page_that_refreshes_itself(self) -> None:
        """The page has the picture, and says to the browser when to load it again; while no desk
        answers, the last one stands."""
        page = os.path.join(self.folder.name, 'map.html')
        with self.serving() as port:
            words = ['--desk', f'127.0.0.1:{port}', '--watch', page, '--every', '0.2']
            with subprocess.Popen(
                [sys.executable, MAP, *words], stderr=subprocess.PIPE, text=True
            ) as watching:
                try:
                    assert watching.stderr
                    lines = [watching.stderr.readline() for _ in range(2)]
                finally:
                    watching.send_signal(signal.SIGINT)
                self.assertEqual((watching.wait(300), watching.stderr.read()), (0, ''))
        self.assertEqual(lines[0], f'map: {page} shows 127.0.0.1:{port}; stop it with Ctrl-C\n')
        self.assertRegex(lines[1], f'^map: 127.0.0.1:{port}: no program listens there')
        with open(page) as file:
            text = file.read()
        self.assertIn('<meta http-equiv="refresh" content="0.2">', text)
        picture = matched('<svg.*</svg>\n', text, re.S)[0]
        self.assertEqual(picture.encode(), drawn('--db', self.db))

    def test_no_desk(self) -> None:
        with socket.socket() as taken:
            taken.bind(('127.0.0.1', 0))
            address = f'127.0.0.1:{taken.getsockname()[1]}'
            said = refused('--desk', address)
        self.assertRegex(said, f'^{address}: no program listens there')
        self.assertRegex(
            refused('--desk', 'desk:port'),
            '^.desk:port. is not the address of a desk: write HOST:PORT',
        )


if __name__ == '__main__':
    unittest.main()
