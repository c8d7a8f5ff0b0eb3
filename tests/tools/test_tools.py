"""Shows that each program of `tools/` and `examples/` has a help with an example, that one module
alone speaks HTTP, and that the types and the names fit, as mypy and pyflakes see them."""
import importlib.util
import os
import re
import shutil
import socket
import subprocess
import sys
import tempfile
import unittest
from unittest import mock
from typing import Any

from nulvrader.file import machine
from tests.support.programs import ROOT, TOOLS, matched, ran
from tests.support.desks import AT, DESK, Serving, over_sockets, run
from tests.support.script_calls import LAYOUT, bytes_of, load, ok, vehicle

PACKAGE = os.path.join(TOOLS, 'nulvrader')
DEV = os.path.join(ROOT, 'dev')
PYTHON = '#!/usr/bin/env python3\n'
EXAMPLES = os.path.join(ROOT, 'examples')


def text_of(path: str) -> Any:
    with open(path) as file:
        return file.read()


def programs_in(folder: str) -> list[Any]:
    """The programs in Python of a folder, whose names have no ending."""
    paths = [os.path.join(folder, name) for name in sorted(os.listdir(folder)) if '.' not in name]
    return [path for path in paths if os.path.isfile(path) and text_of(path).startswith(PYTHON)]


def files_below(folder: str) -> Any:
    """All files in Python of a folder and those in it."""
    found = []
    for path, _, names in os.walk(folder):
        found += programs_in(path) + [
            os.path.join(path, name) for name in names if name.endswith('.py')
        ]
    return found


def command(name: str) -> Any:
    """How a checker is run: as a module of this Python, or as a program; or None."""
    if importlib.util.find_spec(name):
        return [sys.executable, '-m', name]
    found = shutil.which(name) or shutil.which(name + '3')
    return [found] if found else None


class Programs(unittest.TestCase):
    def test_the_help(self) -> None:
        """It has the text at the head of the program, whose last sentence is whole, and in it an
        example."""
        for path in programs_in(TOOLS) + programs_in(DEV) + programs_in(EXAMPLES):
            name = os.path.relpath(path, ROOT)
            with self.subTest(name):
                self.assertTrue(os.access(path, os.X_OK))
                done = subprocess.run(
                    [sys.executable, path, '--help'], capture_output=True, text=True, timeout=600
                )
                self.assertEqual((done.returncode, done.stderr), (0, ''))
                head = matched('"""(.*?)"""', text_of(path), re.S)[1]
                self.assertIn(head.strip(), done.stdout)
                if name != 'tools/nulvrader-cli':
                    self.assertRegex(head, fr'(?m)^    {name} ')

    def test_the_help_of_the_scripts(self) -> None:
        """It has the comment at the head of the script, and in it an example; a port that is none
        is told, and so is an address."""
        paths = [
            os.path.join(EXAMPLES, name)
            for name in sorted(os.listdir(EXAMPLES))
            if name.endswith('.sh')
        ]
        self.assertEqual(len(paths), 2)
        for path in paths:
            head = matched(r'\A#!/bin/sh\n((?:#.*\n)+)', text_of(path))[1]
            for word in ('--help', '-h'):
                done = subprocess.run([path, word], capture_output=True, text=True, timeout=600)
                self.assertEqual((done.returncode, done.stderr), (0, ''))
                self.assertEqual(done.stdout, re.sub('^# ?', '', head, flags=re.M))
            self.assertRegex(done.stdout, fr'(?m)^    {os.path.relpath(path, ROOT)} ')
            for word in ('port', '80x', '-1'):
                done = subprocess.run([path, word], capture_output=True, text=True, timeout=600)
                self.assertEqual((done.returncode, done.stdout), (2, ''))
                what = 'port' if 'transport' in path else 'address'
                told = f'{word} is no {what}: write {os.path.relpath(path, ROOT)}'
                self.assertIn(told, done.stderr)

    @over_sockets
    def test_a_free_port(self) -> None:
        """The system gives it to no connection, and a program may listen on it."""
        for given in (machine.given_ports(), range(1500, 61000)):
            with mock.patch.object(machine, 'given_ports', lambda: given):
                for _ in range(10):
                    port = machine.free_port()
                    self.assertTrue(1024 <= port < 65536 and port not in given, (port, given))
                    with socket.create_server(('127.0.0.1', port)) as listener:
                        self.assertEqual(listener.getsockname()[1], port)

    def test_one_client(self) -> None:
        """Of all files in Python of tools/ and examples/ one alone has a client of HTTP, but for
        the simulated plant, whose wire is quicker and says why, and for what posts to receivers of
        webhooks, which are no desks; no other one begins a connection."""
        files = files_below(TOOLS) + files_below(EXAMPLES)
        spoken = re.compile(
            (
                r'^\s*(?:import|from) (?:http\.client|http import client|urllib\.request|urllib'
                r' import request)\b'
            ),
            re.M,
        )
        self.assertEqual(
            sorted(os.path.basename(path) for path in files if spoken.search(text_of(path))),
            ['receiver.py', 'transport.py'],
        )
        begun = re.compile(r'\bcreate_connection\(|\.connect\(\(')
        self.assertEqual(
            sorted(os.path.relpath(path, ROOT) for path in files if begun.search(text_of(path))),
            [
                'examples/simulation/desks.py',
                'tools/nulvrader/board/api/webhooks/receiver.py',  # of UDP: nothing is sent
            ],
        )
        self.assertGreater(len(files), 20)

    @over_sockets
    def test_a_file_that_is_read_stays_as_it_is(self) -> None:
        """By each tool that reads the file of a stopped desk: no byte of it or of its log is
        another then, and nothing lies beside them."""
        with tempfile.TemporaryDirectory() as folder:
            at = {
                name: os.path.join(folder, name) for name in ('old', 'new', 'copies', 'count.csv')
            }
            os.mkdir(at['old'])
            os.mkdir(at['new'])
            db = os.path.join(at['old'], 'warehouse.db')
            lines = [ok('PUT /layout', LAYOUT), vehicle('0001', 'N1'), load('L1', 'A'), load('L2')]
            self.assertEqual(
                run('replay', '--db', db, '--at', AT, stdin=b''.join(map(bytes_of, lines)))[::2],
                (0, b''),
            )
            before = self.files_of(at['old'])
            self.assertEqual(
                [name for name, (data, _) in before.items() if data],
                ['warehouse.db', 'warehouse.db-wal'],
            )
            with open(at['count.csv'], 'w') as file:
                file.write('station,load\nA,L1\nC,L2\n')
            with Serving(os.path.join(at['new'], 'warehouse.db')) as desk:
                for words, wanted in (
                    (('map', '--db', db), 'KIT/0001'),
                    (
                        ('check-count', at['count.csv'], '--db', db),
                        'load L2 would move from checking to station C',
                    ),
                    (('why', '--db', db), ''),
                    (('backup', '--db', db, '--to', at['copies'], '--program', DESK), ': 2 loads'),
                    (
                        ('new-file', '--from', db, '--desk', f'127.0.0.1:{desk.port}'),
                        '4 calls, 0 of them done before',
                    ),
                ):
                    with self.subTest(words[0]):
                        status, out, said = ran(*words)
                        self.assertEqual((status, said), (0, ''))
                        self.assertIn(wanted, out)
                        self.assertEqual(self.files_of(at['old']), before)

    @staticmethod
    def files_of(folder: str) -> Any:
        """By name the bytes of each file, and when they were last changed."""
        found = {}
        for name in sorted(os.listdir(folder)):
            with open(os.path.join(folder, name), 'rb') as file:
                found[name] = file.read(), os.stat(file.fileno()).st_mtime_ns
        return found

    def test_a_file_that_another_sqlite_left_amid_a_change(self) -> None:
        """It is not read: what it has is not what it had."""
        with tempfile.TemporaryDirectory() as folder:
            db = os.path.join(folder, 'warehouse.db')
            self.assertEqual(
                run('replay', '--db', db, '--at', AT, stdin=bytes_of(load('L1')))[::2], (0, b'')
            )
            with open(db + '-journal', 'wb') as file:
                file.write(b'\xd9\xd5\x05\xf9\x20\xa1\x63\xd7' + bytes(504))
            status, out, said = ran('map', '--db', db)
            self.assertEqual((status, out), (1, ''))
            self.assertIn(
                'another SQLite was stopped in the middle of a change: tools/why says what to do',
                said,
            )

    @unittest.skipUnless(command('mypy'), 'mypy is not here')
    def test_types(self) -> None:
        """`mypy --strict` over the packages and each program."""
        parts = [
            PACKAGE,
            *programs_in(TOOLS),
            *programs_in(DEV),
            os.path.join(EXAMPLES, 'simulation'),
            *programs_in(EXAMPLES),
        ]
        with tempfile.TemporaryDirectory() as cache:
            line = [
                *command('mypy'),
                '--strict',
                '--scripts-are-modules',
                '--cache-dir',
                cache,
                *parts,
            ]
            done = subprocess.run(line, capture_output=True, text=True, cwd=ROOT, timeout=600)
        self.assertEqual(done.returncode, 0, done.stdout + done.stderr)

    @unittest.skipUnless(command('pyflakes'), 'pyflakes is not here')
    def test_names(self) -> None:
        """pyflakes finds no name that is unknown or unused."""
        line = [
            *command('pyflakes'),
            PACKAGE,
            *programs_in(TOOLS),
            *programs_in(DEV),
            *files_below(EXAMPLES),
        ]
        done = subprocess.run(line, capture_output=True, text=True, timeout=600)
        self.assertEqual((done.returncode, done.stdout), (0, ''))


if __name__ == '__main__':
    unittest.main()
