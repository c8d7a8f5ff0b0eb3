"""Shows that the one command runs each of the programs, tells of each, and is installed by its
package."""
from __future__ import annotations

import os
import pathlib
import re
import signal
import subprocess
import sys
import unittest
from unittest import mock

import nulvrader
from nulvrader import cli
from nulvrader.admin import conf
from tests.support.desks import DESK
from tests.support.installed import CLI, Installed
from tests.support.programs import ROOT, TOOLS, until

COMMANDS = sorted(re.findall(r'^  ([a-z-]+) {2,}\S', cli.HELP.partition('options:')[0], re.M))


class OneCommand(Installed):
    def test_the_version_and_the_help(self) -> None:
        """Each command has both, and each program of tools/ the same version."""
        version = f'Nulvrader {nulvrader.__version__}\n'
        for words in (['--version'], ['-V'], *([name, '--version'] for name in COMMANDS)):
            self.assertEqual(self.run_cli(*words), (0, version, ''), words)
        for name in COMMANDS:
            status, out, said = self.run_cli(name, '--help')
            self.assertEqual((status, said), (0, ''), name)
            self.assertEqual(self.run_cli('help', name), (0, out, ''))
            self.assertIn('sage: ', out)
            if name not in cli.PROGRAM:
                self.assertIn(f'usage: nulvrader {name} ', out)
                self.assertNotIn('tools/', out.partition('options:')[0])
                line = [sys.executable, os.path.join(TOOLS, name), '--version']
                done = subprocess.run(line, capture_output=True, text=True)
                self.assertEqual((done.returncode, done.stdout), (0, version), name)
        scripts = {name for name in os.listdir(TOOLS) if os.path.isfile(os.path.join(TOOLS, name))}
        self.assertEqual(scripts - {'nulvrader-cli'}, set(COMMANDS) - set(cli.PROGRAM))

    def test_what_is_no_command(self) -> None:
        for name in ('frob', '../desk', 'nulvrader-cli', '', 'the'):
            status, out, said = self.run_cli(name)
            self.assertEqual((status, out), (2, ''), name)
            self.assertIn('there is no command', said)
        self.assertEqual(self.run_cli()[0], 2)

    def test_a_reader_that_goes_away(self) -> None:
        """A program whose output nobody reads ends without a word."""
        layout = self.path('layout.csv')
        check = os.path.join(TOOLS, 'check-layout')
        for line in ([CLI, 'check-layout', layout], [CLI, '--help'], [check, layout]):
            read, write = os.pipe()
            os.close(read)
            done = subprocess.run([sys.executable, *line], stdout=write, stderr=subprocess.PIPE)
            os.close(write)
            self.assertEqual((done.returncode, done.stderr), (141, b''), line)

    def test_what_can_not_be_written(self) -> None:
        """Standard output that was closed from the start, and a disk that is full: no traceback."""
        env = {**os.environ, 'NULVRADER_CONF': self.path('conf')}
        for name, wanted in (('>&-', 0), ('>/dev/full', 1)):
            for words in (
                '--version',
                f'check-layout {self.path("layout.csv")}',
                'ask refusal Held',
            ):
                line = f'exec {sys.executable} {CLI} {words} {name}'
                done = subprocess.run(['sh', '-c', line], capture_output=True, text=True, env=env)
                self.assertEqual(done.returncode, wanted, (line, done.stderr))
                self.assertEqual(done.stderr.count('\n'), wanted, done.stderr)

    def test_an_interrupt(self) -> None:
        """Ctrl-C ends a command without a word."""
        for words in (['check-layout', '/dev/stdin'], ['check-count', '/dev/stdin']):
            with subprocess.Popen(
                [sys.executable, CLI, *words],
                stdin=subprocess.PIPE,
                stdout=subprocess.PIPE,
                stderr=subprocess.STDOUT,
            ) as command:
                waits = f'/proc/{command.pid}/wchan'
                until(lambda: 'pipe' in pathlib.Path(waits).read_text(), 'it reads')
                command.send_signal(signal.SIGINT)
                self.assertEqual(command.wait(60), -signal.SIGINT)
                assert command.stdout is not None
                self.assertEqual(command.stdout.read(), b'')

    def test_an_address_without_a_port(self) -> None:
        """Each command that asks a desk says that it is lacking, before it asks or makes
        anything."""
        for words in (
            ['ask', 'vehicles'],
            ['backup', '--db', self.db, '--to', self.path('copies')],
            ['board', '--db', self.path('board.db')],
            ['check-count', self.path('layout.csv')],
            ['dispatch'],
            ['gateway', '--broker', 'localhost:1883'],
            ['map'],
        ):
            status, out, said = self.run_cli(words[0], '--desk', 'localhost', *words[1:])
            self.assertEqual((status == 0, out), (False, ''), words)
            self.assertIn("'localhost' lacks the port: write localhost:8080", said)
        self.assertFalse(os.path.exists(self.path('board.db')))

    def test_the_configuration(self) -> None:
        """It is read as systemd reads it: a name may have blanks and signs, and quotes around
        it."""
        names = {'plain': 'plain', 'a b': 'a b', '"a b"': 'a b', "'it is'": 'it is', '"': '"'}
        names |= {"it's.db": "it's.db", '$HOME;x#y': '$HOME;x#y', '': '', 'ä': 'ä'}
        for text, wanted in names.items():
            self.write('conf', f'# a comment\n NULVRADER_DB={text} \nDB=x\nNULVRADER_X\n')
            with mock.patch.dict(os.environ, {'NULVRADER_CONF': self.path('conf')}):
                self.assertEqual(conf.read(), {'NULVRADER_DB': wanted})

    @unittest.skipUnless(os.path.exists(DESK), 'there is no program')
    def test_the_program_of_the_desk(self) -> None:
        """It is run with the words that are said; `serve` gets the number of connections."""
        self.write('desk', '#!/bin/sh\nprintf "%s|" "$@"\nexit 3\n')
        os.chmod(self.path('desk'), 0o755)
        os.mkdir(self.path('tools'))
        with mock.patch.object(cli, 'TOOLS', pathlib.Path(self.path('tools'))):
            for words, wanted in (
                (['report', '--db', 'a b', 'stock'], 'report|--db|a b|stock|'),
                (['serve', '--port', '0'], 'serve|--port|0|--connections|4294967295|'),
                (['serve', '--connections=1'], 'serve|--connections=1|'),
            ):
                with mock.patch.object(os, 'execv') as called:
                    called.side_effect = SystemExit
                    self.assertRaises(SystemExit, cli.run, words)
                program, line = called.call_args.args
                done = subprocess.run([program, *line[1:]], stdout=subprocess.PIPE, text=True)
                self.assertEqual((done.returncode, done.stdout), (3, wanted))


class Package(unittest.TestCase):
    def test_what_it_installs_is_there(self) -> None:
        """Each file that packaging/debian names is in the tree, or made by dev/make-deb."""
        made = ('desk ', 'sites/', 'completion/')
        with open(
            os.path.join(ROOT, 'packaging', 'debian', 'nulvrader.install'), encoding='utf-8'
        ) as file:
            for line in file:
                if not line.startswith(made):
                    source = line.split()[0]
                    found = list(pathlib.Path(ROOT).glob(source))
                    self.assertNotEqual(found, [], source)


if __name__ == '__main__':
    unittest.main()
