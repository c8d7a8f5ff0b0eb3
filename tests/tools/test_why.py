"""Shows that `tools/why` tells each mistake by which a desk does not start by what is wrong and
what to do, changes nothing of what it looks at, and has the rules of docs/TABLES.md."""
import contextlib
import errno
import os
import pwd
import re
import socket
import sqlite3
import subprocess
import sys
import unittest
from unittest import mock

from nulvrader.file import machine, opening, reasons
from nulvrader.file.rules import RULES
from tests.support.programs import ROOT, TOOLS, free_port, matched
from tests.support.first_schema import BEGUN, CANCELLED, FIRST
from tests.support.desks import DESK, Serving, over_sockets, run
from tests.support.why_files import OTHER, WhyTest, another_user, told


class Mistakes(WhyTest):
    """The seven behind `fault: Storage`, and those behind `fault: Net` and `fault: Damaged`, each
    over the program."""

    def test_no_folder(self) -> None:
        self.db = os.path.join(self.folder, 'no', 'where', 'warehouse.db')
        folder = os.path.dirname(self.db)
        self.check_fault(
            'Storage', f'The folder {os.path.dirname(folder)} is missing', f'`mkdir -p {folder}`'
        )

    def test_a_folder(self) -> None:
        self.db = self.folder
        self.check_fault(
            'Storage',
            f'{self.folder} is a folder: name a file in it, as {self.folder}/warehouse.db',
        )

    def test_a_file_in_the_place_of_a_folder(self) -> None:
        with open(self.db, 'w'):
            self.db += '/warehouse.db'
        self.check_fault('Storage', f'{os.path.dirname(self.db)} is not a folder')

    def test_no_database(self) -> None:
        with open(self.db, 'w') as file:
            file.write('load,place,at\n' * 100)
        self.check_fault(
            'Storage', "is no database: it begins with b'load,place,at\\nlo'", 'put a copy back'
        )

    def test_a_file_that_may_not_be_written(self) -> None:
        self.fill()
        os.chmod(self.folder, 0o777)
        os.chmod(self.db, 0o444)
        self.check_fault(
            'Storage', f'may not write {self.db} (-r--r--r-- ', '`chmod`', user=another_user()
        )

    def test_a_file_that_may_not_be_read(self) -> None:
        self.fill()
        os.chmod(self.folder, 0o777)
        os.chmod(self.db, 0o200)
        self.check_fault('Storage', f'may not read {self.db} (--w------- ', user=another_user())

    def test_a_folder_that_may_not_be_written(self) -> None:
        self.fill()
        os.chmod(self.db, 0o666)
        os.chmod(self.folder, 0o555)
        self.check_fault(
            'Storage',
            f'may not make files in the folder {self.folder} (dr-xr-xr-x ',
            user=another_user(),
        )

    def test_a_folder_that_may_not_be_looked_into(self) -> None:
        self.fill()
        os.chmod(self.db, 0o666)
        os.chmod(self.folder, 0o666)
        self.check_fault(
            'Storage', f'may not enter the folder {self.folder} (drw-rw-rw- ', user=another_user()
        )

    @unittest.skipUnless(os.geteuid() == 0, 'the rights of another user are asked for by root')
    def test_the_log_of_another_user(self) -> None:
        """Root has looked at the file, and left a log that the desk's user may not write; root asks
        what that user may."""
        self.fill(log=True)
        os.chmod(self.folder, 0o777)
        os.chown(self.db, pwd.getpwnam(OTHER).pw_uid, -1)
        os.chmod(self.db + '-wal', 0o644)
        part = f'The user nobody may not write {self.db}-wal (-rw-r--r-- root:root)'
        self.check_fault('Storage', part, user=OTHER)
        self.assertIn(part, self.look('--user', OTHER))
        self.look(expected=0)

    def test_a_full_disk(self) -> None:
        mounted = os.path.join(self.folder, 'disk')
        os.mkdir(mounted)
        done = subprocess.run(
            ['mount', '-t', 'tmpfs', '-o', 'size=64k', 'tmpfs', mounted], capture_output=True
        )
        if done.returncode:
            self.skipTest('no disk of a given size can be mounted here')
        try:
            self.db = os.path.join(mounted, 'warehouse.db')
            with open(os.path.join(mounted, 'fill'), 'wb') as file, contextlib.suppress(OSError):
                file.write(bytes(65536))
            self.check_fault(
                'Storage', f'The disk of {mounted} is full: 0 bytes are free', 'Make room'
            )
        finally:
            subprocess.run(['umount', mounted], check=True)

    def test_how_full_a_disk_may_be(self) -> None:
        for free, wanted in ((reasons.ROOM - 1, 1), (reasons.ROOM, 0)):
            with mock.patch.object(machine, 'free_bytes', lambda *_: free):
                self.assertEqual(len(told(self.db).reasons), wanted)

    def test_a_journal(self) -> None:
        """Another SQLite was stopped in the middle of a change."""
        self.fill()
        line = (
            f"import os, sqlite3; base = sqlite3.connect({self.db!r}); base.execute('PRAGMA"
            " journal_mode = DELETE'); base.execute('PRAGMA cache_size = 1');"
            " base.execute('BEGIN'); base.execute(\"UPDATE load SET id = id || 'x'\");"
            " base.execute('CREATE TABLE more AS SELECT * FROM node, edge, station, load');"
            " os._exit(0)"
        )
        subprocess.run([sys.executable, '-c', line], check=True)
        self.check_fault(
            'Storage',
            f'{self.db}-journal lies beside the file',
            f"`sqlite3 {self.db} 'SELECT 1 FROM sqlite_master'`",
        )
        with contextlib.closing(sqlite3.connect(self.db)) as base:
            base.execute('SELECT 1 FROM sqlite_master').fetchone()
        self.assertEqual(told(self.db).reasons, [])

    @over_sockets
    def test_a_desk_that_runs_already(self) -> None:
        with Serving(self.db) as desk:
            program = f'the program {desk.process.pid} ({DESK} serve --db {self.db} '
            self.check_fault(
                'Storage', program, f'has {self.db} open, and a desk needs its file to itself'
            )
            said = self.look('--port', str(desk.port))
            self.assertIn('A desk is running already: ' + program, said)
            self.assertIn(f'listens on port {desk.port}. Ask that one, or end it first', said)
        self.look('--port', str(desk.port), expected=0)

    @over_sockets
    def test_another_program_with_the_file(self) -> None:
        self.fill()
        with contextlib.closing(sqlite3.connect(self.db, isolation_level=None)) as base:
            base.execute('BEGIN IMMEDIATE')
            self.check_fault('Storage', f'the program {os.getpid()} (', f'has {self.db} open')
            base.execute('ROLLBACK')

    @over_sockets
    def test_a_port_in_use(self) -> None:
        self.fill()
        for address in ('127.0.0.1', ''):
            port = str(free_port())
            with socket.create_server((address, int(port))):
                program = f'the program {os.getpid()} ('
                self.check_fault(
                    'Net',
                    program,
                    f'listens on port {port} of ',
                    'name another port',
                    words=('--port', port),
                    port=port,
                )
        self.look('--port', port, expected=0)

    @over_sockets
    @unittest.skipUnless(os.geteuid() == 0, 'another user is needed')
    def test_a_port_of_another_user(self) -> None:
        """Who is not root is told the user, and a port for root alone."""
        os.chmod(self.folder, 0o777)
        with socket.create_server(('127.0.0.1', 0)) as listener:
            said = self.look('--port', str(listener.getsockname()[1]), user=OTHER)
            self.assertIn('a program of the user root (root sees which) listens on port', said)
        if machine.first_port() > 1:
            self.assertIn('may not use a port below', self.look('--port', '1', user=OTHER))

    def test_a_file_of_the_first_schema(self) -> None:
        """The command that is told moves it."""
        for text in (BEGUN, CANCELLED):
            with contextlib.suppress(FileNotFoundError):
                os.remove(self.db)
            self.write(FIRST, text)
            self.check_fault(
                'Damaged', 'is of the first schema', f"`sqlite3 {self.db} '.backup before.db'`"
            )
            command = matched('`(./desk migrate --db .*?)`', self.look())[1].split()
            self.assertEqual(run(*command[1:])[:2], (0, b'migrated\n'))
            self.assertEqual(told(self.db).reasons, [])

    def test_a_file_of_the_first_schema_that_breaks_a_rule(self) -> None:
        """It can't be moved; the rule is told, and not the command."""
        self.write(FIRST, BEGUN, "DELETE FROM hold WHERE id = 'N2'")
        self.assertEqual(run('migrate', '--db', self.db), (1, b'', b'fault: Damaged\n'))
        said = self.look()
        self.assertIn('    node N2: vehicle KIT/0001 holds it', said)
        self.assertNotIn('migrate', said)

    def test_the_database_of_another_application(self) -> None:
        """A desk would start on it, with its tables among the others."""
        self.write('CREATE TABLE customer (id); CREATE TABLE invoice (id)')
        said = self.look()
        self.assertIn("is another application's database: its tables are customer, invoice.", said)
        self.assertIn('name another file', said)

    def test_files_where_a_desk_begins(self) -> None:
        """None, an empty one, and a database without a table are nothing in the way."""
        self.assertIn(
            f'There is no file {self.db}: a desk that is started makes it', self.look(expected=0)
        )
        with open(self.db, 'w'):
            pass
        self.assertIn('is empty', self.look(expected=0))
        self.write('PRAGMA journal_mode = WAL')
        self.assertIn('without a table', self.look(expected=0))

    def test_a_file_that_can_not_be_looked_at(self) -> None:
        """Without room for a copy of a file with its log it is not said that all is well."""
        self.fill(log=True)
        with mock.patch.object(
            opening, '_copy', side_effect=OSError(errno.ENOSPC, 'No space left on device')
        ):
            (reason,) = told(self.db).reasons
        self.assertIn('could not be read: [Errno 28] No space left on device', reason)

    def test_the_clock(self) -> None:
        with mock.patch('time.time', lambda: 4102444800.0):
            self.assertIn('`fault: Clock`', told(self.db).reasons[0])

    def test_words_that_are_wrong(self) -> None:
        wrong: tuple[list[str], ...] = (
            [],
            ['--port', '80'],
            ['--db', 'x', '--port', '0'],
            ['--db', 'x', '--port', '65536'],
            ['--db', 'x', '--user', 'no one'],
        )
        for words in wrong:
            done = subprocess.run(
                [sys.executable, os.path.join(TOOLS, 'why'), *words], capture_output=True, text=True
            )
            self.assertEqual((done.returncode, done.stdout), (2, ''))
            self.assertIn('why: error:', done.stderr)


class Pages(unittest.TestCase):
    def test_the_rules(self) -> None:
        """docs/TABLES.md has each rule by its name and in its words."""
        with open(os.path.join(ROOT, 'docs', 'TABLES.md')) as file:
            page = file.read().split('\n## The rules of the rows\n')[1].split('\n#')[0]
        found = [
            (name, ' '.join(text.split()))
            for name, text in re.findall(
                r'^- \*\*(.*?)\*\*: (.*?)(?=\n- |\n\n|\Z)', page, re.M | re.S
            )
        ]
        self.assertEqual(found, [(rule.name, rule.text) for rule in RULES])

    def test_the_unit(self) -> None:
        """The desk's unit runs it where the desk ended with status 1."""
        with open(os.path.join(ROOT, 'examples', 'systemd', 'nulvrader-desk.service')) as file:
            script = matched(r"^ExecStopPost=[-+]*/bin/sh -c '(.*)'$", file.read(), re.M)[
                1
            ].replace('$$', '$')
        command = '/usr/bin/nulvrader why --db "$NULVRADER_DB" --port "$NULVRADER_PORT" --user desk'
        self.assertIn('exec ' + command, script)
        for status, wanted in (('0', ''), ('1', 'it ran\n'), ('2', ''), ('TERM', '')):
            line = script.replace(command, 'echo it ran')
            done = subprocess.run(
                ['sh', '-c', line],
                env={**os.environ, 'EXIT_STATUS': status},
                capture_output=True,
                text=True,
            )
            self.assertEqual((done.returncode, done.stdout, done.stderr), (0, wanted, ''))


if __name__ == '__main__':
    unittest.main()
