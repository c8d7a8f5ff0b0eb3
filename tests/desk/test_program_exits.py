"""Shows how the program ends for each line of words, file, input and output, and what it says of
it."""
from __future__ import annotations

import os
import re
import shutil
import socket
import sqlite3
import subprocess
import unittest
from typing import Any

from tests.support.desks import AT, DESK, ProgramTest, STOCK, Serving, over_sockets, run
from tests.support.program_words import EXAMPLES, MEMORY, OPTIONS, REFUSED, SQLITE, write_first


class Exits(ProgramTest):
    def fault(self, name: Any, words: Any, **others: Any) -> None:
        """These words end with this fault: 1, nothing on standard output, and its line on standard
        error."""
        others = {'stdin': subprocess.DEVNULL, 'stdout': subprocess.PIPE, **others}
        done = subprocess.run([DESK, *words], stderr=subprocess.PIPE, timeout=600, **others)
        self.assertEqual(
            (done.returncode, done.stdout or b'', done.stderr),
            (1, b'', b'fault: %s\n' % name),
            words,
        )

    def each(self, db: str) -> list[Any]:
        """A line of each of the three programs that serve or tell of this file."""
        return [
            ('replay', '--db', db, '--at', AT),
            ('serve', '--db', db, '--port', '0', '--connections', '0'),
            ('report', '--db', db, 'stock'),
        ]

    def all(self, db: str) -> list[Any]:
        """These, and one of the program that moves a file."""
        return [*self.each(db), ('migrate', '--db', db)]

    def test_words_that_are_refused(self) -> None:
        for words, wanted in REFUSED:
            done = subprocess.run(
                [DESK, *words], capture_output=True, timeout=600, cwd=self.folder.name
            )
            self.assertEqual((done.returncode, done.stdout), (2, b''), words[:4])
            self.assertEqual(done.stderr.decode()[: len(wanted)], wanted)
            self.assertEqual(os.listdir(self.folder.name), [], words[:4])

    def test_help_ends_with_an_example(self) -> None:
        for name, example in EXAMPLES.items():
            words = [name, '--help'] if name else ['--help']
            done = subprocess.run(
                [DESK, *words], capture_output=True, timeout=600, cwd=self.folder.name
            )
            self.assertEqual((done.returncode, done.stdout), (2, b''), words)
            self.assertEqual(done.stderr.decode().split('\n\n')[-1], f'Example: {example}\n', words)

    def test_help_tells_each_option(self) -> None:
        """With the name of its value, and what it is for."""
        for name, options in OPTIONS.items():
            said = subprocess.run(
                [DESK, name, '--help'], capture_output=True, timeout=600
            ).stderr.decode()
            found = dict(re.findall(r'^ +((?:--\w+ )?<[^>]+>) {2,}(\S.*)$', said, re.M))
            self.assertEqual(found, options, name)

    def test_the_examples_of_the_help(self) -> None:
        """Each is taken as it stands, `serve` with a free port and for no connection."""
        os.symlink(DESK, os.path.join(self.folder.name, 'desk'))
        with open(os.path.join(self.folder.name, 'requests.txt'), 'wb') as file:
            file.write(self.transport)
        sqlite = os.path.join(self.folder.name, 'sqlite3')
        with open(sqlite, 'w') as file:
            file.write(SQLITE)
        os.chmod(sqlite, 0o755)
        write_first(os.path.join(self.folder.name, 'desk.db'))
        # the first load of the file that is moved waits at A for its vehicle, on its way to B
        begun = (
            b'station A at N1: 1 of 1, reserved 0\n  L1\nstation B at N3: 0 of 1, reserved'
            b' 1\nstation C at N3: 0 of 2, reserved 0\nchecking: 0\nvehicle KIT/0001: 0\nleft: 0\n'
        )
        for name, wanted in (
            ('migrate', b'migrated\n'),
            ('report', begun),
            ('replay', STOCK),
            ('serve', b'listening on 127.0.0.1:'),
        ):
            line = EXAMPLES[name].replace(
                '--port 8080 --connections 100', '--port 0 --connections 0'
            )
            done = subprocess.run(
                ['sh', '-c', 'PATH=.:$PATH; ' + line],
                capture_output=True,
                timeout=600,
                cwd=self.folder.name,
            )
            self.assertEqual((done.returncode, done.stderr), (0, b''), line)
            found = (
                done.stdout[-len(wanted) :]
                if name == 'replay'
                else done.stdout[: len(wanted)]
                if name == 'serve'
                else done.stdout
            )
            self.assertEqual(found, wanted, line)
        base = sqlite3.connect(os.path.join(self.folder.name, 'before.db'))
        self.assertEqual(base.execute('SELECT * FROM meta').fetchall(), [(1, 1)])
        base.close()

    def test_least_and_greatest_values(self) -> None:
        for at in ('0', '+0', '4102444799999'):
            self.assertEqual(run('replay', '--db', 'memory', '--at', at), (0, b'', b''))

    def test_memory_is_a_file_elsewhere(self) -> None:
        for words in self.each('memory')[1:]:
            done = subprocess.run(
                [DESK, *words], capture_output=True, timeout=600, cwd=self.folder.name
            )
            self.assertEqual((done.returncode, done.stderr), (0, b''))
        self.assertIn('memory', os.listdir(self.folder.name))
        # `replay` of this name keeps nothing in the file, and sees nothing of it
        file = os.path.join(self.folder.name, 'memory')
        self.assertEqual(
            self.replay(b'POST /loads HTTP/1.1\r\nContent-Length: 13\r\n\r\n{"load":"L1"}', file)[
                0
            ],
            0,
        )
        done = subprocess.run(
            [DESK, 'replay', '--db', 'memory', '--at', AT],
            input=b'GET /loads/L1 HTTP/1.1\r\n\r\n',
            capture_output=True,
            timeout=600,
            cwd=self.folder.name,
        )
        self.assertTrue(done.stdout.endswith(b'{"name":"NoLoad","refusal":23}'))

    def test_files_that_cannot_be_opened(self) -> None:
        """`memory` by another spelling and an empty name are names of files that can't be had."""
        for db in (
            '',
            ':memory:',
            'file:a.db',
            self.folder.name,
            os.path.join(self.folder.name, 'a', 'b.db'),
            'x' * 100_000,
        ):
            for words in self.all(db):
                self.fault(b'Storage', words, cwd=self.folder.name)
        self.assertEqual(os.listdir(self.folder.name), [])

    def test_files_without_rights(self) -> None:
        """Of a file that may not be read or not be written nothing is served or moved, and it is
        left as it is."""
        self.replay(b'POST /loads HTTP/1.1\r\nContent-Length: 13\r\n\r\n{"load":"L1"}')
        first = os.path.join(self.folder.name, 'first.db')
        write_first(first)
        before = self.files(self.db, first)
        os.chmod(self.folder.name, 0o777)
        # who may do everything becomes nobody, who runs a copy of the program
        program = os.path.join(self.folder.name, 'desk')
        shutil.copy(DESK, program)
        os.chmod(program, 0o755)
        rights: dict[str, Any] = (
            {'preexec_fn': lambda: os.setuid(65534)} if os.getuid() == 0 else {}
        )
        for mode in (0o000, 0o444):
            os.chmod(self.db, mode)
            os.chmod(first, mode)
            for words in [*self.each(self.db), ('migrate', '--db', first)]:
                done = subprocess.run(
                    [program, *words],
                    stdin=subprocess.DEVNULL,
                    capture_output=True,
                    timeout=600,
                    **rights,
                )
                self.assertEqual(
                    (done.returncode, done.stdout, done.stderr),
                    (1, b'', b'fault: Storage\n'),
                    (mode, words),
                )
            after = self.files(self.db, first)
            self.assertEqual({name: after[name] for name in before}, before)

    def files(self, *dbs: Any) -> Any:
        """The bytes of the file, or of these files, and of the log beside each, where there is
        one."""
        found = {}
        for db in dbs or (self.db,):
            for name in (db, db + '-wal'):
                if os.path.exists(name):
                    with open(name, 'rb') as file:
                        found[name] = file.read()
        return found

    def test_an_input_that_cannot_be_read(self) -> None:
        folder = os.open(self.folder.name, os.O_RDONLY)
        self.fault(b'Read', MEMORY + ('--at', AT), stdin=folder)
        self.fault(b'Read', ('replay', '--db', self.db, '--at', AT), stdin=folder)
        os.close(folder)

    def test_faults_that_nobody_can_be_told(self) -> None:
        """The exit status is the same where standard error takes nothing."""
        with open('/dev/full', 'wb') as full:
            for words, status in (
                (('report', '--db', self.folder.name, 'stock'), 1),
                (('report',), 2),
            ):
                done = subprocess.run(
                    [DESK, *words],
                    stdin=subprocess.DEVNULL,
                    stdout=subprocess.PIPE,
                    stderr=full,
                    timeout=600,
                )
                self.assertEqual((done.returncode, done.stdout), (status, b''))

    def test_no_database(self) -> None:
        with open(self.db, 'wb') as file:
            file.write(b'this is no database, but a text of some length. ' * 100)
        before = self.files()
        for words in self.all(self.db):
            self.fault(b'Storage', words)
        self.assertEqual(self.files()[self.db], before[self.db])

    def test_a_database_of_others(self) -> None:
        base = sqlite3.connect(self.db)
        base.execute('CREATE TABLE load (a)')
        base.commit()
        base.close()
        before = self.files()
        for words in self.all(self.db):
            self.fault(b'Damaged', words)
        self.assertEqual(self.files()[self.db], before[self.db])

    def test_a_database_that_breaks_a_rule(self) -> None:
        """A load at a station that there is not."""
        self.replay(self.transport)
        base = sqlite3.connect(self.db)
        base.execute("UPDATE load SET station = 'Z'")
        base.commit()
        base.close()
        for words in self.each(self.db):
            self.fault(b'Damaged', words)

    @over_sockets
    def test_a_port_in_use(self) -> None:
        with socket.socket() as taken:
            taken.bind(('127.0.0.1', 0))
            taken.listen()
            port = str(taken.getsockname()[1])
            self.fault(b'Net', ('serve', '--db', self.db, '--port', port, '--connections', '1'))
            # the file is opened first
            self.fault(
                b'Storage',
                ('serve', '--db', self.folder.name, '--port', port, '--connections', '1'),
            )

    def test_output_that_nobody_takes(self) -> None:
        request = os.path.join(self.folder.name, 'request')
        with open(request, 'wb') as file:
            file.write(b'GET /loads/L1 HTTP/1.1\r\n\r\n')
        with open('/dev/full', 'wb') as full:
            for words in [MEMORY + ('--at', AT), *self.each(self.db)]:
                with open(request, 'rb') as stdin:
                    self.fault(b'Write', words, stdin=stdin, stdout=full)

    def test_a_move_of_no_file(self) -> None:
        """It leaves an empty database, which isn't moved either, and in which a desk begins
        anew."""
        for _ in range(2):
            self.fault(b'Damaged', ('migrate', '--db', self.db))
            base = sqlite3.connect(self.db)
            self.assertEqual(base.execute('SELECT * FROM sqlite_master').fetchall(), [])
            base.close()
        self.assertEqual(
            run('report', '--db', self.db, 'stock'), (0, b'checking: 0\nleft: 0\n', b'')
        )

    def test_a_move_whose_word_nobody_takes(self) -> None:
        """The file is moved all the same: a desk starts on it, and it isn't moved once more."""
        write_first(self.db)
        with open('/dev/full', 'wb') as full:
            self.fault(b'Write', ('migrate', '--db', self.db), stdout=full)
        base = sqlite3.connect(self.db)
        self.assertEqual(base.execute('SELECT * FROM meta').fetchall(), [(1, 2)])
        base.close()
        self.assertEqual(
            run('report', '--db', self.db, 'holds'),
            (0, b'node N1 KIT/0001\nnode N2 KIT/0001\nedge E12 KIT/0001\nheld 3 of 7\n', b''),
        )
        self.fault(b'Damaged', ('migrate', '--db', self.db))

    @over_sockets
    def test_a_second_program_is_told(self) -> None:
        """Whichever it is, of a file that a desk holds: it leaves each byte as it was, and the desk
        goes on with its file."""
        with Serving(self.db, 2) as desk:
            self.assertEqual(desk.ask('POST', '/loads', b'{"load":"L1"}'), (200, b'{}'))
            before = self.files()
            self.assertEqual(set(before), {self.db, self.db + '-wal'})
            for words in [*self.all(self.db), ('report', '--db', self.db, 'holds')]:
                self.fault(b'Storage', words)
                self.assertTrue(self.files() == before, words)
            self.assertEqual(desk.ask('POST', '/loads', b'{"load":"L2"}'), (200, b'{}'))
            self.assertEqual((desk.process.wait(300), desk.said.read()), (0, b''))
        self.assertEqual(
            run('report', '--db', self.db, 'stock'), (0, b'checking: 2\n  L1\n  L2\nleft: 0\n', b'')
        )
        base = sqlite3.connect(self.db)
        self.assertEqual(base.execute('PRAGMA integrity_check').fetchall(), [('ok',)])
        self.assertEqual(
            base.execute('SELECT id, kind FROM load ORDER BY id').fetchall(),
            [('L1', 'checking'), ('L2', 'checking')],
        )
        base.close()


if __name__ == '__main__':
    unittest.main()
