"""Shows what the script `desk` does where the program is there: in a small tree, over a stand-in
for `rt`."""
from __future__ import annotations

import os
import shutil
import signal
import sqlite3
import subprocess
import unittest

from tests.support.desks import DESK
from tests.support.desk_tree import PRINTED, REPLAY, Tree

HELP: dict[str, list[str]] = {
    'alone': [],
    'desk': ['--help'],
    **{it: [it, '--help'] for it in ('replay', 'serve', 'report', 'migrate')},
}
NOT_PROVED = 'desk: not proved: this program was built without its proofs\n'


class Built(Tree):
    """What the script does where the program is there."""

    def setUp(self) -> None:
        super().setUp()
        self.run_desk(*REPLAY)

    def make_database(self, name: str, *statements: str, journal: str = 'delete') -> str:
        path = os.path.join(self.work, name)
        with sqlite3.connect(path) as db:
            db.execute(f'PRAGMA journal_mode = {journal}')
            for statement in statements:
                db.execute(statement)
        db.close()
        return name

    def test_help_is_told_at_once(self) -> None:
        """With a program, and where there is none and none could be built."""
        for is_built in (True, False):
            for name, words in HELP.items():
                with self.subTest(words=words, is_built=is_built):
                    told = (2, '', self.read(f'docs/help/{name}.txt'))
                    self.assertEqual(self.run_desk(*words), told)
                    self.assertEqual(self.run_desk('--unproved', *words), told)
            shutil.rmtree(os.path.join(self.top, 'build'), ignore_errors=True)
        self.assertEqual(self.run_desk('-h'), self.run_desk('--help'))
        self.assertEqual(self.run_desk('help', 'serve'), self.run_desk('serve', '-h'))

    def test_a_current_program_runs_by_a_shell_alone(self) -> None:
        """Nothing that builds one is needed."""
        for name in ('python3', 'rt', 'flock'):
            os.remove(os.path.join(self.bin, name))
        self.assertEqual(self.run_desk(*REPLAY), (3, PRINTED, ''))
        self.assertEqual(self.run_desk('migrate', '--db', 'f')[0], 1)

    @unittest.skipUnless(os.path.exists(DESK), 'there is no program')
    def test_help_is_the_programs_own(self) -> None:
        for name, words in HELP.items():
            with self.subTest(words=words):
                done = subprocess.run([DESK, *words], capture_output=True, text=True)
                self.assertEqual(
                    (done.returncode, done.stdout, done.stderr),
                    (2, '', self.read(f'docs/help/{name}.txt')),
                )

    def test_reports_and_moves_are_of_a_desks_file_alone(self) -> None:
        """Each mistake is told in one line, and nothing is made."""
        os.mkdir(os.path.join(self.work, 'folder'))
        self.write(os.path.join(self.work, 'empty'), '')
        self.write(os.path.join(self.work, 'letter'), 'Dear SQLite format 3\n')
        self.make_database(
            'erp.db', 'CREATE TABLE hold (id)', 'CREATE TABLE holder (id)', 'CREATE TABLE legs (id)'
        )
        self.make_database('none.db', journal='wal')
        stands = sorted(os.listdir(self.work))
        for file, why in (
            ('misspelt.db', 'there is no file'),
            ('folder', 'is a folder'),
            ('empty', 'is not an SQLite database'),
            ('letter', 'is not an SQLite database'),
            ('erp.db', "without a desk's tables"),
            ('none.db', "without a desk's tables"),
        ):
            for words in (
                ['report', '--db', file, 'stock'],
                ['report', 'holds', '--db=' + file],
                ['migrate', '--db', file],
                ['--unproved', 'report', '--db', file, 'stock'],
            ):
                with self.subTest(words=words):
                    status, out, said = self.run_desk(*words)
                    self.assertEqual((status, out, said.count('\n')), (1, '', 1))
                    self.assertIn(why, said)
                    self.assertIn(file, said)
        self.assertEqual(sorted(os.listdir(self.work)), stands)
        self.assertEqual(len(self.calls()), 1, 'nothing was built for these')

    def test_a_desks_file_is_reported(self) -> None:
        """Its tables may be in the file or still in the log beside it, as made by the desk or by
        another SQLite."""
        self.make_database(
            'plain.db', 'CREATE TABLE hold (kind TEXT, id TEXT)', 'CREATE TABLE leg (order_id TEXT)'
        )
        self.make_database(
            'other.db', 'create table "hold"(kind TEXT)', "CREATE TABLE 'leg' (order_id TEXT)"
        )
        with open(os.path.join(self.work, 'plain.db'), 'rb') as file:
            whole = file.read()
        with open(os.path.join(self.work, 'young.db'), 'wb') as file:
            file.write(whole[:100])
        with open(os.path.join(self.work, 'young.db-wal'), 'wb') as file:
            file.write(b'\x37\x7f\x06\x82' + whole)
        for name in ('plain.db', 'other.db', 'young.db'):
            self.assertEqual(
                self.run_desk('report', '--db', name, 'stock'),
                (3, f'report|--db|{name}|stock|', ''),
            )
            self.assertEqual(
                self.run_desk('migrate', '--db=' + name), (3, f'migrate|--db={name}|', '')
            )

    @unittest.skipUnless(os.path.exists(DESK), 'there is no program')
    def test_the_programs_own_files_are_a_desks(self) -> None:
        db = os.path.join(self.work, 'real.db')
        served = subprocess.run(
            [DESK, 'serve', '--db', db, '--port', '0', '--connections', '0'],
            stdout=subprocess.DEVNULL,
        )
        self.assertEqual(served.returncode, 0)
        self.assertEqual(self.run_desk('report', '--db', 'real.db', 'stock')[0], 3)
        with sqlite3.connect(db) as other:
            self.assertEqual(other.execute('PRAGMA wal_checkpoint(truncate)').fetchone()[0], 0)
            other.execute('VACUUM')
        other.close()
        self.assertEqual(self.run_desk('report', '--db', 'real.db', 'stock')[0], 3)

    def test_a_new_warehouse_is_told(self) -> None:
        """On a file that isn't there, one that is empty, and one with other tables; not on a
        desk's, nor where there is no folder, nor for `replay`."""
        self.write(os.path.join(self.work, 'empty'), '')
        self.make_database('erp.db', 'CREATE TABLE item (id)')
        self.make_database(
            'plain.db', 'CREATE TABLE hold (kind TEXT, id TEXT)', 'CREATE TABLE leg (order_id TEXT)'
        )
        for name, said in (
            ('new.db', 'desk: new.db does not exist: a new warehouse begins in it\n'),
            ('plain.db', ''),
            ('no/new.db', ''),
            ('empty', "desk: empty has no tables of a desk: a new warehouse begins in it\n"),
            ('erp.db', "desk: erp.db has no tables of a desk: a new warehouse begins in it\n"),
        ):
            words = ['serve', '--db', name, '--port', '0', '--connections', '1']
            self.assertEqual(self.run_desk(*words), (3, '|'.join(words) + '|', said))
        self.assertEqual(self.run_desk('replay', '--db', 'new.db', '--at', '0')[2], '')

    def test_it_serves_without_end(self) -> None:
        """Without `--connections` the program is run again after each end with 0, until it ends
        otherwise."""
        self.set_program(
            '#!/bin/sh\necho "$*"\necho >>"$NOTES/runs"\n[ "$(grep -c "" "$NOTES/runs")" -lt 3 ] ||'
            ' exit 7\n'
        )
        line = 'serve --db f --port 8 --connections 4294967295\n'
        self.assertEqual(self.run_desk('serve', '--db', 'f', '--port', '8')[:2], (7, line * 3))
        for words in (['--connections', '5'], ['--connections=5']):
            os.remove(os.path.join(self.notes, 'runs'))
            self.assertEqual(
                self.run_desk('serve', '--db', 'f', '--port=8', *words)[:2],
                (0, f'serve --db f --port=8 {" ".join(words)}\n'),
            )

    def test_after_a_fault_it_names_what_tells_why(self) -> None:
        self.set_program('#!/bin/sh\necho "fault: Net" >&2\nexit "${STATUS-1}"\n')
        why = os.path.join(self.top, 'tools', 'why')
        self.assertEqual(self.run_desk('replay', '--db', 'f', '--at', '0'), (1, '', 'fault: Net\n'))
        self.write(why, '')
        told = f'fault: Net\ndesk: to see what is wrong, run: {why} --db f'
        self.assertEqual(self.run_desk('replay', '--db', 'f', '--at', '0'), (1, '', told + '\n'))
        self.make_database(
            'f', 'CREATE TABLE hold (kind TEXT, id TEXT)', 'CREATE TABLE leg (order_id TEXT)'
        )
        for words in (
            ['serve', '--db', 'f', '--port', '8'],
            ['serve', '--db', 'f', '--port=8', '--connections', '5'],
        ):
            self.assertEqual(self.run_desk(*words), (1, '', told + ' --port 8\n'))
        self.assertEqual(self.run_desk('serve', '--db', 'f', '--port', '0'), (1, '', told + '\n'))
        self.assertEqual(self.run_desk(*REPLAY), (1, '', 'fault: Net\n'))
        for status in (0, 2, 7):
            self.set_program(f'#!/bin/sh\nexit {status}\n')
            self.assertEqual(self.run_desk('replay', '--db', 'f', '--at', '0'), (status, '', ''))

    def test_what_tells_why_may_be_run_as_it_is_told(self) -> None:
        """Whatever signs the file's name has, a shell runs the command for that file."""
        self.set_program('#!/bin/sh\nexit 1\n')
        self.write('tools/why', '#!/bin/sh\nprintf "%s|" "$@"\n', 0o755)
        for name in (
            'a b.db',
            "it's.db",
            '$HOME;`ls`.db',
            '"a".db',
            "'",
            '*',
            'a\\b\nc.db',
            '\u00e4.db',
            'plain-1.db',
        ):
            with self.subTest(name):
                status, _, said = self.run_desk('replay', '--db', name, '--at', '0')
                command = said.partition('desk: to see what is wrong, run: ')[2]
                done = subprocess.run(
                    ['sh', '-c', command], cwd=self.work, capture_output=True, text=True
                )
                self.assertEqual((status, done.returncode, done.stdout), (1, 0, f'--db|{name}|'))
                self.assertEqual("'" in command, name != 'plain-1.db')

    def test_input_is_handed_on(self) -> None:
        self.set_program('#!/bin/sh\ncat || exit 5\n')
        for make_why in (False, True):
            if make_why:
                self.write('tools/why', '')
            process = self.start('replay', '--db', 'f', '--at', '0', stdin=subprocess.PIPE)
            self.assertEqual(
                (process.communicate('some\nlines', timeout=300)[0], process.returncode),
                ('some\nlines', 0),
            )
            closed = subprocess.run(
                ['sh', '-c', 'exec "$0" replay --db f --at 0 <&-', os.path.join(self.top, 'desk')],
                cwd=self.work,
                env={'PATH': self.bin, 'NOTES': self.notes},
                capture_output=True,
                timeout=300,
            )
            self.assertEqual(closed.returncode, 5)

    def test_signals_end_the_program(self) -> None:
        """Whether the script has become the program, or waits for it: both end, and by the signal
        that came."""
        self.set_program(
            '#!/bin/sh\necho "$$" >"$NOTES/pid.new"\nmv "$NOTES/pid.new" "$NOTES/pid"\nexec '
            'sleep 600\n'
        )
        for make_why in (False, True):
            if make_why:
                self.write('tools/why', '')
            for number in (signal.SIGTERM, signal.SIGINT, signal.SIGHUP, signal.SIGQUIT):
                with self.subTest(signal=number, waits=make_why):
                    process = self.start('serve', '--db', 'f', '--port', '8', '--connections', '1')
                    pid = os.path.join(self.notes, 'pid')
                    self.wait_for(pid)
                    program = int(self.read(pid))
                    os.remove(pid)
                    process.send_signal(number)
                    process.communicate(timeout=300)
                    self.assertEqual(process.returncode, -number)
                    self.assertFalse(os.path.exists(f'/proc/{program}'))

    def test_a_program_that_a_signal_ends_is_told(self) -> None:
        self.write('tools/why', '')
        self.set_program('#!/bin/sh\nkill -9 "$$"\n')
        self.assertEqual(self.run_desk('replay', '--db', 'f', '--at', '0')[0], 128 + signal.SIGKILL)


if __name__ == '__main__':
    unittest.main()
