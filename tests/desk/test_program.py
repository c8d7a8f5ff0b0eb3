"""Shows that the program carries out a transport, in memory, in a file, over `curl` and in the
demo, and that noise does it no harm."""
from __future__ import annotations

import os
import re
import shutil
import sqlite3
import subprocess
import sys
import unittest

from tests.support.desks import AT, DESK, HOLDS, ProgramTest, STOCK, Serving, over_sockets, run
from tests.support.programs import ROOT, matched


class Replay(ProgramTest):
    def test_a_transport_in_memory_and_in_a_file(self) -> None:
        status, memory, said = self.replay(self.transport, 'memory')
        self.assertEqual((status, said), (0, b''))
        self.assertIn(b'"place":"station B"', memory)
        status, file, said = self.replay(self.transport)
        self.assertEqual((status, said), (0, b''))
        self.assertEqual(file, memory)

    def test_the_first_load(self) -> None:
        head = b'HTTP/1.1 200 OK\r\nContent-Length: %d\r\nContent-Type: application/json\r\n\r\n'
        wanted = head % 2 + b'{}' + head % 43 + b'{"job":null,"load":"L1","place":"checking"}'
        stdin = (
            b'POST /loads HTTP/1.1\r\nContent-Length: 13\r\n\r\n{"load":"L1"}GET /loads/L1'
            b' HTTP/1.1\r\n\r\n'
        )
        self.assertEqual(self.replay(stdin, 'memory'), (0, wanted, b''))
        self.assertEqual(self.replay(stdin), (0, wanted, b''))

    def test_a_second_run_goes_on(self) -> None:
        status, out, _ = self.replay(
            b'POST /loads HTTP/1.1\r\nContent-Length: 13\r\n\r\n{"load":"L1"}'
        )
        self.assertEqual((status, out[-2:]), (0, b'{}'))
        status, out, _ = self.replay(b'GET /loads/L1 HTTP/1.1\r\n\r\n')
        self.assertEqual((status, out[-43:]), (0, b'{"job":null,"load":"L1","place":"checking"}'))

    def test_reports(self) -> None:
        """They are the same before the file is closed and once it is opened again, by a request and
        by `report`."""
        stock, holds = (b'GET /report/%s HTTP/1.1\r\n\r\n' % name for name in (b'stock', b'holds'))
        self.assertTrue(self.transport.endswith(stock))
        head = b'HTTP/1.1 200 OK\r\nContent-Length: %d\r\nContent-Type: text/plain\r\n\r\n'
        wanted = b''.join(head % len(text) + text for text in (STOCK, HOLDS))
        status, out, said = self.replay(self.transport + holds)
        self.assertEqual((status, out[-len(wanted) :], said), (0, wanted, b''))
        self.assertEqual(self.replay(stock + holds), (0, wanted, b''))
        self.assertEqual(run('report', '--db', self.db, 'stock'), (0, STOCK, b''))
        self.assertEqual(run('report', '--db', self.db, 'holds'), (0, HOLDS, b''))

    @over_sockets
    def test_the_file_while_a_desk_holds_it(self) -> None:
        """Another SQLite is told that it is locked, and harms nothing; a copy of the two files can
        be read."""
        with Serving(self.db) as desk:
            self.assertEqual(desk.ask('POST', '/loads', b'{"load":"L1"}')[0], 200)
            other = sqlite3.connect(self.db, timeout=0)
            with self.assertRaisesRegex(sqlite3.OperationalError, 'locked'):
                other.execute('SELECT * FROM load')
            other.close()
            for end in ('', '-wal'):
                shutil.copy(self.db + end, os.path.join(self.folder.name, 'copy.db' + end))
            self.assertEqual(desk.ask('POST', '/loads', b'{"load":"L2"}')[0], 200)
        for name, loads in (('copy.db', ['L1']), ('warehouse.db', ['L1', 'L2'])):
            base = sqlite3.connect(os.path.join(self.folder.name, name))
            self.assertEqual(base.execute('PRAGMA integrity_check').fetchall(), [('ok',)])
            self.assertEqual(
                base.execute('SELECT * FROM load').fetchall(),
                [(load, 'checking', None, None, None) for load in loads],
            )
            base.close()

    def test_a_copy_by_another_sqlite(self) -> None:
        """What README says of a backup: a copy by SQLite's own means is a desk's file, with the
        same report."""
        self.replay(self.transport)
        copy = os.path.join(self.folder.name, 'copy.db')
        base, other = sqlite3.connect(self.db), sqlite3.connect(copy)
        base.backup(other)
        base.close()
        other.close()
        for db in (copy, self.db):
            self.assertEqual(run('report', '--db', db, 'stock'), (0, STOCK, b''))

    def test_the_program_is_one_file(self) -> None:
        """A copy in an empty folder runs with an empty environment, and loads nothing of the
        kit."""
        alone = os.path.join(self.folder.name, 'alone')
        os.mkdir(alone)
        shutil.copy(DESK, os.path.join(alone, 'desk'))
        words = ['./desk', 'replay', '--db', 'memory', '--at', AT]
        done = subprocess.run(
            words,
            cwd=alone,
            env=dict[str, str](),
            input=b'GET /loads/L1 HTTP/1.1\r\n\r\n',
            capture_output=True,
            timeout=600,
        )
        self.assertEqual((done.returncode, done.stderr), (0, b''))
        self.assertTrue(done.stdout.endswith(b'{"name":"NoLoad","refusal":23}'))
        loads = subprocess.run(['ldd', DESK], capture_output=True, text=True).stdout
        self.assertNotIn('rattle', loads)

    def test_pages(self) -> None:
        """A new file has pages of 512 bytes, and one that is there keeps those that it has: a desk
        goes on with each of them."""
        for number, size in enumerate((512, 1024, 4096, 65536, 512)):
            with self.subTest(size=size):
                if number > 0:
                    base = sqlite3.connect(self.db, isolation_level=None)
                    base.executescript(
                        f'PRAGMA journal_mode = DELETE; PRAGMA page_size = {size}; VACUUM'
                    )
                    base.close()
                done = self.replay(
                    b'POST /loads HTTP/1.1\r\nContent-Length: 13\r\n\r\n{"load":"L%d"}' % number
                )
                self.assertEqual((done[0], done[1][-2:], done[2]), (0, b'{}', b''))
                base = sqlite3.connect(self.db)
                self.assertEqual(base.execute('PRAGMA page_size').fetchall(), [(size,)])
                self.assertEqual(base.execute('PRAGMA integrity_check').fetchall(), [('ok',)])
                self.assertEqual(
                    base.execute('SELECT count(*) FROM load').fetchall(), [(number + 1,)]
                )
                base.close()

    def test_the_file_is_a_database(self) -> None:
        self.replay(self.transport)
        base = sqlite3.connect(self.db)
        self.assertEqual(base.execute('PRAGMA integrity_check').fetchall(), [('ok',)])
        self.assertIn(
            ('L1', 'station', 'B', None, None), base.execute('SELECT * FROM load').fetchall()
        )
        base.close()


@over_sockets
class Demo(ProgramTest):
    def test_a_small_plant(self) -> None:
        """It names the page of the board, gives jobs by orders, and ends with all jobs done, or
        stopped where an action failed, in the words of the plant that looks at every place."""
        demo = os.path.join(ROOT, 'examples', 'demo')
        words = ['--program', DESK, '--jobs', '3', '--pace', '20']
        done = subprocess.run(
            [sys.executable, demo, *words], capture_output=True, timeout=1800, text=True
        )
        self.assertEqual(done.returncode, 0, done.stdout + done.stderr)
        self.assertRegex(done.stdout, r'the board is at http://127\.0\.0\.1:\d+\n')
        ended = matched(
            r'\n(\d) jobs done and (\d) stopped, in \d+ minutes of the plant', done.stdout
        )
        self.assertEqual(sum(int(count) for count in ended.groups()), 3, done.stdout)
        self.assertGreater(int(ended.group(1)), 0, done.stdout)
        orders = re.findall(r'takes job-\d .*by order (\S+)', done.stdout)
        self.assertGreater(len(orders), 0)
        # (the dispatcher may be ended before it has told of the last ones)
        self.assertLessEqual(set(re.findall(r'order (\S+) has ended', done.stdout)), set(orders))


@over_sockets
class WithCurl(ProgramTest):
    @unittest.skipUnless(shutil.which('curl'), 'curl is not here')
    def test_a_transport(self) -> None:
        script = os.path.join(ROOT, 'examples', 'transport.sh')
        with Serving(self.db) as desk:
            done = subprocess.run([script, str(desk.port)], capture_output=True, timeout=600)
        self.assertEqual((done.returncode, done.stderr), (0, b''))
        told = done.stdout.decode()
        self.assertNotIn('refusal', told)
        self.assertEqual(re.findall(r'"place":"([^"]*)"', told), ['vehicle KIT/0001', 'station B'])
        self.assertEqual(re.findall(r'held (\d) of (\d)', told), [('3', '7'), ('1', '7')])
        self.assertIn('station B at N3: 1 of 1, reserved 0\n  L1\n', told)


if __name__ == '__main__':
    unittest.main()
