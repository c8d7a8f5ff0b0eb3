"""Shows that one alone of two machines holds the lock over a file, and what becomes of the
other."""
from __future__ import annotations

import fcntl
import os
import signal
import struct
import subprocess
import sys
import threading
import unittest
from unittest import mock

from nulvrader.desk.client import Desk, NoAnswer
from nulvrader.file import reasons
from nulvrader.file.machine import User
from nulvrader.standby import lock, status
from nulvrader.standby.lock import Lock, NotHeld
from tests.support.desks import DESK
from tests.support.programs import PATIENCE, free_port, until
from tests.support.standing_by import Folder, STANDBY


class OneLock(Folder):
    def test_one_has_it(self) -> None:
        """The second one doesn't get it until the first has let it go, and knows who has it."""
        first, second = Lock(self.db), Lock(self.db)
        self.assertTrue(first.take())
        self.assertFalse(second.take())
        self.assertFalse(lock.is_free(self.db))
        holder = lock.holder_of(self.db)
        assert holder is not None
        self.assertEqual(holder.name, lock.machine_name())
        first.prove()
        first.close()
        self.assertTrue(lock.is_free(self.db))
        self.assertTrue(second.take())
        second.close()

    def test_a_copy_that_knows_no_lock(self) -> None:
        """GlusterFS may say that a lock is free which is held: then the record is still written."""
        one = Lock(self.db)
        self.assertTrue(one.take())
        unlocked = struct.pack('hhqqi', fcntl.F_UNLCK, os.SEEK_SET, 0, 0, 0)
        over = threading.Event()

        def prove() -> None:
            while not over.wait(0.3):
                one.prove()

        with mock.patch('nulvrader.standby.lock.is_shared', return_value=True):
            with mock.patch('fcntl.fcntl', return_value=unlocked), mock.patch.object(
                lock, 'STILL', 1
            ):
                self.assertTrue(lock.is_free(self.db))
                thread = threading.Thread(target=prove)
                thread.start()
                self.assertFalse(lock.is_free(self.db))
                over.set()
                thread.join()
        one.close()

    def test_a_proof_that_fails(self) -> None:
        """A write that the volume refuses is no proof."""
        one = Lock(self.db)
        self.assertTrue(one.take())
        with mock.patch('os.pwrite', side_effect=OSError(77, 'File descriptor in bad state')):
            with self.assertRaisesRegex(NotHeld, 'File descriptor in bad state'):
                one.prove()
        with mock.patch('os.pwrite', return_value=1):
            with self.assertRaises(NotHeld):
                one.prove()
        one.close()

    def test_a_volume_that_was_changed(self) -> None:
        """Once the mount has opened its files anew, it isn't known whether all copies have the
        lock."""
        link = self.path('.meta/graphs/active')
        os.makedirs(os.path.dirname(link))
        os.symlink('first', link)
        one = Lock(self.db)
        with mock.patch('nulvrader.standby.lock.mount_of', return_value=self.folder):
            self.assertTrue(one.take())
        one.prove()
        os.remove(link)
        os.symlink('second', link)
        with self.assertRaisesRegex(NotHeld, 'the volume was changed'):
            one.prove()
        one.close()

    def test_a_file_of_one_machine_is_synced(self) -> None:
        """Elsewhere than on a file system in user space, a write may be in memory alone."""
        one = Lock(self.db)
        with mock.patch('os.fdatasync') as sync:
            self.assertTrue(one.take())
            one.prove()
        self.assertEqual(sync.call_count, 2)
        one.close()

    def test_nothing_is_remembered(self) -> None:
        """Before a desk starts, what this machine has in memory of its file and its log is dropped;
        a volume that fails then is a lock that is lost."""
        names = [self.db, f'{self.db}-wal']
        for name in names:
            with open(name, 'w', encoding='utf-8') as file:
                file.write('x')
        dropped = []

        def advise(number: int, start: int, length: int, advice: int) -> None:
            dropped.append((os.readlink(f'/proc/self/fd/{number}'), start, length, advice))

        with mock.patch('os.posix_fadvise', side_effect=advise):
            lock.forget(self.db)
        self.assertEqual(dropped, [(name, 0, 0, os.POSIX_FADV_DONTNEED) for name in names])
        os.remove(names[1])
        lock.forget(self.db)
        with mock.patch('os.open', side_effect=OSError(107, 'not connected')):
            with self.assertRaisesRegex(NotHeld, 'not connected'):
                lock.forget(self.db)

    def test_why(self) -> None:
        """`why` tells the desk of another machine from a volume that fails."""
        one = Lock(self.db)
        with mock.patch('nulvrader.standby.lock.machine_name', return_value='m2'):
            self.assertTrue(one.take())
        me = User.of_this_program()
        self.assertRegex(
            reasons.find_reasons(self.db, None, me, 10).reasons[0],
            '^Another desk has .*: m2 since 20',
        )
        with mock.patch('os.pread', side_effect=OSError(107, 'not connected')):
            self.assertRegex(
                reasons.find_reasons(self.db, None, me, 10).reasons[0],
                '^The disk or the volume of .* fails: not',
            )
        one.close()
        self.assertEqual(reasons.find_reasons(self.db, None, me, 10).reasons, [])


class Two(Folder):
    """Two of them over one file, as on two machines."""

    def start(self, name: str) -> subprocess.Popen[str]:
        """Starts one."""
        words = [sys.executable, STANDBY, 'run', '--program', DESK, '--db', self.db]
        words += ['--socket', self.path(name), '--state', self.path(f'{name}.json')]
        words += ['--port', str(free_port())]
        process = subprocess.Popen(words, stderr=subprocess.PIPE, stdout=subprocess.PIPE, text=True)
        self.addCleanup(self.end, process)
        return process

    @staticmethod
    def end(process: subprocess.Popen[str]) -> None:
        """Ends one."""
        process.kill()
        process.communicate(timeout=PATIENCE)

    def status(self, name: str) -> int:
        """What `status` says of one."""
        return status.read(self.path(f'{name}.json'), PATIENCE).status

    def test_one_goes_on(self) -> None:
        """The second one waits while the first one serves, and serves what the first one has
        answered once that is killed; its desk dies with it."""
        first = self.start('a')
        until(lambda: self.status('a') == status.RUNS, 'the first serves')
        second = self.start('b')
        assert second.stderr is not None
        self.assertIn('another machine has the desk', second.stderr.readline())
        self.assertEqual(self.status('b'), status.STOPPED)
        self.assertFalse(os.path.exists(self.path('b')))
        Desk(f'unix:{self.path("a")}', timeout=PATIENCE).register_load('L1')
        first.send_signal(signal.SIGKILL)
        first.wait(PATIENCE)
        until(lambda: self.status('b') == status.RUNS, 'the second serves')
        self.assertEqual(
            Desk(f'unix:{self.path("b")}', timeout=PATIENCE).load('L1').place, 'checking'
        )
        with self.assertRaises(NoAnswer):
            Desk(f'unix:{self.path("a")}', timeout=PATIENCE).load('L1')
        until(lambda: self.status('a') != status.RUNS, 'the first has ended')

    def test_a_stop(self) -> None:
        """It takes its socket and its state away, and ends with 0; the lock is free."""
        process = self.start('a')
        until(lambda: self.status('a') == status.RUNS, 'it serves')
        process.terminate()
        self.assertEqual(process.wait(PATIENCE), 0)
        self.assertFalse(os.path.exists(self.path('a')))
        self.assertEqual(self.status('a'), status.STOPPED)
        self.assertTrue(lock.is_free(self.db))

    def test_wrong_arguments_of_the_desk(self) -> None:
        """The desk's status 2 is its own, for which nobody starts it again."""
        words = [sys.executable, STANDBY, 'run', '--db', self.db, '--socket', self.path('s')]
        done = subprocess.run(
            [*words, '--program', self.program('exit 2')], capture_output=True, timeout=PATIENCE
        )
        self.assertEqual(done.returncode, 2, done.stderr)

    def program(self, text: str) -> str:
        """A program that stands for the desk."""
        path = self.path('program')
        with open(path, 'w', encoding='utf-8') as file:
            file.write(f'#!/bin/sh\n{text}\n')
        os.chmod(path, 0o755)
        return path


class States(Folder):
    def test_what_it_says(self) -> None:
        """Only one that serves, runs, and has proved the lock lately is well."""
        me = os.getpid()
        for members, wanted in (
            ({'state': 'serving', 'at': 100.0, 'pid': me, 'why': ''}, status.RUNS),
            ({'state': 'serving', 'at': 80.0, 'pid': me, 'why': ''}, status.FAILED),
            ({'state': 'serving', 'at': 200.0, 'pid': me, 'why': ''}, status.FAILED),
            ({'state': 'serving', 'at': 100.0, 'pid': 2**22 + 1, 'why': ''}, status.FAILED),
            ({'state': 'waiting', 'at': 100.0, 'pid': me, 'why': 'm2'}, status.STOPPED),
            ({'state': 'starting', 'at': 100.0, 'pid': me, 'why': ''}, status.STOPPED),
        ):
            self.assertEqual(status.status_of(members, 15.0, 105.0).status, wanted, members)

    def test_no_file(self) -> None:
        self.assertEqual(status.read(self.path('none'), 15.0).status, status.STOPPED)


if __name__ == '__main__':
    unittest.main()
