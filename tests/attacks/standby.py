"""Attacks on `tools/standby`: what lies in the place of its lock, its state and its socket, and
what GlusterFS, the cluster or another machine say."""
from __future__ import annotations

import os
import tempfile
import time
import unittest

from nulvrader.standby import cluster, gluster, lock, status
from nulvrader.standby.gluster import Unknown
from nulvrader.standby.holder import StateFile, remove_socket

SECRET = 'secret'


class HostileStandby(unittest.TestCase):
    def setUp(self) -> None:
        folder = tempfile.TemporaryDirectory()
        self.addCleanup(folder.cleanup)
        self.db = os.path.join(folder.name, 'warehouse.db')
        self.other = os.path.join(folder.name, 'other')
        with open(self.other, 'w', encoding='utf-8') as file:
            file.write(SECRET)

    def check_other(self) -> None:
        """The other file is as it was."""
        with open(self.other, encoding='utf-8') as file:
            self.assertEqual(file.read(), SECRET)

    def test_links(self) -> None:
        """A link in the place of the lock or of the state leads to no other file, and what is no
        socket is not removed."""
        os.symlink(self.other, lock.path_of(self.db))
        with self.assertRaises(OSError):
            lock.Lock(self.db).take()
        state = f'{self.db}.json'
        for name in (state, f'{state}.new'):
            os.symlink(self.other, name)
        StateFile(state).tell('serving')
        self.check_other()
        self.assertEqual(status.read(state, 60.0).status, status.RUNS)
        os.remove(state)
        os.symlink(self.other, state)
        self.assertEqual(status.read(state, 60.0).status, status.FAILED)
        remove_socket(state)
        remove_socket(self.other)
        self.check_other()
        self.assertTrue(os.path.islink(state))

    def test_pipes(self) -> None:
        """A pipe is not waited for."""
        os.mkfifo(lock.path_of(self.db))
        with self.assertRaises(OSError):
            lock.Lock(self.db).take()
        with self.assertRaises(OSError):
            lock.holder_of(self.db)
        os.mkfifo(f'{self.db}.json')
        self.assertEqual(status.read(f'{self.db}.json', 60.0).status, status.FAILED)

    def test_records(self) -> None:
        """A record of another machine is a name and numbers, or nothing."""
        for data in (
            b'', b'\xff' * 128, b'm1 \x1b[2J 1', b'm1 1', b'm1 -1 1', b'm1 1 1 1', b'../x 1 1',
            b'm' * 65 + b' 1 1', b'm1 ' + b'9' * 99 + b' 1', 'm1 \u0661 1'.encode(),
        ):  # fmt: skip
            self.assertIsNone(lock.Holder.parse(data), data)
        self.assertRegex(str(lock.Holder.parse(b'm1 999999999999999 1')), '^m1 since [ -~]+$')

    def test_states(self) -> None:
        """A state that another has written is one that fails."""
        for text in (
            '', '[]', '{}', 'null', '[' * 5000, '{"state": "serving"}', '"\x1b"', '9' * 5000,
            '{"state": "serving", "at": true, "pid": 1.5, "why": ""}',
            '{"state": "other", "at": 1, "pid": 1, "why": ""}',
            '{"state": "serving", "at": NaN, "pid": 1, "why": ""}',
            '{"state": "serving", "at": 1e999, "pid": 1, "why": ""}',
            '{"state": "serving", "at": 1, "pid": -1, "why": ""}',
        ):  # fmt: skip
            path = f'{self.db}.json'
            with open(path, 'w', encoding='utf-8') as file:
                file.write(text)
            self.assertEqual(status.read(path, 60.0).status, status.FAILED, text[:80])

    def test_answers_of_the_volume(self) -> None:
        """Answers with entities, of another form, or without what is asked are none."""
        entities = b'<!DOCTYPE a [<!ENTITY b "x">]><a><opRet>0</opRet></a>'
        for data in (b'', b'\0', b'<a>', entities, b'<a/>', b'x' * 1_000_001):
            with self.assertRaises(Unknown):
                gluster.parse(data)
        answer = gluster.parse(b'<a><opRet>0</opRet><volume><name>desk</name></volume></a>')
        with self.assertRaises(Unknown):
            gluster.read_volume(answer, 'desk')
        for name in ('', '-x', 'a b', 'a;b', '../a', 'a' * 65, '--xml'):
            with self.assertRaises(ValueError):
                gluster.volume_name(name)

    def test_words_of_the_cluster(self) -> None:
        """Long and odd words take no long time, and are not believed."""
        began = time.process_time()
        for text in (
            'Quorate' * 100_000,
            'A:' * 100_000,
            'Expected votes: 99999\nTotal votes: x\n',
        ):
            with self.assertRaises(Unknown):
                cluster.read_quorum(text)
        gluster.read_clients('[xlator.protocol.client.' * 50_000 + '\nfd.1.remote_fd' * 50_000)
        for text in ('<a', '<!DOCTYPE a><a/>', '\0'):
            with self.assertRaises(Unknown):
                cluster.read_properties(text)
        self.assertLess(time.process_time() - began, 60)


if __name__ == '__main__':
    unittest.main()
