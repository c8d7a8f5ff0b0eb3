"""Shows that a program of another user whose command line never comes keeps nobody waiting who asks
for the programs of the machine."""
from __future__ import annotations

import os
import signal
import subprocess
import sys
import unittest

from nulvrader.file import machine
from tests.attacks.local_users import AS_NOBODY, missing
from tests.support import stuck_memory
from tests.support.attacked_file import Attack, ran
from tests.support.programs import TOOLS

SOON = 3  # seconds in which a command line comes that comes at all
ASKS_FOR_A_MOUNT = """
from nulvrader.standby import gluster
print(gluster.flags_of('/no/such/mount'))
"""


@unittest.skipIf(missing('setpriv'), missing('setpriv'))
class StuckPrograms(Attack):
    """A program of a user without rights keeps the lock of its own memory."""

    def setUp(self) -> None:
        super().setUp()
        self.port = machine.free_port()
        with open(stuck_memory.__file__, encoding='utf-8') as file:
            line = [*AS_NOBODY, '/usr/bin/python3', '-c', file.read(), str(self.port)]
        self.stuck = subprocess.Popen(
            line, stdout=subprocess.PIPE, stderr=subprocess.DEVNULL, cwd='/', start_new_session=True
        )
        self.addCleanup(self.end)
        assert self.stuck.stdout is not None
        if self.stuck.stdout.readline() != b'listens\n':
            self.skipTest('no user without rights has a file system of its own here')
        cat = subprocess.Popen(['cat', f'/proc/{self.stuck.pid}/cmdline'], stdout=subprocess.PIPE)
        try:
            cat.communicate(timeout=SOON)
            self.skipTest('this system reads a command line without the lock')
        except subprocess.TimeoutExpired:
            cat.kill()
            cat.communicate()

    def end(self) -> None:
        """Ends the program, and with it its file system."""
        os.killpg(self.stuck.pid, signal.SIGKILL)
        self.stuck.communicate()

    def test_on_the_port_of_the_desk(self) -> None:
        """It listens on the port of a desk: `why` tells it, and does not wait for its words."""
        told = ran('why', '--db', self.db, '--port', str(self.port))
        self.check_sentence(told, 'why')
        # (on a busy machine the search for the program ends before it is found)
        self.assertIn(f' listens on port {self.port} of 127.0.0.1', told.text)

    def test_beside_a_mount(self) -> None:
        """It runs beside a standby, which looks for the program of its volume."""
        line = [sys.executable, '-c', ASKS_FOR_A_MOUNT]
        done = subprocess.run(line, capture_output=True, text=True, timeout=60, cwd=TOOLS)
        self.assertEqual((done.stdout, done.stderr), ('None\n', ''))
