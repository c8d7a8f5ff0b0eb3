"""A desk in a network of its own, and programs of other users in the same."""
from __future__ import annotations

import os
import re
import shutil
import signal
import subprocess
import tempfile
import unittest
from collections.abc import Sequence

from tests.support.board_run import FOLDER, PROGRAM
from tests.support.programs import ROOT, free_port

SYSTEMD = os.path.join(ROOT, 'examples', 'systemd')
PROGRAMS = ('unshare', 'nsenter', 'setpriv', 'curl', 'systemd-socket-activate')
SOCKET_PROXY = '/lib/systemd/systemd-socket-proxyd'
NOBODY, MEMBER, GROUP = 65534, 64001, 64002  # a user of no group, a user of the group, the group


def without_networks(*more: str) -> str:
    """Why no network of its own can be made here, or a program is missing; empty if all is
    there."""
    lacking = [name for name in (*PROGRAMS, *more) if shutil.which(name) is None]
    if lacking:
        return f"no {', no '.join(lacking)} here"
    if os.geteuid() != 0:
        return 'only root makes networks'
    done = subprocess.run(['unshare', '--net', 'true'], capture_output=True, check=False)
    return '' if done.returncode == 0 else 'the kernel makes no network here'


def said(unit: str, name: str) -> str:
    """A setting of a unit."""
    with open(os.path.join(SYSTEMD, unit), encoding='utf-8') as file:
        found = re.search(f'^{name}=(.*)$', file.read(), re.M)
    if found is None:
        raise AssertionError(f'{unit} has no {name}')
    return found[1]


class OwnNetwork(unittest.TestCase):
    """A desk in a network of its own, as `PrivateNetwork=yes` gives it one, and other users of the
    machine."""

    def setUp(self) -> None:
        folder = tempfile.TemporaryDirectory(dir=FOLDER)
        self.addCleanup(folder.cleanup)
        self.folder = folder.name
        os.chmod(self.folder, 0o755)
        self.port = free_port()
        inner = [PROGRAM, 'serve', '--db', os.path.join(self.folder, 'warehouse.db')]
        inner += ['--port', str(self.port), '--connections', '1000000']
        line = ['unshare', '--net', 'sh', '-c', 'ip link set lo up && exec "$0" "$@"', *inner]
        self.desk = self.start(line)
        assert self.desk.stdout is not None
        self.assertIn(b'listening on', self.desk.stdout.readline())

    def start(self, line: Sequence[str]) -> subprocess.Popen[bytes]:
        """Starts a program, which is ended with the test."""
        process = subprocess.Popen(line, stdout=subprocess.PIPE, stderr=subprocess.DEVNULL)
        self.addCleanup(self.end, process)
        return process

    @staticmethod
    def end(process: subprocess.Popen[bytes]) -> None:
        """Ends a program."""
        process.send_signal(signal.SIGKILL)
        process.wait(60)
        if process.stdout is not None:
            process.stdout.close()

    def inside(self, *line: str) -> list[str]:
        """A command in the network of the desk."""
        return ['nsenter', f'--net=/proc/{self.desk.pid}/ns/net', *line]

    @staticmethod
    def reaches(*ask: str, user: int, groups: str = '', front: Sequence[str] = ()) -> bool:
        """Whether a program of a user gets an answer of the desk: `curl`, with words behind it;
        `front` is before it."""
        who = ['setpriv', f'--reuid={user}', f'--regid={user}']
        who.append(f'--groups={groups}' if groups else '--clear-groups')
        line = [*front, *who, 'curl', '-s', '--max-time', '60', *ask]
        done = subprocess.run(line, capture_output=True, text=True, check=False)
        return 'held 0 of 0' in done.stdout
