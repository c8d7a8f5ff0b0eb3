"""A folder with a configuration and a layout, in which a desk is installed."""
from __future__ import annotations

import contextlib
import os
import subprocess
import sys
import tempfile
import unittest
from collections.abc import Callable, Iterator, Sequence

from nulvrader.common.names import VehicleKey
from nulvrader.desk.client import Desk
from tests.support.desks import DESK, Serving
from tests.support.programs import TOOLS

CLI = os.path.join(TOOLS, 'nulvrader-cli')
ONE, TWO = VehicleKey('KIT', '0001'), VehicleKey('KIT', '0002')
LAYOUT = """kind,id,from,to
node,N1,,
node,N2,,
node,N3,,
edge,E12,N1,N2
edge,E21,N2,N1
edge,E23,N2,N3
edge,E32,N3,N2
station,A,N1,2
station,B,N3,2
"""
OTHER = 65534  # a user that is not root


class Installed(unittest.TestCase):
    """A folder with a configuration, a layout, and what is installed there."""

    def setUp(self) -> None:
        folder = tempfile.TemporaryDirectory()
        self.addCleanup(folder.cleanup)
        self.here = folder.name
        # (the user of a desk that is installed here may make files, and remove none of root's)
        os.chmod(self.here, 0o1777)
        self.db = self.path('warehouse.db')
        self.write('layout.csv', LAYOUT)
        self.configure('unix:/none')

    def path(self, *names: str) -> str:
        """A file of the folder."""
        return os.path.join(self.here, *names)

    def write(self, name: str, text: str) -> str:
        """Writes a file of the folder, and returns its path."""
        with open(self.path(name), 'w', encoding='utf-8') as file:
            file.write(text)
        return self.path(name)

    def configure(self, desk: str) -> None:
        """Writes the configuration."""
        rows = {'DB': self.db, 'DESK': desk, 'LAYOUT': self.path('etc.csv')}
        self.write('conf', ''.join(f'NULVRADER_{name}={value}\n' for name, value in rows.items()))

    def run_cli(self, *words: str, said: str = '') -> tuple[int, str, str]:
        """Runs the one command: its status, what it prints, and what it says on standard error."""
        env = {**os.environ, 'NULVRADER_CONF': self.path('conf')}
        line = [sys.executable, CLI, *words]
        done = subprocess.run(line, input=said, capture_output=True, text=True, env=env)
        return done.returncode, done.stdout, done.stderr

    def init(self) -> tuple[int, str, str]:
        """Makes the file, and starts nothing."""
        return self.run_cli('init', self.path('layout.csv'), '--no-start', '--program', DESK)

    @contextlib.contextmanager
    def serving(self) -> Iterator[Desk]:
        """The desk on the file, and in the configuration."""
        with Serving(self.db, 10_000_000) as running:
            self.configure(f'127.0.0.1:{running.port}')
            yield Desk(f'127.0.0.1:{running.port}', timeout=60)


def answering(answers: Sequence[str | Callable[[], str]]) -> Callable[[str], str]:
    """An `input` that gives these answers, one after another, and then has no more."""
    left = iter(answers)

    def answer(_: str) -> str:
        for one in left:
            return one if isinstance(one, str) else one()
        raise EOFError

    return answer
