"""What the tests of faults begin with: a folder and a file that each test has for itself."""
import os
import tempfile
import unittest
from typing import Any

from tests.support import tracing
from tests.support.faults import full_log, scripts
from tests.support.records import FOLDER
from tests.support.desks import AT, DESK

LACKS = tracing.lacks()
FULL = 'a full log'


class FaultTest(unittest.TestCase):
    def setUp(self) -> None:
        self.folder = tempfile.TemporaryDirectory(dir=FOLDER)
        self.db = os.path.join(os.path.realpath(self.folder.name), 'desk.db')
        self.words = [DESK, 'replay', '--db', self.db, '--at', AT]

    def tearDown(self) -> None:
        self.folder.cleanup()

    def serving(self, connections: int) -> list[str]:
        """The words by which the program serves so many connections; they are as long for few as
        for many."""
        return [
            DESK,
            'serve',
            '--db',
            self.db,
            '--port',
            '0',
            '--connections',
            f'{connections:04d}',
        ]

    def played(self, name: str) -> Any:
        with tempfile.TemporaryDirectory(dir=FOLDER) as folder:
            return (full_log() if name == FULL else scripts()[name]).play(folder)
