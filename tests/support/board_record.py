"""Tests over a record of the board in a file of their own."""
from __future__ import annotations

import os
import tempfile
import unittest

from nulvrader.board.record import Record


class Recorded(unittest.TestCase):
    """Each test has a record of its own, and the path of its file."""

    def setUp(self) -> None:
        folder = tempfile.TemporaryDirectory()
        self.addCleanup(folder.cleanup)
        self.path = os.path.join(folder.name, 'board.db')
        self.record = Record(self.path)
        self.addCleanup(self.record.close)
