"""Tests over a desk's file that is filled once."""
from __future__ import annotations

import os
import tempfile
import unittest


class FilledFile(unittest.TestCase):
    """The filled file lies in a folder of the class, below which each test has its own. Its classes
    fill it."""

    above: tempfile.TemporaryDirectory[str]
    filled: str
    place: str | None = None  # the folder in which the one of the class lies

    @classmethod
    def setUpClass(cls) -> None:
        cls.above = tempfile.TemporaryDirectory(dir=cls.place)
        cls.filled = os.path.join(cls.above.name, 'filled.db')

    @classmethod
    def tearDownClass(cls) -> None:
        cls.above.cleanup()

    def setUp(self) -> None:
        self.folder = tempfile.mkdtemp(dir=self.above.name)
