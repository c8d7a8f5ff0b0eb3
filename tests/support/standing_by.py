"""A folder of its own for a desk with a standby."""
from __future__ import annotations

import os
import tempfile
import unittest

from tests.support.programs import ROOT, TOOLS

STANDBY = os.path.join(TOOLS, 'standby')
EXAMPLES = os.path.join(ROOT, 'examples', 'standby')


class Folder(unittest.TestCase):
    """A folder of its own, with the path of a desk's file."""

    def setUp(self) -> None:
        folder = tempfile.TemporaryDirectory()
        self.addCleanup(folder.cleanup)
        self.folder = folder.name
        self.db = self.path('warehouse.db')

    def path(self, name: str) -> str:
        """A file of the folder."""
        return os.path.join(self.folder, name)
