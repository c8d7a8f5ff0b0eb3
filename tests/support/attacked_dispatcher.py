"""The dispatcher as a process, whose lines are read as they come."""
from __future__ import annotations

import contextlib
import os
import subprocess
import sys
import threading
from collections.abc import Iterator
from typing import Any

from tests.support.programs import TOOLS


@contextlib.contextmanager
def dispatching(address: str) -> Iterator[subprocess.Popen[str]]:
    """The dispatcher as a process. What it prints goes to the attributes `out` and `err`, which are
    read as they come."""
    words = ['--desk', address, '--every', '0.05', '--timeout', '20']
    line = [sys.executable, os.path.join(TOOLS, 'dispatch'), *words]
    pipe = subprocess.PIPE
    with subprocess.Popen(line, stdout=pipe, stderr=pipe, text=True) as program:
        try:
            yield program
        finally:
            program.kill()


class Lines:
    """The lines that a program prints, as they come."""

    def __init__(self, stream: Any) -> None:
        self.text, self._stream = '', stream
        threading.Thread(target=self._read, daemon=True).start()

    def _read(self) -> None:
        for line in self._stream:
            self.text += line
