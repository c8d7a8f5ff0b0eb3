"""The log of the board: lines of standard error, which the journal of systemd keeps."""
from __future__ import annotations

import sys

from ..common.text import shown


class FaultLog:
    """A line of the log for what is wrong with a file, once."""

    def __init__(self, head: str) -> None:
        self.head = head
        self.last: str | None = None

    def tell(self, fault: str | None) -> None:
        """Writes what is wrong now, unless that is written already."""
        if fault is not None and fault != self.last:
            log(f'{self.head}: {fault}')
        self.last = fault


def log(words: str) -> None:
    """Writes a line. What is in it of others can't write a second one, nor anything but text."""
    print(f'board: {shown(words, 500)}', file=sys.stderr, flush=True)
