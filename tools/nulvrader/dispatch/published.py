"""Publishes why vehicles and jobs wait, in a file that the board reads."""
from __future__ import annotations

import time
from collections.abc import Callable, Mapping

from ..common.reasons import OLD, Reasons, write_file
from .lines import Lines

EVERY = OLD / 5
"""What has not changed is written again after so many seconds."""


class Published:
    """The file at a path. A file that can't be written is told, and keeps nothing from going on."""

    def __init__(
        self, path: str, say: Callable[[str], None], wall: Callable[[], float] = time.time
    ) -> None:
        self.path, self.wall, self.lines = path, wall, Lines(say, 0.0)
        self._last: Reasons | None = None

    def tell(self, waits: Mapping[str, str]) -> None:
        """Writes why each waits, where that is new, or was written a while ago."""
        now, last = self.wall(), self._last
        if last is not None and last.waits == waits and abs(now - last.at) < EVERY:
            return
        self._last = Reasons(now, dict(waits))
        try:
            write_file(self.path, self._last)
            self.lines.once('file', None, over=f'{self.path} can be written again')
        except OSError as fault:
            self.lines.once('file', f'{self.path}: {fault.strerror}: the board is told nothing')
