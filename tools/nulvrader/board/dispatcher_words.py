"""Shows why vehicles and jobs wait, as the dispatcher writes it in a file."""
from __future__ import annotations

import time
from collections.abc import Callable

from ..common.reasons import OLD, NoReasons, Reasons, read_file
from .journal import FaultLog
from .page_state import Shown
from .shown_rows import WHY

EVERY = 1.0  # seconds from one look at the file to the next


class DispatcherWords:
    """What a dispatcher says, put where pages are told of it. A file that is missing, wrong or old
    says nothing; what is wrong is a line of the log, once."""

    def __init__(self, shown: Shown, path: str, wall: Callable[[], float] = time.time) -> None:
        self.shown, self.path, self.wall = shown, path, wall
        self.due = 0.0
        self.faults = FaultLog('the dispatcher tells nothing')

    def turn(self) -> None:
        """Looks at the file, where that is due."""
        if time.monotonic() < self.due:
            return
        self.due = time.monotonic() + EVERY
        waits = self._read().waits
        for name in self.shown.all(WHY).keys() - waits.keys():
            self.shown.put(WHY, name, None)
        for name, why in waits.items():
            self.shown.put(WHY, name, why)

    def _read(self) -> Reasons:
        try:
            found, fault = read_file(self.path), None
        except NoReasons as wrong:
            found, fault = Reasons(), str(wrong)
        self.faults.tell(fault)
        return found if abs(self.wall() - found.at) <= OLD else Reasons()
