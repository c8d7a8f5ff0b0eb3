"""Keeps threads to a share of a processor, so that whoever asks much does not hold up the one that
follows the desk."""
from __future__ import annotations

import threading
import time
from collections.abc import Callable
from typing import TypeVar

T = TypeVar('T')


class Share:
    """Lets one piece of work be done at a time, and a pause follow each that is as long as the
    share wants it."""

    def __init__(self, share: float) -> None:
        self._pause = 1 / share - 1  # seconds for each second of a processor
        self._lock = threading.Lock()
        self._due = 0.0

    def run(self, work: Callable[[], T]) -> T:
        """Does a piece of work once it is due."""
        with self._lock:
            time.sleep(max(0.0, self._due - time.monotonic()))
            begun = time.thread_time()
            try:
                return work()
            finally:
                self._due = time.monotonic() + self._pause * (time.thread_time() - begun)
