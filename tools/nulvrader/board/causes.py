"""By which call something was changed, as far as that is known: the commands of this board are
known before the desk has them, those of other clients are not."""
from __future__ import annotations

import threading
from collections import deque
from collections.abc import Callable, Mapping
from dataclasses import dataclass

from .events import Cause

KEPT = 500  # commands
LATE = 30_000  # milliseconds from the end of a command, within which what it changes is seen


@dataclass
class SentCommand:
    """A command of this board: the number of its row, who gave it, what it says, and its moment.
    `done` is None until the answer has come, and where it never does."""

    number: int
    who: str
    name: str
    values: Mapping[str, str]
    at: int
    done: bool | None = None
    ended: int | None = None


Matches = Callable[[Mapping[str, str]], bool]


class SentCommands:
    """The last commands of this board. Threads may use it at the same time."""

    def __init__(self) -> None:
        self._lock = threading.Lock()
        self._sent: deque[SentCommand] = deque(maxlen=KEPT)

    def note_sending(
        self, number: int, who: str, name: str, values: Mapping[str, str], at: int
    ) -> None:
        """Notes that a command is about to be sent."""
        with self._lock:
            self._sent.append(SentCommand(number, who, name, values, at))

    def note_outcome(self, number: int, done: bool | None, at: int) -> None:
        """Notes what came of a command."""
        with self._lock:
            for sent in self._sent:
                if sent.number == number:
                    sent.done, sent.ended = done, at

    def find(self, names: tuple[str, ...], matches: Matches, at: int) -> Cause | None:
        """Returns the last command of these names that was not refused and whose values match,
        where it may have caused what is seen at a moment; else None."""
        with self._lock:
            for sent in reversed(self._sent):
                is_late = sent.ended is not None and at > sent.ended + LATE
                if sent.name not in names or sent.done is False or is_late:
                    continue
                if matches(sent.values):
                    return Cause('person', sent.who or None, sent.name, sent.number)
        return None

    def cause(self, names: tuple[str, ...], matches: Matches, at: int) -> Cause:
        """Returns the same, or another client of the desk, by one of these calls."""
        return self.find(names, matches, at) or Cause('client', call=' or '.join(names))
