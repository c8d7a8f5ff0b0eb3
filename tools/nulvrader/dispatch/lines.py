"""What the dispatcher says: each thing once, and again when it changes."""
from __future__ import annotations

from collections.abc import Callable


class Lines:
    """Lines for `say`. A wait is told after `told` seconds."""

    def __init__(self, say: Callable[[str], None], told: float) -> None:
        self.say, self.told = say, told
        self._said: dict[str, str] = {}  # what was said last of each name
        self._since: dict[str, tuple[str, float]] = {}  # of each name why it waits, and since when

    def once(
        self,
        name: str,
        what: str | None,
        line: str | None = None,
        over: str | None = None,
        say: Callable[[str], None] | None = None,
    ) -> None:
        """Says something of a name, where it is not what was said of it last: `line`, or else the
        words themselves, by `say`, or else as all lines. Where it is nothing, says that this is
        over, if something was said."""
        if what is None:
            if self._said.pop(name, None) is not None and over is not None:
                self.say(over)
        elif self._said.get(name) != what:
            self._said[name] = what
            (say or self.say)(line or what)

    def lasts(self, name: str, why: str | None, now: float) -> bool:
        """Whether a name has waited for a while for the same reason: true one time for each.
        Without a reason it does not wait."""
        if why is None:
            self._since.pop(name, None)
            return False
        before, since = self._since.setdefault(name, (why, now))
        if before != why:
            self._since[name] = why, now
        elif now - since >= self.told:
            self._since[name] = why, float('inf')
            return True
        return False
