"""How late a page is told, or shows, what the desk has come to know, for `bench/board`."""
from __future__ import annotations

import contextlib
import threading
import time
from collections.abc import Iterator, Mapping
from dataclasses import dataclass

SKEW = 0.05  # seconds by which what is seen may be before the desk's answer was read


@dataclass
class Change:
    """A value that something has come to have, and when the desk had answered so."""

    value: object
    at: float


class Lateness:
    """The seconds from each change until it was seen, by its kind, as `node`. A value that was
    followed by another one before it was seen counts until one of those behind it is seen; where
    that is the one which is shown already, until the next look. Threads may tell and see at the
    same time."""

    def __init__(self) -> None:
        self.late: dict[str, list[float]] = {}
        self.log: list[tuple[str, str, Change]] = []  # all changes, each with its kind and name
        self._open: dict[tuple[str, str], list[Change]] = {}
        self._last: dict[tuple[str, str], object] = {}
        self._shown: dict[tuple[str, str], object] = {}
        self._lock = threading.Lock()

    @contextlib.contextmanager
    def becoming(self, name: str, values: Mapping[str, object]) -> Iterator[None]:
        """Notes that the desk comes to know these values of a thing, by their kinds, while a block
        runs; nothing where the block raises. A value that the thing has already is no change."""
        begun = self._begin(name, values)
        try:
            yield
        except BaseException:
            self._drop(name, begun)
            raise
        with self._lock:
            for kind, (change, _) in begun.items():
                change.at = time.time()
                self.log.append((kind, name, change))

    def _begin(self, name: str, values: Mapping[str, object]) -> dict[str, tuple[Change, object]]:
        begun: dict[str, tuple[Change, object]] = {}
        with self._lock:
            for kind, value in values.items():
                before = self._last.get((kind, name))
                if (kind, name) in self._last and before == value:
                    continue
                self._last[kind, name] = value
                begun[kind] = Change(value, time.time()), before
                self._open.setdefault((kind, name), []).append(begun[kind][0])
        return begun

    def _drop(self, name: str, begun: Mapping[str, tuple[Change, object]]) -> None:
        with self._lock:
            for kind, (change, before) in begun.items():
                left = [one for one in self._open.pop((kind, name), []) if one is not change]
                self._open |= {(kind, name): left} if left else {}
                self._last[kind, name] = before

    def tell(self, kind: str, name: str, change: Change) -> None:
        """Notes a change of another one's `log`."""
        self._open.setdefault((kind, name), []).append(change)

    def saw(self, name: str, values: Mapping[str, object], at: float) -> None:
        """Notes that a thing was seen to have these values. What was not told of it is let be."""
        with self._lock:
            for kind, value in values.items():
                self._shown[kind, name] = value
                waiting = self._open.get((kind, name), [])
                found = [one.value == value and one.at <= at + SKEW for one in waiting]
                if True in found:
                    self._count(kind, name, found.index(True) + 1, at)

    def look(self, at: float) -> None:
        """Notes that all was looked at, of which `saw` told what was new; of what it never told is
        nothing there."""
        with self._lock:
            for (kind, name), waiting in list(self._open.items()):
                is_last = waiting[-1].value == self._shown.get((kind, name))
                if is_last and waiting[-1].at <= at:
                    self._count(kind, name, len(waiting), at)

    def _count(self, kind: str, name: str, seen: int, at: float) -> None:
        """Takes so many changes as seen at a moment."""
        waiting = self._open.pop((kind, name))
        late = self.late.setdefault(kind, [])
        late += [max(0.0, at - one.at) for one in waiting[:seen]]
        if waiting[seen:]:
            self._open[kind, name] = waiting[seen:]

    def begin(self) -> None:
        """Begins anew: what was told before is not measured."""
        with self._lock:
            self._open.clear()
            self.late.clear()
            self.log.clear()

    def end(self, patience: float) -> None:
        """Counts what was not seen yet, of what was told more than `patience` seconds ago."""
        now = time.time()
        with self._lock:
            for (kind, _), waiting in self._open.items():
                left = [now - one.at for one in waiting if now - one.at > patience]
                self.late.setdefault(kind, []).extend(left)
            self._open.clear()
