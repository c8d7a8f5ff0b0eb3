"""Counts and times, in the text form of Prometheus."""
from __future__ import annotations

import bisect
import threading
from collections.abc import Iterable, Mapping, Sequence
from dataclasses import dataclass, field

Labels = tuple[tuple[str, str], ...]
ESCAPES = str.maketrans({'\\': '\\\\', '"': '\\"', '\n': '\\n'})
FRONT = 'nulvrader_'


def labels_of(labels: Mapping[str, str]) -> Labels:
    """Returns labels in the order of their names."""
    return tuple(sorted(labels.items()))


def number(value: float) -> str:
    """Returns a number as it is written."""
    return str(int(value)) if value == int(value) else repr(value)


def sample(name: str, labels: Labels, value: float) -> str:
    """Returns the line of a value."""
    said = ','.join(f'{label}="{text.translate(ESCAPES)}"' for label, text in labels)
    return f'{FRONT}{name}{f"{{{said}}}" if said else ""} {number(value)}'


@dataclass(frozen=True)
class Family:
    """Values of one name: `kind` is `gauge`, `counter` or `histogram`."""

    name: str
    kind: str
    help: str
    lines: tuple[str, ...]

    def text(self) -> str:
        """Returns the lines of the metric, as they are answered."""
        head = f'# HELP {FRONT}{self.name} {self.help}', f'# TYPE {FRONT}{self.name} {self.kind}'
        return ''.join(f'{line}\n' for line in (*head, *self.lines))


def gauge(name: str, text: str, values: Mapping[Labels, float] | float) -> Family:
    """Returns what is so now, by labels or without."""
    rows = values if isinstance(values, Mapping) else {(): values}
    lines = tuple(sample(name, labels, value) for labels, value in rows.items())
    return Family(name, 'gauge', text, lines)


@dataclass
class Counter:
    """Counts since the start of the board, by labels. Threads may use it at the same time."""

    name: str
    help: str
    values: dict[Labels, float] = field(default_factory=dict)
    lock: threading.Lock = field(default_factory=threading.Lock)

    def known(self, label: str, texts: Iterable[str]) -> Counter:
        """Begins with 0 for each of these texts, so that the first increase is seen."""
        self.values |= {((label, text),): 0 for text in texts}
        return self

    def add(self, **labels: str) -> None:
        """Counts one more."""
        key = labels_of(labels)
        with self.lock:
            self.values[key] = self.values.get(key, 0) + 1

    def family(self) -> Family:
        """Returns the values as they are now."""
        with self.lock:
            rows = dict(self.values)
        lines = tuple(sample(self.name, labels, value) for labels, value in rows.items())
        return Family(self.name, 'counter', self.help, lines)


@dataclass
class Histogram:
    """Times in seconds since the start of the board, in classes up to each of `ends`. Threads may
    use it at the same time."""

    name: str
    help: str
    ends: Sequence[float]
    counts: list[int] = field(init=False)
    sum: float = 0.0
    lock: threading.Lock = field(default_factory=threading.Lock)

    def __post_init__(self) -> None:
        self.counts = [0] * (len(self.ends) + 1)

    def add(self, seconds: float) -> None:
        """Counts a time that was measured, in the bucket that it falls into."""
        with self.lock:
            self.counts[bisect.bisect_left(self.ends, seconds)] += 1
            self.sum += seconds

    def family(self) -> Family:
        """Returns the values as they are now."""
        with self.lock:
            counts, whole = list(self.counts), self.sum
        lines, below = [], 0
        for end, count in zip((*map(number, self.ends), '+Inf'), counts):
            below += count
            lines.append(sample(f'{self.name}_bucket', (('le', end),), below))
        lines += [sample(f'{self.name}_sum', (), whole), sample(f'{self.name}_count', (), below)]
        return Family(self.name, 'histogram', self.help, tuple(lines))
