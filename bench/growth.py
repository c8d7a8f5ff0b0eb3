"""How the memory of a program and its file grow, for `bench/board`."""
from __future__ import annotations

import contextlib
import os
import sqlite3
import statistics
import threading
import time

DAY = 86_400
MINUTE = 60.0


def memory_of(number: int) -> float:
    """Returns what a process has in memory, in MB."""
    with open(f'/proc/{number}/status') as file:
        kept = next(line for line in file if line.startswith('VmRSS:'))
    return int(kept.split()[1]) / 1000


def size_of(path: str) -> int:
    """Returns the bytes of a file of SQLite and of its journal."""
    return sum(os.path.getsize(one) for one in (path, f'{path}-wal') if os.path.exists(one))


def rows_by_table(path: str) -> dict[str, int]:
    """Returns how many rows each table of a file of SQLite has."""
    found = {}
    with contextlib.closing(sqlite3.connect(path)) as base:
        for (name,) in base.execute(
            "SELECT name FROM sqlite_schema WHERE type = 'table'"
        ).fetchall():
            found[name] = int(base.execute(f'SELECT count(*) FROM {name}').fetchone()[0])
    return found


class Growth:
    """Looks at a process and its file from time to time, from when this is made until `told`."""

    def __init__(self, process: int, path: str, every: float) -> None:
        self.process, self.path, self.every = process, path, every
        self.before = rows_by_table(path)
        self.seen: list[tuple[float, float, int]] = []
        self.over = threading.Event()
        self.thread = threading.Thread(target=self.look, daemon=True)
        self.thread.start()

    def look(self) -> None:
        """Looks until it is over."""
        while True:
            self.seen.append((time.monotonic(), memory_of(self.process), size_of(self.path)))
            if self.over.wait(self.every):
                return

    def told(self) -> list[tuple[str, str]]:
        """Ends it. The rows of a table: the memory on average in each quarter of the time, by how
        much the file grows in a day at that pace, and which tables grow."""
        self.over.set()
        self.thread.join()
        part = max(1, len(self.seen) // 4)
        quarters = [self.seen[at : at + part] for at in range(0, 4 * part, part)]
        means = [statistics.mean(memory for _, memory, _ in one) for one in quarters if one]
        begun = self.seen[0][0]
        span = max(self.seen[-1][0] - begun, 0.001)
        early = [memory for at, memory, _ in self.seen if at <= begun + MINUTE]
        grown = (self.seen[-1][2] - self.seen[0][2]) / span * DAY / 1e6
        after = rows_by_table(self.path)
        rows = {name: (after[name] - count) / span for name, count in self.before.items()}
        most = sorted(rows.items(), key=lambda pair: -pair[1])[:6]
        return [
            ('its memory after a minute, MB', f'{early[-1]:.1f}'),
            ('its memory at the end, MB', f'{self.seen[-1][1]:.1f}'),
            ('its memory in each quarter, MB', ', '.join(f'{one:.1f}' for one in means)),
            ('by how much board.db grows in a day, MB', f'{grown:,.0f}'),
            ('rows a second', ', '.join(f'{name} {count:.1f}' for name, count in most)),
        ]
