"""Compares registrations by the built program with the same statements in plain SQLite
(bench/plain_commits.c, with SQLite's header and library), on files with some thousands of loads:
the time of a commit, and the instructions.

    DESK=crates/agv_app/out/agv_app python3 bench/commits.py
"""
import os
import re
import shutil
import subprocess
import sys
import tempfile
import time
from collections.abc import Callable

HERE = os.path.dirname(os.path.abspath(__file__))
sys.path[:0] = [os.path.join(HERE, '..', folder) for folder in ('', 'tools', 'examples')]

from loads import AT, DESK, load  # noqa: E402


def copied(source: str, name: str) -> str:
    for end in ('', '-wal'):
        if os.path.exists(name + end):
            os.remove(name + end)
        if os.path.exists(source + end):
            shutil.copy(source + end, name + end)
    if os.path.exists(name + '-shm'):
        os.remove(name + '-shm')
    return name


def timed(words: list[str], stdin: bytes) -> float:
    begun = time.perf_counter()
    subprocess.run(words, input=stdin, stdout=subprocess.DEVNULL, check=True)
    return time.perf_counter() - begun


def counted(words: list[str], stdin: bytes) -> int:
    done = subprocess.run(
        ['valgrind', '--tool=callgrind', '--callgrind-out-file=/dev/null', *words],
        input=stdin,
        capture_output=True,
    )
    found = re.search(rb'Collected : (\d+)', done.stderr)
    assert found
    return int(found[1])


with tempfile.TemporaryDirectory() as folder:
    plain = os.path.join(folder, 'plain')
    subprocess.run(
        ['gcc', '-O2', '-o', plain, os.path.join(HERE, 'plain_commits.c'), '-lsqlite3'], check=True
    )
    start = os.path.join(folder, 'start.db')
    subprocess.run(
        [DESK, 'replay', '--db', start, '--at', AT],
        input=b''.join(map(load, range(10_000))),
        stdout=subprocess.DEVNULL,
        check=True,
    )
    lines: dict[str, Callable[[str, int], list[str]]] = {
        'desk': lambda db, n: [DESK, 'replay', '--db', db, '--at', AT],
        'plain SQLite': lambda db, n: [plain, db, str(n), '20000'],
    }
    for name, words in lines.items():
        times, figures = [], []
        for count in (100, 5_100):
            stdin = b''.join(load(20_000 + i) for i in range(count))
            times.append(
                min(
                    timed(words(copied(start, os.path.join(folder, 'run.db')), count), stdin)
                    for _ in range(3)
                )
            )
        for count in (100, 600):
            stdin = b''.join(load(20_000 + i) for i in range(count))
            figures.append(
                counted(words(copied(start, os.path.join(folder, 'run.db')), count), stdin)
            )
        print(
            (
                f'{name:<13} {(times[1] - times[0]) / 5_000 * 1e6:6.1f} microseconds,'
                f' {(figures[1] - figures[0]) // 500:8d} instructions a registration'
            ),
            flush=True,
        )
