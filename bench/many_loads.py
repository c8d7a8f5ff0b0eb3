"""Registers loads in a file through the built program, up to 1,000, 100,000 and 1,000,000, and at
each number times the opening of the file, a hundred registrations more and the reports, with the
most memory of the program. Python's standard library and `/usr/bin/time`.

    DESK=crates/agv_app/out/agv_app python3 bench/many_loads.py
"""
import os
import subprocess
import sys
import tempfile
import time

HERE = os.path.dirname(os.path.abspath(__file__))
sys.path[:0] = [os.path.join(HERE, '..', folder) for folder in ('', 'tools', 'examples')]

from loads import AT, DESK, load  # noqa: E402


def timed(what: str, words: list[str], stdin: bytes = b'') -> None:
    done = subprocess.run(
        ['/usr/bin/time', '-f', '%e s, %M KB', DESK, *words], input=stdin, capture_output=True
    )
    print(f'  {what:<22} {done.stderr.decode().strip()}, {len(done.stdout)} bytes out', flush=True)


with tempfile.TemporaryDirectory() as folder:
    db = os.path.join(folder, 'many.db')
    done = 0
    for total in (1_000, 100_000, 1_000_000):
        begun = time.perf_counter()
        replay = subprocess.Popen(
            [DESK, 'replay', '--db', db, '--at', AT],
            stdin=subprocess.PIPE,
            stdout=subprocess.DEVNULL,
        )
        assert replay.stdin
        for number in range(done, total):
            replay.stdin.write(load(number))
        replay.stdin.close()
        if replay.wait():
            raise SystemExit('the replay failed')
        print(
            f'{total} loads: {total - done} registrations in {time.perf_counter() - begun:.2f} s',
            flush=True,
        )
        done = total
        timed('opening alone', ['replay', '--db', db, '--at', AT])
        if total < 1_000_000:
            timed(
                '100 registrations',
                ['replay', '--db', db, '--at', AT],
                b''.join(load(5_000_000 + total + i) for i in range(100)),
            )
        timed('the stock report', ['report', '--db', db, 'stock'])
        timed('the hold report', ['report', '--db', db, 'holds'])
