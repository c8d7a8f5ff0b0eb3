#!/usr/bin/env python3
"""Pages of a board that are open at the same time, for `bench/board`: each asks for what is newer
than it has, as often as a page does, until standard input is closed. It prints the number of the
answers, of their bytes, and the median and the 99th of 100 of the times until an answer was there,
in milliseconds.

    python3 bench/page_readers.py PORT COUNT EVERY"""
from __future__ import annotations

import http.client
import re
import sys
import threading
import time
from dataclasses import dataclass, field

# How an answer begins: the moment, what the desk is asked, the run, the version, and what is all.
FRONT = re.compile(rb'\{"now":\d+,"asking":\w+,"run":"(\w+)","version":(\d+),"full":\w+,"values":')


@dataclass
class Reader:
    """A page. It takes of an answer only what it needs to ask for the next one."""

    port: int
    every: float
    run: str = ''
    version: int = 0
    times: list[float] = field(default_factory=list)
    size: int = 0

    def ask(self) -> None:
        """Asks once."""
        begun = time.monotonic()
        connection = http.client.HTTPConnection('127.0.0.1', self.port, timeout=60)
        try:
            connection.request('GET', f'/data?run={self.run}&since={self.version}')
            data = connection.getresponse().read()
        finally:
            connection.close()
        self.times.append(time.monotonic() - begun)
        self.size += len(data)
        found = FRONT.match(data)
        if found is None:
            raise ValueError(f'what is answered begins so: {data[:100]!r}')
        self.run, self.version = found[1].decode(), int(found[2])

    def read(self, over: threading.Event) -> None:
        """Asks until it is over."""
        while not over.wait(self.every):
            self.ask()


def main() -> None:
    port, count, every = int(sys.argv[1]), int(sys.argv[2]), float(sys.argv[3])
    readers = [Reader(port, every) for _ in range(count)]
    over = threading.Event()
    threads = [threading.Thread(target=reader.read, args=(over,)) for reader in readers]
    for thread in threads:
        thread.start()
        time.sleep(every / count)
    sys.stdin.read()
    over.set()
    for thread in threads:
        thread.join()
    times = sorted(one for reader in readers for one in reader.times)
    middle, most_of = times[len(times) // 2], times[int(len(times) * 0.99)]
    print(len(times), sum(reader.size for reader in readers), 1000 * middle, 1000 * most_of)


if __name__ == '__main__':
    main()
