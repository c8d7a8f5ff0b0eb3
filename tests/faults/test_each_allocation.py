"""Shows, by refusing each allocation of four short scripts in turn, that the call which lacks
memory is answered by the refusal for want of memory and changes nothing, and that the next run
goes on from there.

`test_refused_memory` tries a sample of the allocations of longer scripts and of openings. Here none
behind the opening is left out: several processes share them."""
from __future__ import annotations

import collections
import concurrent.futures
import multiprocessing
import os
import tempfile
import unittest
from collections.abc import Iterator
from dataclasses import dataclass

from tests.support.fault_files import ALL
from tests.support.faults import Script, check_kept, example, lines
from tests.support.records import FOLDER
from tests.support.refused_memory import NO_HEAP, how_it_ended, serve
from tests.support.scripts import SCRIPTS

TRIED = {
    'a first load': Script(example('first-load.http')),
    **{
        name: Script(lines(SCRIPTS[name]))
        for name in (
            'an update comes once the message before is confirmed',
            'one state tells of the whole way, and again moves nothing',
            'a stocktake finds a load elsewhere',
        )
    },
}
SHARES = 64  # so many that no process has much left to do once another has ended


@dataclass(frozen=True)
class Share:
    """Some of the calls of the heap that a script makes."""

    name: str
    calls: range


def calls_of(script: Script, folder: str) -> range:
    """The calls of the heap behind those of an opening, which are the same for all scripts."""
    opening = serve(b'', os.path.join(folder, 'opened.db'))
    ended = serve(script.input, os.path.join(folder, 'served.db'))
    if (ended.status, ended.out, ended.said) != (0, script.out, b''):
        raise AssertionError((ended.status, ended.out, ended.said))
    return range(opening.asked + 1, ended.asked + 1)


def try_share(share: Share) -> collections.Counter[str]:
    """Refuses each of the calls in turn, each time on a new file. It gives how often the script was
    refused, and how often served all the same."""
    test = unittest.TestCase()
    script = TRIED[share.name]
    met: collections.Counter[str] = collections.Counter()
    for number in share.calls:
        with tempfile.TemporaryDirectory(dir=FOLDER) as folder:
            db = os.path.join(os.path.realpath(folder), 'desk.db')
            try:
                how, answered = how_it_ended(test, script, serve(script.input, db, number))
                check_kept(test, script, db, answered, more=False)
            except AssertionError as error:
                raise AssertionError(f'{share.name}, call {number} of the heap: {error}') from error
        met[how] += 1
    return met


def shares() -> Iterator[Share]:
    for name, script in TRIED.items():
        with tempfile.TemporaryDirectory(dir=FOLDER) as folder:
            calls = calls_of(script.play(folder), folder)
        yield from (Share(name, calls[first::SHARES]) for first in range(SHARES))


@unittest.skipIf(NO_HEAP, NO_HEAP or '')
class EachAllocation(unittest.TestCase):
    def test_each_of_four_scripts(self) -> None:
        tried = list(shares())
        jobs = len(os.sched_getaffinity(0))
        # The processes begin once the scripts are played, and so have their answers and rows; they
        # give way to the tests that run beside them.
        met: collections.Counter[str] = collections.Counter()
        with concurrent.futures.ProcessPoolExecutor(
            jobs, multiprocessing.get_context('fork'), initializer=os.nice, initargs=(10,)
        ) as pool:
            for of_share in pool.map(try_share, tried):
                met += of_share
        self.assertEqual(met.total(), sum(len(share.calls) for share in tried))
        self.assertGreater(met['refused'], met.total() // 2, met)
        if ALL:
            print(f'allocations refused in turn: {dict(met)}')


if __name__ == '__main__':
    unittest.main()
