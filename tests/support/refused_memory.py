"""A script that is served by a program which gets no memory at some of its calls of the heap."""
from __future__ import annotations

import unittest

from tests.support import tracing
from tests.support.desks import AT, DESK
from tests.support.fault_test import LACKS
from tests.support.faults import MEMORY, Script
from tests.support.heap import Heap, slots_of


def lacks_heap() -> str | None:
    """Why the calls of the heap can't be counted here, or None."""
    if LACKS:
        return LACKS
    try:
        slots = set(slots_of(DESK)[1].values())
    except (OSError, ValueError) as error:
        return f'the calls of the heap can not be found: {error}'
    if 'malloc' in slots:
        return None
    return 'the program asks no C library that is loaded beside it for memory'


NO_HEAP = lacks_heap()


def serve(given: bytes, db: str, first: int | None = None, times: int | None = 1) -> tracing.Ended:
    """Serves these requests, with no memory at so many calls of the heap from the `first` one on,
    or at all of them; with no `first` the calls are only counted."""
    words = [DESK, 'replay', '--db', db, '--at', AT]
    return tracing.run(words, stdin=given, heap=Heap(DESK, first, times))


def how_it_ended(test: unittest.TestCase, script: Script, ended: tracing.Ended) -> tuple[str, int]:
    """Checks that a script to which memory was refused was served all the same, or ended at the
    answer for want of memory. It gives which it was, and how many calls were answered before."""
    test.assertGreaterEqual(ended.refused, 1)
    if ended.status == 0:
        test.assertEqual((ended.out, ended.said), (script.out, b''))
        return 'served', len(script.requests)
    test.assertEqual((ended.status, ended.said), (1, b'fault: Memory\n'))
    if not ended.out:
        return 'not opened', 0
    test.assertTrue(ended.out.endswith(MEMORY), ended.out[-200:])
    front = ended.out[: -len(MEMORY)]
    answered = script.whole(front)
    test.assertEqual(front, b''.join(script.answers[:answered]))
    return 'refused', answered
