"""The memory that a program has had, and what docs/PERFORMANCE.md tells of it."""
from __future__ import annotations

import os
import re
import unittest

from tests.support.answers import LONG
from tests.support.programs import ROOT

with_memory = unittest.skipUnless(
    os.path.exists('/proc/self/status'), 'the memory of a program is not told here'
)


def memory(pid: int) -> int:
    """The most memory that a program has had so far, in kB."""
    with open(f'/proc/{pid}/status') as file:
        return int(re.findall(r'^VmHWM:\s+(\d+) kB$', file.read(), re.M)[0])


def memory_that_is_told() -> int:
    """What docs/PERFORMANCE.md tells of a full file, and of a small one that of 100,000 loads and
    jobs; a twentieth more may be needed. In kB."""
    rows = '1,000,000, and as many orders and references' if LONG else '100,000'
    with open(os.path.join(ROOT, 'docs', 'PERFORMANCE.md')) as page:
        told = re.findall(fr'^\| {rows} \| ([\d,]+) MB \|$', page.read(), re.M)[0]
    return int(told.replace(',', '')) * 1050
