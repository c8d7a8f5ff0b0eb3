"""What measurements share: the program of the desk, the moment of a replay, and registrations."""
from __future__ import annotations

import os

from tests.support import calls

__all__ = ['AT', 'DESK', 'calls', 'load']

HERE = os.path.dirname(os.path.abspath(__file__))
DESK = os.path.abspath(os.environ.get('DESK', os.path.join(HERE, '..', 'build', 'desk')))
AT = '1700000000000'


def load(number: int) -> bytes:
    """Returns the request that registers a load at the checking place."""
    return calls.load(f'L{number:07d}').to_bytes()
