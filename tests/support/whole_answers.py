"""Requests to `replay`, each answer of which is a whole one of HTTP."""
from __future__ import annotations

import unittest
from typing import Any

from tests.support.answers import answers_of
from tests.support.calls import state
from tests.support.desks import AT, run

# Each call with a JSON body, as a new desk is asked it: its body, and which refusal it then earns,
# or none.
CALLS: list[tuple[str, Any, str]] = [
    (
        'POST /vehicles',
        {'manufacturer': 'KIT', 'serialNumber': '0001', 'node': 'N1', 'capacity': 1},
        'NoNode',
    ),
    ('POST /loads', {'load': 'L1', 'station': 'A'}, 'NoStation'),
    ('POST /loads/L1/correct', {'ref': 'R1', 'station': 'A'}, 'NoLoad'),
    ('POST /loads/L1/leave', {'ref': 'R1'}, 'NoLoad'),
    ('POST /jobs', {'job': 'J1', 'load': 'L1', 'to': 'B'}, 'NoLoad'),
    (
        'POST /orders',
        {'order': 'O1', 'job': 'J1', 'manufacturer': 'KIT', 'serialNumber': '0001', 'edges': 1},
        'NoVehicle',
    ),
    (
        'POST /orders',
        {
            'order': 'O1',
            'stops': [{'action': 'pick', 'job': 'J1'}, {'action': 'drop', 'job': 'J1'}],
            'manufacturer': 'KIT',
            'serialNumber': '0001',
            'edges': 1,
        },
        'NoVehicle',
    ),
    (
        'POST /drives',
        {'order': 'O1', 'manufacturer': 'KIT', 'serialNumber': '0001', 'to': 'N1', 'edges': 1},
        'NoVehicle',
    ),
    (
        'POST /vehicles/KIT/0001/advance',
        {'order': 'O1', 'orderUpdateId': 1, 'edges': 1},
        'NoVehicle',
    ),
    ('POST /vehicles/KIT/0001/place', {'ref': 'R1', 'node': 'N1'}, 'NoVehicle'),
    (
        *state(
            1,
            statuses=[('x', 'FINISHED')],
            nodeStates=[{'nodeId': 'N2', 'sequenceId': 2, 'released': True}],
            edgeStates=[{'edgeId': 'E12', 'sequenceId': 1, 'released': True}],
            errors=[{'errorType': 'x', 'errorLevel': 'WARNING'}],
        ),
        'NoVehicle',
    ),
]

# The exports of a desk that has neither a layout nor a job, but for that of its loads.
EXPORTS = {
    'jobs': b'job,load,from,to,phase,manufacturer,serialNumber,order',
    'vehicles': b'manufacturer,serialNumber,node,capacity,ready,paused,astray,headerId,pending,'
    b'order,sent,confirmed,released,edges,seen,restEdge,restNode',
    'layout': b'kind,id,from,to',
}


class Bytes(unittest.TestCase):
    def replay(self, stdin: bytes) -> Any:
        status, out, said = run('replay', '--db', 'memory', '--at', AT, stdin=stdin)
        self.assertEqual((status, said), (0, b''))
        found, left = answers_of(out)
        self.assertEqual(left, b'')
        self.assertFalse(any(answer.closes for answer in found[:-1]))
        return found

    def check(self, pairs: Any) -> Any:
        """Requests with what each is answered, in one stream; the last one may end it."""
        found = self.replay(b''.join(data for data, _ in pairs))
        self.assertEqual(len(found), len(pairs))
        for answer, (data, wanted) in zip(found, pairs):
            self.assertEqual((answer.status, answer.body), wanted, data[:300])
        return found
