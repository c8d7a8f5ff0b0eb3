"""Shows what `tools/gateway` makes of a vehicle's states before it posts them, and of a list of
instant actions before it publishes it."""
from __future__ import annotations

import json
import unittest
from typing import Any
import unittest.mock

from nulvrader.desk import states
from tests.support.gateway_states import STATE, TOLD


class Conversion(unittest.TestCase):
    def test_each_member_of_the_schema(self) -> None:
        told = states.read_state(json.dumps(STATE).encode())
        self.assertEqual(json.dumps(told, sort_keys=True), json.dumps(TOLD, sort_keys=True))

    def test_numbers(self) -> None:
        for text, number in (
            ('80.5', 80),
            ('81.5', 82),
            ('-0.5', 0),
            ('-0', 0),
            ('-0.0', 0),
            ('2.5', 2),
            ('-2.5', -2),
            ('0.4999999999999', 0),
            ('0.49999999999999999999', 0),
            ('0.50000000000000000001', 1),
            ('9999999999999.5', 10**13),
            ('1234567890123456789', 1234567890123456789),
            ('1.234567890123456789e18', 1234567890123456789),
            ('1e0', 1),
            ('1E+2', 100),
            ('1.5e-400', 0),
            ('7', 7),
            ('-3', -3),
            ('18446744073709551615', 2**64 - 1),
            ('18446744073709551616', 2**64 - 1),
            ('1e400', 2**64 - 1),
            ('-1e999999', -(2**63)),
        ):
            told: Any = states.read_state(b'{"x":[%s]}' % text.encode())
            self.assertEqual((told, type(told['x'][0])), ({'x': [number]}, int), text)

    def test_what_is_no_state(self) -> None:
        for data in (
            b'',
            b'{',
            b'[]',
            b'1',
            b'{"x":NaN}',
            b'{"x":-Infinity}',
            b'{"x":1e9999999999999999999999}',
            b'\xff',
            b'[' * 100_000 + b']' * 100_000,
        ):
            with self.assertRaises(ValueError):
                states.read_state(data)

    def test_other_kinds_are_left_alone(self) -> None:
        for state in (
            {'nodeStates': None, 'edgeStates': 'x'},
            {'nodeStates': [1, None], 'edgeStates': {'trajectory': 1}},
            {},
        ):
            self.assertEqual(states.read_state(json.dumps(state).encode()), state)

    def test_a_state_that_is_too_long(self) -> None:
        """Only what the desk reads is left of it."""
        long = dict(TOLD, information=[{'infoType': 'x' * 100} for _ in range(1_000)])
        body = json.loads(states.body_of(long))
        self.assertEqual(
            set(body),
            set(TOLD)
            - {
                'zoneSetId',
                'edgeStates',
                'loads',
                'driving',
                'newBaseRequest',
                'distanceSinceLastNode',
                'batteryState',
                'information',
            },
        )
        self.assertEqual(
            (body['nodeStates'], body['actionStates'], body['errors']),
            (
                [{'sequenceId': 2}],
                [{'actionId': 'x', 'actionStatus': 'FINISHED'}],
                [{'errorLevel': 'WARNING'}],
            ),
        )
        self.assertEqual(json.loads(states.body_of(TOLD)), TOLD)

    def test_the_name_of_the_instant_list(self) -> None:
        self.assertEqual(
            states.instant_for_vehicle({'headerId': 1, 'actions': [{}]}, 'instantActions'),
            {'headerId': 1, 'instantActions': [{}]},
        )


if __name__ == '__main__':
    unittest.main()
