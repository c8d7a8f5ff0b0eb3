"""Shows what `tools/gateway` tells a board of its vehicles, over a socket."""
from __future__ import annotations

import contextlib
import json
import os
import socket
import tempfile
import time
import unittest
import unittest.mock
from typing import Any

from nulvrader.gateway import log
from nulvrader.gateway.telemetry import TelemetrySender
from tests.support.gateway_states import STATE


class TellsABoard(unittest.TestCase):
    """What a board is told of vehicles: over a real socket, by a clock that is set."""

    def setUp(self) -> None:
        self.folder = self.enterContext(tempfile.TemporaryDirectory())
        self.path = os.path.join(self.folder, 'words.sock')
        self.board: socket.socket | None = None
        self.lines: list[str] = []
        self.now = 100.0
        self.told = TelemetrySender(self.path, log.Log(self.lines.append), lambda: self.now)

    def listen(self) -> None:
        """A board listens."""
        self.board = socket.socket(socket.AF_UNIX, socket.SOCK_DGRAM)
        self.addCleanup(self.board.close)
        self.board.bind(self.path)
        self.board.setblocking(False)

    def turn(self, seconds: float = 1.0) -> list[Any]:
        """A turn so many seconds later. What the board has heard."""
        self.now += seconds
        self.told.turn()
        found = []
        with contextlib.suppress(BlockingIOError):
            while self.board is not None:
                found.append(json.loads(self.board.recv(20_000)))
        return found

    def test_a_state(self) -> None:
        """The members that the desk does not keep, by their names; of actions those that failed."""
        self.listen()
        actions = [
            {'actionId': 'O1.0', 'actionStatus': 'FINISHED'},
            {'actionId': 'O1.1', 'actionStatus': 'FAILED', 'resultDescription': 'no grip'},
        ]
        self.told.state('KIT/0001', json.dumps({**STATE, 'actionStates': actions}).encode())
        (told,) = self.turn()
        for name in ('manufacturer', 'serialNumber', 'headerId', 'operatingMode', 'safetyState'):
            self.assertEqual(told[name], STATE[name], name)
        self.assertEqual(told['errors'][0]['errorType'], STATE['errors'][0]['errorType'])
        self.assertEqual(told['agvPosition']['x'], STATE['agvPosition']['x'])
        self.assertEqual(
            told['batteryState']['batteryCharge'], STATE['batteryState']['batteryCharge']
        )
        self.assertEqual(told['actionStates'], actions[1:])
        self.assertEqual({'nodeStates', 'loads', 'information'} & told.keys(), set())

    def test_how_often(self) -> None:
        """At most once a second; what has not changed again after ten; and the last state alone."""
        self.listen()
        for second in range(25):
            self.told.state('KIT/0001', json.dumps({**STATE, 'headerId': second}).encode())
            self.told.state('KIT/0001', json.dumps({**STATE, 'headerId': 100 + second}).encode())
            found = [told['headerId'] for told in self.turn(0.5) + self.turn(0.5)]
            self.assertEqual(found, [100 + second] if second in (0, 10, 20) else [], second)

    def test_a_board_that_is_away(self) -> None:
        """Each turn ends at once; it is said once; the last state is told once the board is
        there."""
        for number in range(30):
            self.told.state('KIT/0001', json.dumps({**STATE, 'headerId': number}).encode())
            self.assertEqual(self.turn(), [])
        self.assertEqual(len(self.lines), 1, self.lines)
        self.listen()
        self.assertEqual([told['headerId'] for told in self.turn()], [29])

    def test_a_board_that_takes_nothing(self) -> None:
        """Its socket fills: no turn waits, and each vehicle is told of once there is room."""
        self.listen()
        vehicles = [f'KIT/{number:04d}' for number in range(100)]
        begun = time.monotonic()
        heard = set()
        assert self.board
        self.board.close()
        os.unlink(self.path)
        self.listen()
        taken, self.board = self.board, None
        for _ in range(20):
            for name in vehicles:
                self.told.state(name, json.dumps(STATE).encode())
            self.turn()
        self.assertLess(time.monotonic() - begun, 30)
        self.board = taken
        for _ in range(60):
            heard |= {told['serialNumber'] for told in self.turn()}
        self.assertEqual(heard, {name.partition('/')[2] for name in vehicles})

    def test_hostile_states(self) -> None:
        """None stops it, none is longer than a datagram, and what is no state is not told."""
        self.listen()
        text = chr(0x1F600) * 50
        many = [{'errorType': text, 'errorLevel': 'FATAL', 'errorReferences': [{}] * 9}] * 60
        for number, state in enumerate(
            (
                {**STATE, 'errors': many, 'batteryState': {'batteryCharge': 1e999}},
                {**STATE, 'safetyState': {text: text, 'eStop': text}, 'operatingMode': [[]]},
                {**STATE, 'errors': {}, 'actionStates': 7, 'agvPosition': [1]},
                {'headerId': 10**400},
            )
        ):
            self.told.state('KIT/0001', json.dumps(state).encode())
            self.assertEqual(len(self.turn(2.0)), 1, number)
        many = [{'errorType': text, 'errorDescription': text, 'errorHint': text}] * 18
        self.told.state('KIT/0001', json.dumps({**STATE, 'errors': many}).encode())
        self.assertEqual(len(self.turn(2.0)[0]['errors']), 8)  # as many as a datagram has room for
        for data in (b'[]', b'{', b'[' * 60_000, b'\xff', b'{"x":NaN', b'7' * 60_000):
            self.told.state('KIT/0001', data)
            self.assertEqual([set(told) for told in self.turn(2.0)], [], data[:10])

    def test_a_connection(self) -> None:
        """It is told by itself, and with the next state."""
        self.listen()
        self.told.connection('KIT/0001', 'ONLINE')
        self.assertEqual([told['connectionState'] for told in self.turn()], ['ONLINE'])
        self.told.state('KIT/0001', json.dumps(STATE).encode())
        self.assertEqual([told['connectionState'] for told in self.turn()], ['ONLINE'])
        self.told.connection('KIT/0001', 'CONNECTIONBROKEN')
        self.assertEqual(self.turn()[0]['connectionState'], 'CONNECTIONBROKEN')


if __name__ == '__main__':
    unittest.main()
