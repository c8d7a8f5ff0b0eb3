"""A board that gateways tell of vehicles, and what they send."""
from __future__ import annotations

import json
import socket
from typing import Any

from tests.support.board_run import ONE, Plant, Watching


def datagram(**members: Any) -> bytes:
    """A datagram about KIT/0001."""
    return json.dumps({'manufacturer': 'KIT', 'serialNumber': '0001', **members}).encode()


class OverASocket(Watching):
    """A board with a socket at `path`, to which `out` sends, and a vehicle at N1."""

    def setUp(self) -> None:
        self.plant = Plant()
        self.addCleanup(self.plant.close)
        self.desk, self.path = self.plant.desk, self.plant.path('words.sock')
        self.plant.vehicle(ONE, 'N1')
        self.board = self.plant.board('--words', self.path, '--silent', '600')
        self.out = socket.socket(socket.AF_UNIX, socket.SOCK_DGRAM)
        self.addCleanup(self.out.close)
        self.wait('vehicle', 'KIT/0001', node='N1')
