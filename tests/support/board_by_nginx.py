"""A board behind nginx with `examples/nginx`."""
from __future__ import annotations

import unittest

from tests.support import proxies
from tests.support.board_run import Plant, free_port, has_loopback, until
from tests.support.proxies import Proxy


@unittest.skipUnless(has_loopback(), 'no sockets on 127.0.0.1 here')
@unittest.skipIf(proxies.MISSING, proxies.WHY)
class BoardBehindNginx(unittest.TestCase):
    """A desk with a load, its board, and nginx in front of both."""

    def setUp(self) -> None:
        self.plant = Plant()
        self.addCleanup(self.plant.close)
        self.prepare()
        port = free_port()
        self.proxy = Proxy(self.plant.port, port)
        self.addCleanup(self.proxy.close)
        words = ('--name', self.proxy.host(True), '--user-header', 'X-User')
        self.board = self.plant.board(*words, port=port)
        until(lambda: self.board.get('load', 'L1'), 'the board has looked')

    def prepare(self) -> None:
        """Does what is done before the board begins."""
        self.plant.desk.register_load('L1', 'A')
