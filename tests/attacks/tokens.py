"""Shows that nginx passes the board a token of its form alone, and none of a reader."""
from __future__ import annotations

import contextlib
import re
import socket
import threading

from tests.support.behind_nginx import ThroughNginx


class BoardOfHeads:
    """In the board's place: keeps what it is sent."""

    def __init__(self, port: int) -> None:
        self.heads: list[bytes] = []
        self.listener = socket.create_server(('127.0.0.1', port))
        threading.Thread(target=self._serve, daemon=True).start()

    def _serve(self) -> None:
        with contextlib.suppress(OSError):
            while True:
                line, _ = self.listener.accept()
                with line, contextlib.suppress(OSError):
                    self.heads.append(line.recv(65536))
                    line.sendall(b'HTTP/1.1 200 OK\r\nContent-Length: 0\r\n\r\n')

    def close(self) -> None:
        """Ends it."""
        with contextlib.suppress(OSError):
            self.listener.shutdown(socket.SHUT_RDWR)
        self.listener.close()


class OddTokens(ThroughNginx):
    """Somebody sends the board what is no token of it."""

    def setUp(self) -> None:
        super().setUp()
        self.board = BoardOfHeads(self.board_port)
        self.addCleanup(self.board.close)

    def passed(self, token: str, user: str = 'anna') -> list[bytes]:
        """What reaches the board of a token."""
        line = f'X-Board-Token: {token}'
        self.assertEqual(self.proxy.ask('GET /board/', line, user=user, tls=True).status, 200)
        return re.findall(rb'(?i)x-board-token: *([^\r]*)', self.board.heads[-1])

    def test_odd_tokens(self) -> None:
        """It sends tokens that are too long or too short, have other bytes, or come twice; none
        must reach the board, and neither one of a reader."""
        good = 'Ab3_-' * 6 + 'Zz'
        self.assertEqual(self.passed(good), [good.encode()])
        odd = ['x', good[1:], good + 'x', good * 200, good[1:] + '%', good[1:] + '\xe9']
        odd += [f'{good[1:]}\x01', f'{good} {good}', f'{good},{good}', f'dispatcher {good}']
        odd += [f'{good[1:]}\t', f'{good[:16]} {good[17:]}', f'x\r\nX-Board-Token: {good}']
        for token in odd:
            self.assertEqual(self.passed(token), [], token)
        self.assertEqual(self.passed(good, 'otto'), [])
