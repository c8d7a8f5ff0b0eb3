"""Shows, through a real nginx with `examples/nginx`, who may look at the board, who may give
commands, and who stands in the record of them."""

from __future__ import annotations

import json
import re
import unittest

from tests.support.board_by_nginx import BoardBehindNginx
from tests.support.proxies import Told


class BoardByNginx(BoardBehindNginx):
    def ask(self, request: str, user: str | None, *lines: str, body: object = None) -> Told:
        """One request to the server with TLS."""
        text = '' if body is None else json.dumps(body)
        return self.proxy.ask(request, *lines, user=user, body=text, tls=True)

    def token(self) -> str:
        """The token of the board's page, as a dispatcher gets it; a reader gets none."""
        form = rb'name="token" content="([^"]*)"'
        said = re.search(form, self.ask('GET /board/', 'anna').body)
        other = re.search(form, self.ask('GET /board/', 'otto', 'X-User: anna').body)
        assert said is not None and other is not None
        self.assertEqual(other[1], b'')
        self.assertGreater(len(said[1]), 20)
        return said[1].decode()

    def test_the_token_for_programs(self) -> None:
        """A dispatcher alone gets it, by which it tells the dispatcher what is urgent."""
        self.assertEqual(self.ask('GET /board/api/token', None).status, 401)
        for user in ('otto', 'gate'):
            self.assertEqual(self.ask('GET /board/api/token', user, 'X-User: anna').status, 403)
        told = self.ask('GET /board/api/token', 'anna')
        self.assertEqual((told.status, json.loads(told.body)), (200, {'token': self.token()}))

    def test_roles(self) -> None:
        """Readers and dispatchers may look, a dispatcher alone may give commands, and is named in
        the record of them. A gateway gets nothing."""
        self.assertEqual(self.ask('GET /board/', None).status, 401)
        for user, status in (('anna', 200), ('otto', 200), ('gate', 403)):
            files = 'main.js', 'messages.json', 'record?load=L1', 'record.csv', 'alarm.svg'
            figures = 'figures.html', 'figures.css', 'day?begin=1&end=9'
            for path in ('', 'data?run=&since=0', 'data?vehicle=KIT%2F0001', *files, *figures):
                self.assertEqual(self.ask(f'GET /board/{path}', user).status, status, (user, path))
        lines = (f'X-Board-Token: {self.token()}', f'Origin: {self.proxy.origin(True)}')
        command = {'command': 'leave', 'values': {'load': 'L1', 'ref': 'R1'}}
        for user in ('otto', 'gate'):
            for path in ('do', 'look', 'may', 'take'):
                told = self.ask(f'POST /board/{path}', user, *lines, body=command)
                self.assertEqual(told.status, 403, (user, path))
        self.assertEqual(self.ask('POST /board/may', 'anna', *lines, body={}).status, 200)
        told = self.ask('POST /board/take', 'anna', *lines, body={'alarm': 999})
        self.assertEqual(json.loads(told.body)['fault'], 'This alarm is over.')
        self.assertEqual(self.plant.desk.load('L1').place, 'station A')
        told = self.ask('POST /board/do', 'anna', 'X-User: otto', *lines, body=command)
        self.assertEqual((told.status, json.loads(told.body)['done']), (200, True))
        rows = self.board.rows('SELECT who, command, done FROM commands')
        self.assertEqual(rows, [('anna', 'leave', 1)])
        self.assertEqual(self.plant.desk.load('L1').place, 'left')


if __name__ == '__main__':
    unittest.main()
