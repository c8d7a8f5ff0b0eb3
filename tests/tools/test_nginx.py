"""Shows what the proxies of `examples/nginx` let pass in front of the real desk, set up by the
steps of docs/OPERATE.md in their order, with other folders and ports than the machine's own."""

from __future__ import annotations

import contextlib
import json
import os
import socket
import stat
import tempfile
import unittest

from tests.support import installed_nginx, proxies
from tests.support.desks import Serving, over_sockets
from tests.support.installed_nginx import InstalledNginx


@unittest.skipIf(proxies.MISSING, proxies.WHY)
@unittest.skipUnless(installed_nginx.IS_DEBIAN, 'no nginx of Debian here')
@over_sockets
class Nginx(unittest.TestCase):
    nginx: InstalledNginx

    @classmethod
    def setUpClass(cls) -> None:
        stack = contextlib.ExitStack()
        cls.addClassCleanup(stack.close)
        folder = stack.enter_context(tempfile.TemporaryDirectory())
        desk = stack.enter_context(Serving(os.path.join(folder, 'warehouse.db'), 100000))
        cls.nginx = InstalledNginx(desk.port)
        stack.callback(cls.nginx.close)
        cls.nginx.add_user('gateway-1', 'gateway')
        cls.nginx.add_user('otto', None)
        cls.nginx.start()

    def test_without_tls(self) -> None:
        told = self.nginx.ask('POST', '/loads', {'load': 'L1'}, 'anna')
        self.assertEqual(told, (200, b'{}'))
        told = self.nginx.ask('POST', '/loads', {'load': 'L1'}, 'anna')
        self.assertEqual(told, (409, b'{"name":"Exists","refusal":30}'))
        told = self.nginx.ask('GET', '/loads/L1', user='anna')
        self.assertEqual(told, (200, b'{"job":null,"load":"L1","place":"checking"}'))
        with open(self.nginx.path('record/desk.log'), encoding='utf-8') as file:
            records = [json.loads(line) for line in file]
        names = ('user', 'method', 'target', 'body', 'status')
        found = [tuple(one[name] for name in names) for one in records]
        self.assertIn(('anna', 'POST', '/loads', '{"load": "L1"}', '200'), found)
        self.assertNotIn('GET', [one['method'] for one in records])

    def test_the_record_is_not_for_all(self) -> None:
        """Only root and a group read what people asked."""
        mode = os.stat(self.nginx.path('record/desk.log')).st_mode
        self.assertEqual(stat.S_IMODE(mode), 0o640)
        self.assertEqual(stat.S_IMODE(os.stat(self.nginx.path('conf/desk')).st_mode), 0o750)

    def test_a_client_that_says_nothing(self) -> None:
        """It keeps no other waiting, as it would at the desk, which ends its connection before it
        serves another."""
        with socket.create_connection(('127.0.0.1', self.nginx.port)) as silent:
            head = b'POST /loads HTTP/1.1\r\nHost: 127.0.0.1\r\nContent-Length: 100\r\n\r\n{'
            silent.sendall(head)
            self.assertEqual(self.nginx.ask('GET', '/report/holds', user='otto')[0], 200)

    def test_who_may_do_what(self) -> None:
        state = '/uagv/v2/KIT/0001/state'
        for user, method, target, wanted in (
            ('', 'GET', '/report/stock', 401),
            ('otto', 'GET', '/report/stock', 200),
            ('otto', 'POST', '/loads', 403),
            ('otto', 'POST', state, 403),
            ('anna', 'GET', '/report/stock', 200),
            ('anna', 'POST', '/loads', 400),
            ('anna', 'POST', state, 403),
            ('gateway-1', 'POST', state, 400),
            ('gateway-1', 'POST', '/loads', 403),
            ('gateway-1', 'GET', '/uagv/v2/KIT/0001/order', 404),
        ):
            for tls in (False, True):
                with self.subTest(user=user, target=target, tls=tls):
                    body = '' if method == 'POST' else None
                    self.assertEqual(self.nginx.ask(method, target, body, user, tls)[0], wanted)

    def test_tools_ask_by_the_proxy(self) -> None:
        """The client of `tools` takes both addresses."""
        from nulvrader.desk.client import Desk

        desk = Desk(f'127.0.0.1:{self.nginx.port}', user='otto', password='of-otto')
        self.assertIn(b'held 0 of 0', desk.hold_report())


if __name__ == '__main__':
    unittest.main()
