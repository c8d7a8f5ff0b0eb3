"""Shows that `tools/ask` and the client pass through a real nginx with `examples/nginx` by TLS,
with users and roles, and what they say of what the proxy answers."""

from __future__ import annotations

import os
import subprocess
import tempfile
import unittest
from typing import Any

from tests.support import programs
from tests.support import proxies
from tests.support.board_run import PROGRAM, Process
from nulvrader.desk import client
from tests.support.programs import free_port, within
from tests.support.proxies import Proxy
from tests.support.states import KIT1, told
from tests.support.desks import over_sockets
from tests.support.script_calls import LAYOUT

ask = programs.module('ask')


class Desk(Process):
    """The program on a port that is known before."""

    def __init__(self, db: str, port: Any) -> None:
        super().__init__(
            [PROGRAM, 'serve', '--db', db, '--port', str(port), '--connections', '1000']
        )

    def __enter__(self) -> Desk:
        return self

    def __exit__(self, *_: object) -> None:
        self.stop()


@over_sockets
@unittest.skipIf(proxies.MISSING, proxies.WHY)
class ByNginx(unittest.TestCase):
    proxy: Proxy
    desk_port: int
    folder: str

    @classmethod
    def setUpClass(cls) -> None:
        cls.desk_port = free_port()
        cls.proxy = Proxy(cls.desk_port, 1)
        cls.addClassCleanup(cls.proxy.close)
        folder = tempfile.TemporaryDirectory()
        cls.addClassCleanup(folder.cleanup)
        cls.folder = folder.name

    def desk(self, name: str) -> Desk:
        """The desk behind the proxy, on a file of the folder."""
        return Desk(os.path.join(self.folder, name), self.desk_port)

    def ask(self, line: str, user: str | None = None, status: int = 0, trusted: bool = True) -> str:
        """What `tools/ask` prints: on standard error where it is to end with a status."""
        words = ['--desk', self.proxy.origin(True)]
        words += ['--ca', self.proxy.path('server.pem')] if trusted else []
        words += ['--user', user] if user else []
        env = {'NULVRADER_PASSWORD': f'{user}!'}
        ends, out, said = within(ask, *words, *line.split(), env=env)
        self.assertEqual(ends, status, out + said)
        return str(said if status else out)

    def test_users(self) -> None:
        """A dispatcher may make all calls but post states, a reader may only ask questions; who has
        named no user is asked for one."""
        with self.desk('desk.db'):
            self.ask('register-load L1', 'anna')
            self.assertEqual(self.ask('load L1', 'otto'), 'load L1: checking, job -\n')
            self.assertEqual(self.ask('loads', 'anna'), 'load  place\nL1    checking\n')
            said = self.ask('register-load L2', 'otto', 1)
            self.assertIn('Forbidden: The proxy does not allow this user to make this call', said)
            said = self.ask('load L1', status=1)
            self.assertIn('Unauthorized: The proxy requires a user', said)
        said = self.ask('load L1', 'anna', 3)
        self.assertIn('What answers there is no desk: status 502', said)

    def test_a_gateway(self) -> None:
        """It may ask the desk and post states, and nothing else."""
        with self.desk('states.db'):
            address, ca = self.proxy.origin(True), self.proxy.path('server.pem')
            desk = client.Desk(address, user='anna', password='anna!', cafile=ca)
            desk.set_layout(LAYOUT.encode())
            desk.register_vehicle(KIT1, 'N1')
            gate = client.Desk(address, user='gate', password='gate!', cafile=ca)
            with gate.kept():
                self.assertTrue(gate.post_state(KIT1, told(1)))
                self.assertTrue(gate.vehicle(KIT1).ready)
                self.forbidden(lambda: gate.cancel(KIT1))
                self.forbidden(lambda: desk.post_state(KIT1, told(2)))

    def forbidden(self, call: Any) -> None:
        """The proxy refuses a call."""
        with self.assertRaises(client.Refused) as caught:
            call()
        self.assertEqual((caught.exception.status, caught.exception.name), (403, 'Forbidden'))

    def test_a_password_in_a_file(self) -> None:
        self.proxy.write('password', 'otto!\n')
        words = ['--desk', self.proxy.origin(True), '--ca', self.proxy.path('server.pem')]
        words += ['--user', 'otto', '--password-file', self.proxy.path('password'), 'loads']
        with self.desk('other.db'):
            self.assertEqual(within(ask, *words), (0, 'there are no loads\n', ''))

    def test_a_certificate_that_nobody_vouches_for(self) -> None:
        said = self.ask('load L1', 'otto', 3, trusted=False)
        self.assertRegex(
            said, 'its certificate is not trusted: self-signed certificate|self signed'
        )

    def test_a_certificate_of_a_client(self) -> None:
        """By the lines of desk_tls.conf that are in comments, a certificate names the user."""
        text = proxies.text_of('desk_tls.conf')
        found = [line.strip() for line in text.splitlines() if line.strip().startswith('# ssl_')]
        self.assertEqual(len(found), 2)
        self.assertIn('# set $desk_user $ssl_client_s_dn;', text)
        proxy = Proxy(self.desk_port, 1, certificates=True)
        self.addCleanup(proxy.close)
        with self.desk('certificates.db'):
            for name, status in (('anna', 200), ('otto', 403)):
                self.assertEqual(self.put_load(proxy, name), str(status), name)

    @staticmethod
    def put_load(proxy: Proxy, name: str) -> str:
        """The status of a command, by the certificate of a user."""
        line = [
            'curl',
            '-s',
            '-o',
            '/dev/null',
            '-w',
            '%{http_code}',
            '--cacert',
            proxy.path('server.pem'),
        ]
        line += ['--cert', proxy.path(f'{name}.pem'), '--key', proxy.path(f'{name}.key')]
        line += ['--resolve', f'desk.example:{proxy.tls_port}:127.0.0.1', '-d', '{"load":"L1"}']
        line.append(f'https://desk.example:{proxy.tls_port}/loads')
        return subprocess.run(line, capture_output=True, text=True, check=False).stdout


if __name__ == '__main__':
    unittest.main()
