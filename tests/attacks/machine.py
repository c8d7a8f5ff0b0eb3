"""Shows that another user of the machine, or a program that was taken over, reaches neither the
desk nor more than its unit allows."""
from __future__ import annotations

import os
import re
import shutil
import subprocess
import sys
import unittest

from tests.support.behind_nginx import MANY
from tests.support.board_run import until
from tests.support.networks import (
    GROUP,
    MEMBER,
    NOBODY,
    OwnNetwork,
    SOCKET_PROXY,
    SYSTEMD,
    said,
    without_networks,
)
from tests.support.programs import ROOT

EXPOSURE = 2.0


@unittest.skipIf(without_networks(), without_networks())
@unittest.skipUnless(os.path.exists(SOCKET_PROXY), f'no {SOCKET_PROXY} here')
class AnotherUserOfTheMachine(OwnNetwork):
    """A program of another user of the machine wants to reach the desk, which listens as by
    examples/systemd."""

    def setUp(self) -> None:
        super().setUp()
        self.socket = os.path.join(self.folder, 'desk.sock')
        forwarder, _ = said('nulvrader-proxy.service', 'ExecStart').split()
        self.assertEqual(said('nulvrader-proxy.socket', 'ListenStream'), '/run/nulvrader/desk.sock')
        listen = ['systemd-socket-activate', f'--listen={self.socket}', forwarder]
        self.start(self.inside(*listen, f'127.0.0.1:{self.port}'))
        until(lambda: os.path.exists(self.socket), 'the socket')
        os.chown(self.socket, 0, GROUP)
        os.chmod(self.socket, int(said('nulvrader-proxy.socket', 'SocketMode'), 8))

    def through(self, user: int, groups: str = '') -> bool:
        """Whether a user reaches the desk by the socket."""
        address = 'http://desk/report/holds'
        return self.reaches('--unix-socket', self.socket, address, user=user, groups=groups)

    def test_by_the_port(self) -> None:
        """It connects to the desk's port, also as root; there must be nothing."""
        address = f'http://127.0.0.1:{self.port}/report/holds'
        for user in (NOBODY, MEMBER, 0):
            self.assertFalse(self.reaches(address, user=user), user)
        self.assertTrue(self.reaches(address, user=0, front=self.inside()))

    def test_by_the_socket(self) -> None:
        """It opens the socket; only a program of the group must be answered."""
        self.assertFalse(self.through(NOBODY))
        self.assertFalse(self.through(MEMBER))
        self.assertTrue(self.through(MEMBER, str(GROUP)))
        self.assertFalse(self.through(NOBODY))

    def test_by_joining_the_network(self) -> None:
        """It wants to join the network of the desk, or makes one; it must not get there."""
        address = f'http://127.0.0.1:{self.port}/report/holds'
        who = ['setpriv', f'--reuid={NOBODY}', f'--regid={NOBODY}', '--clear-groups']
        for front in (self.inside(), ['unshare', '--user', '--map-root-user', '--net']):
            line = [*who, *front, 'curl', '-s', '--max-time', '20', address]
            done = subprocess.run(line, capture_output=True, text=True, check=False)
            self.assertNotIn('held 0 of 0', done.stdout)

    def test_many_connections(self) -> None:
        """A program of the group keeps 300 connections open; the desk must be reached again once
        they are closed."""
        done = subprocess.run([sys.executable, '-c', MANY, self.socket], check=False)
        self.assertEqual(done.returncode, 0)
        until(lambda: self.through(MEMBER, str(GROUP)), 'the desk is reached again')


@unittest.skipIf(without_networks('nft'), without_networks('nft'))
class AnotherUserWithoutSystemd(OwnNetwork):
    """A program of another user wants to reach the desk's port on a machine with
    examples/nftables."""

    def setUp(self) -> None:
        super().setUp()
        with open(os.path.join(ROOT, 'examples', 'nftables', 'desk.nft'), encoding='utf-8') as file:
            text = file.read()
        for name, value in (
            ('desk_port', f'{self.port}'),
            ('users_of_desk', f'{{ {MEMBER}, {GROUP} }}'),
        ):
            text, count = re.subn(
                f'^define {name} = .*$', f'define {name} = {value}', text, flags=re.M
            )
            self.assertEqual(count, 1)
        text = re.sub(
            '^define users_of_board = .*$',
            f'define users_of_board = {{ {GROUP} }}',
            text,
            flags=re.M,
        )
        rules = os.path.join(self.folder, 'desk.nft')
        with open(rules, 'w', encoding='utf-8') as file:
            file.write(text)
        self.address = f'http://127.0.0.1:{self.port}/report/holds'
        self.assertTrue(self.among(NOBODY))
        for _ in range(2):
            done = subprocess.run(
                self.inside('nft', '-f', rules), capture_output=True, text=True, check=False
            )
            if 'Operation not' in done.stderr:
                self.skipTest('the kernel has no nftables')
            self.assertEqual((done.returncode, done.stderr), (0, ''))

    def among(self, user: int, groups: str = '') -> bool:
        """Whether a user reaches the port, in the network with the rules."""
        return self.reaches(self.address, user=user, groups=groups, front=self.inside())

    def test_by_the_port(self) -> None:
        """It connects to the port; only the users of the file must be answered, root not among
        them."""
        for user, wanted in ((NOBODY, False), (0, False), (MEMBER, True), (GROUP, True)):
            self.assertEqual(self.among(user), wanted, user)

    def test_as_a_group(self) -> None:
        """It is of the groups of an allowed user; that must not help it."""
        self.assertFalse(self.among(NOBODY, f'{MEMBER},{GROUP}'))


@unittest.skipIf(shutil.which('systemd-analyze') is None, 'no systemd-analyze here')
class Units(unittest.TestCase):
    """Who has taken over a program that runs as a service wants to take over the machine."""

    def test_exposure(self) -> None:
        """It uses what its unit leaves open; `systemd-analyze security` must give each unit at most
        2.0."""
        names = sorted(name for name in os.listdir(SYSTEMD) if name.endswith('.service'))
        self.assertIn('nulvrader-backup.service', names)
        for name in names:
            line = [
                'systemd-analyze',
                'security',
                '--offline=yes',
                '--no-pager',
                os.path.join(SYSTEMD, name),
            ]
            done = subprocess.run(line, capture_output=True, text=True, check=False)
            found = re.search(r'Overall exposure level for \S+: ([0-9.]+)', done.stdout)
            assert found is not None, done.stderr
            self.assertLessEqual(float(found[1]), EXPOSURE, name)

    def test_users(self) -> None:
        """It uses what another service of its user may do; no two units must share a user, and none
        be root's."""
        dynamic = ('nulvrader-network.service', 'nulvrader-proxy.service')
        users = [
            said(name, 'User')
            for name in os.listdir(SYSTEMD)
            if name.endswith('.service') and name not in dynamic
        ]
        self.assertEqual(len(set(users)), len(users), users)
        for name in dynamic:
            self.assertEqual(said(name, 'DynamicUser'), 'yes')
        self.assertNotIn('root', users)
