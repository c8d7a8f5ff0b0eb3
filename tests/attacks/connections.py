"""Shows that one address can keep no more connections open than nginx, the broker and the
firewall allow."""
from __future__ import annotations

import os
import subprocess
import sys
import unittest

from tests.support.board_run import until
from tests.support.networks import MEMBER, NOBODY, OwnNetwork, without_networks
from tests.support.programs import ROOT

# Listens on ports, over IPv6 too where there is one, and keeps each connection.
KEEPS = """
import contextlib, selectors, socket, sys

kept, waits = [], selectors.DefaultSelector()
for port in sys.argv[1:]:
    waits.register(socket.create_server(('0.0.0.0', int(port)), backlog=500), 1)
    with contextlib.suppress(OSError):
        other = socket.create_server(('::', int(port)), family=socket.AF_INET6, backlog=500)
        waits.register(other, 1)
print('begun', flush=True)
while True:
    for key, _ in waits.select():
        kept.append(key.fileobj.accept()[0])
"""

# Opens so many connections from an address to an address and a port, says how many, and keeps them.
OPENS = """
import socket, sys, time

count, source, target, port = sys.argv[1:]
kept = []
for _ in range(int(count)):
    try:
        kept.append(socket.create_connection((target, int(port)), 60, (source, 0)))
    except ConnectionRefusedError:
        pass
print(len(kept), flush=True)
time.sleep(600)
"""

# Opens so many connections from an address to an address and a port, each once the last one is
# reset, and says how many were made, and in how many seconds.
TRIES = """
import socket, struct, sys, time

count, source, target, port = sys.argv[1:]
made, begun = 0, time.monotonic()
for _ in range(int(count)):
    try:
        with socket.create_connection((target, int(port)), 60, (source, 0)) as one:
            one.setsockopt(socket.SOL_SOCKET, socket.SO_LINGER, struct.pack('ii', 1, 0))
        made += 1
    except ConnectionRefusedError:
        pass
print(made, time.monotonic() - begun, flush=True)
"""
# Reads what comes to a port, and says how many bytes that is for each connection that has ended.
READS = """
import socket, sys, threading

def read(line):
    count = 0
    try:
        while data := line.recv(1048576):
            count += len(data)
    except OSError:
        pass
    print(count, flush=True)

listener = socket.create_server(('0.0.0.0', int(sys.argv[1])), backlog=500)
print('begun', flush=True)
while True:
    threading.Thread(target=read, args=listener.accept()[:1], daemon=True).start()
"""

# Sends so many bytes, or for so many seconds, from an address to an address and a port, and says
# the seconds that it has taken.
SENDS = """
import socket, struct, sys, time

count, seconds, source, target, port = sys.argv[1:]
begun, left = time.monotonic(), int(count)
line = socket.create_connection((target, int(port)), 60, (source, 0))
line.settimeout(1)
while left > 0 and time.monotonic() < begun + float(seconds):
    try:
        left -= line.send(bytes(min(left, 100_000)))
    except TimeoutError:
        pass
if left > 0:
    line.setsockopt(socket.SOL_SOCKET, socket.SO_LINGER, struct.pack('ii', 1, 0))
line.close()
print(time.monotonic() - begun, flush=True)
"""
ONE_ADDRESS, OTHER_ADDRESS, SERVER = '10.77.0.2', '10.77.0.3', '10.77.0.1'
ONE_ADDRESS_6, OTHER_ADDRESS_6, SERVER_6 = 'fd77::2', 'fd77::3', 'fd77::1'
MOST, AT_FIRST, A_SECOND = 128, 200, 5  # examples/nftables/connections.nft
BYTES_AT_ONCE, BYTES_A_SECOND = 2**20, 96 * 2**10


@unittest.skipIf(without_networks('nft', 'ip'), without_networks('nft', 'ip'))
class FromAnotherMachine(unittest.TestCase):
    """A machine with examples/nftables/connections.nft, on which a program listens, and another
    machine with two addresses."""

    listens: tuple[str, ...]  # the program, and its ports

    def setUp(self) -> None:
        self.server = self.start('unshare', '--net', sys.executable, '-c', *self.listens)
        self.other = self.start('unshare', '--net', 'sh', '-c', 'echo begun; exec sleep 1000')
        for process in (self.server, self.other):
            self.assertEqual(self.line(process), 'begun')
        self.run_in(self.server, 'ip', 'link', 'set', 'lo', 'up')
        peer = ('type', 'veth', 'peer', 'name', 'veth1', 'netns', f'{self.other.pid}')
        self.run_in(self.server, 'ip', 'link', 'add', 'veth0', *peer)
        for process, name, address in (
            (self.server, 'veth0', SERVER),
            (self.other, 'veth1', ONE_ADDRESS),
            (self.other, 'veth1', OTHER_ADDRESS),
        ):
            self.run_in(process, 'ip', 'addr', 'add', f'{address}/24', 'dev', name)
            self.run_in(process, 'ip', 'link', 'set', name, 'up')
        self.has_ipv6 = os.path.exists('/proc/sys/net/ipv6/conf/all')
        for process, name, address in (
            (self.server, 'veth0', SERVER_6),
            (self.other, 'veth1', ONE_ADDRESS_6),
            (self.other, 'veth1', OTHER_ADDRESS_6),
        ):
            if self.has_ipv6:
                self.run_in(process, 'ip', 'addr', 'add', f'{address}/64', 'dev', name, 'nodad')
        rules = os.path.join(ROOT, 'examples', 'nftables', 'connections.nft')
        for _ in range(2):
            self.run_in(self.server, 'nft', '-f', rules)

    def start(self, *line: str) -> subprocess.Popen[bytes]:
        """Starts a program, which is ended with the test."""
        process = subprocess.Popen(line, stdout=subprocess.PIPE)
        self.addCleanup(OwnNetwork.end, process)
        return process

    @staticmethod
    def line(process: subprocess.Popen[bytes]) -> str:
        """The next line of a program."""
        assert process.stdout is not None
        return process.stdout.readline().decode().strip()

    @staticmethod
    def inside(process: subprocess.Popen[bytes]) -> list[str]:
        """What is before a command in the network of a program."""
        return ['nsenter', f'--net=/proc/{process.pid}/ns/net']

    def run_in(self, process: subprocess.Popen[bytes], *line: str) -> None:
        """Runs a command in the network of a program."""
        line = (*self.inside(process), *line)
        done = subprocess.run(line, capture_output=True, text=True, check=False)
        if line[-3] == 'nft' and 'Operation not' in done.stderr:
            self.skipTest('the kernel has no nftables')
        self.assertEqual((done.returncode, done.stderr), (0, ''), line)


class ConnectionsOfAnAddress(FromAnotherMachine):
    """Who has no password keeps so many connections open that nginx or the broker has none left."""

    listens = (KEEPS, '443', '882', '8883')

    def opened(self, count: int, source: str, port: int) -> tuple[int, subprocess.Popen[bytes]]:
        """How many connections of an address are made to a port, and who keeps them."""
        server = SERVER_6 if ':' in source else SERVER
        words = (f'{count}', source, server, f'{port}')
        process = self.start(*self.inside(self.other), sys.executable, '-c', OPENS, *words)
        return int(self.line(process)), process

    def test_from_another_machine(self) -> None:
        """It opens 300 connections to the ports of nginx and the broker; 128 must be made, another
        address be served, and so must the first one once they are closed."""
        made, first = self.opened(100, ONE_ADDRESS, 443)
        self.assertEqual(made, 100)
        made, second = self.opened(200, ONE_ADDRESS, 8883)
        self.assertEqual(made, MOST - 100)
        self.assertEqual(self.opened(1, ONE_ADDRESS, 443)[0], 0)
        self.assertEqual(self.opened(20, OTHER_ADDRESS, 443)[0], 20)
        for process in (first, second):
            process.kill()
        until(lambda: self.opened(1, ONE_ADDRESS, 443)[0] == 1, 'the address is served again')

    def test_over_ipv6(self) -> None:
        """It opens 300 connections over IPv6; 128 must be made, and another machine of its network
        be served."""
        if not self.has_ipv6:
            self.skipTest('no IPv6 here')
        self.assertEqual(self.opened(300, ONE_ADDRESS_6, 8883)[0], MOST)
        self.assertEqual(self.opened(20, OTHER_ADDRESS_6, 8883)[0], 20)

    def test_many_passwords(self) -> None:
        """It connects to the broker 600 times, for a password each; 200 must be made, 5 more in a
        second, and another address be served."""
        words = ('600', ONE_ADDRESS, SERVER, '8883')
        told = self.line(self.start(*self.inside(self.other), sys.executable, '-c', TRIES, *words))
        made, seconds = told.split()
        self.assertGreaterEqual(int(made), AT_FIRST)
        self.assertLessEqual(int(made), AT_FIRST + A_SECOND * (float(seconds) + 1))
        self.assertEqual(self.opened(20, OTHER_ADDRESS, 8883)[0], 20)

    def test_by_a_user_of_this_machine(self) -> None:
        """A program of the machine opens 300 connections; 128 must be made, and another user be
        served."""
        for user, count, wanted in ((NOBODY, 300, MOST), (NOBODY, 1, 0), (MEMBER, 20, 20)):
            who = ['setpriv', f'--reuid={user}', f'--regid={user}', '--clear-groups']
            words = (f'{count}', '127.0.0.1', '127.0.0.1', '882')
            line = [*self.inside(self.server), *who, sys.executable, '-c', OPENS, *words]
            self.assertEqual(int(self.line(self.start(*line))), wanted, user)


class BytesOfAnAddress(FromAnotherMachine):
    """A vehicle sends messages without a pause, so that the gateway has no time for others."""

    listens = (READS, '8883')

    def send(self, count: int, seconds: float, source: str) -> subprocess.Popen[bytes]:
        """Sends so many bytes to the broker, or for so many seconds."""
        words = (f'{count}', f'{seconds}', source, SERVER, '8883')
        return self.start(*self.inside(self.other), sys.executable, '-c', SENDS, *words)

    def test_without_a_pause(self) -> None:
        """It sends as much as it can for ten seconds; 1 MB of it must come at once, and then 96 KB
        in a second, and all that another address sends."""
        flood = self.send(10**12, 10, ONE_ADDRESS)
        vehicle = self.send(500_000, 60, OTHER_ADDRESS)
        seconds = float(self.line(flood))
        self.line(vehicle)
        first, second = sorted(int(self.line(self.server)) for _ in range(2))
        self.assertEqual(first, 500_000)
        self.assertLessEqual(second, BYTES_AT_ONCE + BYTES_A_SECOND * (seconds + 1))
        self.assertGreater(second, 900_000)
