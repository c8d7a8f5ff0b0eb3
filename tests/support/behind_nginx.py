"""A desk with a vehicle under way, behind nginx, for attacks on the way to it."""
from __future__ import annotations

import contextlib
import socket
import ssl
import unittest

from tests.support import proxies
from tests.support.board_run import ONE, Plant, has_loopback, until
from tests.support.programs import free_port
from tests.support.proxies import Proxy

PLACE = '/vehicles/KIT/0001/place'
BODY = '{"ref":"e","node":"N1"}'


def order_of(plant: Plant) -> str | None:
    """The open order of the vehicle."""
    return plant.desk.vehicle(ONE).order


def driving() -> Plant:
    """A desk whose vehicle has the order O1, with an edge released."""
    plant = Plant()
    plant.vehicle(ONE, 'N1')
    plant.desk.register_load('L1', 'A')
    plant.desk.add_job('J1', 'L1', 'B')
    plant.desk.start_order('O1', ONE, job='J1', edges=1)
    return plant


@unittest.skipUnless(has_loopback(), 'no sockets on 127.0.0.1 here')
@unittest.skipIf(proxies.MISSING, proxies.WHY)
class ThroughNginx(unittest.TestCase):
    """A desk with a vehicle under way behind nginx; `board_port` is that of a board, if one is
    started."""

    def setUp(self) -> None:
        self.plant = driving()
        self.addCleanup(self.plant.close)
        self.board_port = free_port()
        self.proxy = Proxy(self.plant.port, self.board_port)
        self.addCleanup(self.proxy.close)

    def goes_on(self) -> None:
        """The order of the vehicle goes on."""
        self.assertEqual(order_of(self.plant), 'O1')

    def recorded(self, *wanted: tuple[str, str, str]) -> None:
        """The target, the user and the status of these requests are in the record, which nginx
        writes after the answer."""

        def found() -> bool:
            names = ('target', 'user', 'status')
            records = [tuple(one[name] for name in names) for one in self.proxy.records()]
            return all(records.count(one) >= wanted.count(one) for one in wanted)

        until(found, f'{wanted} in the record')

    def statuses(self, request: str, *lines: str, user: str = 'anna', body: str = '') -> list[int]:
        """What both servers answer to a request."""
        return [
            self.proxy.ask(request, *lines, user=user, body=body, tls=tls).status
            for tls in (False, True)
        ]


def client_hello() -> bytes:
    """What a client of TLS sends first."""
    sent = ssl.MemoryBIO()
    context = ssl.create_default_context()
    with contextlib.suppress(ssl.SSLWantReadError):
        context.wrap_bio(ssl.MemoryBIO(), sent, server_hostname='desk.example').do_handshake()
    return sent.read()


def asking(proxy: Proxy, address: str, request: str, user: str) -> socket.socket:
    """A connection from one of the addresses of this machine, on which a user has sent a request.
    It takes little of an answer that it doesn't read."""
    line = socket.socket()
    line.settimeout(300)
    line.setsockopt(socket.SOL_SOCKET, socket.SO_RCVBUF, 4096)
    line.bind((address, 0))
    line.connect(('127.0.0.1', proxy.port))
    head = [f'{request} HTTP/1.1', f'Host: {proxy.host(False)}', proxies.basic(user, f'{user}!')]
    line.sendall('\r\n'.join([*head, 'Connection: close', '', '']).encode())
    return line


# Sends requests for so many seconds, and at least 100, 14 at a time, and waits for no answer.
GUESS = """
import asyncio, sys, time

port, end, sent = int(sys.argv[1]), time.monotonic() + float(sys.argv[2]), []
head = ['GET /report/stock HTTP/1.1', f'Host: 127.0.0.1:{port}', sys.argv[3], '', '']

async def one():
    while time.monotonic() < end or len(sent) < 100:
        try:
            _, target = await asyncio.open_connection('127.0.0.1', port)
            target.write('\\r\\n'.join(head).encode())
            sent.append(time.monotonic())
            await asyncio.sleep(0.02)
            target.transport.abort()
        except OSError:
            await asyncio.sleep(0.01)

async def all_of_them():
    await asyncio.gather(*[one() for _ in range(14)])

asyncio.run(all_of_them())
"""

# Asks on so many connections without a pause; a connection that is closed is opened again.
FLOOD = """
import asyncio, re, sys

port, count = int(sys.argv[1]), int(sys.argv[2])
request = sys.argv[3].replace('|', '\\r\\n').encode()

async def one():
    while True:
        try:
            source, target = await asyncio.open_connection('127.0.0.1', port)
            while True:
                target.write(request)
                head = await source.readuntil(b'\\r\\n\\r\\n')
                length = re.search(rb'(?i)content-length: ([0-9]+)', head)
                await source.readexactly(int(length[1]))
        except (OSError, EOFError):
            await asyncio.sleep(0.01)

async def all_of_them():
    tasks = [asyncio.create_task(one()) for _ in range(count)]
    print('begun', flush=True)
    await asyncio.gather(*tasks)

asyncio.run(all_of_them())
"""

# Opens 300 connections to a socket, and ends.
MANY = """
import socket, sys

kept = []
for _ in range(300):
    one = socket.socket(socket.AF_UNIX)
    one.settimeout(60)
    one.connect(sys.argv[1])
    kept.append(one)
"""
