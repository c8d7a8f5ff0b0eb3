"""Shows by the tables of the system that `serve` listens at 127.0.0.1 alone and has no other
socket than those of its port, that `replay` has none, and that the logs of two new files have
different salts."""
import contextlib
import os
import re
import socket
import struct
import subprocess
import tempfile
import unittest

from tests.support.calls import request
from tests.support.desks import AT, DESK, ProgramTest, Serving, over_sockets, run

LISTENS, ESTABLISHED = '0A', '01'
LOG_HEADER = 32  # bytes, of which 16 to 24 are the salts


def sockets_of(pid: int) -> set[int]:
    """The inodes of the sockets that a process has open."""
    found = set()
    for file in os.listdir(f'/proc/{pid}/fd'):
        with contextlib.suppress(FileNotFoundError):
            told = re.fullmatch(r'socket:\[(\d+)\]', os.readlink(f'/proc/{pid}/fd/{file}'))
            if told:
                found.add(int(told[1]))
    return found


def connections_of(pid: int) -> list[tuple[str, str]]:
    """The address here and the state of each socket of TCP that a process has open, as the system
    writes them."""
    inodes, found = sockets_of(pid), []
    for table in ('tcp', 'tcp6'):
        path = f'/proc/{pid}/net/{table}'
        if os.path.exists(path):
            with open(path) as file:
                rows = [line.split() for line in file.readlines()[1:]]
            found += [(row[1], row[3]) for row in rows if int(row[9]) in inodes]
    return sorted(found)


def local(port: int) -> str:
    """127.0.0.1 with a port, as /proc/net/tcp writes it."""
    return f'{struct.unpack("=I", socket.inet_aton("127.0.0.1"))[0]:08X}:{port:04X}'


@unittest.skipUnless(os.path.exists('/proc/self/net/tcp'), 'no table of sockets here')
class Sockets(ProgramTest):
    def check(self, desk: Serving, *states: str) -> None:
        """Each socket is at 127.0.0.1 and the port of the desk, in these states; it has no other
        one."""
        pid = desk.process.pid
        self.assertEqual(
            connections_of(pid), [(local(desk.port), state) for state in sorted(states)]
        )
        self.assertEqual(len(sockets_of(pid)), len(states))

    @over_sockets
    def test_it_listens_at_one_address(self) -> None:
        """Before a connection, while it has one, and behind it."""
        with Serving(self.db) as desk:
            self.check(desk, LISTENS)
            line = desk.connect()
            self.assertEqual(desk.ask('GET', '/loads/L1', None, line)[0], 404)
            self.check(desk, LISTENS, ESTABLISHED)
            line.close()
            # the next connection is accepted once the one before is closed
            line = desk.connect()
            self.assertEqual(desk.ask('GET', '/loads/L1', None, line)[0], 404)
            self.check(desk, LISTENS, ESTABLISHED)
            line.close()

    @over_sockets
    def test_nobody_is_let_in_by_another_address(self) -> None:
        """Neither by another one of this machine alone, nor by one that others reach it by."""
        others = {(socket.AF_INET, '127.0.0.2'), (socket.AF_INET6, '::1')}
        with contextlib.suppress(OSError):
            others |= {
                (family, address[0])
                for family, *_, address in socket.getaddrinfo(
                    socket.gethostname(), 0, type=socket.SOCK_STREAM
                )
            }
        with Serving(self.db) as desk:
            for family, address in sorted(others - {(socket.AF_INET, '127.0.0.1')}):
                with (
                    self.subTest(address),
                    self.assertRaises(OSError),
                    socket.socket(family, socket.SOCK_STREAM) as line,
                ):
                    line.settimeout(30)
                    line.connect((address, desk.port))
            self.assertEqual(desk.ask('GET', '/loads/L1')[0], 404)

    def test_a_replay_has_none(self) -> None:
        with subprocess.Popen(
            [DESK, 'replay', '--db', self.db, '--at', AT],
            stdin=subprocess.PIPE,
            stdout=subprocess.PIPE,
        ) as replay:
            assert replay.stdin and replay.stdout
            replay.stdin.write(request('GET /loads/L1'))
            replay.stdin.flush()
            self.assertTrue(replay.stdout.readline().startswith(b'HTTP/1.1 404'))
            self.assertEqual(sockets_of(replay.pid), set())
            replay.communicate()
        self.assertEqual(replay.returncode, 0)


class Salts(unittest.TestCase):
    def test_files_made_one_after_the_other(self) -> None:
        """Frames that an old log has left in the place of a new one are told apart by the salts, so
        no two logs have the same."""
        salts = []
        with tempfile.TemporaryDirectory() as folder:
            for number in range(4):
                db = os.path.join(folder, f'{number}.db')
                status, out, said = run(
                    'replay', '--db', db, '--at', AT, stdin=request('POST /loads', '{"load":"L1"}')
                )
                self.assertEqual((status, out[-2:], said), (0, b'{}', b''))
                with open(db + '-wal', 'rb') as file:
                    header = file.read(LOG_HEADER)
                # a log of SQLite, in the format of version 3007000
                self.assertIn(header[:8].hex(), ('377f0682002de218', '377f0683002de218'))
                salts.append(header[16:24])
        self.assertEqual(len(set(salts)), len(salts), salts)


if __name__ == '__main__':
    unittest.main()
