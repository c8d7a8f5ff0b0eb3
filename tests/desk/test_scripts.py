"""Shows that the worked examples, scripts of requests with each status and body worked out by hand,
are answered so as one stream in memory, request by request by a program of its own on one file, and
over one connection."""
import os
import tempfile
import unittest
from typing import Any

from tests.support.programs import ROOT
from tests.support.records import broken, rows_of
from tests.support.desks import AT, Serving, over_sockets, requests_of, run
from tests.support.script_calls import CUT, answers_of, bytes_of
from tests.support.scripts import SCRIPTS


class Scripts(unittest.TestCase):
    def check(self, lines: Any, told: Any) -> None:
        self.assertEqual(len(told), len(lines))
        for line, (status, body) in zip(lines, told):
            self.assertEqual((status, body), line[2:], line[:2])

    def test_in_memory(self) -> None:
        for title, lines in SCRIPTS.items():
            with self.subTest(title):
                status, out, said = run(
                    'replay', '--db', 'memory', '--at', AT, stdin=b''.join(map(bytes_of, lines))
                )
                self.assertEqual((status, said), (0, b''))
                self.check(lines, answers_of(out))

    def test_each_request_by_a_program_of_its_own(self) -> None:
        for title, lines in SCRIPTS.items():
            with self.subTest(title), tempfile.TemporaryDirectory() as folder:
                db = os.path.join(folder, 'script.db')
                for line in lines:
                    status, out, said = run('replay', '--db', db, '--at', AT, stdin=bytes_of(line))
                    self.assertEqual((status, said), (0, b''))
                    self.check([line], answers_of(out))
                self.assertEqual(broken(rows_of(db)), [])

    @over_sockets
    def test_over_one_connection(self) -> None:
        for title, lines in SCRIPTS.items():
            with (
                self.subTest(title),
                tempfile.TemporaryDirectory() as folder,
                Serving(os.path.join(folder, 'script.db')) as desk,
            ):
                plain = desk.plain()
                told = b''
                found: list[Any] = []
                for number, line in enumerate(lines, 1):
                    plain.sendall(bytes_of(line))
                    while found is None or len(found) < number:
                        more = plain.recv(65536)
                        self.assertNotEqual(more, b'', 'the desk has closed the connection')
                        told += more
                        found = answers_of(told)
                plain.close()
                self.check(lines, found)

    def check_example(self, name: str) -> list[tuple[int, str]]:
        """A new desk answers each request of an example with 200; what it answers."""
        with open(os.path.join(ROOT, 'examples', name), 'rb') as file:
            data = file.read()
        status, out, said = run('replay', '--db', 'memory', '--at', AT, stdin=data)
        self.assertEqual((status, said), (0, b''))
        told: list[tuple[int, str]] = answers_of(out)
        self.assertEqual(len(told), len(requests_of(data)))
        self.assertEqual({status for status, _ in told}, {200})
        return told

    def test_each_call_of_the_page(self) -> None:
        """`examples/calls.http` has each call in an order in which a new desk answers it with
        200."""
        self.check_example('calls.http')

    def test_two_loads(self) -> None:
        """`examples/two-loads.http`: L1 is picked at A, then L2 at C, where L1 is dropped; then L2
        is dropped at B."""
        told = self.check_example('two-loads.http')
        self.assertEqual(told[10][1], '{"job":"J1","load":"L1","place":"vehicle KIT/0001"}')
        stock = (
            'station A at N1: 0 of 1, reserved 0\nstation B at N3: 0 of 1, reserved 1\nstation C at'
            ' N3: 1 of 2, reserved 0\n  L1\nchecking: 0\nvehicle KIT/0001: 1\n  L2\nleft: 0\n'
        )
        self.assertEqual(told[12][1], stock)
        stock = (
            'station A at N1: 0 of 1, reserved 0\nstation B at N3: 1 of 1, reserved 0\n '
            ' L2\nstation C at N3: 1 of 2, reserved 0\n  L1\nchecking: 0\nvehicle KIT/0001:'
            ' 0\nleft: 0\n'
        )
        self.assertEqual(told[14][1], stock)

    def test_fronts_of_an_input(self) -> None:
        """Of two registrations and a cut one each front is served up to its last whole request, and
        then refused, or at its end."""
        first, second, _ = CUT
        whole = b''.join(CUT)
        for length in range(len(whole) + 1):
            status, out, said = run('replay', '--db', 'memory', '--at', AT, stdin=whole[:length])
            self.assertEqual((status, said), (0, b''))
            served = (length >= len(first)) + (length >= len(first) + len(second))
            at_end = length in (0, len(first), len(first) + len(second))
            wanted = [(200, '{}')] * served + (
                [] if at_end else [(400, '{"name":"BadHead","refusal":1}')]
            )
            self.assertEqual(answers_of(out), wanted, length)


if __name__ == '__main__':
    unittest.main()
