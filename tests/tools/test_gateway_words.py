"""Shows what the words of `tools/gateway` do, and which are refused."""
from __future__ import annotations

import contextlib
import io
import os
import signal
import sys
import tempfile
import time
import unittest
import unittest.mock
from collections.abc import Callable
from typing import Any

from nulvrader.gateway import carrier, cli
from tests.support.paho import Paho
from tests.support.programs import PATIENCE, ran


class Words(unittest.TestCase):
    """The program by its words, over the stand-in of the library."""

    def run_line(
        self, *words: str, turn: Callable[[carrier.Gateway], None] | None = None
    ) -> tuple[Any, str]:
        """What it says on both outputs, and how it ends."""
        out = io.StringIO()
        with contextlib.ExitStack() as stack:
            stack.enter_context(contextlib.redirect_stdout(out))
            stack.enter_context(contextlib.redirect_stderr(out))
            stack.enter_context(
                unittest.mock.patch.object(carrier.Gateway, 'turn', turn or self.end)
            )
            for number in (signal.SIGINT, signal.SIGTERM):
                stack.callback(signal.signal, number, signal.getsignal(number))
            try:
                ends: Any = cli.run(list(words), 'What it does.')
            except SystemExit as ended:
                ends = ended.code
        return ends, out.getvalue()

    @staticmethod
    def end(*_: object) -> None:
        os.kill(os.getpid(), signal.SIGTERM)
        time.sleep(PATIENCE)

    def test_those_of_the_broker(self) -> None:
        made = []

        def turn(between: carrier.Gateway) -> None:
            made.append(between)
            self.end()

        with tempfile.TemporaryDirectory() as folder, Paho(2) as library:
            path = os.path.join(folder, 'password')
            with open(path, 'w') as file:
                file.write('a secret \n')
            words = [
                '--broker',
                '[::1]:8883',
                '--user',
                'desk',
                '--password-file',
                path,
                '--ca',
                'ca.pem',
                '--front',
            ]
            words += [
                'w/v2',
                '--vehicle',
                'KIT/0001',
                '--every',
                '0.5',
                '--desk',
                'https://desk.example',
            ]
            ends = self.run_line(*words, '--cert', 'own.pem', '--key', 'own.key', turn=turn)
        self.assertEqual(ends, (0, ''))
        (client,), (between,) = library.clients, made
        calls = [call for call in client.calls if call[0] != 'delay']
        ca = ('ca', 'ca.pem', 'own.pem', 'own.key')
        self.assertEqual(
            calls, [('user', 'desk', 'a secret '), ca, ('connect', '::1', 8883), ('loop',)]
        )
        with contextlib.redirect_stderr(io.StringIO()):
            client.connected()
        self.assertEqual(client.subscribed(), ['w/v2/+/+/state', 'w/v2/+/+/connection'])
        self.assertEqual((between.front, between.fleet.named), ('w/v2', {'KIT/0001'}))
        self.assertEqual(between.desk.address, 'https://desk.example')

    def test_a_password_without_tls(self) -> None:
        """This is said, but of a broker on the same machine."""
        with tempfile.TemporaryDirectory() as folder:
            path = os.path.join(folder, 'password')
            with open(path, 'w') as file:
                file.write('a secret')
            for host, said in (
                ('broker.example', 1),
                ('127.0.0.1', 0),
                ('localhost', 0),
                ('[::1]', 0),
            ):
                with Paho(2):
                    ends = self.run_line(
                        '--broker', f'{host}:1883', '--user', 'desk', '--password-file', path
                    )
                self.assertEqual(
                    (ends[0], ends[1].count('without TLS: give --ca')), (0, said), host
                )

    def test_those_that_are_refused(self) -> None:
        for words, fault in (
            (['--broker', 'nowhere'], "'nowhere' is not HOST:PORT"),
            (['--broker', 'here:0'], "'here:0' is not HOST:PORT"),
            (['--vehicle', 'KIT 1/0001'], "'KIT 1/0001' is no vehicle: write MANUFACTURER/SERIAL"),
            (['--front', 'uagv/#'], "'uagv/#' is not the beginning of a topic"),
            (['--every', '0'], '0 is no number of seconds between 0 and 3600'),
            (['--password-file', 'x'], '--password-file needs --user'),
            (['--ca', 'ca.pem', '--cert', 'own.pem'], '--cert and --key need one another'),
            (['--cert', 'own.pem', '--key', 'own.key'], '--cert needs --ca'),
        ):
            with self.subTest(words), Paho(2) as library:
                ends, said = self.run_line(*words)
                self.assertEqual((ends, library.clients), (2, []))
                self.assertIn(fault, said)

    def test_a_password_file_that_is_none(self) -> None:
        with Paho(1):
            ends, said = self.run_line('--user', 'desk', '--password-file', '/nowhere/password')
        self.assertEqual(ends, 1)
        self.assertTrue(said.startswith('gateway: ') and '/nowhere/password' in said, said)

    def test_what_is_needed(self) -> None:
        """`--help` and the program without the library say how to get it."""
        status, out, _ = ran('gateway', '--help')
        self.assertEqual(status, 0)
        self.assertIn('pip install paho-mqtt', out)
        with unittest.mock.patch.dict(sys.modules, {'paho': None}):
            ends, said = self.run_line()
        self.assertEqual(ends, 1)
        self.assertIn('pip install paho-mqtt', said)


if __name__ == '__main__':
    unittest.main()
