"""Shows how the dispatcher starts and ends as a program over a desk and as a service of systemd, as
docs/OPERATE.md installs it, and what it says of faults."""
import contextlib
import os
import re
import shlex
import signal
import subprocess
import sys
import tempfile
import unittest
from collections.abc import Iterator
from typing import Any, TextIO, cast
from unittest import mock

from tests.support.dispatching import LAYOUT, ONE, OverADesk, Told
from nulvrader.desk.client import Answer, Desk
from tests.support.programs import PATIENCE, ROOT, TOOLS, module, within
from tests.support.desks import Serving, over_sockets


@contextlib.contextmanager
def running(*words: str) -> Iterator[TextIO]:
    """Runs the dispatcher's program, and gives what it prints to a block; then it is ended by a
    signal, with 0."""
    line = [sys.executable, os.path.join(TOOLS, 'dispatch'), *words]
    with subprocess.Popen(line, stdout=subprocess.PIPE, text=True) as process:
        assert process.stdout
        try:
            yield cast(TextIO, process.stdout)
        finally:
            process.terminate()
        status = process.wait(300)
    assert status == 0, status


@over_sockets
class Program(OverADesk):
    places = ()

    def test_the_program(self) -> None:
        """It waits for its desk, gives an order, and ends by a signal."""
        self.desk.add_job('J1', 'L1', 'B')
        with running('--desk', self.address, '--every', '0.1') as out:
            lines = [out.readline(), out.readline()]
        self.assertRegex(lines[0], r'^\d\d:\d\d:\d\d gives orders at ')
        self.assertRegex(lines[1], r'^\d\d:\d\d:\d\d KIT/0001: takes J1 \(L1 from A to B\)')
        self.assertIsNotNone(self.desk.vehicle(ONE).order)

    def test_parking_places_that_are_none(self) -> None:
        """The program ends with 2, and says where the file is wrong."""
        path = os.path.join(self.folder.name, 'parking.csv')
        words = [sys.executable, os.path.join(TOOLS, 'dispatch'), '--desk', self.address]
        for text, told in ((None, 'No such file'), ('node,behind\nab,\nx,\n', 'line 3: ')):
            if text is not None:
                with open(path, 'w', encoding='ascii') as file:
                    file.write(text)
            done = subprocess.run([*words, '--parking', path], capture_output=True, text=True)
            self.assertEqual(done.returncode, 2)
            self.assertIn(told, done.stderr)

    def test_the_program_and_faults(self) -> None:
        """Faults of the desk, at its start and later, do not end the program."""
        program, real = module('dispatch'), Desk.ask
        asked: list[tuple[Any, ...]] = []
        slept: list[int] = []

        def ask(*words: Any) -> Answer:
            asked.append(words)
            return (
                Answer(503, b'{"name":"Memory","refusal":90}')
                if len(asked) in (1, 3, 6)
                else real(*words)
            )

        def sleep(_: float) -> None:
            slept.append(0)
            if len(slept) == 5:
                raise KeyboardInterrupt

        self.desk.add_job('J1', 'L1', 'B')
        handler = signal.getsignal(signal.SIGTERM)
        self.addCleanup(signal.signal, signal.SIGTERM, handler)
        with mock.patch.object(Desk, 'ask', ask), mock.patch.object(program.time, 'sleep', sleep):
            status, out, said = within(program, '--desk', self.address)
        self.assertEqual((status, said), (0, ''))
        found = [line.partition(' ')[2] for line in out.splitlines()]
        for line, wanted in zip(
            found,
            (
                'waits for the desk: ',
                'gives orders at ',
                'the desk does not answer: ',
                'KIT/0001: takes J1 ',
                'the desk answers again',
            ),
        ):
            self.assertTrue(line.startswith(wanted), out)
        self.assertEqual(len(found), 5, out)

    def test_a_desk_without_a_layout(self) -> None:
        """The program waits until it has one, and goes by it."""
        with Serving(os.path.join(self.folder.name, 'new.db'), 10**6) as serving:
            desk = Desk(f'127.0.0.1:{serving.port}', timeout=PATIENCE)
            with running('--desk', desk.address, '--every', '0.1') as out:
                lines = [out.readline()]
                desk.set_layout(LAYOUT)
                desk.register_vehicle(ONE, 'ab')
                Told(desk)(ONE, 'ab')
                desk.register_load('L1', 'A')
                desk.add_job('J1', 'L1', 'B')
                lines += [out.readline(), out.readline()]
        for line, wanted in zip(
            lines,
            (
                'waits for the desk: it has no layout yet\n',
                'gives orders at ',
                'KIT/0001: takes J1 ',
            ),
        ):
            self.assertIn(' ' + wanted, line)


def text_of(*path: str) -> str:
    with open(os.path.join(ROOT, *path)) as file:
        return file.read()


class Unit(unittest.TestCase):
    """The service of systemd, as docs/OPERATE.md installs it."""

    def setUp(self) -> None:
        self.unit, self.conf = text_of(
            'examples', 'systemd', 'nulvrader-dispatch.service'
        ), text_of('examples', 'systemd', 'nulvrader.conf')
        program, command, *words, more = shlex.split(self.said('ExecStart'))
        self.assertEqual(
            (program, command, more),
            ('/usr/bin/nulvrader', 'dispatch', '$NULVRADER_DISPATCH_OPTIONS'),
        )
        self.options = dict(zip(words[::2], words[1::2], strict=True))

    def said(self, name: str) -> str:
        found = re.search(f'^{name}=(.*)$', self.unit, re.M)
        assert found
        return found.group(1)

    def test_its_files(self) -> None:
        """The desk is that of nulvrader.conf, which is that of the other unit."""
        found = re.search(
            '^ListenStream=(.*)$', text_of('examples', 'systemd', 'nulvrader-proxy.socket'), re.M
        )
        assert found
        self.assertEqual(self.options['--desk'], '${NULVRADER_DESK}')
        self.assertIn(f'\nNULVRADER_DESK=unix:{found.group(1)}\n', self.conf)

    def test_its_line(self) -> None:
        """It is taken, and waits for a desk where none listens. Where it ends, the unit starts it
        again."""
        folder = self.enterContext(tempfile.TemporaryDirectory())
        here = {'--desk': '127.0.0.1:1'}
        for name, place in (('--words', '/run/desk-dispatch'), ('--waits', '/run/desk-waits')):
            self.assertEqual(os.path.dirname(self.options[name]), place)
            self.assertIn(place, self.said('ReadWritePaths').split())
            here[name] = os.path.join(folder, os.path.basename(self.options[name]))
        self.assertEqual(here.keys(), self.options.keys())
        words = [word for option in self.options for word in (option, here[option])]
        self.assertEqual(self.said('Restart'), 'always')
        self.assertNotIn('RestartPreventExitStatus', self.unit)
        with running(*words) as out:
            line = out.readline()
        self.assertRegex(line, r'^\d\d:\d\d:\d\d waits for the desk: ')


if __name__ == '__main__':
    unittest.main()
