"""Shows that a dispatcher takes what it is told of batteries on its socket, by the gateway's own
sender, and that hostile datagrams change nothing."""
from __future__ import annotations

import contextlib
import json
import os
import re
import socket
import subprocess
import sys
import tempfile
import time
import unittest
from collections.abc import Mapping
from typing import Any

from nulvrader.board.words_socket import Heard, hearing_in
from nulvrader.dispatch.batteries import AGE, ToldBatteries
from nulvrader.gateway.log import Log
from nulvrader.gateway.telemetry import TelemetrySender
from tests.support.desks import over_sockets
from tests.support.dispatching import ONE, OverADesk
from tests.support.gateway_states import STATE
from tests.support.programs import PATIENCE, TOOLS

KNOWN = ('KIT/0001', 'KIT/0002')
HOSTILE = (
    b'',
    b'[]',
    b'{"manufacturer":"KIT","serialNumber":"0001"}',
    b'{"manufacturer":"KIT","serialNumber":"0001","batteryState":7}',
    b'\xff\xfe' * 1000,
    b'[' * 16_000,
)
CHARGES = ('NaN', '-Infinity', '1e400', '-1e400', '1001', '"7"', 'null', 'true', '[7]', '{}')
"""What is no charge."""


def words(charge: str, serial: str = '0001') -> bytes:
    front = f'{{"manufacturer":"KIT","serialNumber":"{serial}"'
    return f'{front},"batteryState":{{"batteryCharge":{charge}}}}}'.encode()


class OverASocket(unittest.TestCase):
    def setUp(self) -> None:
        self.path = os.path.join(self.enterContext(tempfile.TemporaryDirectory()), 'words.sock')
        self.heard = Heard(hearing_in(self.path))
        self.heard.start()
        self.addCleanup(self.heard.stop)
        self.now = 0.0
        self.told = ToldBatteries(self.heard, lambda: self.now)
        self.socket = self.enterContext(socket.socket(socket.AF_UNIX, socket.SOCK_DGRAM))

    def until(self, wanted: Mapping[str, float]) -> None:
        ends = time.monotonic() + PATIENCE
        while (found := self.told.of(KNOWN)) != wanted and time.monotonic() < ends:
            time.sleep(0.02)
        self.assertEqual(found, wanted)

    def test_what_a_gateway_tells(self) -> None:
        """The last charge of each vehicle, until it is old."""
        lines: list[str] = []
        sender = TelemetrySender(self.path, Log(lines.append), lambda: self.now)
        for charge in (40.0, 41.25):
            state = {**STATE, 'batteryState': {'batteryCharge': charge, 'charging': True}}
            sender.state('KIT/0001', json.dumps(state).encode())
            self.now += 10
            sender.turn()
            self.until({'KIT/0001': round(charge, 1)})
        self.now += AGE
        self.assertEqual(self.told.of(KNOWN), {'KIT/0001': 41.2})
        self.now += 1
        self.assertEqual((self.told.of(KNOWN), lines), ({}, []))

    def test_two_who_are_told(self) -> None:
        """What one does not take, the other gets."""
        lines: list[str] = []
        nobody = TelemetrySender(self.path + '.none', Log(lines.append), lambda: self.now)
        sender = TelemetrySender(self.path, Log(lines.append), lambda: self.now)
        for one in (nobody, sender):
            one.state('KIT/0001', words('40'))
            one.turn()
        self.until({'KIT/0001': 40.0})
        told = [f'what vehicles say is not told to {self.path}.none: No such file or directory']
        self.assertEqual(lines, told)

    def test_what_is_no_charge(self) -> None:
        """It says nothing: the last charge stays. A charge is from 0 to 100."""
        self.socket.sendto(words('50'), self.path)
        self.until({'KIT/0001': 50.0})
        for data in (*HOSTILE, *map(words, CHARGES)):
            self.socket.sendto(data, self.path)
        self.socket.sendto(words('999', '0002'), self.path)
        self.until({'KIT/0001': 50.0, 'KIT/0002': 100.0})
        self.socket.sendto(words('-5', '0002'), self.path)
        self.until({'KIT/0001': 50.0, 'KIT/0002': 0.0})

    def test_vehicles_that_the_desk_does_not_have(self) -> None:
        """However many are told of, none is kept."""
        self.told.of(KNOWN)
        for n in range(300):
            self.socket.sendto(words('5', f'{n:05d}'), self.path)
        self.socket.sendto(words('50'), self.path)
        self.until({'KIT/0001': 50.0})
        self.assertEqual(self.told.of(()), {})
        self.assertEqual(self.told.of(KNOWN), {})

    def test_a_flood(self) -> None:
        """One sends as fast as it can, in the names of many: each turn ends at once, little is
        kept, and once it is over words are taken as before."""
        self.socket.setblocking(False)
        ends, sent, longest = time.monotonic() + 3, 0, 0.0
        while time.monotonic() < ends:
            for n in range(200):
                with contextlib.suppress(BlockingIOError):
                    sent += self.socket.sendto(words('5', f'{n:05d}'), self.path) > 0
            begun = time.process_time()
            self.assertEqual(self.told.of(KNOWN), {})
            longest = max(longest, time.process_time() - begun)
        self.assertGreater(sent, 400)
        self.assertLess(longest, 1.0)
        self.socket.setblocking(True)
        self.socket.sendto(words('50'), self.path)
        self.until({'KIT/0001': 50.0})


@over_sockets
class OverTheProgram(OverADesk):
    """`tools/dispatch` with a file of chargers and a socket of words."""

    def begin(self) -> None:
        self.path = os.path.join(self.folder.name, 'words.sock')
        self.chargers = os.path.join(self.folder.name, 'chargers.csv')
        with open(self.chargers, 'w') as file:
            file.write('node,vehicles\nbb,\n')

    def line(self, *more: str) -> list[str]:
        front = [sys.executable, os.path.join(TOOLS, 'dispatch'), '--desk', self.address]
        return [*front, *more]

    def ended(self, *more: str) -> str:
        """What the program says that ends with status 2."""
        done = subprocess.run(self.line(*more), capture_output=True, text=True, timeout=PATIENCE)
        self.assertEqual((done.returncode, done.stdout.count('gives orders')), (2, 0))
        return done.stderr.splitlines()[-1]

    def begun(self) -> Any:
        line = self.line('--every', '0.1', '--chargers', self.chargers, '--words', self.path)
        pipe = subprocess.PIPE
        program = self.enterContext(subprocess.Popen(line, stdout=pipe, text=True))
        self.addCleanup(program.kill)
        assert program.stdout is not None
        self.assertRegex(program.stdout.readline(), 'gives orders')
        return program

    def test_a_vehicle_that_is_to_charge(self) -> None:
        """It drives to the charger, also where hostile words come all the while; and so it does
        once more after a kill, over the socket that was left."""
        for vehicle, serial in (('KIT/0001', '0001'), ('KIT/0002', '0002')):
            program = self.begun()
            with socket.socket(socket.AF_UNIX, socket.SOCK_DGRAM) as client:
                for data in (*HOSTILE, *map(words, CHARGES), words('7', serial)):
                    client.sendto(data, self.path)
            self.assertRegex(program.stdout.readline(), f'{vehicle}: drives to .* to charge, by')
            program.kill()
            program.wait()
            if serial == '0001':
                self.desk.place(ONE, 'R1', 'ab')

    def test_what_is_wrong_on_the_line(self) -> None:
        rows: tuple[tuple[list[str], str], ...] = (
            (['--chargers', self.chargers], '--chargers needs --words'),
            (['--low', '80', '--high', '80'], '--low and --high are percent'),
            (['--low', 'nan'], 'nan is no number from 0 to 100'),
            (['--high', '1e2'], '1e2 is no number from 0 to 100'),
            (['--words', self.folder.name], re.escape(self.folder.name)),
            (['--words', self.path, '--chargers', '/dev/zero'], '/dev/zero: .* a device'),
        )
        for more, told in rows:
            with self.subTest(more):
                self.assertRegex(self.ended(*more), told)

    def test_a_wrong_file(self) -> None:
        with open(self.chargers, 'w') as file:
            file.write('node,vehicles\nnowhere,\n')
        told = self.ended('--words', self.path, '--chargers', self.chargers)
        self.assertRegex(told, 'chargers.csv: line 2: the layout has no node nowhere')


if __name__ == '__main__':
    unittest.main()
