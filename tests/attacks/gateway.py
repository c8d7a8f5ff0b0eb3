"""Shows that the gateway serves its vehicles whatever vehicles that nobody knows send, and
whatever a board does."""
from __future__ import annotations

import contextlib
import json
import socket
import threading
import time

from tests.support import programs
from tests.support.attacked_gateway import HostileServer, MB, TOPIC, end, more_lines, state
from tests.support.mqtt import Client, WithADesk, with_mosquitto, with_paho
from tests.support.programs import PATIENCE, until
from tests.support.states import told

INVENTED = 2300


def names() -> list[str]:
    """Returns the topics of invented vehicles."""
    return [f'uagv/v2/FAKE/{number}/state' for number in range(INVENTED)]


class Attacked(WithADesk):
    """A desk, a broker that lets everybody in, and the gateway. KIT/0001 is the only vehicle."""

    def setUp(self) -> None:
        super().setUp()
        self.broker('allow_anonymous true', 'max_queued_messages 0')
        self.begun = time.monotonic()
        self.process = self.gateway(self.desk.address, '--timeout', '10')
        self.vehicle = self.enterContext(Client(self.port))
        self.attacker = self.enterContext(Client(self.port))
        self.number = 0

        def is_served() -> bool:
            self.number += 1
            self.vehicle.publish(TOPIC + 'state', state(self.number))
            return self.header() is not None

        until(is_served, 'a first state at the desk')
        self.arrive()

    def arrive(self) -> float:
        """Sends a state, and returns after how many seconds it is at the desk."""
        self.number += 1
        begun = time.monotonic()
        self.vehicle.publish(TOPIC + 'state', state(self.number))

        def has_arrived() -> bool:
            self.assertIsNone(self.process.poll(), 'the gateway has ended')
            return (self.header() or 0) >= self.number

        until(has_arrived, 'a state at the desk')
        return time.monotonic() - begun

    def check_log(self, most: int) -> None:
        """Checks that the gateway goes on, and has said little, and nothing a terminal obeys."""
        self.assertIsNone(self.process.poll(), 'the gateway has ended')
        said = self.said('gateway')
        self.assertLessEqual(len(said), most + more_lines(self.begun), said[:50])
        self.assertNotIn('Traceback (most recent call last):', said)
        for line in said:
            self.assertTrue(line.isprintable(), ascii(line))
            self.assertLessEqual(len(line), 1000)


@with_mosquitto
@with_paho
class InventedVehicles(Attacked):
    def burst(self) -> float:
        """Sends a state of each, and returns after how many seconds the attacker, who reads them,
        has had them all: so long takes what only reads them, on this machine."""
        begun, wanted = time.monotonic(), len(self.attacker.came) + INVENTED
        for topic in names():
            self.attacker.publish(topic, state(1))
        until(lambda: len(self.attacker.came) >= wanted, 'the states of invented vehicles')
        return time.monotonic() - begun

    def test_they_delay_nobody(self) -> None:
        """2,300 vehicles that nobody has send states: those of a real one arrive within two
        seconds, more on a slow machine, and the gateway says in a line now and then how many it
        dropped."""
        over, calm = threading.Event(), max(self.arrive() for _ in range(3))
        self.attacker.subscribe('uagv/v2/FAKE/+/state')
        bursts = [self.burst()]

        def flood() -> None:
            while not over.wait(0.5 + 2 * bursts[-1]):
                bursts.append(self.burst())

        thread = threading.Thread(target=flood, daemon=True)
        thread.start()
        try:
            until(lambda: self.has_said('gateway', 'does not have the vehicle'), 'it is said')
            times = sorted(self.arrive() for _ in range(5))
        finally:
            over.set()
            thread.join(PATIENCE)
        self.assertLess(times[1], 2 + 5 * (calm + max(bursts)), (times, calm, bursts))
        self.check_log(30)

    def test_they_are_not_polled(self) -> None:
        """They have sent one state each: the gateway asks the desk about none of them, and for its
        vehicles at most every two seconds."""
        self.process.kill()
        self.process.wait(PATIENCE)
        asked: list[bytes] = []

        def hand_on(line: socket.socket, request: bytes) -> None:
            asked.append(request.split(b' ')[1])
            with socket.create_connection(('127.0.0.1', self.serving.port)) as desk:
                desk.sendall(request)
                while answer := desk.recv(65536):
                    line.sendall(answer)

        def is_said() -> bool:
            self.attacker.publish(names()[0], state(1))
            return self.has_said('gateway', 'does not have the vehicle')

        server = HostileServer(hand_on)
        self.addCleanup(end, server.listener)
        begun, order = time.monotonic(), f'/{TOPIC}order'.encode()
        self.process = self.gateway(server.address, '--vehicle', 'KIT/0001')
        until(is_said, 'it is said')
        for topic in names():
            self.attacker.publish(topic, state(1))
        self.attacker.publish(TOPIC + 'connection', b'{"connectionState":"ONLINE"}')
        until(lambda: self.has_said('gateway', 'KIT/0001: ONLINE'), 'all of them have come')
        turns = asked.count(order)
        until(lambda: asked.count(order) > turns + 30, 'the next turns')
        self.assertEqual([target for target in asked if b'FAKE' in target], [])
        looks = asked.count(b'/export/vehicles')
        self.assertLessEqual(looks, 2 + (time.monotonic() - begun) / 2)

    def test_they_leave_room(self) -> None:
        """While the desk is stopped, they send 200 MB: the memory of the gateway stays small, and
        the last state of the real vehicle arrives once the desk goes on."""
        self.serving.process.send_signal(19)
        body = json.dumps({**told(1), 'information': [{'infoType': 'x' * 90_000}]}).encode()
        for topic in names():
            self.attacker.publish(topic, body)
        self.vehicle.publish(TOPIC + 'state', state(1000))
        self.attacker.publish('uagv/v2/KIT/0001/connection', b'{"connectionState":"ONLINE"}')
        time.sleep(3)
        memory = self.most_memory(self.process)
        self.serving.process.send_signal(18)
        until(lambda: self.header() == 1000, 'the last state')
        self.assertLess(memory, 120 * MB)
        self.check_log(30)


@with_mosquitto
@with_paho
class StuckBoards(WithADesk):
    """A gateway that is to tell a board what vehicles say."""

    def serve(self, path: str) -> None:
        """Starts a gateway that tells at this path, and has states arrive at the desk."""
        self.broker('allow_anonymous true')
        self.gateway(self.desk.address, '--board', path, '--vehicle', 'KIT/0001')
        vehicle = self.enterContext(Client(self.port))
        begun, number = time.monotonic(), 0

        def has_arrived() -> bool:
            nonlocal number
            number += 1
            vehicle.publish(TOPIC + 'state', state(number))
            return (self.header() or 0) >= 40

        until(has_arrived, 'the states at the desk')
        self.assertLess(time.monotonic() - begun, PATIENCE)
        said = [line for line in self.said('gateway') if 'board' in line]
        self.assertLessEqual(len(said), 1, said)

    def test_nobody_reads(self) -> None:
        """The socket of a board that hangs is full: states arrive as before."""
        path = self.path('words.sock')
        with socket.socket(socket.AF_UNIX, socket.SOCK_DGRAM) as stuck:
            stuck.bind(path)
            with socket.socket(socket.AF_UNIX, socket.SOCK_DGRAM) as other:
                other.setblocking(False)
                with contextlib.suppress(BlockingIOError):
                    while True:
                        other.sendto(b'x', path)
            self.serve(path)

    def test_what_is_no_board(self) -> None:
        """A path where there is nothing: it is said once."""
        self.serve(self.path('nothing'))
        self.assertTrue(self.has_said('gateway', 'what vehicles say is not told'))


@with_mosquitto
@with_paho
class LongMessages(Attacked):
    def test_a_giant_state(self) -> None:
        """A state of 39 MB that takes a gigabyte when it is parsed is dropped before that."""
        giant = b'{"x":[' + b'{"a":[]},' * 4_300_000 + b'1]}'
        for topic in ('state', 'connection'):
            self.attacker.publish(TOPIC + topic, giant)
        self.attacker.publish('uagv/v2/FAKE/1/state', giant)
        until(lambda: self.has_said('gateway', 'more than 250000 bytes'), 'it is said')
        self.arrive()
        self.assertLess(self.most_memory(self.process), 120 * MB)
        self.check_log(30)

    def test_a_retained_giant(self) -> None:
        """One of 200 MB that the broker keeps comes again with each connection, and changes
        nothing."""
        self.attacker.publish(TOPIC + 'connection', b'{' * (200 * MB), retain=True)
        until(lambda: self.has_said('gateway', 'more than 250000 bytes'), 'it is said')
        self.arrive()
        self.assertLess(self.most_memory(self.process), 120 * MB)
        self.check_log(30)


@with_mosquitto
@with_paho
class HostileMessages(Attacked):
    def test_bytes_that_are_no_state(self) -> None:
        """A vehicle sends what no vehicle should: the gateway goes on, and posts its next state."""
        for data in (
            b'',
            b'\0',
            b'\xff\xfe',
            b'[' * 200_000,
            b'{"a":' * 40_000,
            b'{"x":' + b'[' * 990 + b']' * 990 + b'}',
            b'{"headerId":' + b'9' * 5000 + b'}',
            b'{"headerId":' + b'9' * 200_000 + b'}',
            b'{"headerId":1e' + b'9' * 5000 + b'}',
            b'{"headerId":NaN,"x":-Infinity}',
            state(1, actionStates=None, nodeStates=7, edgeStates='x', errors={}),
            state(1, actionStates=[{'actionId': {}}, {'actionId': []}, 1, None]),
            state(1, orderId='\ud800', orderUpdateId=[]),
            state(1, orderId='\x1b]0;owned\x07\n\u202e'),
            state(1, serialNumber='\x1b[2J'),
            b'{"headerId":1,"headerId":{}}',
            b'"' + b'\\ud800' * 40_000 + b'"',
        ):
            for topic in ('state', 'connection'):
                self.attacker.publish(TOPIC + topic, data)
            self.arrive()
        self.check_log(60)

    def test_topics_that_a_terminal_obeys(self) -> None:
        """They have bidirectional characters, and a thousand letters: the log shows them in
        escapes, cut."""
        for name in ('\u202egnp.exe', '\u2028', '\u00ad', '\ue000', 'x' * 60_000):
            self.attacker.publish(f'uagv/v2/{name}/0001/state', b'{}')
        until(lambda: self.has_said('gateway', 'A-Z a-z 0-9'), 'it is said')
        self.arrive()
        self.check_log(30)

    def test_a_forged_header(self) -> None:
        """Somebody sends a state in the name of a vehicle with the highest number: the gateway says
        why the next ones are old, and the command that it names heals it."""
        self.attacker.publish(TOPIC + 'state', state(4294967295))
        until(lambda: self.header() == 4294967295, 'the forged state')

        def is_said() -> bool:
            self.number += 1
            self.vehicle.publish(TOPIC + 'state', state(self.number))
            return self.has_said('gateway', 'tools/ask')

        until(is_said, 'what to do')
        (line,) = [line for line in self.said('gateway') if 'tools/ask' in line]
        self.assertIn('the desk has 4294967295', line)
        words = line.split('tools/ask ')[1].split()
        self.assertEqual(words, ['--desk', self.desk.address, 'resync', 'KIT/0001'])
        self.assertEqual(programs.ran('ask', *words)[0], 0)
        self.arrive()
