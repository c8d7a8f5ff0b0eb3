"""Shows that the gateway goes on where another server answers in the place of the desk or of the
broker."""
from __future__ import annotations

import socket
import subprocess
import time
from collections.abc import Callable

from nulvrader.desk import exports
from tests.support import mqtt
from tests.support.attacked_gateway import (
    MB,
    SOON,
    TOPIC,
    HostileServer,
    Listening,
    end,
    more_lines,
    state,
)
from tests.support.mqtt import Client, Programs, WithADesk, with_mosquitto, with_paho
from tests.support.programs import PATIENCE, until


def answered(body: bytes, status: str = '200 OK') -> bytes:
    """Returns an answer as a desk frames it."""
    return b'HTTP/1.1 %s\r\nContent-Length: %d\r\n\r\n%s' % (status.encode(), len(body), body)


VEHICLES = f'{exports.VEHICLES_HEADER}\nKIT,0001,N1,1,true,false,false,,,,,,,,,,\n'.encode()


@with_mosquitto
@with_paho
class AnotherServer(Programs):
    """A server that is no desk listens on the desk's port."""

    def setUp(self) -> None:
        super().setUp()
        self.broker('allow_anonymous true')

    def serve(self, answer: Callable[[socket.socket, bytes], None]) -> subprocess.Popen[bytes]:
        """Starts it, and a gateway, to which a vehicle sends states."""
        self.server, self.begun = HostileServer(answer), time.monotonic()
        self.addCleanup(end, self.server.listener)
        process = self.gateway(self.server.address, '--timeout', '2', '--vehicle', 'KIT/0001')
        until(lambda: self.has_said('gateway', 'the broker is connected'), 'the gateway')
        self.vehicle = self.enterContext(Client(self.port))
        self.vehicle.subscribe('#')
        for number in range(1, 4):
            self.vehicle.publish(TOPIC + 'state', state(number))
        return process

    def end(self, process: subprocess.Popen[bytes]) -> None:
        """Checks that the gateway goes on, that it published nothing, and that it ends soon."""
        self.assertIsNone(process.poll(), self.said('gateway'))
        self.assertEqual({topic for topic, _ in self.vehicle.came} - {TOPIC + 'state'}, set())
        self.assertLess(self.most_memory(process), 200 * MB)
        begun = time.monotonic()
        process.terminate()
        self.assertEqual(process.wait(PATIENCE), 0)
        self.assertLess(time.monotonic() - begun, SOON)
        said = self.said('gateway')
        self.assertNotIn('Traceback (most recent call last):', said)
        self.assertLessEqual(len(said), 30 + more_lines(self.begun))
        self.assertTrue(all(line.isprintable() for line in said), said)

    def test_wrong_answers(self) -> None:
        """It answers with bad JSON, numbers of 5,000 digits, nothing, terminal escapes and foreign
        orders: no answer ends the gateway, or is published."""
        order = b'{"manufacturer":"KIT","serialNumber":"0002","orderId":"O1","orderUpdateId":0}'
        self.vehicles, self.body, self.looks = b'<html>', b'', 0

        def answer(line: socket.socket, request: bytes) -> None:
            is_look = b'/export/vehicles' in request
            self.looks += is_look
            line.sendall(answered(self.vehicles) if is_look else self.body)

        process = self.serve(answer)
        wrong = VEHICLES.replace(b',1,true', b',9999999999999999,true')
        for vehicles in (b'', VEHICLES[:17], wrong, b'\xff\n', VEHICLES):
            self.vehicles, before = vehicles, self.looks
            until(lambda: self.looks > before, f'a look that is answered {vehicles!a}')
        for body in (
            answered(b''),
            answered(b'{'),
            answered(b'[]'),
            answered(b'null'),
            answered(b'{"accepted":1}'),
            answered(b'{"orderId":' + b'9' * 5000 + b'}'),
            answered(b'[' * 100_000),
            answered(order),
            answered(b'\xff\x1b[2J'),
            answered(b'\x1b]0;owned\x07\r\n', '500 \x1b[2J'),
            answered(b'{"name":"\\u001b[2J","refusal":1}', '400 Bad'),
            answered(b'{"name":"Held","refusal":' + b'9' * 5000 + b'}', '409 Conflict'),
            answered(b'<html>', '302 Found\r\nLocation: http://127.0.0.1:1/'),
            b'\x16\x03\x01\0\0',
            b'HTTP/1.1 200\r\nContent-Length: -1\r\n\r\n',
            b'HTTP/1.1 200 OK\r\nTransfer-Encoding: chunked\r\n\r\nzz\r\n',
            b'',
            answered(b'{"accepted":true}'),
            answered(b'{"name":"NoVehicle","refusal":20}', '404 Not Found'),
        ):
            self.body, before = body, self.server.requests
            self.vehicle.publish(TOPIC + 'state', state(9))
            until(lambda: self.server.requests > before + 1, f'requests answered {body[:80]!a}')
            self.assertIsNone(process.poll(), self.said('gateway'))
        self.end(process)

    def test_dripped_bytes(self) -> None:
        """It sends a byte a second, for ever: each call ends with the time that it may take."""

        def drip(line: socket.socket, _request: bytes) -> None:
            for byte in answered(b' ' * 1000):
                line.sendall(bytes([byte]))
                time.sleep(0.5)

        process = self.serve(drip)
        until(lambda: self.has_said('gateway', 'can not be reached'), 'a call ends')
        before = self.server.requests
        until(lambda: self.server.requests > before, 'the next call')
        self.end(process)

    def test_an_endless_answer(self) -> None:
        """It sends without end: the memory of the gateway stays small."""

        def pour(line: socket.socket, _request: bytes) -> None:
            line.sendall(b'HTTP/1.1 200 OK\r\n\r\n')
            while True:
                line.sendall(b'node N1 KIT/0001\n' * 10_000)

        process = self.serve(pour)
        until(lambda: self.has_said('gateway', 'can not be reached'), 'a call ends')
        self.end(process)


class HostileBroker(Listening):
    """A server in the place of a broker, which answers each connection by the bytes of `sends`."""

    def __init__(self, port: int, sends: Callable[[socket.socket], None]) -> None:
        self.sends = sends
        super().__init__(port)

    def serve_one(self, line: socket.socket) -> None:
        """Lets a client in, and sends it what it should not."""
        try:
            with line:
                line.recv(65536)
                line.sendall(mqtt.packet(mqtt.CONNACK, b'\0\0'))
                self.sends(line)
        except OSError:
            pass


@with_paho
class AnotherBroker(WithADesk):
    """A server that is no broker, or a hostile one, listens on the broker's port."""

    def attack(self, sends: Callable[[socket.socket], None]) -> None:
        """Runs a gateway over it, which connects again and again, and whose memory stays small."""
        broker = HostileBroker(self.port, sends)
        self.addCleanup(end, broker.listener)
        process = self.gateway(self.desk.address, '--vehicle', 'KIT/0001')
        until(lambda: broker.connections > 1, 'a second connection')
        self.assertIsNone(process.poll(), self.said('gateway'))
        self.assertLess(self.most_memory(process), 120 * MB)
        self.assertNotIn('Traceback (most recent call last):', self.said('gateway'))

    def test_packets_that_are_none(self) -> None:
        """It sends packets that are cut and lengths that are wrong: the gateway, which would be
        deaf if its thread ended, connects anew."""

        def send(line: socket.socket) -> None:
            line.sendall(bytes([0x30, 1, 0]))
            line.sendall(bytes([0x32, 4, 0, 9, 1, 1]))
            time.sleep(1)

        self.attack(send)

    def test_a_topic_that_is_no_text(self) -> None:
        """It sends topics that are not UTF-8, and then ends the connection."""

        def send(line: socket.socket) -> None:
            line.sendall(mqtt.publication(b'uagv/v2/\xff/\xfe/state', b'{}') * 10)
            time.sleep(1)

        self.attack(send)

    def test_a_giant_packet(self) -> None:
        """It sends a message of 250 MB: the gateway keeps a part of it, and reads on."""

        def send(line: socket.socket) -> None:
            size = 250 * MB
            topic = mqtt.text(TOPIC + 'state')
            line.sendall(b'\x30' + mqtt.length(len(topic) + size) + topic)
            for _ in range(250):
                line.sendall(bytes(MB))
            time.sleep(1)

        self.attack(send)
        until(lambda: self.has_said('gateway', 'more than 250000 bytes'), 'it is said')
