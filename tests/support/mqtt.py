"""A client of MQTT 3.1.1 that sends any bytes, as a vehicle or an attacker might; and what a test
needs to run a broker, a gateway and a desk."""
from __future__ import annotations

import contextlib
import os
import re
import select
import shutil
import socket
import ssl
import struct
import subprocess
import sys
import tempfile
import threading
import unittest
from typing import Any

from tests.support import programs
from nulvrader.desk import client
from tests.support.programs import PATIENCE, free_port, until
from tests.support.states import KIT1
from tests.support.desks import Serving, over_sockets
from tests.support.script_calls import LAYOUT

CONNACK, PUBLISH, SUBACK = 0x20, 0x30, 0x90
RETAIN = 1
TOPIC_REFUSED = 0x80  # in the answer to a subscription


def text(value: str | bytes) -> bytes:
    """Returns a text as MQTT writes it."""
    data = value if isinstance(value, bytes) else value.encode()
    return struct.pack('!H', len(data)) + data


def length(size: int) -> bytes:
    """Returns the length of a packet as MQTT writes it."""
    found = bytearray()
    while True:
        size, part = divmod(size, 128)
        found.append(part | (0x80 if size else 0))
        if not size:
            return bytes(found)


def packet(kind: int, body: bytes) -> bytes:
    """Returns a packet."""
    return bytes([kind]) + length(len(body)) + body


def publication(topic: str | bytes, data: bytes, *, retain: bool = False) -> bytes:
    """Returns a PUBLISH packet of QoS 0."""
    return packet(PUBLISH | (RETAIN if retain else 0), text(topic) + data)


class Client:
    """A connection to a broker. `code` is the broker's answer to it: 0, or None where it has closed
    it. A thread keeps what comes."""

    def __init__(
        self,
        port: int,
        *,
        user: str | None = None,
        password: str | None = None,
        name: str = '',
        context: ssl.SSLContext | None = None,
        will: tuple[str, bytes] | None = None,
    ) -> None:
        self.came: list[tuple[str, bytes]] = []
        self.is_open, self.granted = True, 0
        self.codes: list[int] = []  # of the last answer to a subscription
        self.lock = threading.Lock()
        self.listener = threading.Thread(target=self.listen, daemon=True)
        flags = 2 | (4 if will else 0) | (0x80 if user else 0) | (0x40 if password else 0)
        body = text('MQTT') + bytes([4, flags]) + struct.pack('!H', 600) + text(name)
        if will:
            body += text(will[0]) + struct.pack('!H', len(will[1])) + will[1]
        body += b''.join(text(word) for word in (user, password) if word is not None)
        plain = socket.create_connection(('127.0.0.1', port), timeout=PATIENCE)
        self.line: socket.socket = plain
        self.code: int | None = None
        try:
            if context:
                self.line = context.wrap_socket(plain, server_hostname='localhost')
            self.send(packet(0x10, body))
            kind, told = self.read()
        except (OSError, EOFError):
            self.is_open = False
            return
        self.code = told[1] if kind == CONNACK else None
        self.listener.start()

    def __enter__(self) -> Client:
        return self

    def __exit__(self, *_: object) -> None:
        # The socket is closed once the thread has ended: until then OpenSSL may write an alert to
        # its number, which the next connection would have.
        with contextlib.suppress(OSError):
            socket.socket.shutdown(self.line, socket.SHUT_RDWR)  # keeps the TLS, unlike its own
        if self.listener.ident is not None:
            self.listener.join()
        self.line.close()

    def send(self, data: bytes) -> None:
        """Sends bytes."""
        with self.lock:
            self.line.settimeout(None)
            self.line.sendall(data)

    def receive(self, count: int) -> bytes:
        """Receives at most so many bytes. Nobody sends meanwhile, as a TLS connection may be used
        by one thread at a time; while nothing comes, others may."""
        is_listening = threading.current_thread() is self.listener
        ready = select.poll()
        ready.register(self.line, select.POLLIN)
        while True:
            with self.lock:
                self.line.settimeout(0)
                with contextlib.suppress(BlockingIOError, ssl.SSLWantReadError):
                    return self.line.recv(count)
            if not ready.poll(None if is_listening else 1000 * PATIENCE):
                raise TimeoutError

    def take(self, count: int) -> bytes:
        """Reads so many bytes."""
        data = b''
        while len(data) < count:
            part = self.receive(count - len(data))
            if not part:
                raise EOFError
            data += part
        return data

    def read(self) -> tuple[int, bytes]:
        """Reads a packet: its kind and its body."""
        kind, size, shift = self.take(1)[0], 0, 0
        while True:
            part = self.take(1)[0]
            size |= (part & 127) << shift
            shift += 7
            if part < 128:
                return kind & 0xF0, self.take(size)

    def listen(self) -> None:
        """Keeps what comes, until the connection is closed."""
        try:
            while True:
                kind, body = self.read()
                if kind == PUBLISH:
                    (size,) = struct.unpack('!H', body[:2])
                    self.came.append((body[2 : 2 + size].decode(), body[2 + size :]))
                elif kind == SUBACK:
                    self.codes = list(body[2:])
                    self.granted += 1
        except (OSError, EOFError, ValueError):
            self.is_open = False

    def publish(self, topic: str | bytes, data: bytes, *, retain: bool = False) -> None:
        """Publishes a message, or any bytes."""
        self.send(publication(topic, data, retain=retain))

    def subscribe(self, *topics: str) -> None:
        """Subscribes to topics, and waits for the answer."""
        before = self.granted
        self.send(packet(0x82, b'\0\1' + b''.join(text(one) + b'\0' for one in topics)))
        until(lambda: self.granted > before or not self.is_open, 'the answer to a subscription')


def python_with_paho() -> str | None:
    """Returns a Python that has the library, this one before Debian's."""
    for python in (sys.executable, '/usr/bin/python3'):
        line = [python, '-c', 'import paho.mqtt.client']
        if shutil.which(python) and subprocess.run(line, capture_output=True).returncode == 0:
            return python
    return None


PYTHON = python_with_paho()
with_mosquitto = unittest.skipUnless(shutil.which('mosquitto'), 'mosquitto is not here')
with_paho = unittest.skipUnless(PYTHON, 'the library paho-mqtt is not here')


class Programs(unittest.TestCase):
    """A folder, and the programs that a test starts there; their outputs are files of it."""

    def setUp(self) -> None:
        folder = tempfile.TemporaryDirectory()
        self.addCleanup(folder.cleanup)
        self.folder = folder.name
        self.processes: dict[str, subprocess.Popen[bytes]] = {}
        os.chmod(self.folder, 0o755)  # mosquitto reads its files as another user
        self.port = free_port()

    def path(self, name: str) -> str:
        """Returns the path of a file in the folder."""
        return os.path.join(self.folder, name)

    def write(self, name: str, content: str) -> str:
        """Writes a file that everybody may read, and returns its path."""
        with open(self.path(name), 'w') as file:
            file.write(content)
        os.chmod(self.path(name), 0o644)
        return self.path(name)

    def start(self, name: str, *words: str) -> subprocess.Popen[bytes]:
        """Starts a program, which runs until the end of the test."""
        with open(self.path(name), 'w') as file:
            process = subprocess.Popen(words, stdout=file, stderr=subprocess.STDOUT)

        def end() -> None:
            process.kill()
            process.wait(PATIENCE)

        self.addCleanup(end)
        self.processes[name] = process
        return process

    def said(self, name: str) -> list[str]:
        """Returns the lines of a program, as far as they are whole."""
        with open(self.path(name), errors='surrogateescape', newline='\n') as file:
            return file.read().split('\n')[:-1]

    def has_said(self, name: str, part: str) -> bool:
        """Whether a line of a program has a text."""
        return any(part in line for line in self.said(name))

    def broker(self, *lines: str) -> None:
        """Starts a broker."""
        head = [f'listener {self.port} 127.0.0.1', 'persistence false']
        self.start_broker(self.write('mosquitto.conf', '\n'.join([*head, *lines, ''])))

    def start_broker(self, configuration: str) -> None:
        """Starts a broker by the file of its configuration."""
        process = self.start('broker', str(shutil.which('mosquitto')), '-c', configuration)
        programs.wait_for_port(self.port, process)

    def gateway(self, desk: str, *words: str) -> subprocess.Popen[bytes]:
        """Starts the gateway, whose turns are short."""
        line = [str(PYTHON), os.path.join(programs.TOOLS, 'gateway'), '--desk', desk]
        line += ['--every', '0.1', '--broker', f'localhost:{self.port}']
        return self.start('gateway', *line, *words)

    def most_memory(self, process: subprocess.Popen[Any]) -> int:
        """Returns the most bytes of memory that a program has had."""
        with open(f'/proc/{process.pid}/status') as file:
            found = re.search(r'VmHWM:\s+(\d+) kB', file.read())
        assert found, 'it has ended'
        return int(found.group(1)) * 1024


@over_sockets
class WithADesk(Programs):
    """Programs, and a desk with KIT/0001 at N1, and L1 at A."""

    def setUp(self) -> None:
        super().setUp()
        self.serving = Serving(self.path('desk.db'), connections=100_000_000)
        self.addCleanup(self.serving.__exit__)
        self.desk = client.Desk(f'127.0.0.1:{self.serving.port}', timeout=PATIENCE)
        self.desk.set_layout(LAYOUT.encode())
        self.desk.register_vehicle(KIT1, 'N1')
        self.desk.register_load('L1', 'A')

    def header(self) -> int | None:
        """Returns the number of the last state of KIT/0001 at the desk."""
        return self.desk.vehicle(KIT1).header
