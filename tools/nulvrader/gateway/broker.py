"""Connects to an MQTT broker, by the library paho-mqtt of version 1 or 2."""
from __future__ import annotations

import importlib
import ssl
import sys
import time
from dataclasses import dataclass
from typing import Any

from ..common.text import shown
from .inbox import FRONT, LONGEST, Inbox
from .log import Log

KEPT = LONGEST + 100_000  # the most bytes of a packet that are kept: room for the topic, too
PART = 65_536  # bytes that are read at once
REFUSED = 128  # the first code that refuses a subscription


class NoLibrary(Exception):
    """The library paho-mqtt is not installed."""

    def __str__(self) -> str:
        return (
            'the library paho-mqtt is needed: apt install python3-paho-mqtt, '
            'or pip install paho-mqtt'
        )


@dataclass(frozen=True)
class Address:
    """Where a broker is, and how the gateway proves who it is: by a password, or by a certificate
    in the files `cert` and `key`. With `ca`, a file of authorities, the connection has TLS."""

    host: str
    port: int
    user: str | None = None
    password: str | None = None
    ca: str | None = None
    cert: str | None = None
    key: str | None = None


def new_client(library: Any) -> Any:
    """Returns a client of the library, of either version."""
    if hasattr(library, 'CallbackAPIVersion'):
        return library.Client(library.CallbackAPIVersion.VERSION2)
    return library.Client()


def limit_packets(client: Any) -> None:
    """Makes a client of the library keep only the first KEPT bytes of a packet; the rest is read
    and dropped. The library itself keeps up to 256 MB, several times. This needs two private
    members of version 1.6; where one is missing, nothing is limited."""
    receive: Any = getattr(client, '_sock_recv', None)
    if receive is None or not isinstance(getattr(client, '_in_packet', None), dict):
        return

    def receive_part(size: int) -> bytes:
        data: bytes = receive(min(size, PART))
        packet = client._in_packet['packet']
        del packet[KEPT:]
        return data

    client._sock_recv = receive_part


class Broker:
    """A connection to a broker, which puts the messages of vehicles into an inbox. The thread of
    the library connects again and again until the broker is there, and whenever the connection is
    lost; it calls the methods `on_`."""

    def __init__(self, address: Address, inbox: Inbox, log: Log, front: str = FRONT) -> None:
        try:
            library: Any = importlib.import_module('paho.mqtt.client')
        except ImportError:
            raise NoLibrary from None
        self.library, self.inbox, self.log, self.front = library, inbox, log, front
        self.connections, self.is_connected = 0, False
        self.client = client = new_client(library)
        if address.user:
            client.username_pw_set(address.user, address.password)
        if address.ca:
            client.tls_set(address.ca, address.cert, address.key)
        limit_packets(client)
        self.forever, client.loop_forever = client.loop_forever, self.loop_forever
        client.on_connect, client.on_connect_fail = self.on_connect, self.on_connect_fail
        client.on_disconnect, client.on_message = self.on_disconnect, self.on_message
        client.on_subscribe = self.on_subscribe
        client.reconnect_delay_set(1, 10)
        client.connect_async(address.host, address.port)
        client.loop_start()

    def say(self, line: str) -> None:
        """Logs what happens to the connection, unless the last line says the same."""
        self.log.of('broker', 'connection', f'the broker {line}')

    def loop_forever(self, *words: Any, **named: Any) -> Any:
        """Runs in the library's thread, and connects again after an exception, as one of bytes that
        are not MQTT: it would end the thread, and the gateway would hear nothing any more."""
        while True:
            try:
                return self.forever(*words, **named)
            except Exception as fault:
                self.say(f'sends what is no MQTT: {type(fault).__name__}: {shown(str(fault))}')
                self.is_connected = False
            time.sleep(1)
            try:
                self.client.reconnect()
            except Exception:
                self.on_connect_fail()

    def on_connect(self, paho: Any, _data: object, _flags: object, code: Any, *_: object) -> None:
        """Subscribes to the topics of the vehicles. `code` is a number with version 1 of the
        library, and with version 2 an object whose `str()` is a text."""
        if code != 0:
            text = self.library.connack_string(code) if isinstance(code, int) else code
            self.say(f'refuses the connection: {shown(str(text))}')
            return
        self.say('is connected')
        paho.subscribe(self.front + '/+/+/state', 0)
        paho.subscribe(self.front + '/+/+/connection', 1)
        self.connections, self.is_connected = self.connections + 1, True

    def on_connect_fail(self, *_: object) -> None:
        """Logs why there is no connection. The library calls it while it handles the fault; its
        versions before 1.6 do not call it."""
        fault = sys.exc_info()[1]
        if isinstance(fault, ssl.SSLCertVerificationError):
            self.say(f'is not trusted: {shown(fault.verify_message)}')
        else:
            self.say(f'can not be reached: {shown(str(fault or type(fault).__name__))}')

    def on_subscribe(
        self, _paho: object, _data: object, _mid: object, codes: Any, *_: object
    ) -> None:
        """Logs that the user may not read the topics, if so. `codes` are numbers with version 1."""
        if any(int(getattr(code, 'value', code)) >= REFUSED for code in codes):
            self.say('refuses the subscription to the topics of the vehicles')

    def on_disconnect(self, *_: object) -> None:
        """Logs that a connection is lost."""
        if self.is_connected:
            self.log.of('broker', 'connection', 'the connection to the broker is lost')
        self.is_connected = False

    def on_message(self, _paho: object, _data: object, message: Any) -> None:
        """Puts a message into the inbox, except for a state that the broker has retained, which may
        be old."""
        try:
            topic = message.topic
        except UnicodeDecodeError:
            return
        if not (message.retain and topic.endswith('/state')):
            self.inbox.put(topic, message.payload)

    def publish(self, topic: str, data: bytes) -> bool:
        """Publishes a message, and returns whether it went out."""
        return bool(self.client.publish(topic, data).rc == 0)
