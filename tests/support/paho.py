"""A stand-in of the library paho-mqtt, of either version."""
from __future__ import annotations

import enum
import json
import sys
import types
import unittest
import unittest.mock
from typing import Any


class PahoClient:
    """A client of paho-mqtt as far as the gateway uses it; the test is its network and calls what
    it was given."""

    def __init__(self, library: Paho) -> None:
        self.library, self.rc = library, 0
        self.calls: list[tuple[Any, ...]] = []
        self.published: list[tuple[str, bytes | None]] = []
        self.on_connect: Any = None
        self.on_connect_fail: Any = None
        self.on_disconnect: Any = None
        self.on_message: Any = None
        self._sock_recv, self._in_packet, self.loop_forever = None, {'packet': bytearray()}, None
        library.clients.append(self)

    def username_pw_set(self, username: str, password: str | None = None) -> None:
        self.calls.append(('user', username, password))

    def tls_set(
        self, ca_certs: str | None = None, certfile: str | None = None, keyfile: str | None = None
    ) -> None:
        self.calls.append(('ca', ca_certs, certfile, keyfile))

    def reconnect_delay_set(self, min_delay: int = 1, max_delay: int = 120) -> None:
        self.calls.append(('delay', min_delay, max_delay))

    def connect(self, host: str, port: int = 1883) -> None:
        if self.library.is_down:
            raise ConnectionRefusedError('no broker')
        self.calls.append(('connect', host, port))

    def connect_async(self, host: str, port: int = 1883) -> None:
        self.calls.append(('connect', host, port))

    def loop_start(self) -> None:
        self.calls.append(('loop',))

    def subscribe(self, topic: str, qos: int = 0) -> tuple[int, int]:
        self.calls.append(('subscribe', topic))
        return 0, 1

    def publish(self, topic: str, payload: bytes | None = None) -> types.SimpleNamespace:
        if self.rc == 0:
            self.published.append((topic, payload))
        return types.SimpleNamespace(rc=self.rc, mid=1)

    def connected(self, number: int = 0) -> None:
        """The broker has answered to the connection."""
        if self.library.version == 1:
            self.on_connect(self, None, {'session present': 0}, number)
        else:
            self.on_connect(
                self, None, types.SimpleNamespace(session_present=False), ReasonCode(number), None
            )

    def disconnected(self) -> None:
        if self.on_disconnect and self.library.version == 1:
            self.on_disconnect(self, None, 7)
        elif self.on_disconnect:
            self.on_disconnect(self, None, types.SimpleNamespace(), ReasonCode(128), None)

    def failed(self) -> None:
        """A connection can't be made; the library tells so while it handles the error."""
        try:
            raise ConnectionRefusedError('no broker')
        except OSError:
            if self.on_connect_fail:
                self.on_connect_fail(self, None)

    def come(self, topic: str, members: Any, retain: bool = False) -> None:
        payload = json.dumps(members).encode()
        self.on_message(
            self, None, types.SimpleNamespace(topic=topic, payload=payload, qos=0, retain=retain)
        )

    def subscribed(self) -> list[str]:
        return [call[1] for call in self.calls if call[0] == 'subscribe']


class ReasonCode:
    """What version 2 tells instead of a number."""

    def __init__(self, number: int) -> None:
        self.value = number

    def __eq__(self, other: object) -> bool:
        return self.value == other

    def __str__(self) -> str:
        return {0: 'Success', 5: 'Not authorized'}.get(self.value, 'Unspecified error')


CallbackAPIVersion = enum.Enum('CallbackAPIVersion', ['VERSION1', 'VERSION2'])


class Paho:
    """The library paho-mqtt of a version, in the place of the one that may be installed."""

    def __init__(self, version: int) -> None:
        self.version, self.is_down = version, False
        self.clients: list[PahoClient] = []
        module: Any = types.ModuleType('paho.mqtt.client')
        module.connack_string = {
            0: 'Connection Accepted.',
            5: 'Connection Refused: not authorised.',
        }.get
        if version == 1:
            module.Client = lambda client_id='': self.client(isinstance(client_id, str))
        else:
            module.CallbackAPIVersion = CallbackAPIVersion
            module.Client = lambda version, client_id='': self.client(
                version is CallbackAPIVersion.VERSION2
            )
        mqtt: Any = types.ModuleType('paho.mqtt')
        paho: Any = types.ModuleType('paho')
        mqtt.client, paho.mqtt = module, mqtt
        modules = {'paho': paho, 'paho.mqtt': mqtt, 'paho.mqtt.client': module}
        self.patch = unittest.mock.patch.dict(sys.modules, modules)

    def client(self, is_right: bool) -> PahoClient:
        if not is_right:
            raise ValueError('made for another version')
        return PahoClient(self)

    def __enter__(self) -> Paho:
        self.patch.start()
        return self

    def __exit__(self, *_: object) -> None:
        self.patch.stop()
