"""Shows a whole transport of a vehicle through `tools/gateway` and a real broker, mosquitto, and
what the gateway says of a broker that refuses it or is away."""

from __future__ import annotations

import json
import os
import signal
import subprocess
import time
import unittest
from collections.abc import Callable
from typing import Any

from tests.support import mqtt
from tests.support.programs import until
from tests.support.states import KIT1, told

TOPICS = ('state', 'order', 'instantActions')
STATE, ORDER, INSTANT = (f'uagv/v2/KIT/0001/{topic}' for topic in TOPICS)


@mqtt.with_mosquitto
@mqtt.with_paho
class ByMosquitto(mqtt.WithADesk):
    def setUp(self) -> None:
        super().setUp()
        self.header_id = 0

    def tell(self, is_so: Callable[[], Any], *words: Any, **others: Any) -> None:
        """Publishes a state, with what the desk does not take, until something is so: one that
        comes before the gateway has subscribed is lost."""

        def is_told() -> Any:
            self.header_id += 1
            state = told(self.header_id, *words, **others)
            state['agvPosition'] = {'x': 1.5, 'y': 2.0}
            state['batteryState'] = {'batteryCharge': 80.5}
            self.vehicle.publish(STATE, json.dumps(state).encode())
            return is_so()

        until(is_told, f'a state {words} {others}')

    def came(self, topic: str) -> list[dict[str, Any]]:
        """Returns the messages that the vehicle was sent on a topic."""
        return [json.loads(data) for name, data in self.vehicle.came if name == topic]

    def test_a_transport(self) -> None:
        self.broker('allow_anonymous true')
        self.gateway(self.desk.address)
        self.vehicle = self.enterContext(mqtt.Client(self.port))
        self.vehicle.subscribe(ORDER, INSTANT)
        self.tell(lambda: self.desk.vehicle(KIT1).ready)
        self.desk.add_job('J1', 'L1', 'B')
        self.desk.start_order('O1', KIT1, job='J1', edges=2)
        order = until(lambda: self.came(ORDER), 'the order')[0]
        self.assertEqual((order['orderId'], len(order['nodes'])), ('O1', 3))
        picked = [('O1.0', 'FINISHED')]
        self.tell(lambda: self.desk.load('L1').place == 'vehicle KIT/0001', 'O1', statuses=picked)
        self.desk.pause(KIT1)
        pause = until(lambda: self.came(INSTANT), 'the pause')[0]
        self.assertEqual(pause['actions'][0]['actionId'], 'instant-1')
        done = [*picked, ('O1.1', 'FINISHED'), ('instant-1', 'FINISHED')]
        self.tell(lambda: self.desk.load('L1').place == 'station B', 'O1', 0, 'N3', 4, done)
        self.tell(lambda: self.has_said('gateway', 'NotThere'), node='N1')

    def test_a_wrong_password(self) -> None:
        users = self.write('users', '')
        line = ['mosquitto_passwd', '-b', users, 'gate', 'right']
        subprocess.run(line, check=True, capture_output=True)
        os.chmod(users, 0o644)
        self.broker('allow_anonymous false', f'password_file {users}')
        file = self.write('password', 'wrong\n')
        self.gateway(self.desk.address, '--user', 'gate', '--password-file', file)
        refusal = 'the broker refuses the connection'
        until(lambda: self.has_said('gateway', refusal), 'the refusal')

    def test_a_broker_that_is_started_again(self) -> None:
        """The gateway connects anew, and publishes the order once more."""
        self.broker('allow_anonymous true')
        self.gateway(self.desk.address)
        self.vehicle = self.enterContext(mqtt.Client(self.port))
        self.tell(lambda: self.desk.vehicle(KIT1).ready)
        self.processes['broker'].kill()
        self.processes['broker'].wait(300)
        until(lambda: self.has_said('gateway', 'is lost'), 'the connection is lost')
        self.desk.add_job('J1', 'L1', 'B')
        self.desk.start_order('O1', KIT1, job='J1', edges=2)
        self.broker('allow_anonymous true')
        self.vehicle = self.enterContext(mqtt.Client(self.port))
        self.vehicle.subscribe(ORDER)
        until(lambda: self.came(ORDER), 'the order')

    def test_signals(self) -> None:
        """Each ends it at once, with status 0, also while the desk does not answer."""
        self.broker('allow_anonymous true')
        for number in (signal.SIGTERM, signal.SIGINT):
            for is_stopped in (False, True):
                with self.subTest(number=number, is_stopped=is_stopped):
                    words = ['--timeout', '600', '--vehicle', 'KIT/0001']
                    process = self.gateway(self.desk.address, *words)
                    until(lambda: self.has_said('gateway', 'is connected'), 'the gateway')
                    if is_stopped:
                        self.serving.process.send_signal(signal.SIGSTOP)
                    time.sleep(0.5)
                    begun = time.monotonic()
                    process.send_signal(number)
                    self.assertEqual(process.wait(300), 0)
                    self.assertLess(time.monotonic() - begun, 60)
                    self.serving.process.send_signal(signal.SIGCONT)


if __name__ == '__main__':
    unittest.main()
