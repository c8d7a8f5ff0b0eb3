"""Shows a whole transport, drives and lost messages between a simulated vehicle on a stand-in
broker, `tools/gateway` and a desk."""
from __future__ import annotations

import json
import os
import tempfile
import time
import unittest
import unittest.mock
from typing import Any

from nulvrader.desk import states
from nulvrader.desk.client import Desk, NoAnswer
from nulvrader.gateway import carrier, inbox, log
from tests.support.desks import Serving, over_sockets
from tests.support.gateway import StandIn, vehicle, vehicle_on
from tests.support.gateway_states import STATE
from tests.support.programs import PATIENCE, ran
from tests.support.script_calls import LAYOUT


class SimulatedVehicle(unittest.TestCase):
    """`examples/vehicle` counts its headers on when it is started again."""

    def test_its_first_header(self) -> None:
        before = int(time.time())
        number = vehicle.Vehicle(None, 'KIT', '0001', 'N1').state()['headerId']
        self.assertTrue(before < number <= min(int(time.time()) + 1, 4294967295), number)

    def test_the_last_header_of_the_desk(self) -> None:
        for status, row, more in (
            (200, {'headerId': 4_000_000_000}, None),
            (200, {'headerId': 7}, 0),
            (200, {'headerId': None}, 0),
            (404, {'name': 'NoVehicle', 'refusal': 20}, 0),
        ):
            again = vehicle.Vehicle(None, 'KIT', '0001', 'N1')
            begun, again.ask = again.header, unittest.mock.Mock(return_value=(status, row))
            again.go_on()
            self.assertEqual(
                again.state()['headerId'], 4_000_000_001 if more is None else begun + 1, row
            )
            again.ask.assert_called_once_with('GET', '/vehicles/KIT/0001')


@over_sockets
class Transport(unittest.TestCase):
    def setUp(self) -> None:
        self.folder = tempfile.TemporaryDirectory()
        self.desk = Serving(os.path.join(self.folder.name, 'desk.db'))
        self.said: list[str] = []
        self.now = time.monotonic()
        box = inbox.Inbox(log.Tally(self.said.append))
        self.broker, served = StandIn(box), Desk(f'127.0.0.1:{self.desk.port}', timeout=PATIENCE)
        self.gateway = carrier.Gateway(
            served, self.broker, box, write=self.said.append, clock=lambda: self.now
        )
        self.vehicle = vehicle_on(self.broker, 'N1')

    def tearDown(self) -> None:
        self.desk.__exit__()
        self.folder.cleanup()

    def call(self, method: str, target: str, body: Any = None, status: int = 200) -> bytes:
        text = body if isinstance(body, (str, type(None))) else json.dumps(body)
        told = self.desk.ask(method, target, None if text is None else text.encode())
        self.assertEqual(told[0], status, told[1])
        return told[1]

    def turns(self, count: int) -> None:
        for _ in range(count):
            self.vehicle.turn()
            self.gateway.turn()

    def vehicle_row(self) -> Any:
        return json.loads(self.call('GET', '/vehicles/KIT/0001'))

    def begin(self) -> None:
        """The layout, the vehicle, L1 at A, and a job that takes it to B."""
        self.call('PUT', '/layout', LAYOUT)
        self.call(
            'POST', '/vehicles', {'manufacturer': 'KIT', 'serialNumber': '0001', 'node': 'N1'}
        )
        self.call('POST', '/loads', {'load': 'L1', 'station': 'A'})
        self.call('POST', '/jobs', {'job': 'J1', 'load': 'L1', 'to': 'B'})
        self.turns(1)
        self.assertEqual(self.vehicle_row()['ready'], True)

    def test_a_whole_transport(self) -> None:
        self.begin()
        self.assertEqual(self.broker.published, [])
        self.call(
            'POST',
            '/orders',
            {'order': 'O1', 'job': 'J1', 'manufacturer': 'KIT', 'serialNumber': '0001', 'edges': 1},
        )
        self.turns(8)
        self.assertEqual(
            (self.vehicle.node, self.vehicle.statuses),
            ('N2', {'O1.0': 'FINISHED', 'O1.1': 'WAITING'}),
        )
        self.assertEqual(json.loads(self.call('GET', '/loads/L1'))['place'], 'vehicle KIT/0001')
        self.assertEqual(len(self.broker.of_topic('order')), 1)
        self.call('POST', '/vehicles/KIT/0001/pause', '')
        self.turns(3)
        self.assertEqual(
            (self.vehicle.paused, self.vehicle_row()['paused'], self.vehicle_row()['pending']),
            (True, True, None),
        )
        self.call(
            'POST', '/vehicles/KIT/0001/advance', {'order': 'O1', 'orderUpdateId': 1, 'edges': 1}
        )
        self.turns(5)
        self.assertEqual(self.vehicle.node, 'N2')
        self.call('POST', '/vehicles/KIT/0001/resume', '')
        self.turns(8)
        self.assertEqual(
            json.loads(self.call('GET', '/loads/L1')),
            {'job': None, 'load': 'L1', 'place': 'station B'},
        )
        self.assertEqual(self.call('GET', '/report/holds'), b'node N3 KIT/0001\nheld 1 of 7\n')
        self.assertEqual(
            [json.loads(data)['orderUpdateId'] for data in self.broker.of_topic('order')], [0, 1]
        )
        self.assertEqual(
            [
                json.loads(data)['actions'][0]['actionType']
                for data in self.broker.of_topic('instantActions')
            ],
            ['startPause', 'stopPause'],
        )
        self.assertEqual(self.said, [])

    def test_a_drive_to_its_end(self) -> None:
        """The desk is away when the vehicle tells of its end, and the vehicle is started again
        before the desk: the end is told all the same, and the vehicle gets an order."""
        self.begin()
        drive = {'order': 'G1', 'manufacturer': 'KIT', 'serialNumber': '0001', 'to': 'N3'}
        self.call('POST', '/drives', {**drive, 'edges': 1})
        self.turns(4)
        self.assertEqual((self.vehicle.node, self.vehicle_row()['confirmed']), ('N2', 0))
        body = {'order': 'G1', 'orderUpdateId': 1, 'edges': 1}
        self.call('POST', '/vehicles/KIT/0001/advance', body)
        self.gateway.turn()
        away = NoAnswer('no desk', False)
        with unittest.mock.patch.object(self.gateway.desk, 'ask', side_effect=away):
            self.turns(3)
            self.assertEqual(self.vehicle.node, 'N3')
            header = self.vehicle.header
            self.vehicle = vehicle_on(self.broker, 'N3')
            self.vehicle.order, self.vehicle.header = '', header
            self.broker.inbox.put(
                'uagv/v2/KIT/0001/state', json.dumps(self.vehicle.state()).encode()
            )
            self.gateway.turn()
        for _ in range(3):
            self.gateway.turn()
        row = self.vehicle_row()
        self.assertEqual((row['order'], row['node'], row['astray']), (None, 'N3', False))
        self.assertEqual(self.call('GET', '/report/holds'), b'node N3 KIT/0001\nheld 1 of 7\n')
        self.call('POST', '/orders', {**drive, 'order': 'O1', 'job': 'J1', 'edges': 0})

    def test_a_desk_that_is_started_again(self) -> None:
        """The last state waits for the desk, and is posted to it."""
        self.begin()
        self.desk.__exit__()
        self.vehicle.turn()
        self.gateway.turn()
        self.vehicle.turn()
        self.gateway.turn()
        self.assertEqual(len(self.said), 1)
        self.assertIn('can not be reached', self.said[0])
        self.desk = Serving(os.path.join(self.folder.name, 'desk.db'))
        self.gateway.desk = Desk(f'127.0.0.1:{self.desk.port}', timeout=PATIENCE)
        self.gateway.turn()
        self.assertEqual(self.vehicle_row()['headerId'], self.vehicle.header)

    def test_what_is_refused_is_said(self) -> None:
        self.begin()
        for name, data in (
            ('KIT/0001', b'nothing'),
            ('KIT/0001', json.dumps(dict(STATE, serialNumber='0002')).encode()),
            ('KIT 1/0001', json.dumps(STATE).encode()),
            ('KIT/0009', json.dumps(STATE).encode()),
        ):
            self.broker.inbox.put(f'uagv/v2/{name}/state', data)
        self.now += 2
        self.gateway.turn()
        self.gateway.turn()
        self.assertEqual(len(self.said), 4, self.said)
        self.assertTrue(self.said[0].startswith('KIT/0001: state: '))
        self.assertTrue(self.said[1].startswith('KIT/0001: state: WrongVehicle (14)'))
        self.assertEqual(
            self.said[2], f'1 message was dropped: {inbox.NO_NAMES}: uagv/v2/KIT 1/0001/state'
        )
        self.assertEqual(self.said[3], f'1 message was dropped: {inbox.UNKNOWN}: KIT/0009')

    def test_messages_that_are_lost(self) -> None:
        """An order and an instant action that do not arrive are published again, and the vehicle
        carries them out."""
        self.begin()
        made = {
            'order': 'O1',
            'job': 'J1',
            'manufacturer': 'KIT',
            'serialNumber': '0001',
            'edges': 2,
        }
        self.call('POST', '/orders', made)
        self.call('POST', '/vehicles/KIT/0001/pause', '')
        self.broker.loses = 2
        self.turns(3)
        self.assertEqual((self.broker.published, self.vehicle_row()['pending']), ([], 'startPause'))
        self.now += 5
        self.turns(3)
        self.assertEqual((self.vehicle.paused, self.vehicle_row()['pending']), (True, None))
        self.call('POST', '/vehicles/KIT/0001/resume', '')
        self.now += 60
        self.turns(12)
        self.assertEqual(json.loads(self.call('GET', '/loads/L1'))['place'], 'station B')
        self.assertEqual(
            [len(self.broker.of_topic(topic)) for topic in ('order', 'instantActions')], [1, 2]
        )
        self.assertEqual(self.said, [])

    def test_a_vehicle_that_counts_anew(self) -> None:
        """Its states are old until the call that is said."""
        self.begin()
        self.vehicle.header = 0
        self.turns(5)
        self.assertEqual(len(self.said), 1)
        words = self.said[0].split('tools/ask ')[-1].split()
        self.assertEqual(words[2:], ['resync', 'KIT/0001'])
        self.assertEqual(ran('ask', *words)[0], 0)
        self.turns(1)
        self.assertEqual((self.vehicle_row()['headerId'], len(self.said)), (6, 1))

    def test_a_simulated_vehicle_that_is_started_again(self) -> None:
        """Without a gateway; its states are accepted, though it has sent more than one a second."""
        self.begin()
        for _ in range(2):
            direct = vehicle.Vehicle(
                Desk(f'127.0.0.1:{self.desk.port}', timeout=PATIENCE), 'KIT', '0001', 'N1'
            )
            direct.go_on()
            for _ in range(5):
                direct.turn()
                self.assertEqual(self.vehicle_row()['headerId'], direct.header)

    def test_the_desk_takes_what_is_converted_alone(self) -> None:
        """The state of the schema is refused as it is, and accepted as it is converted."""
        self.call('PUT', '/layout', LAYOUT)
        self.call(
            'POST', '/vehicles', {'manufacturer': 'KIT', 'serialNumber': '0001', 'node': 'N1'}
        )
        self.assertEqual(
            self.call('POST', '/uagv/v2/KIT/0001/state', STATE, 422),
            b'{"name":"Fraction","refusal":8}',
        )
        self.assertEqual(
            self.call(
                'POST',
                '/uagv/v2/KIT/0001/state',
                states.body_of(states.read_state(json.dumps(STATE).encode())).decode(),
            ),
            b'{"accepted":true}',
        )


if __name__ == '__main__':
    unittest.main()
