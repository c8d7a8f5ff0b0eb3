"""Shows how `tools/gateway` connects, subscribes and publishes over the library paho-mqtt, of
either version, which is a stand-in."""
from __future__ import annotations

import contextlib
import io
import json
import unittest
import unittest.mock
from typing import Any

from nulvrader.desk.client import Answer
from nulvrader.gateway import broker as brokers
from nulvrader.gateway import carrier, inbox, log
from tests.support.gateway import StandInDesk, order
from tests.support.gateway_states import STATE
from tests.support.paho import Paho, PahoClient

FIRST = 'uagv/v2/KIT/0001/'


class OverPaho2(unittest.TestCase):
    """Class `Broker` over a stand-in of the library in version 2."""

    version = 2

    def setUp(self) -> None:
        self.library = self.enterContext(Paho(self.version))
        self.said = self.enterContext(contextlib.redirect_stderr(io.StringIO()))

    def new_broker(self) -> tuple[brokers.Broker, PahoClient]:
        """A broker, and the library's client that it has."""
        self.box = inbox.Inbox(log.Tally(log.say))
        self.box.know(frozenset(['KIT/0001', 'KIT/0002']))
        broker = brokers.Broker(brokers.Address('127.0.0.1', 1883), self.box, log.Log(log.say))
        return broker, self.library.clients[0]

    def taken(self) -> list[tuple[str, str, Any]]:
        """What is in the inbox."""
        return [
            (message.vehicle, message.kind, json.loads(message.data)) for message in self.box.take()
        ]

    def between(self, desk: StandInDesk, broker: brokers.Broker, *vehicles: str) -> carrier.Gateway:
        """A gateway whose clock stands still, and that says nothing."""
        made = carrier.Gateway(desk, broker, self.box, vehicles, write=self.fail, clock=lambda: 0.0)
        made.fleet.known = self.box.known
        return made

    def test_it_subscribes_and_publishes(self) -> None:
        broker, client = self.new_broker()
        self.assertEqual(client.subscribed(), [])
        client.connected()
        self.assertEqual(client.subscribed(), ['uagv/v2/+/+/state', 'uagv/v2/+/+/connection'])
        client.come(FIRST + 'state', STATE)
        client.come(FIRST + 'connection', {'connectionState': 'ONLINE'}, retain=True)
        online = ('KIT/0001', 'connection', {'connectionState': 'ONLINE'})
        self.assertEqual(
            self.taken(), [online, ('KIT/0001', 'state', STATE)]
        )  # the shorter one first
        self.assertEqual(self.taken(), [])
        self.assertIs(broker.publish(FIRST + 'order', b'{}'), True)
        client.rc = 4
        self.assertIs(broker.publish(FIRST + 'order', b'{}'), False)
        self.assertEqual(client.published, [(FIRST + 'order', b'{}')])
        self.assertEqual(self.said.getvalue(), 'the broker is connected\n')

    def test_states_that_come_faster_than_they_are_posted(self) -> None:
        """One comes with each that is posted: the turn ends all the same, and in it the order goes
        out."""
        broker, client = self.new_broker()
        client.connected()
        client.come(FIRST + 'state', STATE)
        desk = StandInDesk()
        desk.has['order'] = order()

        def ask(method: str, target: str, body: bytes | None) -> Answer:
            if method == 'POST':
                self.assertLess(len(desk.told), 100)
                client.come(FIRST + 'state', dict(STATE, headerId=1000))
            return desk.own(method, target, body)

        desk.other = ask
        self.between(desk, broker).turn()
        self.assertEqual(desk.told, [('/' + FIRST + 'state', 1)])
        self.assertEqual([topic for topic, _ in client.published], [FIRST + 'order'])

    def test_states_that_come_while_a_desk_is_slow(self) -> None:
        """Some of each vehicle wait, and the newest one is posted."""
        broker, client = self.new_broker()
        client.connected()
        for number in range(1, 1001):
            client.come(FIRST + 'state', dict(STATE, headerId=number))
            client.come('uagv/v2/KIT/0002/state', dict(STATE, headerId=number))
        self.assertEqual([len(queue.items) for queue in self.box.queues.values()], [inbox.EACH] * 2)
        desk = StandInDesk()
        with contextlib.redirect_stderr(io.StringIO()) as said:
            self.between(desk, broker).turn()
        self.assertEqual(
            desk.told, [('/' + FIRST + 'state', 1000), ('/uagv/v2/KIT/0002/state', 1000)]
        )
        self.assertEqual(len(said.getvalue().splitlines()), 1, said.getvalue())

    def test_a_retained_state(self) -> None:
        """It is passed over, also where it comes behind one that is not, as it does where the
        broker is connected anew."""
        _, client = self.new_broker()
        client.connected()
        client.come(FIRST + 'state', dict(STATE, headerId=4_000_000_000), retain=True)
        self.assertEqual(self.taken(), [])
        client.come(FIRST + 'state', dict(STATE, headerId=5))
        client.come(FIRST + 'state', dict(STATE, headerId=4_000_000_000), retain=True)
        self.assertEqual([state['headerId'] for _, _, state in self.taken()], [5])

    def test_a_connection_that_is_lost(self) -> None:
        """It is said, and once there is one again, the topics are subscribed to and the order goes
        out again."""
        broker, client = self.new_broker()
        desk = StandInDesk()
        desk.has['order'] = order()
        between = self.between(desk, broker, 'KIT/0001')
        between.polled['KIT/0001'] = None
        client.rc = 4
        between.turn()
        self.assertEqual(client.published, [])
        client.rc = 0
        client.connected()
        for _ in range(2):
            between.turn()
            self.assertEqual(len(client.published), 1)
        client.disconnected()
        client.failed()
        client.failed()
        between.turn()
        self.assertEqual(len(client.published), 1)
        client.connected()
        for _ in range(2):
            between.turn()
            self.assertEqual(len(client.published), 2)
        self.assertEqual(client.subscribed(), ['uagv/v2/+/+/state', 'uagv/v2/+/+/connection'] * 2)
        lines = ['is connected', None, 'can not be reached: no broker', 'is connected']
        wanted = [
            'the broker ' + line if line else 'the connection to the broker is lost'
            for line in lines
        ]
        self.assertEqual(self.said.getvalue().splitlines(), wanted)

    def test_a_broker_that_is_down(self) -> None:
        """It is waited for, and this is said once."""
        self.library.is_down = True
        _, client = self.new_broker()
        client.failed()
        client.failed()
        self.assertEqual(self.said.getvalue(), 'the broker can not be reached: no broker\n')
        client.connected()
        self.assertEqual(len(client.subscribed()), 2)

    def test_a_wrong_password(self) -> None:
        """The broker's refusal is said once, however often it is tried again."""
        broker, client = self.new_broker()
        for _ in range(3):
            client.connected(5)
            client.disconnected()
        self.assertEqual(client.subscribed(), [])
        self.assertEqual(broker.connections, 0)
        self.assertRegex(
            self.said.getvalue(),
            r'^the broker refuses the connection: .*[Nn]ot authori[sz]ed\.?\n$',
        )
        client.connected()
        self.assertEqual((len(client.subscribed()), broker.connections), (2, 1))
        client.disconnected()
        for _ in range(3):
            client.connected(5)
            client.disconnected()
        self.assertEqual(len(self.said.getvalue().splitlines()), 4, self.said.getvalue())


class OverPaho1(OverPaho2):
    """The same in version 1."""

    version = 1


if __name__ == '__main__':
    unittest.main()
