"""Shows that one vehicle does not keep the broker of examples/mosquitto busy by subscriptions."""
from __future__ import annotations

import json
import os
import struct
import subprocess
import sys

from tests.attacks.broker import EXAMPLE, Configured
from tests.support import mqtt
from tests.support.mqtt import TOPIC_REFUSED
from tests.support.programs import until

FILTERS = 30_000  # of a packet, which is not longer than the broker reads
OWN = ('uagv/v2/KIT/0001/order', 'uagv/v2/KIT/0001/instantActions')


class Subscriptions(Configured):
    def seconds(self) -> float:
        """Returns the processor time that the broker has taken."""
        with open(f"/proc/{self.processes['broker'].pid}/stat") as file:
            fields = file.read().rpartition(')')[2].split()
        return (int(fields[11]) + int(fields[12])) / os.sysconf('SC_CLK_TCK')

    def test_ever_more_topics(self) -> None:
        """A vehicle subscribes to 60,000 topics by two packets; the broker must not work for a
        second on them, and pass on the state of another vehicle behind each."""
        reader = self.reader('gateway', 'uagv/v2/+/+/state')
        thief, other = self.connected('KIT/0001'), self.connected('KIT/0002')
        before = self.seconds()
        for number in range(2):
            first = FILTERS * number
            topics = [mqtt.text(f'{first + one:x}') + b'\0' for one in range(FILTERS)]
            thief.send(mqtt.packet(0x82, struct.pack('!H', number + 1) + b''.join(topics)))
            until(lambda: thief.granted > number or not thief.is_open, 'the answer')
            self.assertEqual(thief.codes, [TOPIC_REFUSED] * FILTERS)
            other.publish('uagv/v2/KIT/0002/state', b'%d' % number)
            until(lambda: len(reader.came) > number, 'the state of another vehicle')
        self.assertLess(self.seconds() - before, 1)

    def test_who_may_subscribe_to_what(self) -> None:
        """A vehicle subscribes to its orders and instant actions, and to each other kind of topic
        there is; only the former must be kept for it."""
        others = ('#', '+', '$SYS/#', '$1', '$share/a/b', '+/+/+/+/order', 'uagv/v2/KIT/0001/state')
        vehicle = self.connected('KIT/0001')
        vehicle.subscribe(*others, *OWN, 'uagv/v2/KIT/0002/order', OWN[0] + '/', '/' + OWN[1])
        refused = [TOPIC_REFUSED] * len(others), [TOPIC_REFUSED] * 3
        self.assertEqual(vehicle.codes, [*refused[0], 0, 0, *refused[1]])
        gateway = self.connected('gateway')
        gateway.subscribe('uagv/v2/+/+/state', 'uagv/v2/+/+/connection', '#', OWN[0])
        self.assertEqual(gateway.codes, [0, 0, TOPIC_REFUSED, TOPIC_REFUSED])

    def test_names_of_users(self) -> None:
        """The file of users has names alone, as for certificates, or names with a `:`."""
        users = self.write('users', 'KIT/0001\n\nA:B/1\nA:B/2:$7$101$c2FsdA==$aGFzaA==\nKIT/0001\n')
        program = os.path.join(EXAMPLE, 'limit-subscriptions')
        subprocess.run([sys.executable, program, users, self.path('made')], check=True)
        with open(self.path('made')) as file:
            made = json.load(file)
        names = ['KIT/0001', 'A:B/1', 'A:B/2']
        self.assertEqual([one['username'] for one in made['clients']], names)
        self.assertEqual([one['rolename'] for one in made['roles']], names)
        allowed = [one['topic'] for one in made['roles'][2]['acls'] if one['allow']]
        self.assertEqual(allowed, ['uagv/v2/A:B/2/order', 'uagv/v2/A:B/2/instantActions'])
