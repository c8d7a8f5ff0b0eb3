"""Shows which states `tools/gateway` posts, of which vehicles, and what it says of the others."""
from __future__ import annotations

import json
import unittest
import unittest.mock
from typing import Any

from nulvrader.desk.client import Answer, NoAnswer
from nulvrader.gateway import carrier, inbox, log
from tests.support.gateway import ACCEPTED, BetweenStandIns, OLD, instant, order
from tests.support.gateway_states import STATE


class States(BetweenStandIns):
    def test_the_newest_state_alone(self) -> None:
        """Of each vehicle one state is posted in a turn, the newest; so it is, too, once a desk is
        up again."""
        for number in range(1, 4):
            self.come(headerId=number)
            self.come('KIT/0002', headerId=10 + number)
        self.turn()
        self.assertEqual(
            self.desk.told, [('/uagv/v2/KIT/0001/state', 3), ('/uagv/v2/KIT/0002/state', 13)]
        )
        self.desk.told.clear()
        self.desk.is_down = True
        for number in range(4, 9):
            self.come(headerId=number)
            self.come(headerId=number + 100)
            self.turn()
        self.assertEqual((self.box.queues, len(self.gateway.waiting)), ({}, 1))
        self.desk.is_down = False
        self.turn()
        self.turn()
        self.assertEqual(self.desk.told, [('/uagv/v2/KIT/0001/state', 108)])
        line = 'the desk can not be reached: no desk'
        self.assertEqual(self.said, [line])
        self.desk.is_down = True
        self.turn()
        self.turn()
        self.assertEqual(self.said, [line, line])

    def test_a_state_that_lists_an_action_no_more(self) -> None:
        """The one before it is posted first: it alone may tell how an action has ended. There are
        at most four."""
        done = [{'actionId': 'instant-1', 'actionStatus': 'FINISHED'}]
        other = [{'actionId': 'O2.0', 'actionStatus': 'WAITING'}]
        for number, actions in enumerate(([], done, done, other, [*other, *done], other), 1):
            self.come(headerId=number, actionStates=actions)
        self.turn()
        self.assertEqual([header for _, header in self.desk.told], [5, 6])
        self.desk.told.clear()
        for number in range(10, 20):
            actions = [{'actionId': f'A{number}', 'actionStatus': 'FINISHED'}]
            self.come(headerId=number, actionStates=actions)
        self.turn()
        self.assertEqual([header for _, header in self.desk.told], [16, 17, 18, 19])
        self.assertEqual(self.said, [f'6 messages were dropped: {carrier.OVERTAKEN}: KIT/0001'])

    def test_a_state_that_names_the_order_no_more(self) -> None:
        """The end of a drive, which has no actions, may be told by the one before it alone, as
        where the vehicle is started again behind it. One without an order tells nothing more."""
        for number, name in enumerate(('', 'G1', 'G1', '', 'G2', 'G2'), 1):
            self.come(headerId=number, orderId=name, actionStates=[])
        self.turn()
        self.assertEqual([header for _, header in self.desk.told], [3, 6])
        others: tuple[Any, ...] = ([], {}, None, 5)
        for other in others:
            self.come(headerId=7, orderId=other, actionStates=[])
        self.turn()

    def test_an_action_that_was_listed_for_a_moment(self) -> None:
        """Its message is not published again, though the last state lists it no more."""
        self.desk.has['instantActions'] = instant()
        self.come()
        self.turn()
        self.come(actionStates=[{'actionId': 'instant-1', 'actionStatus': 'FINISHED'}])
        self.come(actionStates=[])
        for _ in range(3):
            self.turn(60)
        self.assertEqual(len(self.broker.of_topic('instantActions')), 1)

    def test_what_the_desk_refuses(self) -> None:
        """It is said once, until the desk answers otherwise; a state stays where a fault of the
        machine is told, and only there."""
        memory, there = Answer(503, b'{"name":"Memory","refusal":90}'), Answer(
            409, b'{"name":"NotThere","refusal":71}'
        )
        self.come()
        for answer, told, said in (
            (memory, 1, 1),
            (memory, 2, 1),
            (ACCEPTED, 3, 1),
            (ACCEPTED, 3, 1),
            (there, 4, 2),
            (there, 5, 2),
            (ACCEPTED, 6, 2),
            (there, 7, 3),
        ):
            self.desk.answer = answer
            if told > 3:
                self.come()
            self.turn()
            self.assertEqual((len(self.desk.told), len(self.said)), (told, said))
        lines = ['Memory (90): Out of memory. '] + [
            "NotThere (71): The vehicle isn't where the desk has it. "
        ] * 2
        for text, line in zip(self.said, lines, strict=True):
            self.assertTrue(text.startswith('KIT/0001: state: ' + line), text)

    def test_names(self) -> None:
        """What comes by a name that is none to the desk is counted, and nothing is asked about
        it."""
        bad = [
            'KIT 1/0001',
            'KIT/00\n01',
            'K\u00d6T/0001',
            'KIT/' + 'x' * 33,
            '/0001',
            'KIT/%30',
            'a/b/c',
        ]
        good = ['KIT/0001', 'a_b.c:d-e/Z9', 'x' * 32 + '/' + 'y' * 32]
        self.desk.fleet = good
        for _ in range(3):
            for name in bad + good:
                self.come(name)
            self.turn()
        self.assertEqual(
            {target for target, _ in self.desk.told}, {f'/uagv/v2/{name}/state' for name in good}
        )
        self.assertEqual(len(self.desk.told), 3 * len(good))
        whose = ', '.join(
            f'uagv/v2/{name}/state' for name in ('KIT 1/0001', 'KIT/00\\n01', 'K\u00d6T/0001')
        )
        self.assertEqual(self.said, [f'7 messages were dropped: {inbox.NO_NAMES}: {whose}'])
        for topic in (
            'uagv/v2/KIT/0001/states',
            'a/uagv/v2/KIT/0001/state',
            'uagv/v2/KIT/0001/state\n',
        ):
            self.box.put(topic, json.dumps(STATE).encode())
        self.turn(log.SPAN)
        self.assertEqual((len(self.desk.told), len(self.said)), (3 * len(good), 2))
        self.assertTrue(self.said[1].startswith('17 messages were dropped'), self.said)

    def test_what_is_no_state(self) -> None:
        """It is said once, and neither ends the gateway nor takes the place of a state that
        waits."""
        self.turn()
        self.come()
        self.turn()
        self.desk.told.clear()
        self.desk.is_down = True
        self.come(headerId=7)
        self.turn()
        deep = b'{"x":' + b'[' * 990 + b']' * 990 + b'}'
        long = json.dumps(dict(STATE, nodeStates=[{'sequenceId': 2}] * 10_000)).encode()
        for data in (b'', b'\xff', b'[]', b'[' * 100_000, long):
            with self.subTest(data[:10]):
                self.said.clear()
                for _ in range(3):
                    self.box.put('uagv/v2/KIT/0001/state', data)
                    self.turn()
                said = [line for line in self.said if line.startswith('KIT/0001: state: ')]
                self.assertEqual(len(said), 1, self.said)
        self.box.put('uagv/v2/KIT/0002/state', deep)
        self.turn()
        self.desk.is_down = False
        self.turn()
        self.assertEqual(self.desk.told[0], ('/uagv/v2/KIT/0001/state', 7))
        self.said.clear()
        for data in (b'{', json.dumps(STATE).encode(), b'{'):
            self.box.put('uagv/v2/KIT/0003/state', data)
            self.turn()
        self.assertEqual(len(self.said), 2, self.said)

    def test_states_that_are_old(self) -> None:
        """After three in a row the call is said that makes the desk begin anew; once, until a state
        is accepted."""
        lines = []
        for accepts in (
            False,
            False,
            True,
            False,
            False,
            False,
            False,
            False,
            True,
            False,
            False,
            False,
        ):
            self.desk.answer = ACCEPTED if accepts else OLD
            self.come()
            self.turn()
            lines.append(len(self.said))
        self.assertEqual(lines, [0, 0, 0, 0, 0, 1, 1, 1, 1, 1, 1, 2])
        begins = (
            'KIT/0001: 3 states in a row are old for the desk: the last has headerId 1, and the'
            ' desk has 5000. '
        )
        self.assertTrue(self.said[0].startswith(begins), self.said)
        self.assertTrue(self.said[0].endswith('tools/ask --desk 127.0.0.1:8080 resync KIT/0001'))
        self.assertIn('forged', self.said[0])

    def test_old_states_while_the_desk_falls_silent(self) -> None:
        """The desk answers the third one, and not what it knows of the vehicle: the line comes
        once, in the turn in which it answers that too."""
        self.desk.answer = OLD
        for _ in range(2):
            self.come()
            self.turn()
        silent = NoAnswer('no desk', False)
        with unittest.mock.patch.object(self.desk, 'vehicle', side_effect=silent):
            self.come()
            self.turn()
            self.turn()
        self.assertEqual(self.said, ['the desk can not be reached: no desk'])
        self.said.clear()
        for _ in range(3):
            self.turn()
            self.come()
        self.assertEqual(len(self.said), 1, self.said)
        self.assertIn('KIT/0001: 3 states in a row are old for the desk', self.said[0])

    def test_states_that_are_hardly_old(self) -> None:
        """They may have been posted by another gateway."""
        self.desk.answer, self.desk.header = OLD, 12
        for number in (10, 11, 12):
            self.come(headerId=number)
            self.turn()
        self.assertEqual(len(self.said), 1, self.said)
        self.assertIn(
            'the last has headerId 12, and the desk has 12. If this goes on, another gateway',
            self.said[0],
        )

    def test_a_vehicle_that_the_desk_does_not_have(self) -> None:
        """Nothing is asked about it, and what it sends is counted; once the desk has it, it is
        served."""
        for _ in range(3):
            self.come('KIT/0009')
            self.turn(1)
        self.assertEqual((self.desk.asked, self.desk.told), (0, []))
        reason = inbox.UNKNOWN
        self.assertEqual(self.said, [f'1 message was dropped: {reason}: KIT/0009'])
        self.desk.fleet.append('KIT/0009')
        self.come('KIT/0009', headerId=44)
        self.turn(log.SPAN)
        self.assertEqual(self.desk.told, [('/uagv/v2/KIT/0009/state', 44)])

    def test_a_vehicle_that_the_desk_has_no_more(self) -> None:
        """It is forgotten, and neither polled nor asked about until the desk has it again."""
        self.desk.has['order'] = order()
        self.come()
        self.turn()
        self.assertEqual((len(self.desk.told), len(self.broker.published)), (1, 1))
        self.desk.fleet.remove('KIT/0001')
        self.turn(60)
        before = self.desk.asked
        for _ in range(3):
            self.come()
            self.turn(60)
        self.assertEqual((self.desk.asked, len(self.broker.published)), (before, 1))
        self.assertEqual(self.said[0], 'KIT/0001: the desk does not have this vehicle')
        self.assertEqual(len(self.said), 4, self.said)  # and a sum in each of three minutes
        self.desk.fleet.append('KIT/0001')
        self.come(headerId=45)
        self.turn(60)
        self.assertEqual(self.desk.told[-1], ('/uagv/v2/KIT/0001/state', 45))
        self.assertEqual(len(self.broker.published), 2)

    def test_a_vehicle_that_is_named_on_the_command_line(self) -> None:
        """It is polled before its first state, if the desk has it."""
        self.gateway = self.new_gateway(['KIT/0001', 'KIT/0009'])
        self.desk.has['order'] = order()
        self.turn()
        self.turn()
        self.assertEqual([topic for topic, _ in self.broker.published], ['uagv/v2/KIT/0001/order'])
        self.assertEqual((self.desk.looks, self.desk.asked), (1, 4))
        self.assertEqual(self.said, ['the desk does not have what --vehicle names: KIT/0009'])
        self.desk.fleet.append('KIT/0009')
        self.turn(2)
        self.assertEqual(self.broker.published[-1][0], 'uagv/v2/KIT/0009/order')

    def test_more_vehicles_than_a_desk_can_have(self) -> None:
        """What has a thousand is no desk: none is served, and that is said."""
        self.desk.fleet = [f'KIT/{number}' for number in range(1000)]
        for name in self.desk.fleet[:300]:
            self.come(name)
        self.turn()
        self.assertEqual((self.gateway.fleet.known, self.desk.looks), (frozenset(), 1))
        self.assertEqual(self.desk.asked, 0)
        self.assertIn('an export of vehicles has more than 100', self.said[-1])

    def test_what_a_vehicle_says_of_its_connection(self) -> None:
        """It is said, and the desk is not told."""
        for state in ('ONLINE', 'CONNECTIONBROKEN', 'OFFLINE'):
            data = json.dumps({'headerId': 1, 'connectionState': state}).encode()
            self.box.put('uagv/v2/KIT/0001/connection', data)
        self.turn()
        self.assertEqual(
            self.said, ['KIT/0001: ONLINE', 'KIT/0001: CONNECTIONBROKEN', 'KIT/0001: OFFLINE']
        )
        self.said.clear()
        for data in (
            b'',
            b'[]',
            b'{}',
            b'{"connectionState":"\\u001b[2J"}',
            b'{"connectionState":[]}',
        ):
            self.box.put('uagv/v2/KIT/0002/connection', data)
            self.turn()
        self.assertTrue(
            all(line.startswith('KIT/0002: connection: ') for line in self.said), self.said
        )
        self.assertEqual((len(self.said), self.desk.told), (3, []))

    def test_another_front_of_the_topics(self) -> None:
        """It is that of the broker; the desk's paths stay as they are."""
        self.gateway = self.new_gateway(front='w+1/v2', vehicles=['KIT/0002'])
        self.desk.has['order'] = order()
        self.box.put('w+1/v2/KIT/0001/state', json.dumps(STATE).encode())
        self.come()
        self.turn()
        self.assertEqual(self.desk.told, [('/uagv/v2/KIT/0001/state', 1)])
        wanted = {'w+1/v2/KIT/0001/order', 'w+1/v2/KIT/0002/order'}
        self.assertEqual({topic for topic, _ in self.broker.published}, wanted)
        self.assertEqual(len(self.said), 1, self.said)


if __name__ == '__main__':
    unittest.main()
