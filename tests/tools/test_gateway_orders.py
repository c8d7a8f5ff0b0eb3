"""Shows when `tools/gateway` publishes an order, a drive or an instant action again, and when it
stops."""
from __future__ import annotations

import json
import unittest

from tests.support.gateway import BetweenStandIns, drive, instant, order


class Repeats(BetweenStandIns):
    def test_an_order_until_a_state_names_it(self) -> None:
        self.desk.has['order'] = order()
        self.count(
            'order',
            [
                (0, {}, 1),
                (4, {}, 1),  # it is repeated after five seconds
                (1, None, 2),
                (1, {'orderId': 'O0'}, 2),
                (4, None, 3),
                (5, {'orderId': 'O1', 'orderUpdateId': 0}, 3),
                (60, None, 3),
                (
                    60,
                    {'orderId': ''},
                    3,
                ),  # a vehicle that has lost its order is not given all of it once more
            ],
        )
        self.desk.has['order'] = order(update=1)
        self.count(
            'order',
            [
                (0, {'orderId': 'O1', 'orderUpdateId': 0}, 4),
                (5, {'orderId': 'O1', 'orderUpdateId': 0}, 5),
                (5, {'orderId': 'O2', 'orderUpdateId': 1}, 6),
                (5, {'orderId': 'O1', 'orderUpdateId': 1}, 6),
                (60, None, 6),
            ],
        )
        updates = [json.loads(data)['orderUpdateId'] for data in self.broker.of_topic('order')]
        self.assertEqual((updates, self.said), ([0, 0, 0, 1, 1, 1], []))

    def test_an_instant_action_until_a_state_lists_it(self) -> None:
        for name in ('actions', 'instantActions'):
            with self.subTest(name):
                self.setUp()
                self.gateway = self.new_gateway(instant_list=name)
                self.desk.has['instantActions'] = instant(2)
                other = {'actionId': 'instant-1', 'actionStatus': 'FINISHED'}
                self.count(
                    'instantActions',
                    [
                        (0, {}, 1),
                        (4, {'actionStates': [other]}, 1),
                        (1, {'actionStates': None}, 2),
                        (5, {'actionStates': [None, 'instant-2', {'actionId': ['instant-2']}]}, 3),
                        (
                            5,
                            {
                                'actionStates': [
                                    other,
                                    {'actionId': 'instant-2', 'actionStatus': 'RUNNING'},
                                ]
                            },
                            3,
                        ),
                        (60, {}, 3),
                    ],
                )
                sent = [json.loads(data) for data in self.broker.of_topic('instantActions')]
                self.assertEqual([message[name] for message in sent], [instant(2)['actions']] * 3)

    def test_a_message_that_does_not_go_out(self) -> None:
        """It is tried again with each turn, and does not count as published before it goes out."""
        self.broker.refuses = True
        self.desk.has.update(order=order(), instantActions=instant())
        self.come()
        for _ in range(3):
            self.turn()
        self.assertEqual(self.broker.published, [])
        self.broker.refuses = False
        self.turn()
        self.turn()
        self.assertEqual(
            [topic.split('/')[-1] for topic, _ in self.broker.published],
            ['order', 'instantActions'],
        )

    def test_a_broker_that_is_connected_anew(self) -> None:
        """What no state has named is published once more at once, and nothing else."""
        self.desk.has.update(order=order(), instantActions=instant())
        self.come()
        self.turn()
        self.broker.connections += 1
        self.turn()
        self.turn()
        self.assertEqual(
            [len(self.broker.of_topic(topic)) for topic in ('order', 'instantActions')], [2, 2]
        )
        self.come(orderId='O1')
        self.broker.connections += 1
        self.turn()
        self.assertEqual(
            [len(self.broker.of_topic(topic)) for topic in ('order', 'instantActions')], [2, 3]
        )

    def test_what_the_desk_no_longer_has(self) -> None:
        """An order is repeated while the desk has it and can be asked, and not longer."""
        self.desk.has['order'] = order()
        self.count('order', [(0, {}, 1), (5, {}, 2)])
        self.desk.is_down = True
        self.count('order', [(5, {}, 2), (60, None, 2)])
        self.desk.is_down = False
        self.count('order', [(1, None, 3)])
        del self.desk.has['order']
        self.count('order', [(5, {}, 3), (60, None, 3)])
        self.desk.has['order'] = order()
        self.count('order', [(0, {'orderId': 'O1'}, 4), (60, None, 4)])

    def test_a_drive(self) -> None:
        """It is published as any order."""
        self.desk.has['order'] = drive()
        self.count('order', [(0, {'orderId': ''}, 1), (60, {'orderId': 'G1'}, 1), (60, None, 1)])
        (data,) = self.broker.of_topic('order')
        self.assertEqual([node['actions'] for node in json.loads(data)['nodes']], [[], []])


if __name__ == '__main__':
    unittest.main()
