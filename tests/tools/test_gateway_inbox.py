"""Shows how many lines `tools/gateway` says, and how much it keeps of what vehicles send."""
from __future__ import annotations

import contextlib
import io
import unittest
import unittest.mock

from nulvrader.gateway import inbox, log


class Lines(unittest.TestCase):
    """How many lines are said, and what is in them."""

    def setUp(self) -> None:
        self.said: list[str] = []
        self.now = 0.0

    def clock(self) -> float:
        return self.now

    def test_a_vehicle_that_changes_all_the_time(self) -> None:
        """At most twenty lines a minute are about it, and other vehicles have theirs."""
        made = log.Log(self.said.append, self.clock)
        for number in range(1000):
            made.of('KIT/0001', 'state', f'KIT/0001: {number}')
        made.of('KIT/0002', 'state', 'KIT/0002: 1')
        self.assertEqual(
            self.said, [*(f'KIT/0001: {number}' for number in range(20)), 'KIT/0002: 1']
        )
        self.now = 60.0
        made.of('KIT/0001', 'state', 'KIT/0001: again')
        self.assertEqual(
            self.said[-2:], ['KIT/0001: 980 more lines were left out', 'KIT/0001: again']
        )

    def test_a_sum(self) -> None:
        """It is said at once, and then once a minute."""
        made = log.Tally(self.said.append, self.clock)
        for number in range(2300):
            made.count('a reason', f'K\x1b[2J/{number}')
            made.say_due()
        self.now = 60.0
        made.say_due()
        made.say_due()
        first, second = self.said
        self.assertEqual(first, '1 message was dropped: a reason: K\\x1b[2J/0')
        self.assertEqual(
            second, '2299 messages were dropped: a reason: K\\x1b[2J/1, K\\x1b[2J/2, K\\x1b[2J/3'
        )

    def test_foreign_text(self) -> None:
        """A line is one line, and has nothing that a terminal obeys."""
        with contextlib.redirect_stderr(io.StringIO()) as told:
            log.say('a\x1b[2J\r\n\u202eb\ud800' + 'x' * 5000)
        text = told.getvalue()
        self.assertTrue(text.startswith('a\\x1b[2J\\r\\n\\u202eb\\ud800x'), text)
        self.assertLessEqual(len(text), log.LINE + 1)
        self.assertEqual(text.count('\n'), 1)


class Room(unittest.TestCase):
    """The inbox has room for so much, and not for more."""

    def setUp(self) -> None:
        self.said: list[str] = []
        self.box = inbox.Inbox(log.Tally(self.said.append))
        self.box.know(frozenset(['KIT/0001']))

    def put(self, name: str, data: bytes) -> None:
        self.box.put(f'uagv/v2/{name}/state', data)

    def size(self) -> int:
        """The bytes that wait."""
        queues = [*self.box.queues.values(), *self.box.others.values()]
        return sum(len(data) for queue in queues for data in queue.items)

    def test_strangers(self) -> None:
        """However many there are, a vehicle of the desk has its room."""
        for number in range(3000):
            self.put(f'X/{number}', bytes(10_000))
        self.put('KIT/0001', b'{}')
        self.assertLessEqual(self.size(), inbox.STRANGE + 2)
        self.assertEqual([message.data for message in self.box.take()], [b'{}'])
        self.assertEqual(len(self.box.strangers()), inbox.STRANGERS)
        self.box.drop(self.box.strangers())
        self.assertEqual((self.size(), self.box.size, self.box.strangers()), (0, 0, set()))

    def test_long_messages(self) -> None:
        """One of more than 250,000 bytes is dropped, and of the others the last ones are kept."""
        self.put('KIT/0001', bytes(250_001))
        self.assertEqual(self.size(), 0)
        for number in range(50):
            self.put('KIT/0001', bytes([number]) * 100_000)
            self.put('X/1', bytes([number]) * 100_000)
        self.assertEqual(self.size(), 400_000)
        self.assertEqual([message.data[0] for message in self.box.take()], [48, 49])
        self.box.know(frozenset(['KIT/0001', 'X/1']))
        self.assertEqual(
            ([message.data[0] for message in self.box.take()], self.box.size), ([48, 49], 0)
        )

    def test_one_that_sends_much(self) -> None:
        """Those that send less are taken before it, in one turn with it where there is room."""
        self.box.know(frozenset(f'KIT/{number}' for number in range(20)))
        for number in range(19):
            self.put(f'KIT/{number}', bytes(225_000))
        self.put('KIT/19', b'{}')
        self.put('KIT/19', b'{}')
        taken = [message.vehicle for message in self.box.take()]
        self.assertEqual((taken[:2], len(taken)), (['KIT/19', 'KIT/19'], 10))
        self.put('KIT/19', b'{}')
        self.assertEqual([len(self.box.take()) for _ in range(3)], [9, 3, 0])

    def test_a_vehicle_that_is_known_no_more(self) -> None:
        """What it has sent waits with that of strangers."""
        self.put('KIT/0001', b'12')
        self.put('X/1', b'345')
        self.assertEqual(self.box.size, 3)
        self.box.know(frozenset())
        self.assertEqual((self.box.size, self.box.take()), (5, []))


if __name__ == '__main__':
    unittest.main()
