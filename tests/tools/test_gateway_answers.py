"""Shows that `tools/gateway` publishes nothing and loses no state where a server answers what no
desk answers."""
from __future__ import annotations

import json
import unittest

from nulvrader.desk.client import Answer, NoAnswer
from tests.support.gateway import BetweenStandIns, drive, key_of, order


class Answers(BetweenStandIns):
    """What a server answers that is no desk, or not this one."""

    def answered(self, answer: Answer) -> None:
        """What was posted and published after an answer to each call."""
        self.setUp()
        self.come()
        self.turn()
        self.come(headerId=2)
        self.desk.other = lambda *_: answer
        for _ in range(3):
            self.turn(60)
        self.assertTrue(self.said[0].startswith('the desk can not be reached: '), self.said)
        self.assertEqual((self.broker.published, len(self.said)), ([], 1))
        self.desk.other = None
        self.turn()
        self.assertEqual(self.desk.told[-1][1], 2)

    def test_no_answer_to_a_state(self) -> None:
        """It counts as not posted."""
        for status, body in (
            (200, b''),
            (200, b'{}'),
            (200, b'{"accepted":1}'),
            (200, b'<html>'),
            (204, b''),
            (404, b'<html>'),
            (404, b'[]'),
            (302, b''),
            (502, b'<html>'),
        ):
            with self.subTest(status=status, body=body):
                self.answered(Answer(status, body))

    def test_too_many_requests(self) -> None:
        """A proxy refuses for now: the state counts as not posted, and nothing is published."""
        self.come()
        self.turn()
        self.come(headerId=2)
        self.desk.other = lambda *_: Answer(429, b'slower')
        for _ in range(3):
            self.turn(60)
        self.assertTrue(self.said and all('TooMany' in line for line in self.said), self.said)
        self.assertEqual(self.broker.published, [])
        self.desk.other = None
        self.turn()
        self.assertEqual(self.desk.told[-1][1], 2)

    def test_no_message(self) -> None:
        """It is not published, whatever it is."""
        good = dict(order(), **key_of('KIT/0001'))
        for body in (
            b'',
            b'<html>',
            b'[]',
            b'1',
            b'\xff',
            b'[' * 100_000,
            b'{"x":' + b'9' * 5000 + b'}',
            json.dumps(dict(good, **key_of('KIT/0002'))).encode(),
            json.dumps(dict(good, orderUpdateId='0')).encode(),
            json.dumps(dict(good, orderUpdateId=True)).encode(),
            json.dumps(dict(good, orderId=None)).encode(),
            json.dumps(dict(order())).encode(),
            json.dumps(dict(good, nodes=[good['nodes'][0], drive()['nodes'][1]])).encode(),
            json.dumps(dict(good, nodes=drive()['nodes'][:1], edges=[])).encode(),
        ):
            with self.subTest(body[:60]):
                self.setUp()
                self.come()
                self.desk.other = lambda method, target, state: (
                    self.desk.own(method, target, state) if method == 'POST' else Answer(200, body)
                )
                self.turn()
                self.turn()
                self.assertEqual(self.broker.published, [])
                self.assertEqual(len(self.said), 1, self.said)
                self.assertTrue(self.said[0].startswith('the desk can not be reached: '), self.said)

    def test_an_export_of_vehicles_that_is_none(self) -> None:
        """No vehicle is known by it."""
        for export in (b'<html>', b'manufacturer\nKIT,0001,N1\n', b'\xff\n'):
            with self.subTest(export):
                self.setUp()
                self.desk.other_export = export
                self.come()
                self.turn()
                self.turn()
                self.assertEqual((self.desk.asked, len(self.said)), (0, 1))
                self.assertTrue(self.said[0].startswith('the desk can not be reached: '), self.said)

    def test_a_desk_that_fails_in_the_middle(self) -> None:
        """With the next turn those come first that were not served."""
        for name in ('KIT/0001', 'KIT/0002', 'KIT/0003'):
            self.come(name)
        self.turn()
        asked: list[str] = []

        def ask(method: str, target: str, body: bytes | None) -> Answer:
            asked.append(target.split('/')[4])
            if len(asked) % 3 == 0:
                raise NoAnswer('no desk', False)
            return self.desk.own(method, target, body)

        self.desk.other = ask
        for _ in range(3):
            self.turn()
        self.assertEqual(set(asked), {'0001', '0002', '0003'})


if __name__ == '__main__':
    unittest.main()
