"""Shows that webhooks are signed as docs/BOARD_API.md says, and that the receiver that it gives
takes these alone as genuine."""
from __future__ import annotations

import os
import re
import unittest
from collections.abc import Callable
from typing import Any

from tests.support.programs import ROOT
from tests.support.receivers import SECRET

from nulvrader.board.api.webhooks.delivery import (
    BadSecret,
    Delivery,
    headers_of,
    secrets_of,
    signature,
)

# The message and the signature that the Standard Webhooks libraries test with, by SECRET.
MESSAGE = 'msg_p5jXN8AQM9LWM0D4loKWxJek', 1614265330, b'{"test": 2432232314}'
SIGNED = 'v1,g0hM9SsE+OTPJTGt/tmIKtSyZlE3uFJELVlNIOLJ1OE='
PAGE = os.path.join(ROOT, 'docs', 'BOARD_API.md')


class Signatures(unittest.TestCase):
    def test_the_vector_of_the_standard(self) -> None:
        name, at, body = MESSAGE
        self.assertEqual(signature(secrets_of(SECRET)[0], name, at, body), SIGNED)

    def test_secrets(self) -> None:
        """One on each line; what is none is refused without being told."""
        other = 'whsec_' + 'A' * 44
        self.assertEqual(len(secrets_of(f'{SECRET}\n{other}\n')), 2)
        headers = headers_of(Delivery('a', b'{}', 1), secrets_of(f'{SECRET}\n{other}'), 1)
        self.assertEqual(len(headers['webhook-signature'].split()), 2)
        for text in ('', 'hunter2', 'whsec_hunter2', 'whsec_aHVudGVyMg==', f'{SECRET}\n' * 5):
            with self.assertRaises(BadSecret) as wrong:
                secrets_of(text)
            self.assertNotIn('unter', str(wrong.exception))

    def verify(self) -> Callable[[list[str], dict[str, str], bytes, float], bool]:
        """The function that the page gives to receivers."""
        with open(PAGE, encoding='utf-8') as file:
            (code,) = re.findall(r'```python\n(import base64.*?)```', file.read(), re.S)
        names: dict[str, Any] = {}
        exec(code, names)
        found: Callable[[list[str], dict[str, str], bytes, float], bool] = names['is_genuine']
        return found

    def test_a_forged_signature(self) -> None:
        """The receiver of the page takes what is signed, by the old secret or the new one, and
        nothing that is forged, changed, sent again late, or signed for another message."""
        verify = self.verify()
        other = 'whsec_' + 'B' * 44
        sent = headers_of(Delivery('ab-1-2', b'{"a":1}', 2), secrets_of(f'{other}\n{SECRET}'), 1000)
        self.assertTrue(verify([SECRET], sent, b'{"a":1}', 1000))
        self.assertTrue(verify([other], sent, b'{"a":1}', 1200))
        mac = sent['webhook-signature'].split()[1]
        forged: tuple[tuple[dict[str, str], bytes, float], ...] = (
            ({}, b'{"a":2}', 1000),
            ({}, b'{"a":1}', 1301),
            ({}, b'{"a":1}', 699),
            ({'webhook-id': 'ab-1-3'}, b'{"a":1}', 1000),
            ({'webhook-timestamp': '1001'}, b'{"a":1}', 1000),
            ({'webhook-timestamp': ''}, b'{"a":1}', 1000),
            ({'webhook-timestamp': 'nan'}, b'{"a":1}', 1000),
            ({'webhook-signature': ''}, b'{"a":1}', 1000),
            ({'webhook-signature': mac.replace('v1,', 'v2,')}, b'{"a":1}', 1000),
            ({'webhook-signature': mac[:-6]}, b'{"a":1}', 1000),
            ({'webhook-signature': 'v1,\xe9'}, b'{"a":1}', 1000),
        )
        for changed, body, now in forged:
            self.assertFalse(verify([SECRET], {**sent, **changed}, body, now), (changed, body, now))
        self.assertFalse(verify(['whsec_' + 'C' * 44], sent, b'{"a":1}', 1000))
        self.assertFalse(verify([SECRET], {}, b'{"a":1}', 1000))


if __name__ == '__main__':
    unittest.main()
