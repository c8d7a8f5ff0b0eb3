"""Shows that `tools/nulvrader/common/text.py` makes of a text from elsewhere what a terminal may
print."""
import random
import unicodedata
import unittest

from nulvrader.common.text import shown, shown_lines
from tests.support import programs

assert programs.TOOLS


class Shown(unittest.TestCase):
    def test_what_prints_as_itself(self) -> None:
        for text in ('', 'node N2', 'C:\\files', 'Lager-Süd.db', '倉庫', "it's <b>&amp;"):
            self.assertEqual(shown(text), text)

    def test_what_is_escaped(self) -> None:
        for text, wanted in (
            ('\x1b[2J\x07', '\\x1b[2J\\x07'),
            ('a\r\nb\tc\x00', 'a\\r\\nb\\tc\\x00'),
            ('\x7f\x80\x9b31m\x85', '\\x7f\\x80\\x9b31m\\x85'),
            ('\u2028\u2029\xa0\u3000', '\\u2028\\u2029\\xa0\\u3000'),
            ('\u202eevil\u2066\u200f', '\\u202eevil\\u2066\\u200f'),
            ('\u200b\ufeff\xad', '\\u200b\\ufeff\\xad'),
            ('u\u0308\u20dd', 'u\\u0308\\u20dd'),
            ('\u3164\u2800', '\\u3164\\u2800'),
            ('\U000e0041\ue000\U0010ffff', '\\U000e0041\\ue000\\U0010ffff'),
            ('\ud800\udfff\udcff', '\\ud800\\udfff\\xff'),
        ):
            with self.subTest(wanted):
                self.assertEqual(shown(text), wanted)

    def test_bytes(self) -> None:
        self.assertEqual(shown('Süd'.encode()), 'Süd')
        self.assertEqual(shown(b'\xff\xfe\x1b \xc3'), '\\xff\\xfe\\x1b \\xc3')

    def test_a_long_text_is_cut(self) -> None:
        """An escape is never cut in two, and what was shown is shown the same again."""
        self.assertEqual(shown(200 * 'a'), 200 * 'a')
        self.assertEqual(shown(201 * 'a'), 198 * 'a' + '..')
        self.assertEqual(shown(10 * '\x1b', 10), '\\x1b\\x1b..')
        self.assertEqual(shown(10**7 * 'ü', 4), 'üü..')
        self.assertEqual(shown(10**7 * b'\xc3\xbc', 4), 'üü..')

    def test_every_character(self) -> None:
        """None that is shown is a control or format character, a mark, a line end or unassigned."""
        for number in range(0x110000):
            text = shown(chr(number))
            kinds = {unicodedata.category(one) for one in text}
            self.assertFalse([kind for kind in kinds if kind[0] in 'CM'], hex(number))
            self.assertFalse(kinds & {'Zl', 'Zp'}, hex(number))

    def test_any_text(self) -> None:
        chance = random.Random(1)
        for _ in range(3000):
            ends = [chance.choice([0x100, 0x110000]) for _ in range(chance.randrange(60))]
            most = chance.randrange(2, 50)
            text = shown(''.join(chr(chance.randrange(end)) for end in ends), most)
            self.assertLessEqual(len(text), most)
            self.assertEqual(shown(text, most), text)

    def test_lines(self) -> None:
        self.assertEqual(shown_lines('a\r\nb\x1b\n\x85'), 'a\nb\\x1b\n\\x85')
        self.assertEqual(shown_lines(b'abcdef\n\xff', 4), 'ab..\n\\xff')


if __name__ == '__main__':
    unittest.main()
