"""Makes text of others, such as an answer, the name of a file or a row of a table, fit to be
printed on a terminal."""
from __future__ import annotations

import unicodedata

MOST = 200  # the most characters that are shown of a text
CUT = '..'
# Letters that print as a blank or as nothing: fillers of Hangul, and the empty Braille pattern.
BLANK = frozenset('\u115f\u1160\u2800\u3164\uffa0')


def shown(text: str | bytes, most: int = MOST) -> str:
    """Returns a text on one line, in at most `most` characters (2 or more), with `..` at the end
    where it is cut.

    A character that a terminal would not print as itself is written as in a Python string: `\\x1b`,
    `\\n`, `\\u202e`. These are the control characters, line ends, bidirectional and other format
    characters, blanks other than the space, combining marks, lone surrogates, and what Unicode has
    not assigned. A byte that is not UTF-8 is written as `\\xff`. A backslash stays as it is, so a
    text that was shown once is shown the same again."""
    if isinstance(text, bytes):
        text = text[: 4 * most + 4].decode('utf-8', 'surrogateescape')
    if len(text) <= most and text.isascii() and text.isprintable():
        return text
    parts, length = [], 0
    for character in text[: most + 1]:
        part = _shown(character)
        parts.append(part)
        length += len(part)
        if length > most:
            break
    if length <= most:
        return ''.join(parts)
    while length > most - len(CUT):
        length -= len(parts.pop())
    return ''.join(parts) + CUT


def shown_lines(text: str | bytes, most: int = MOST) -> str:
    """Returns a text of several lines, each shown as by `shown`. Lines end with a line feed, or a
    carriage return and a line feed."""
    if isinstance(text, bytes):
        text = text.decode('utf-8', 'surrogateescape')
    return '\n'.join(shown(line.removesuffix('\r'), most) for line in text.split('\n'))


def _shown(character: str) -> str:
    """Returns a character, or its escape."""
    is_mark = unicodedata.category(character).startswith('M')
    if character.isprintable() and not is_mark and character not in BLANK:
        return character
    number = ord(character)
    if 0xDC80 <= number <= 0xDCFF:
        return f'\\x{number - 0xDC00:02x}'  # a byte of `surrogateescape`, as in the names of files
    if 0xD800 <= number <= 0xDFFF:
        return f'\\u{number:04x}'
    return character.encode('unicode_escape').decode('ascii')
