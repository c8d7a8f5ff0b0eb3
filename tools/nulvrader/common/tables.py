"""The CSV tables that a desk reads, with the numbers of their lines, as it reads them
(docs/PROFILE.md)."""
from __future__ import annotations

import csv
import io
from collections.abc import Sequence
from dataclasses import dataclass
from typing import Any

BODY = 65536  # bytes of the largest body
TOO_LARGE = 'the file has {size} bytes, and a body at most {most}'
MARK = b'\xef\xbb\xbf'


class Text(str):
    """A text with a name, and the values that stand in it, so that a page can say the same in
    another language."""

    name: str
    values: dict[str, Any]

    @classmethod
    def of(cls, name: str, text: str, /, **values: Any) -> Text:
        """Returns the text with these values in the place of their names in braces."""
        made = cls(text.format(**values))
        made.name, made.values = name, values
        return made


@dataclass(frozen=True)
class Fault:
    """What is wrong with a file: the number of the line, or none where it is of the whole file, the
    refusal by which a desk answers it, the rule in words, and what to do, if more than the rule
    says is to be said: `remedy`, and `command` where a program of the command line does it. Its
    `str()` is for who has the command line. In a stocktake rule and remedy are a `Text`."""

    line: int | None
    refusal: str
    rule: str
    remedy: str = ''
    command: str = ''

    def __str__(self) -> str:
        line = f'line {self.line}' if self.line else ''
        parts = (line, self.refusal, self.rule, self.command or self.remedy)
        return ': '.join(part for part in parts if part)


class TableFile:
    """What a file with a table says, and its faults in the order of their lines. `refusals` are
    those of such a table, in the order in which a desk looks for them; `if_large` is what to do
    where the file is too large.
    """

    def __init__(self, data: bytes, refusals: Sequence[str], if_large: str = '') -> None:
        self.size, self.refusals = len(data), refusals
        self.faults: list[Fault] = []
        if self.size > BODY:
            rule = Text.of('size', TOO_LARGE, size=self.size, most=BODY)
            self.fault(None, 'TooLarge', rule, if_large)

    def fault(
        self, line: int | None, refusal: str, rule: str, remedy: str = '', command: str = ''
    ) -> None:
        """Notes a fault."""
        self.faults.append(Fault(line, refusal, rule, remedy, command))

    def answer(self) -> str | None:
        """Returns the refusal that a desk answers, to a layout one that has none yet, or None where
        the desk takes the file."""
        found = {fault.refusal for fault in self.faults}
        return next((refusal for refusal in self.refusals if refusal in found), None)


def records_of(data: bytes) -> list[tuple[int, list[bytes]]]:
    """Returns the records of a CSV text, each with the number of the line in which it begins. A
    quote inside a field stands for itself. Empty lines are passed over, and so is a byte order mark
    at the beginning."""
    text = data.removeprefix(MARK).decode('latin-1')  # (a character for each byte)
    csv.field_size_limit(max(len(text), csv.field_size_limit()))
    reader = csv.reader(io.StringIO(text, newline=''))
    found, begun = [], 1
    for fields in reader:
        if fields:
            found.append((begun, [field.encode('latin-1') for field in fields]))
        begun = reader.line_num + 1
    return found


def quoted(field: bytes) -> str:
    """Returns a field in quotes, in which characters that are not ASCII are escapes."""
    try:
        text = field.decode()
    except UnicodeDecodeError:
        text = field.decode('latin-1')
    return ascii(text if len(text) <= 40 else text[:40] + '..')


def said(fields: Sequence[bytes]) -> str:
    """Returns the fields of a record as they stand in a file, cut where they are long, or `missing`
    where there is no record."""
    return ','.join(quoted(field)[1:-1] for field in fields)[:60] if fields else 'missing'
