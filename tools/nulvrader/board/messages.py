"""The texts of the page and of the record: one table, `page/messages.json`, of which each row has a
name, English and German. The page reads the same one.

A text has values in braces: `{load}` as it is; `{before|place}` as a place in words, `{place|spot}`
as one where something stands, and `{thing|thing}` as a node or an edge; `{alarm|text:alarm}` as the
text of the row `alarm.` with the value behind; `{count|many:edge}` as `1 edge` or `2 edges`, by the
rows `many.edge.1` and `many.edge.n`; and `{action|name:action}` by the row `action.startPause`, if
there is one. Values that have other sentences, as `says`, each with the name of its row and its
values, say these for `{answer|said}`, for `{why|list}` with commas between, and for `{words|parts}`
with colons; where there is no `says` it is the value as it is. `{todo|said:does}` says those of
`does`."""
from __future__ import annotations

import functools
import json
import os
import re
from collections.abc import Mapping, Sequence
from dataclasses import dataclass, field

FILE = os.path.join(os.path.dirname(__file__), 'page', 'messages.json')
LANGUAGES = ('en', 'de')
JOINED = {'said': ' ', 'list': ', ', 'parts': ': '}  # what stands between sentences
VALUE = re.compile(r'\{(\w+)(?:\|(\w+)(?::(\w+))?)?\}')

# A sentence as pages get it: the name of its row, and its values.
ToldLine = list[str | dict[str, object]]


@dataclass(frozen=True)
class Line:
    """A sentence of the table, with its values. The page says it in its language."""

    name: str
    values: Mapping[str, object] = field(default_factory=dict)

    def words(self, language: str = 'en') -> str:
        """Returns the sentence."""
        return say(self.name, self.values, language)

    def told(self) -> ToldLine:
        """Returns the sentence as the page has it: its name and its values."""
        return [self.name, dict(self.values)]


def told(lines: Sequence[Line]) -> list[ToldLine]:
    """Returns sentences as the page has them."""
    return [line.told() for line in lines]


def words_of(lines: Sequence[Line], between: str = ' ') -> str:
    """Returns sentences in English."""
    return between.join(line.words() for line in lines)


@functools.cache
def table() -> dict[str, dict[str, str]]:
    """Returns the table: by the name of a row its texts by language."""
    with open(FILE, encoding='utf-8') as file:
        rows = json.load(file)
    return {name: dict(zip(LANGUAGES, texts)) for name, texts in rows.items()}


def has(name: str) -> bool:
    """Whether the table has a row of this name."""
    return name in table()


def say(name: str, values: Mapping[str, object] | None = None, language: str = 'en') -> str:
    """Returns the text of a row with these values. Where there is no such row it is its name."""
    row = table().get(name)
    if row is None:
        return name
    known = values or {}

    def put(found: re.Match[str]) -> str:
        member, how, of = found.groups()
        if how == 'text':
            return say(f'{of}.{known.get(member)}', known, language)
        says = known.get(of or 'says')
        if how in JOINED and isinstance(says, list) and says:
            return JOINED[how].join(say(name, parts, language) for name, parts in says)
        return _value(known.get(member, ''), how, of, language)

    return VALUE.sub(put, row[language])


def _value(value: object, how: str | None, of: str | None, language: str) -> str:
    """Returns a value as a text has it."""
    if how == 'place':
        return place(str(value), language)
    if how == 'spot':
        return place(str(value), language, 'spot')
    if how == 'thing':
        return place(str(value), language, 'thing')
    if how == 'many':
        return say(f'many.{of}.{"1" if value == 1 else "n"}', {'count': value}, language)
    if how == 'name' and has(f'{of}.{value}'):
        return say(f'{of}.{value}', None, language)
    if isinstance(value, (list, tuple)):
        return ', '.join(str(one) for one in value)
    return str(value)


def place(value: str, language: str = 'en', front: str = 'place') -> str:
    """Returns a place as it stands in a sentence, by the rows that begin with `front`."""
    kind, _, name = value.partition(' ')
    return say(f'{front}.{kind}', {'name': name}, language)
