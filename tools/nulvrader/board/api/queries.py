"""Reads what stands behind the `?` of a request, strictly: each name is known and comes once."""
from __future__ import annotations

import re

from .events import GREATEST, MOST, EventQuery

NUMBER = re.compile('[0-9]{1,16}')
KINDS = re.compile('[a-z_]{1,32}(,[a-z_]{1,32}){0,31}')
RECORD = re.compile('[0-9a-f]{1,64}')


class BadQuery(ValueError):
    """A request asks for what there is not. Its `str()` is a sentence."""


def values_of(query: str, known: tuple[str, ...]) -> dict[str, str]:
    """Returns the values of a query by their names."""
    found: dict[str, str] = {}
    for part in query.split('&') if query else ():
        name, _, value = part.partition('=')
        if name not in known:
            names = ', '.join(known) or 'none'
            raise BadQuery(f'There is no {name[:40]!a} here: the names are {names}.')
        if name in found:
            raise BadQuery(f'{name} comes twice.')
        found[name] = value
    return found


def number_of(text: str, name: str, least: int, most: int) -> int:
    """Returns a number of a query or a header."""
    if not NUMBER.fullmatch(text) or not least <= int(text) <= most:
        raise BadQuery(f'{name}: {text[:40]!a} is no number from {least} to {most}.')
    return int(text)


def matched(text: str, name: str, form: re.Pattern[str], what: str) -> str:
    """Returns a value that has a form."""
    if not form.fullmatch(text):
        raise BadQuery(f'{name}: {text[:40]!a} is {what}.')
    return text


def read_event_query(query: str, last_id: str | None) -> EventQuery:
    """Returns which events are asked for. `last_id` is what a reader says who connects again: it
    goes before `after`. Raises `BadQuery` where a name or a value is wrong."""
    said = values_of(query, ('after', 'limit', 'kinds', 'record'))
    after = number_of(said.get('after', '0'), 'after', 0, GREATEST)
    if last_id:
        after = number_of(last_id, 'Last-Event-ID', 0, GREATEST)
    most = number_of(said.get('limit', '500'), 'limit', 1, MOST)
    kinds = said.get('kinds')
    if kinds is not None:
        matched(kinds, 'kinds', KINDS, 'no list of kinds')
    record = said.get('record')
    if record is not None:
        matched(record, 'record', RECORD, 'no name of a record')
    return EventQuery(after, most, None if kinds is None else frozenset(kinds.split(',')), record)
