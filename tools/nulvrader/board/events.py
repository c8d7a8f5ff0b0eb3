"""What happened, as the record and the page have it: what, to which things, by whom and with which
call, and how it was before and is then."""
from __future__ import annotations

import json
from collections.abc import Mapping
from dataclasses import dataclass, field, replace
from typing import NotRequired, TypedDict, cast

from .messages import say

# The things that an event may be about: the columns of `events`.
ABOUT = ('vehicle', 'load', 'job', 'order_name', 'station', 'node')
LONG, MORE = 400, 800  # bytes of a text of an entry, and of what else it says, at most
CUTS = ((LONG, 32), (LONG // 2, 16), (LONG // 4, 8), (LONG // 8, 4), (LONG // 8, 2))


def cut(text: str, most: int = LONG) -> str:
    """Returns a text of at most so many bytes, with `..` at the end where it is cut."""
    data = text.encode('utf-8', 'replace')
    if len(data) > most:
        return data[: most - 2].decode('utf-8', 'ignore') + '..'
    return data.decode()


def values_cut(values: Mapping[str, object]) -> dict[str, object]:
    """Values whose texts and lists are cut, the long ones first, until they have no more than
    `MORE` bytes as JSON."""
    found = dict(values)
    for long, many in CUTS:
        found = {name: _value_cut(value, long, many) for name, value in values.items()}
        if len(json_of(found).encode()) <= MORE:
            break
    return found


def _value_cut(value: object, long: int, many: int) -> object:
    if isinstance(value, str):
        return cut(value, long)
    if isinstance(value, Mapping):
        return {name: _value_cut(one, long, many) for name, one in value.items()}
    if isinstance(value, (list, tuple)):
        return [_value_cut(one, long, many) for one in value[:many]]
    return value


def json_of(values: Mapping[str, object]) -> str:
    """Values as the record has them."""
    return json.dumps(dict(values), ensure_ascii=False)


@dataclass(frozen=True)
class Cause:
    """Who or what has caused something. `of` is `vehicle` (a state of it), `person` (a command of
    this board), `client` (another client of the desk), `board` (it has seen or found it), or
    `unseen` (it came to be so while the board did not look). `who` names the person, where a proxy
    does; `call` is the call of the desk, or those of which one it was; `command` is the row of
    `commands`."""

    of: str
    who: str | None = None
    call: str | None = None
    command: int | None = None


VEHICLE, BOARD, UNSEEN = Cause('vehicle'), Cause('board'), Cause('unseen')


@dataclass(frozen=True)
class Event:
    """An entry of the record. `kind` is the family, `what` the name of what happened, by which
    `page/messages.json` has its sentence; `about` names the things by `ABOUT`; `more` is what else
    the sentence says."""

    kind: str
    what: str
    cause: Cause
    about: Mapping[str, str | None] = field(default_factory=dict)
    before: str | None = None
    after: str | None = None
    more: Mapping[str, object] = field(default_factory=dict)

    def values(self) -> dict[str, object]:
        """Returns what its sentence is made of."""
        ends = {'before': self.before, 'after': self.after}
        found: dict[str, object] = {**self.about, **ends, **self.more}
        return {name: value for name, value in found.items() if value is not None}

    def cut(self) -> Event:
        """This entry with no longer texts than a person reads."""
        before, after = (one and cut(one) for one in (self.before, self.after))
        return replace(self, before=before, after=after, more=values_cut(self.more))

    def words(self, language: str = 'en') -> str:
        """Returns its sentence."""
        return say(f'event.{self.what}', self.values(), language)


class ToldEvent(TypedDict):
    """An entry as pages and other programs get it: `n` is its number, and `text` its sentence in
    English. What isn't known of it is left out."""

    n: int
    at: int
    kind: str
    what: str
    text: str
    cause: NotRequired[str]
    who: NotRequired[str]
    call: NotRequired[str]
    command: NotRequired[int]
    vehicle: NotRequired[str]
    load: NotRequired[str]
    job: NotRequired[str]
    order_name: NotRequired[str]
    station: NotRequired[str]
    node: NotRequired[str]
    before: NotRequired[str]
    after: NotRequired[str]
    more: NotRequired[dict[str, object]]


def told_event(values: Mapping[str, object]) -> ToldEvent:
    """Returns an entry of the values that are known: None stands for one that isn't."""
    return cast(ToldEvent, {name: value for name, value in values.items() if value is not None})


def told(number: int, at: int, event: Event) -> ToldEvent:
    """Returns an entry as pages and other programs get it."""
    event = event.cut()
    cause = event.cause
    found: dict[str, object] = {
        'n': number,
        'at': at,
        'kind': event.kind,
        'what': event.what,
        'text': cut(event.words()),
        'cause': cause.of,
        'who': cause.who,
        'call': cause.call,
        'command': cause.command,
        **{name: event.about.get(name) for name in ABOUT},
        'before': event.before,
        'after': event.after,
        'more': dict(event.more) or None,
    }
    return told_event(found)
