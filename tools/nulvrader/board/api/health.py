"""Whether the board and its desk are at work, for who watches them."""
from __future__ import annotations

from dataclasses import dataclass
from typing import Any

from ..record import text_of
from ..shown_rows import ShownDesk

SLOW = 30_000  # milliseconds for which the desk may owe an answer
STALE = 10.0  # seconds for which the record may be read no more
LOW = 16_777_216  # bytes that are free where board.db is, at least
BACK = 5_000  # milliseconds by which the clock may be behind the last event


@dataclass(frozen=True)
class Reason:
    """Why something is not well: a name for programs, a sentence for people, and since when, in
    milliseconds since 1970, None where that isn't known."""

    name: str
    text: str
    since: int | None = None

    def told(self) -> dict[str, Any]:
        """Returns the JSON object that is answered."""
        since = {} if self.since is None else {'since': text_of(self.since)}
        return {'reason': self.name, 'text': self.text, **since}


@dataclass(frozen=True)
class Health:
    """Whether all is well, and why it isn't."""

    reasons: tuple[Reason, ...]

    @property
    def is_well(self) -> bool:
        """Whether all is well."""
        return not self.reasons

    def told(self) -> dict[str, Any]:
        """Returns the JSON object that is answered."""
        return {'healthy': self.is_well, 'reasons': [one.told() for one in self.reasons]}


@dataclass(frozen=True)
class Facts:
    """What is known of the board and its desk. `desk` is the page's value of it, `asking` the
    moment at which the desk was asked what it still owes, `unwritten` and `unread` why the record
    can't be written or read, `looked` how many seconds ago it was read, `free` the bytes of its
    disk, and `newest` the moment of the last event."""

    now: int
    desk: ShownDesk | None
    asking: int | None
    unwritten: str | None
    unread: str | None
    looked: float
    free: int
    newest: int


def reasons_of(facts: Facts) -> Health:
    """Returns what is not well."""
    found = [*_of_desk(facts), *_of_record(facts)]
    if facts.newest - facts.now > BACK:
        text = 'The clock of the machine is behind the last event of the record.'
        found.append(Reason('clock', text, facts.newest))
    return Health(tuple(found))


def _of_desk(facts: Facts) -> list[Reason]:
    desk = facts.desk
    if desk is None:
        return [Reason('starting', 'The desk has not answered since the board started.')]
    if desk.get('other'):
        return [Reason('other_desk', f'Another desk answers: {desk["fault"]}', desk['since'])]
    if not desk['up']:
        return [Reason('desk', f'The desk does not answer: {desk["fault"]}', desk['since'])]
    if facts.asking is not None and facts.now - facts.asking > SLOW:
        return [Reason('desk_slow', 'The desk owes an answer for long.', facts.asking)]
    return []


def _of_record(facts: Facts) -> list[Reason]:
    found = []
    if facts.unwritten is not None:
        found.append(Reason('record_not_written', facts.unwritten))
    if facts.unread is not None or facts.looked > STALE:
        why = facts.unread or f'nothing was read for {facts.looked:.0f} seconds'
        found.append(Reason('record_not_read', f'board.db can not be read: {why}'))
    if facts.free < LOW:
        text = f'Where board.db is, {facts.free:,} bytes are free.'
        found.append(Reason('disk', text))
    return found
