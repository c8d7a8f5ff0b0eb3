"""Follows what vehicles say of themselves: the last words of each are kept and shown, and each
change of what matters is an entry of the record, within bounds."""
from __future__ import annotations

import json
from collections.abc import Iterator, Mapping, Sequence
from dataclasses import asdict, dataclass, field, replace
from typing import Any

from .events import BOARD, VEHICLE
from .news import News
from .record import moment_of
from .record_tables import WordsColumns
from .shown_rows import WORDS, ShownWords
from .vehicle_words import Error, FailedAction, Words

KEEP = 10_000  # milliseconds from one writing of words that say nothing new to the next
SPAN, MOST = 600_000, 60  # in so many milliseconds so many entries and rows of a vehicle at most
STEP = 5.0  # percent of a battery, from one row to the next
LOW, ENOUGH = 20.0, 30.0  # percent: below it is low, and above it is not low any more
COLUMNS = ('mode', 'stop', 'field', 'battery', 'charging', 'map', 'connection')
TEXTS = ('type', 'level', 'text', 'hint')  # of an error
NOTHING = Words(mode='AUTOMATIC', stop='NONE', field=False, errors=(), failed=())


@dataclass
class KnownWords:
    """What is known of a vehicle's words: the last ones, their moment, since when things are so, by
    their names, when they were kept last, the battery of the last row, whether it is low, and how
    many entries and rows there were since a moment. `failures` are those of the failed actions that
    are of no cancelled order."""

    words: Words = NOTHING
    at: int = 0
    since: dict[str, int] = field(default_factory=dict)
    kept: int = 0
    battery: float | None = None
    is_low: bool = False
    begun: int = 0
    count: int = 0
    failures: frozenset[str] = frozenset()


def name_of(error: Error) -> str:
    """Returns the name of an error among those of a vehicle."""
    return ' '.join(('error', error.type, error.level, *error.refers))


class Keeper:
    """The last words of each vehicle, those of an earlier run too."""

    def __init__(self, news: News):
        self.news = news
        self.said: dict[str, KnownWords] = {}
        names = ('vehicle', 'at', *COLUMNS, 'x', 'y', 'errors', 'failed', 'since')
        for row in news.record.rows(f'SELECT {", ".join(names)} FROM vehicle_words'):
            self._restore(dict(zip(names, row)))

    def _restore(self, row: Mapping[str, Any]) -> None:
        rows = json.loads(row['errors'])
        errors = [replace(Error(*map(one.get, TEXTS)), refers=tuple(one['refers'])) for one in rows]
        values = {name: row[name] for name in COLUMNS}
        for name in ('field', 'charging'):
            values[name] = None if values[name] is None else bool(values[name])
        position = None if row['x'] is None or row['y'] is None else (row['x'], row['y'])
        failed = tuple(FailedAction(**one) for one in json.loads(row['failed']))
        words = Words(**values, position=position, errors=tuple(errors), failed=failed)
        at, since = moment_of(row['at']), json.loads(row['since'])
        is_low = words.battery is not None and words.battery < LOW
        said = KnownWords(words, at, since, at, words.battery, is_low)
        question = "SELECT 1 FROM alarms WHERE ended IS NULL AND kind = 'action' AND vehicle = ?"
        if self.news.record.rows(question, (row['vehicle'],)):
            said.failures = frozenset(one.action for one in failed)
            for one in failed:
                self.news.fails_action(row['vehicle'], one.action, one.result)
        self.said[row['vehicle']] = said
        self._show(row['vehicle'])

    def take(self, heard: Mapping[str, Sequence[Words]], known: Sequence[str], at: int) -> None:
        """Takes what was heard of the vehicles of the desk, at a moment."""
        before, self.news.at = self.news.at, at
        for vehicle in known:
            for words in heard.get(vehicle, ()):
                self._take(vehicle, words)
        self.news.at = before

    def _take(self, vehicle: str, told: Words) -> None:
        said, at = self.said.setdefault(vehicle, KnownWords()), self.news.at
        before, words = said.words, told.over(said.words)
        changes = list(changes_of(before, words))
        for change in changes:
            self._tell(vehicle, said, change)
        said.failures &= {one.action for one in words.failed or ()}
        self._note_since(said, words)
        said.words, said.at = words, at
        self._charge(vehicle, said)
        is_more = before != words and (bool(changes) or before.position == words.position)
        if is_more or at >= said.kept + KEEP:
            said.kept = at
            self.news.record.words(at, vehicle, row_of(said))
            self._show(vehicle)

    def _tell(self, vehicle: str, said: KnownWords, change: Change) -> None:
        """Makes an entry of a change, unless there were too many of this vehicle."""
        failed = change.failed
        if failed is not None:
            if self._is_cancelled(failed.action):
                return
            said.failures |= {failed.action}
        if not self.may_tell(vehicle):
            return
        if failed is not None:
            self.news.fails_action(vehicle, failed.action, failed.result)
        ends = {'before': change.before, 'after': change.after}
        about = {'vehicle': vehicle}
        self.news.event(f'said.{change.what}', VEHICLE, about, **ends, more=change.more)

    def may_tell(self, vehicle: str, count: int = 1) -> bool:
        """Counts entries and rows that a vehicle's words make. Whether they may be made; an entry
        tells of the first ones that may not."""
        said = self.said.get(vehicle)
        if said is None:
            return True
        at = self.news.at
        if not said.begun <= at < said.begun + SPAN:
            said.begun, said.count = at, 0
        before, said.count = said.count, said.count + count
        if before <= MOST < said.count:
            more = {'minutes': SPAN // 60_000}
            self.news.event('said.many', BOARD, {'vehicle': vehicle}, more=more)
        return said.count <= MOST

    def _is_cancelled(self, action: str) -> bool:
        """Whether an action is of an order that was cancelled, whose actions all end as failed."""
        order = action.rpartition('.')[0]
        end = self.news.ends.get(order)
        return order in self.news.cancelling or (end is not None and end.how != 'ended')

    def _note_since(self, said: KnownWords, words: Words) -> None:
        """Notes since when things are as they are."""
        now = {
            'mode': words.mode != said.words.mode,
            'stop': words.stop != said.words.stop,
            'field': words.field != said.words.field,
        }
        for name, is_new in now.items():
            if is_new or name not in said.since:
                said.since[name] = self.news.at
        errors = {name_of(error) for error in words.errors or ()}
        for name in errors - said.since.keys():
            said.since[name] = self.news.at
        for name in said.since.keys() - errors - now.keys():
            del said.since[name]

    def _charge(self, vehicle: str, said: KnownWords) -> None:
        """Records the battery of a vehicle: a row where its charge has changed by `STEP` percent
        since the last row, and an entry where it becomes low (below `LOW`) or is low no more (at
        `ENOUGH`). Both count as rows of the vehicle's words, so a vehicle whose charge jumps to
        and fro can't fill the record."""
        charge, about = said.words.battery, {'vehicle': vehicle}
        if charge is None:
            return
        is_new = said.battery is None or abs(charge - said.battery) >= STEP
        if is_new and self.may_tell(vehicle):
            said.battery = charge
            self.news.record.battery(self.news.at, vehicle, charge, said.words.charging)
        is_low = charge < (ENOUGH if said.is_low else LOW)
        if is_low != said.is_low:
            said.is_low = is_low
            what = 'said.battery.low' if is_low else 'said.battery.enough'
            if self.may_tell(vehicle):
                self.news.event(what, VEHICLE, about, after=f'{charge:g}')

    def _show(self, vehicle: str) -> None:
        said = self.said[vehicle]
        words, since = said.words, said.since
        errors: list[dict[str, object]] = [
            {**asdict(error), 'since': since.get(name_of(error))} for error in words.errors or ()
        ]
        self.news.reasons[vehicle] = words.reasons()
        told: ShownWords = {
            'mode': words.mode,
            'stop': words.stop,
            'field': words.field,
            'battery': words.battery,
            'charging': words.charging,
            'map': words.map,
            'connection': words.connection,
            'position': words.position,
            'errors': errors,
            'failed': [asdict(one) for one in words.failed or ()],
            'since': {name: since[name] for name in ('mode', 'stop', 'field') if name in since},
            'low': said.is_low,
            'at': said.at,
        }
        self.news.shown.put(WORDS, vehicle, told)


@dataclass(frozen=True)
class Change:
    """A change of a vehicle's words that matters: its name, how it was, how it is, and what else
    its entry says. `failed` is the action, where it is one that has failed."""

    what: str
    before: str | None = None
    after: str | None = None
    more: Mapping[str, object] = field(default_factory=dict)
    failed: FailedAction | None = None


def changes_of(before: Words, words: Words) -> Iterator[Change]:
    """Yields what has changed that matters."""
    for name in ('mode', 'stop', 'connection'):
        old, new = getattr(before, name), getattr(words, name)
        if old != new and (name != 'connection' or old is not None or new != 'ONLINE'):
            yield Change(name, old, new)
    if before.field != words.field:
        yield Change(f'field.{"on" if words.field else "off"}')
    old_errors = {name_of(error): error for error in before.errors or ()}
    new_errors = {name_of(error): error for error in words.errors or ()}
    for name, error in new_errors.items():
        if name not in old_errors:
            yield Change('error', None, error.words(), asdict(error))
    for name, error in old_errors.items():
        if name not in new_errors:
            yield Change('cleared', error.words(), None, asdict(error))
    known = {one.action for one in before.failed or ()}
    for one in words.failed or ():
        if one.action not in known:
            more = {'id': one.action, 'type': one.type, 'result': one.result}
            yield Change('action', more=more, failed=one)


def row_of(said: KnownWords) -> WordsColumns:
    """Returns the values of `vehicle_words`."""
    words = said.words
    x, y = words.position or (None, None)
    return {
        'mode': words.mode,
        'stop': words.stop,
        'field': None if words.field is None else int(words.field),
        'battery': words.battery,
        'charging': None if words.charging is None else int(words.charging),
        'map': words.map,
        'connection': words.connection,
        'x': x,
        'y': y,
        'errors': json.dumps([asdict(error) for error in words.errors or ()]),
        'failed': json.dumps([asdict(one) for one in words.failed or ()]),
        'since': json.dumps(said.since),
    }
