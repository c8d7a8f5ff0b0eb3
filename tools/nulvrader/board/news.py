"""Where the followers write: to the page and to the record, at the moment of the answer that they
take."""
from __future__ import annotations

from collections import OrderedDict
from collections.abc import Mapping
from dataclasses import dataclass

from .causes import Matches, SentCommands
from .events import Cause, Event, ToldEvent, told
from .messages import Line
from .page_state import EVENTS, Shown
from .record import Record

GAP = 60_000  # milliseconds between two looks, beyond which it isn't known how things have changed
ENDS = 2_000  # ends of orders that are kept


@dataclass(frozen=True)
class OrderEnd:
    """How an order has ended: `ended`, `cancelled`, `placed`, `broken` (one of the last two) or
    `unseen`, and by whom. `acts` are the number, the kind and the load of each of its acts, where
    they are known."""

    how: str
    cause: Cause
    acts: tuple[tuple[int, str, str], ...] = ()


class News:
    """The page's values and the record. `at` is the moment of the last answer of the desk, in
    milliseconds since 1970. `sent_commands` are those of this board, and `ends` the orders that
    have ended, by their names. Pages are told of an entry once it is committed."""

    def __init__(self, shown: Shown, record: Record):
        self.shown, self.record = shown, record
        self.at = 0
        self.sent_commands = SentCommands()
        self.ends: OrderedDict[str, OrderEnd] = OrderedDict()
        # by vehicle and failed action what is said of it
        self.failures: OrderedDict[tuple[str, str], str] = OrderedDict()
        self.cancelling: set[str] = set()  # the open orders that are being cancelled
        self.reasons: dict[str, list[Line]] = {}  # by vehicle why it is not ready, in its words
        self._looked: dict[str, int] = {}
        self._waiting: list[ToldEvent] = []
        for event in record.last_events(EVENTS):
            shown.event(event)

    def event(
        self,
        what: str,
        cause: Cause,
        about: Mapping[str, str | None],
        *,
        before: str | None = None,
        after: str | None = None,
        more: Mapping[str, object] | None = None,
    ) -> None:
        """Notes what happened: `what`, as `load.picked`, whose first part is its family; `about`
        names the things."""
        event = Event(what.partition('.')[0], what, cause, about, before, after, more or {})
        self._waiting.append(told(self.record.event(self.at, event), self.at, event))

    def commit(self) -> None:
        """Writes to the file what was put so far, and tells pages of it."""
        self.record.commit()
        waiting, self._waiting = self._waiting, []
        for event in waiting:
            self.shown.event(event)

    def roll_back(self) -> None:
        """Drops what was put since the last `commit`."""
        self._waiting.clear()
        self.record.roll_back()

    def cause(self, *names: str, of: Matches) -> Cause:
        """Returns by which of these calls it came to be as it is seen now."""
        return self.sent_commands.cause(names, of, self.at)

    def look(self, kind: str) -> bool:
        """Notes a look at a kind of things. Whether none was for long before, so that it isn't
        known how they have changed."""
        before, self._looked[kind] = self._looked.get(kind), self.at
        return before is None or self.at - before > GAP

    def looked(self, kind: str) -> int:
        """Returns the moment of the last look at a kind of things, 0 where there was none."""
        return self._looked.get(kind, 0)

    def ends_order(self, order: str, end: OrderEnd) -> None:
        """Notes how an order has ended."""
        self.ends[order] = end
        while len(self.ends) > ENDS:
            self.ends.popitem(last=False)

    def fails_action(self, vehicle: str, action: str, result: str) -> None:
        """Notes that an action of a vehicle has failed, by its id, and what it says of it."""
        self.failures[vehicle, action] = result
        while len(self.failures) > ENDS:
            self.failures.popitem(last=False)
