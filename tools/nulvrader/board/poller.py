"""Asks the desk in turn, in a thread of its own: the export of vehicles and the hold report each
half a second, the export of jobs and the stock report nearly as often, and the message of each
order that is new. The layout is asked for once. A desk that has not answered is asked first whether
it is still the same."""
from __future__ import annotations

import functools
import sqlite3
import threading
import time
from collections.abc import Callable, Sequence
from dataclasses import dataclass
from typing import Protocol, TypeVar

from ..desk.client import Desk, NoAnswer, NotADesk, Refused
from ..common.names import VehicleKey
from ..desk.exports import read_loads
from ..desk.reports import Holds, Stock, read_holds, read_stock
from ..common.text import shown as printable
from .alarms import Alarms
from .desk_faults import fault_of
from .events import BOARD
from .fleet import Fleet
from .shown_layout import ShownLayout
from .journal import log
from .messages import Line, told
from .news import News
from .same_desk import OtherDesk, SameDesk
from .shown_rows import DESK, FAULT, ShownDesk, ShownFault
from .stock import Stores
from .uses import Uses
from .progress import way_of
from .words_keeper import Keeper
from .words_socket import Heard

SLOT = 0.05  # seconds from one request to the next, at least: at most 20 a second
OFTEN, SOMETIMES, RARELY = 0.5, 0.7, 10.0  # seconds from one question of a kind to the next
SHARE = 10  # times as long as the desk took for an answer, the board waits until it asks again
OWN = 2  # the same of how long the board itself took for the answer
ORDERS = 4  # messages of orders at once, where a question is always due by its turn
AGAIN = 1.0  # seconds from a question that was not answered to the next
WRITE_AGAIN = 2.0  # seconds from one attempt to write to the record to the next
OLD_EVERY, OLD_ON = 60.0, 1.0  # seconds until old rows are removed again, and while there are more
DAY = 86_400_000
MOST = 300  # characters of what is wrong with an answer
ASIDE = (
    'Nothing is recorded. If this is right, stop the board, move board.db away, and start it again.'
)

Question = Callable[[], None]
T = TypeVar('T')


def now() -> int:
    """Returns the moment, in milliseconds since 1970."""
    return time.time_ns() // 1_000_000


@dataclass
class TimedQuestion:
    """A question that is asked in turn: at most every so many seconds, and less often where the
    answer takes long. `waited` returns how many seconds the desk was waited for so far; `due` is of
    `time.monotonic`."""

    question: Question
    every: float
    waited: Callable[[], float]
    due: float = 0.0

    def ask(self) -> None:
        """Asks it, and notes how long that took the desk and the board."""
        begun, before = time.monotonic(), self.waited()
        self.question()
        ended, waited = time.monotonic(), self.waited() - before
        rest = max(SHARE * waited, OWN * (ended - begun - waited))
        self.due = max(begun + self.every, ended + rest)


class ShownFile(Protocol):
    """A file that is shown."""

    def turn(self) -> None:
        """Looks at it, where that is due."""


@dataclass
class Followers:
    """Those that take the answers, and what tells whether these are of the same desk; `keeper`
    takes what vehicles say, where that is heard, `alarms` looks for what needs a person, and
    `uses` keeps what vehicles do. `files` are those of the dispatcher."""

    stores: Stores
    fleet: Fleet
    same: SameDesk
    keeper: Keeper | None = None
    alarms: Alarms | None = None
    uses: Uses | None = None
    files: Sequence[ShownFile] = ()


class Ended(Exception):
    """The board is stopped: an answer that comes now is not taken."""


class Asker(threading.Thread):
    """The one that asks, whatever the number of pages. `follow` makes the followers by the record,
    and `days` is how long the record keeps changes."""

    def __init__(
        self,
        desk: Desk,
        news: News,
        drawn: ShownLayout,
        follow: Callable[[], Followers],
        days: int,
        heard: Heard | None = None,
    ):
        super().__init__(name='asker', daemon=True)
        self.desk, self.news, self.drawn, self.follow, self.days = desk, news, drawn, follow, days
        self.heard = heard
        self._take_up()
        # Jobs come before the stock report, by which it is known how one has ended.
        self.turns = (
            self._timed(self.ask_vehicles, OFTEN),
            self._timed(self.ask_holds, OFTEN),
            self._timed(self.ask_jobs, SOMETIMES),
            self._timed(self.ask_stock, SOMETIMES),
        )
        self.layout = self._timed(self.ask_layout, RARELY)
        self.export = self._timed(self.ask_export, RARELY)
        self.waited = 0.0  # how many seconds the desk has taken for its answers
        self.asking: int | None = None  # since when the desk is asked what it has not yet answered
        self.asked = 0  # how many requests the last turn took
        self.up: bool | None = None
        self.other = False  # whether it is known that another desk answers
        self.since = 0  # since when it is so
        self.failed: Question | None = None  # what was not answered last, and is asked again first
        self.old_due = 0.0
        self.in_turn = 0  # questions in a row that have turns
        self.over = threading.Event()
        self._woken = threading.Event()

    def _timed(self, question: Question, every: float) -> TimedQuestion:
        return TimedQuestion(question, every, lambda: self.waited)

    def _take_up(self) -> None:
        self.drawn.show()
        followers = self.follow()
        self.stores, self.fleet, self.same = followers.stores, followers.fleet, followers.same
        self.keeper, self.alarms = followers.keeper, followers.alarms
        self.uses = followers.uses
        self.files = followers.files

    def hurry(self) -> None:
        """Has all asked for at once that a command may have changed."""
        self._woken.set()

    def stop(self, patience: float) -> None:
        """Ends the thread. An answer for which it still waits after so many seconds is not taken
        any more."""
        self.over.set()
        self._woken.set()
        self.join(patience)

    def run(self) -> None:
        while not self.over.is_set():
            try:
                self._ask_on()
            except Ended:
                return
            except sqlite3.Error as fault:
                self._wait_for_the_record(str(fault))

    def _ask_on(self) -> None:
        while not self.over.is_set():
            self.hear()
            for file in self.files:
                file.turn()
            if self.alarms is not None:
                self.look_for_alarms(self.alarms)
            begun = time.monotonic()
            rest = self.turn(begun)
            if self._woken.wait(max(0.0, begun + rest - time.monotonic())):
                self._woken.clear()
                self._all_are_due()
                self.over.wait(SLOT)
        self.news.commit()

    def hear(self) -> None:
        """Takes what was heard of vehicles, also while no desk answers; not while another one
        does."""
        if self.heard is None or self.keeper is None:
            return
        heard = self.heard.take()
        known = tuple(self.fleet.seen) or tuple(self.keeper.said)
        self.heard.known = frozenset(known) if known else None
        if heard and not self.other:
            self.keeper.take(heard, known, now())
            self.news.commit()

    def look_for_alarms(self, alarms: Alarms) -> None:
        """Looks for what needs a person and at what vehicles do, where that is due."""
        if alarms.turn(self.stores, self.fleet, self.keeper, self.drawn.layout):
            if self.uses is not None:
                self.uses.turn(now())
            self.news.commit()

    def _wait_for_the_record(self, fault: str) -> None:
        """Tells pages that the record can't be written, and waits until it can."""
        line = Line('record.unwritten', {'fault': fault})
        log(line.words())
        while True:
            self.news.roll_back()
            self.news.shown.put(FAULT, 'record', ShownFault(words=line.words(), says=[line.told()]))
            if self.over.wait(WRITE_AGAIN):
                return
            try:
                self.news.record.check_writing()
                self._begin_anew()
            except sqlite3.Error:
                continue
            log('board.db can be written again')
            self.up = None
            return

    def _begin_anew(self) -> None:
        """Follows the desk by what the record has, as after a start."""
        self.news.roll_back()
        self.news.shown.clear()
        self._take_up()
        self._all_are_due()
        self.export.due = 0.0

    def _all_are_due(self) -> None:
        for turn in self.turns:
            turn.due = 0.0

    def turn(self, begun: float) -> float:
        """Asks one question, and takes its answer. Returns how many seconds after its beginning the
        next one may be asked."""
        question = self.next_question(begun)
        if question is None:
            return SLOT
        self.asking, self.asked = now(), 0
        try:
            question()
            self.news.commit()
            return SLOT * self.asked
        except (NoAnswer, Refused, OtherDesk) as fault:
            self.news.roll_back()
            self._is_unanswered(question, fault)
        except (Ended, sqlite3.Error):
            raise
        except Exception as fault:  # an answer that no follower could take: nothing of it is kept
            self._begin_anew()
            self._is_unanswered(question, NotADesk(repr(fault)))
        finally:
            self.asking = None
        return AGAIN

    def _is_unanswered(self, question: Question, fault: Exception) -> None:
        if question != self.ask_first:
            self.failed = question
        self._fails(fault)
        self.news.commit()

    def next_question(self, at: float) -> Question | None:
        """Returns what to ask next, or None where nothing is due. Removes old rows of the record at
        times."""
        if at >= self.old_due:
            is_more = self.news.record.remove_old(now() - self.days * DAY)
            self.old_due = at + (OLD_ON if is_more else OLD_EVERY)
        if self.up is not True:
            return self.ask_first
        due = min(self.turns, key=lambda turn: turn.due)  # the one that waits longest
        if at >= due.due and self.in_turn < len(self.turns):
            self.in_turn += 1
            return due.ask
        if not self.drawn.layout.nodes and at >= self.layout.due:
            return self.layout.ask
        if self.stores.needs_export and at >= self.export.due:
            return self.export.ask
        count = 1 if self.in_turn < len(self.turns) else ORDERS
        self.in_turn = 0
        if self.fleet.next_order() is not None:
            return functools.partial(self.ask_orders, count)
        return due.ask if at >= due.due else None

    def _told(self, question: Callable[[], T]) -> T:
        """Returns what the desk answers. From now on the news are of this moment."""
        self.asked += 1
        begun = time.monotonic()
        answer = question()
        self.waited += time.monotonic() - begun
        if self.over.is_set():
            raise Ended
        self.news.at = now()
        return answer

    def _stock(self) -> Stock:
        """Asks for the stock report. Raises `OtherDesk` where it is not of the desk of the
        record."""
        stock = read_stock(self._told(self.desk.stock_report))
        self.same.check(stock, self.stores.places)
        return stock

    def _holds(self) -> Holds:
        """Asks for the hold report. Raises `OtherDesk` where it is not of the desk of the
        record."""
        holds = read_holds(self._told(self.desk.hold_report))
        self.same.check_holds(holds)
        return holds

    def _fails(self, fault: Exception) -> None:
        """Shows that the desk does not answer, or that another one does. Where that is new, it is
        an entry of the record too, and a line of the log where the answers are to blame."""
        words, other = printable(str(fault), MOST), isinstance(fault, OtherDesk)
        says = told([fault_of(fault)])
        more = {'fault': words, 'says': says}
        if self.up is not False or self.other != other:
            self.news.at = self.since = now()
            self.news.event(f'desk.{"other" if other else "down"}', BOARD, {}, more=more)
            self.news.record.desk(self.since, words)
            if other or isinstance(fault, NotADesk):
                log(f'Another desk answers: {words} {ASIDE}' if other else words)
        self._show_desk(ShownDesk(up=False, since=self.since, fault=words, other=other, says=says))

    def _show_desk(self, row: ShownDesk) -> None:
        """Shows whether the desk answers, and why it does not."""
        self.up, self.other = row['up'], row['other']
        self.news.shown.put(DESK, '', row)

    def ask_first(self) -> None:
        """Asks a desk that has not answered whether it is the one of the record, and then what it
        did not answer."""
        self._stock()
        self._holds()
        self.ask_layout()
        self.news.commit()
        if self.failed is not None:
            self.failed()
            self.failed = None
        if self.up is False:
            self.news.event('desk.up', BOARD, {})
        self.since = self.news.at
        self.news.record.desk(self.since, None)
        self._show_desk(ShownDesk(up=True, since=self.since, fault=None, other=False))
        self.stores.needs_export = True
        self.fleet.again()

    def ask_layout(self) -> None:
        layout = self._told(self.desk.layout)
        self.same.check_layout(layout)
        self.drawn.take(layout)

    def ask_vehicles(self) -> None:
        rows = self._told(self.desk.vehicles)
        self.same.check_vehicles(rows)
        self.fleet.take_vehicles(rows)

    def ask_holds(self) -> None:
        self.fleet.take_holds(self._holds())

    def ask_jobs(self) -> None:
        self.stores.take_jobs(self._told(self.desk.jobs))

    def ask_stock(self) -> None:
        report = self._stock()
        self.stores.take_stock(report)
        self.fleet.take_stock(report)

    def ask_export(self) -> None:
        """Asks for the export of all loads, which the stock report needs to know those that have
        left."""
        loads = read_loads(self._told(self.desk.loads_export))
        self.same.check_export(loads)
        self.stores.take_export(loads)

    def ask_orders(self, count: int) -> None:
        """Asks for the messages of so many orders that are new."""
        for _ in range(count):
            vehicle = self.fleet.next_order()
            if vehicle is not None:
                self.ask_order(vehicle)

    def ask_order(self, vehicle: VehicleKey) -> None:
        message = self._told(lambda: self.desk.order_message(vehicle))
        self.fleet.take_order(vehicle, None if message is None else way_of(message))
