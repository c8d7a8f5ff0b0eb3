"""Why jobs are stopped: which order had which jobs, and what was done to orders and jobs, or may
have been done."""
from __future__ import annotations

import contextlib
from collections import Counter
from collections.abc import Iterator, Mapping, Sequence

from nulvrader.desk.client import Answer, NoAnswer, Refused, Stop
from nulvrader.common.names import VehicleKey

from .desks import Wire, Wired
from .truth import Goods, Wrong

BY_DISPATCHER = 'the dispatcher cancelled its order'
BY_PERSON = 'a person cancelled its order'
PLACED = 'a person placed its vehicle'
TAKEN_BACK = 'a person has taken it back'
FAILED = 'an action of it failed'


class Reasons:
    """What explains that a job is stopped or done. Act n of the order O is `O.n`; it is of the job
    of the stop of this number."""

    def __init__(self) -> None:
        self.acts: dict[
            str, list[tuple[str, str]]
        ] = {}  # by job its acts in orders: `pick` or `drop`, and the act
        self.orders: dict[str, str] = {}  # by order why it has ended early
        self.jobs: dict[str, str] = {}  # by job why a person has stopped it
        self.failed: set[str] = set()  # the acts that have failed
        self.others: str | None = None  # the reason where there is none of these

    def give(self, order: str, stops: Sequence[Stop]) -> None:
        """Notes that an order with these stops is given, or may be."""
        for n, stop in enumerate(stops):
            self.acts.setdefault(stop.job, []).append((stop.action, f'{order}.{n}'))

    @contextlib.contextmanager
    def noted(self, kept: dict[str, str], name: str | None, why: str) -> Iterator[None]:
        """Keeps the reason of an order or a job before the call that is made within, and drops it
        where that was surely not carried out: a call whose answer is lost may have been."""
        if name is None:
            yield
            return
        before = kept.get(name)
        kept[name] = why
        try:
            yield
        except (Refused, NoAnswer, Killed) as fault:
            if isinstance(fault, Refused) or not fault.may_be_done:
                del kept[name]
                if before is not None:
                    kept[name] = before
            raise

    def why_stopped(self, job: str) -> str:
        """Returns why a job is stopped."""
        if job in self.jobs:
            return self.jobs[job]
        acts = [act for _, act in self.acts.get(job, ())]
        if not self.failed.isdisjoint(acts):
            return FAILED
        told = [
            self.orders[order]
            for order in (act.rpartition('.')[0] for act in acts)
            if order in self.orders
        ]
        if not told and self.others is None:
            raise Wrong(f'{job} is stopped, and nobody has a reason')
        return told[-1] if told else self.others or ''

    def check_done(self, job: str, load: str, target: str, goods: Goods) -> None:
        """Checks that a job that is done had its load put down at its target by its own drop."""
        drops = [act for kind, act in self.acts.get(job, ()) if kind == 'drop']
        if not any(goods.drops.get(act) == (load, target) for act in drops):
            raise Wrong(f'{job} is done, and no vehicle has put {load} down at {target} for it')

    def count(self) -> Counter[str]:
        return Counter(self.orders.values())

    def by_messages(
        self, drops: Mapping[str, tuple[str, str]], jobs: Mapping[str, tuple[str, str]]
    ) -> None:
        """Finds the acts of jobs by the load and the target of the drops that were sent, where the
        dispatcher is another process and people may be at the board. A pick that failed has a drop
        that fails."""
        self.others = 'somebody else stopped it'
        for job, wanted in jobs.items():
            self.acts.setdefault(job, []).extend(
                ('drop', act) for act, told in drops.items() if told == wanted
            )


class Killed(Exception):
    """The dispatcher was killed amid its turn. `may_be_done`: its last request was sent."""

    def __init__(self, may_be_done: bool) -> None:
        super().__init__()
        self.may_be_done = may_be_done


class Mortal(Wired):
    """The client of a dispatcher that may be killed: before a request is sent, or before its answer
    has come. What it does to orders is noted."""

    def __init__(self, wire: Wire, reasons: Reasons) -> None:
        super().__init__(wire)
        self.reasons = reasons
        self.left: int | None = None

    def ask(self, method: str, target: str, body: bytes | None = None) -> Answer:
        if self.left is not None:
            self.left -= 1
            if self.left < 0:
                raise Killed(False)
        told = super().ask(method, target, body)
        if self.left == 0:
            raise Killed(True)
        return told

    def start_order_of_stops(
        self, order: str, vehicle: VehicleKey, *, stops: Sequence[Stop], edges: int
    ) -> int:
        self.reasons.give(order, stops)
        return super().start_order_of_stops(order, vehicle, stops=stops, edges=edges)

    def cancel(self, vehicle: VehicleKey) -> str:
        order = Wired(self.wire).vehicle(vehicle).order
        with self.reasons.noted(self.reasons.orders, order, BY_DISPATCHER):
            return super().cancel(vehicle)
