"""What the dispatcher remembers of a vehicle from turn to turn, and from that how an order
ended."""
from __future__ import annotations

from collections.abc import Mapping
from dataclasses import dataclass, field

from ..common.names import new_reference
from .job_book import Waiting
from .snapshot import Seen


@dataclass
class Memory:
    """What is remembered of a vehicle: the number of its last state, since when that is, and
    whether it is new in this turn; since when the vehicle waits for its next edge; since when it is
    shut in, and why; and the order that the dispatcher has asked for last. And of its order, while
    it has one: the jobs, those of them that were seen to be done, how many edges are not released,
    the node of its end where that is known, and whether it is being cancelled."""

    header: int | None = None
    heard: float = 0.0
    is_heard: bool = True
    waits: float | None = None
    shut_in: float | None = None
    shut_by: str | None = None
    asked: str | None = None
    order: str | None = None
    jobs: tuple[Waiting, ...] = ()
    done: set[str] = field(default_factory=set)
    left: int = 0
    end: str | None = None
    cancelled: bool = False

    def hear(self, header: int | None, now: float) -> None:
        self.is_heard = self.header != header
        if self.is_heard:
            self.header, self.heard = header, now

    def ask(self) -> str:
        """Returns a new name for an order or a drive that is about to be asked for, and remembers
        it. So an order that the desk has started, though its answer was lost, is known as one that
        the dispatcher has asked for."""
        self.asked = new_reference()
        return self.asked

    def begin(
        self,
        order: str | None,
        jobs: tuple[Waiting, ...] = (),
        left: int = 0,
        end: str | None = None,
    ) -> None:
        """Begins an order of the vehicle, or with None the time without one."""
        self.order, self.jobs, self.left, self.end = order, jobs, left, end
        self.done, self.waits, self.shut_in, self.cancelled = set(), None, None, False

    def follow(self, seen: Seen, places: Mapping[str, str]) -> None:
        """Notes which jobs of the order are done, by what this turn shows."""
        assert seen.order is not None
        self.done |= {one.job for one in self.jobs if is_there(one, places)}
        self.left, self.end = seen.edges_left(), seen.order.nodes[-1].name
        self.cancelled = seen.row.pending == 'cancelOrder'

    def not_done(self, seen: Seen, places: Mapping[str, str]) -> list[str]:
        """Returns what is to be said of the jobs of an order that has ended, but those that are
        done."""
        return [
            self._told(one, seen, places.get(one.load))
            for one in self.jobs
            if one.job not in self.done and not is_there(one, places)
        ]

    def _told(self, one: Waiting, seen: Seen, place: str | None) -> str:
        where = 'has left' if place is None else f'is now at {place}'
        action = {'station ' + one.origin: 'pick', 'vehicle ' + seen.name: 'drop'}.get(place or '')
        if action is None:
            return f'{one.job} is done or stopped: its load {one.load} {where}'
        return f'{one.job} is stopped, since {self._why(seen, action)}: its load {one.load} {where}'

    def _why(self, seen: Seen, action: str) -> str:
        """Returns why a job was stopped whose next action was this one. Only a state or a person
        ends an order, and who places a vehicle changes nothing of its last state."""
        if self.cancelled:
            return 'its order was cancelled'
        if not self.is_heard:
            return 'the vehicle was placed'
        if self.left == 0 and seen.row.node == self.end and not seen.row.astray:
            return f'its {action} failed'
        return 'its order was cancelled, or the vehicle placed'


def is_there(one: Waiting, places: Mapping[str, str]) -> bool:
    """Whether the load of a job stands where that leads."""
    return places.get(one.load) == 'station ' + one.target
