"""Tells why vehicles and jobs wait, each reason once it has lasted a while."""
from __future__ import annotations

from collections.abc import Callable, Mapping

from ..common.names import natural
from .orders import NONE_FREE
from .shared import Shared, Turn
from .snapshot import Seen


class Waits:
    """What waits, as of the last turn. `out_of_use` says why a vehicle without an order gets none.
    `all` has that too, of each such vehicle, and of each job what ends its wait."""

    def __init__(self, shared: Shared, out_of_use: Callable[[Seen, float], str | None]) -> None:
        self.shared, self.out_of_use = shared, out_of_use
        self.reasons: Mapping[str, str] = {}
        self.all: Mapping[str, str] = {}
        self._late: frozenset[str] = frozenset()

    def tell(self, turn: Turn, idle: Mapping[str, Seen]) -> None:
        """Says each reason of this turn for which a vehicle or a job has waited for a while, once;
        which jobs are late; and why no vehicle is free."""
        lines = self.shared.lines
        for name in self.reasons.keys() - turn.reasons.keys():
            lines.lasts(name, None, turn.now)
        self.reasons = turn.reasons
        for name, why in turn.reasons.items():
            if lines.lasts(name, why, turn.now) and why != NONE_FREE:
                waits = 'waits: ' if name.startswith('job ') else ''
                self.shared.say(f'{name} {waits}{why}')
        self._tell_late(turn)
        self._tell_none_free(turn, idle)
        self.all = self._all(turn)

    def _all(self, turn: Turn) -> dict[str, str]:
        """Returns why each vehicle and job waits, and what ends that."""
        found = {
            name: self.out_of_use(one, turn.now)
            for name, one in turn.seen.vehicles.items()
            if one.order is None
        }
        is_any = len(found) < len(turn.seen.vehicles)
        end = 'until one has ended its order' if is_any else 'until one may take a job again'
        said = {name: why for name, why in found.items() if why is not None} | turn.reasons
        free = f'{NONE_FREE}, {end}'
        return {name: free if why == NONE_FREE else why for name, why in said.items()}

    def _tell_late(self, turn: Turn) -> None:
        """Says of each job once that it is late and still waits."""
        jobs = self.shared.book.waiting.values()
        late = frozenset(one.job for one in jobs if one.due is not None and one.due < turn.now)
        for job in sorted(late - self._late, key=natural):
            self.shared.say(f'job {job} is late, and waits: {turn.reasons.get("job " + job, "")}')
        self._late = late

    def _tell_none_free(self, turn: Turn, idle: Mapping[str, Seen]) -> None:
        """Says that jobs wait and no vehicle is free, and why not, once it has been so for a while:
        again where that changes, or where no job has waited in between."""
        count, lines = len(self.shared.book.waiting), self.shared.lines
        why = self._why_none_free(turn) if count and not idle else None
        if lines.lasts(NONE_FREE, why, turn.now):
            jobs = '1 job waits' if count == 1 else f'{count} jobs wait'
            lines.once(NONE_FREE, why, f'{jobs}, {NONE_FREE}: {why}')
        elif count == 0:
            lines.once(NONE_FREE, None)

    def _why_none_free(self, turn: Turn) -> str:
        """Returns why each vehicle without an order is of no use."""
        memory = self.shared.memory
        vehicles = sorted(turn.seen.vehicles.values(), key=lambda one: natural(one.name))
        without = [one for one in vehicles if one.order is None and memory[one.name].order is None]
        found = [
            f'{one.name} {self.out_of_use(one, turn.now) or "was refused its order"}'
            for one in without
        ]
        return '; '.join(found) or 'each has an order'
