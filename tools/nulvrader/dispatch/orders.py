"""Gives orders for jobs that wait."""
from __future__ import annotations

from collections.abc import Mapping, Sequence

from ..common.names import natural
from ..desk.client import Refused
from .choose import Chooser, Proposal
from .job_book import Waiting
from .releases import Releases
from .routes import MOST_EDGES
from .shared import Shared, Turn
from .snapshot import Seen
from .traffic import Traffic

NONE_FREE = 'no vehicle is free'

SHOWN = 3
"""So many jobs are named that come before one."""


class Orders:
    """Gives orders by what a chooser proposes."""

    def __init__(self, shared: Shared, chooser: Chooser, releases: Releases) -> None:
        self.shared, self.chooser, self.releases = shared, chooser, releases

    def start(self, turn: Turn, idle: dict[str, Seen]) -> int:
        """Gives orders for jobs that wait to these vehicles, as long as there is one that may be
        started, and takes away those that have one then. How many it gives."""
        book = self.shared.book
        count = 0
        while idle and book.waiting:
            found = self.chooser.propose(
                list(idle.values()), list(book.waiting.values()), turn.traffic
            )
            if found is None:
                break
            vehicle = idle.pop(found.vehicle)
            edges = self.releases.with_order(turn, found.vehicle, found.way)
            if self._give(found, vehicle, edges):
                turn.start(found.vehicle, found.way, edges)
                count += 1
        standing = _standing(turn.traffic) if idle else {}
        for job, one in book.waiting.items():
            why = self._why_job_waits(one, standing, turn, idle) if idle else NONE_FREE
            turn.reasons['job ' + job] = behind_others(one) if one.behind else why
        return count

    def _give(self, found: Proposal, vehicle: Seen, edges: int) -> bool:
        shared, memory = self.shared, self.shared.memory[vehicle.name]
        order = memory.ask()
        try:
            shared.desk.start_order_of_stops(order, vehicle.row.key, stops=found.stops, edges=edges)
        except Refused as refusal:
            jobs = ', '.join(one.job for one in found.jobs)
            shared.tell_refusal(vehicle, f'no order for {jobs}', refusal)
            if refusal.name in ('JobState', 'NoJob'):
                for one in found.jobs:
                    shared.book.forget(one.job)
            return False
        shared.no_refusal(vehicle)
        told = ', '.join(
            f'{one.job} ({one.load} from {one.origin} to {one.target})' for one in found.jobs
        )
        count = len(found.way) - 1
        shared.say(
            f'{vehicle.name}: takes {told}, {count} edges from {vehicle.row.node}, by order {order}'
        )
        memory.begin(order, found.jobs, count - edges, found.way[-1])
        for one in found.jobs:
            shared.book.forget(one.job)
        return True

    def _why_job_waits(
        self,
        one: Waiting,
        standing: Mapping[str, Sequence[str]],
        turn: Turn,
        idle: Mapping[str, Seen],
    ) -> str:
        """Returns why no free vehicle takes a job, where these stand at nodes, and what ends
        that."""
        ends = [self.shared.ways.node_of(name) for name in (one.origin, one.target)]
        if why := self._why_no_way(ends, turn, idle):
            return why
        found = [
            f'{name} stands at {what}, at {node}'
            for node, what in dict(zip(ends, ('the pick', 'the drop'))).items()
            for name in standing.get(node, ())
        ]
        if found:
            end = 'it goes on' if len(found) == 1 else 'they go on'
            return f'{"; ".join(sorted(found, key=natural))}, until {end}'
        if self.chooser.is_put_off(one):
            return 'others are looked at first, until there are fewer, or it has waited longer'
        return (
            'no free vehicle gets there without blocking others, or being blocked, until others'
            ' have gone on'
        )

    def _why_no_way(self, ends: list[str], turn: Turn, idle: Mapping[str, Seen]) -> str | None:
        """Returns why no order may lead from a free vehicle over the pick to the drop, by the
        layout and by what is closed."""
        ways, closed = self.shared.ways, turn.closed
        if ways.way(ends) is None:
            why = f'its way has more than {MOST_EDGES} edges, which no order may have'
            return f'{why}, until it is stopped and its load carried by two jobs'
        if not closed.names:
            return None
        found = (ways.way((seen.row.node, *ends)) for seen in idle.values())
        over = [closed.first_on(way) for way in found if way is not None]
        if not over or not all(over):
            return None
        what = ', '.join(sorted({one for one in over if one is not None}, key=natural))
        return (
            f'the ways of the free vehicles lead over {what}, which is closed, until that is opened'
        )


def behind_others(one: Waiting) -> str:
    """Returns why a job waits that comes behind others of its truck."""
    names = sorted(one.behind, key=natural)
    more = f' and {len(names) - SHOWN} more' if len(names) > SHOWN else ''
    told = f'{", ".join(names[:SHOWN])}{more} of truck {one.truck}'
    return f'it comes behind {told}, until these are done or stopped'


def _standing(traffic: Traffic) -> dict[str, list[str]]:
    """Returns the vehicles that do not go on, by the nodes where they stand."""
    found: dict[str, list[str]] = {}
    for name, held in traffic.standing().items():
        for node in held:
            found.setdefault(node, []).append(name)
    return found
