"""What the dispatcher is compared with: releases without the look, and a dispatcher that is first
come, first served. That one gives the oldest job to the nearest vehicle that can be given the whole
way at once, and releases all of it with the order."""
from __future__ import annotations

import time
from collections.abc import Callable, Mapping, Sequence

from nulvrader.desk.client import Desk, NoAnswer, Refused, Stop
from nulvrader.dispatch.job_book import JobBook, Waiting
from nulvrader.dispatch.lanes import Way
from nulvrader.dispatch.plan import Plan
from nulvrader.dispatch.snapshot import Seen, take
from nulvrader.dispatch.judge import Judge
from nulvrader.dispatch.traffic import Traffic
from nulvrader.dispatch.routes import Ways
from nulvrader.common.layouts import Layout
from nulvrader.common.names import new_reference


class NoLook(Judge):
    """Makes no look, and keeps to all else: an order is given where nobody stands on its way and
    nobody else's ends where it does, and track is released as soon as it is free. So vehicles come
    to wait for each other, and nobody finds out.
    """

    def finish_now(self, traffic: Traffic) -> frozenset[str]:
        return frozenset(traffic.all_ways())

    def finish_later(self, traffic: Traffic) -> frozenset[str]:
        return frozenset(traffic.ways_later())

    def plans(self, traffic: Traffic) -> list[Plan]:
        return []

    def look_longer(self, traffic: Traffic, times: int) -> frozenset[str]:
        return self.finish_later(traffic)

    def may_release(self, traffic: Traffic, vehicle: str, nodes: int) -> bool:
        return True

    def plainly(self, traffic: Traffic, vehicle: str, way: Way) -> bool | None:
        return self.is_open(traffic, vehicle, way) and all(
            other[-1] != way[-1] for other in traffic.ways.values()
        )

    def may_start(self, traffic: Traffic, vehicle: str, way: Way) -> bool:
        return bool(self.plainly(traffic, vehicle, way))


class FirstCome:
    """A dispatcher over a desk and its layout, as `Dispatcher` is."""

    def __init__(
        self,
        desk: Desk,
        layout: Layout,
        *,
        say: Callable[[str], None] = print,
        clock: Callable[[], float] = time.monotonic,
    ) -> None:
        self.desk, self.say, self.clock = desk, say, clock
        self.ways = Ways(layout)
        self.book = JobBook()
        self._waits: dict[str, str] = {}

    def waits(self) -> Mapping[str, str]:
        """Returns why each job waits, as of the last turn, called `job J1`."""
        return self._waits

    def shut_in(self) -> Mapping[str, tuple[float, str]]:
        """Returns nobody: who has an order has all of its way."""
        return {}

    def plans(self) -> Sequence[Plan]:
        """Returns none: who has an order has all of its way."""
        return ()

    def turn(self) -> bool:
        """Looks at the desk once, and gives orders for the jobs that wait. Whether the desk
        answered."""
        try:
            with self.desk.kept():
                self._turn()
        except NoAnswer:
            return False
        return True

    def _turn(self) -> None:
        seen = take(self.desk)
        self.book.look(seen.jobs)
        self._waits = {}
        idle = {
            one.name: one
            for one in seen.vehicles.values()
            if one.order is None
            and one.row.ready
            and not one.row.astray
            and one.row.pending is None
            and one.free() > 0
        }
        held = {node: str(key) for node, key in seen.holds.nodes.items()}
        for job in list(self.book.waiting.values()):
            if idle:
                self._try(job, idle, held)

    def _try(self, job: Waiting, idle: dict[str, Seen], held: dict[str, str]) -> None:
        """Tries all vehicles without an order for a job, from the nearest on."""
        pick, drop = self.ways.node_of(job.origin), self.ways.node_of(job.target)
        for vehicle in sorted(
            idle.values(), key=lambda one: (self.ways.hops(one.row.node, pick) or 0, one.name)
        ):
            way = self.ways.way((vehicle.row.node, pick, drop))
            blocking = [node for node in way or () if held.get(node, vehicle.name) != vehicle.name]
            if way is None or blocking:
                self._waits['job ' + job.job] = '; '.join(
                    f'{held[node]} stands at {node}' for node in blocking
                )
                continue
            try:
                stops = (Stop('pick', job.job), Stop('drop', job.job))
                self.desk.start_order_of_stops(
                    new_reference(), vehicle.row.key, stops=stops, edges=len(way) - 1
                )
            except Refused as refusal:
                self._waits['job ' + job.job] = str(refusal)
                continue
            self.say(
                f'{vehicle.name}: takes {job.job}, {len(way) - 1} edges from {vehicle.row.node}'
            )
            held.update(dict.fromkeys(way, vehicle.name))
            del idle[vehicle.name]
            self.book.forget(job.job)
            self._waits.pop('job ' + job.job, None)
            return
