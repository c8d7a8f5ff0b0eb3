"""What must hold of a plant while it runs and at its end."""
from __future__ import annotations

import sqlite3
from collections import Counter
from collections.abc import Mapping, Sequence

from nulvrader.desk.client import NoAnswer
from nulvrader.desk.exports import read_loads
from nulvrader.desk.questions import who_waits
from nulvrader.desk.reports import Stock, read_holds, read_stock
from nulvrader.dispatch.plan import Plan as Standing
from nulvrader.dispatch.shut_in import BEFORE

from .reasons import BY_DISPATCHER
from .truth import Wrong
from .grounds import Grounds


class Checked(Grounds):
    """Compares what the desk and the dispatcher have with the truth; raises `Wrong` where they
    differ."""

    def check_plans(self, plans: Sequence[Standing]) -> None:
        """Checks that the dispatcher has a plan that can be carried out, and that something moves
        while something can by the plan."""
        faults = [fault for fault in (plan.fault() for plan in plans) if fault is not None]
        if faults:
            raise Wrong(f'the plan of the dispatcher can not be carried out: {faults[0]}')
        last = max((vehicle.last_moved for vehicle in self.vehicles.values()), default=0.0)
        self.can_move = self.clock.now if not plans or not plans[0].can_move() else self.can_move
        if self.clock.now - max(last, self.can_move) > self.plan.follows:
            raise Wrong(
                f'nothing has moved for {self.clock.now - last:.0f} s, though the dispatcher has a'
                ' plan by which something can'
            )

    def note_shut_in(self, told: Mapping[str, tuple[float, str]]) -> None:
        """Notes for how long each vehicle has been shut in, and why. Where the dispatcher was
        started anew meanwhile, what the one before said counts."""
        self.shut_by = {
            name: self.shut_by.get(name, why) if why == BEFORE else why
            for name, (_, why) in told.items()
        }
        for name, (since, _) in told.items():
            self.day.shut[name, since] = self.clock.now - since, self.shut_by[name]

    def audit(self) -> None:
        """Checks that each vehicle is on what the desk holds for it, and each load in one place,
        where the desk has it, and in one order."""
        self.look_for_shared_loads()
        try:
            holds = read_holds(self.desk.hold_report())
            self.compare_places(read_stock(self.desk.stock_report()))
        except NoAnswer:
            return
        for name, node in self.track.at.items():
            if str(holds.nodes.get(node)) != name:
                raise Wrong(
                    f'{name} is on the node {node}, which the desk holds for'
                    f' {holds.nodes.get(node)}'
                )
        for name, edge in self.track.on.items():
            ahead = self.layout.edges[edge].finish
            if str(holds.edges.get(edge)) != name or str(holds.nodes.get(ahead)) != name:
                raise Wrong(
                    f'{name} drives along {edge}, and the desk does not hold it and {ahead} for it'
                )
        self.day.counts['audits'] += 1

    def look_for_shared_loads(self) -> None:
        """Checks that no two vehicles are to pick or put down one load."""
        found: dict[str, str] = {}
        for name, vehicle in self.vehicles.items():
            for load in vehicle.open_loads() if not vehicle.by_hand else ():
                if load in found:
                    raise Wrong(f'{load} is in an order of {found[load]} and in one of {name}')
                found[load] = name

    def compare_places(self, stock: Stock) -> None:
        """Checks that the desk has each load once, and where it is, but for those whose last move
        it has not been told."""
        told, true, count = stock.places(), self.goods.places(), Counter(stock.loads())
        twice = sorted(load for load, times in count.items() if times > 1)
        if twice:
            raise Wrong(f'the desk has {", ".join(twice)} in more than one place')
        strange = sorted(told.keys() - true.keys())
        if strange and self.goods.alone:
            raise Wrong(f'the desk has {", ".join(strange)}, which is nowhere')
        for load, place in true.items():
            is_told = (
                self.goods.alone
                and load not in self.people.carried
                and all(vehicle.has_told(load) for vehicle in self.vehicles.values())
            )
            if is_told and told.get(load) != place:
                raise Wrong(f'{load} is at {place}, and the desk has it at {told.get(load)}')

    def look_for_circles(self) -> None:
        """Checks that no vehicles wait for each other for long. One that is paused, not ready or
        silent goes on for no other."""
        excused = {
            name
            for name, one in self.vehicles.items()
            if not one.goes_on() or not self.gateways[name].up
        }
        try:
            waits = who_waits(self.desk)
        except NoAnswer:
            return
        self.circles.look(waits, excused, self.clock.now)

    def settle(self) -> None:
        """Checks that the desk has each load and vehicle where it is, once nothing moves any more
        and all states have come."""
        for gateway in self.gateways.values():
            gateway.up = True
            assert gateway.vehicle is not None
            if self.desk.vehicle(gateway.vehicle.key).order is None and not gateway.vehicle.by_hand:
                gateway.post(gateway.vehicle.state(), gateway.vehicle.life)
        told = {
            load: place
            for load, place in read_loads(self.desk.loads_export()).items()
            if place != 'left'
        }
        true = self.goods.places()
        if told != true:
            differ = sorted(
                load for load in told.keys() | true.keys() if told.get(load) != true.get(load)
            )
            raise Wrong(
                '; '.join(
                    f'{load} is at {true.get(load)}, and the desk has it at {told.get(load)}'
                    for load in differ[:5]
                )
            )
        self.compare_places(read_stock(self.desk.stock_report()))
        for name, vehicle in self.vehicles.items():
            if name in self.track.at and self.desk.vehicle(vehicle.key).node != vehicle.node:
                raise Wrong(
                    f'{name} is at {vehicle.node}, and the desk has it at'
                    f' {self.desk.vehicle(vehicle.key).node}'
                )

    def close(self) -> None:
        """Checks that the file is lawful, and that each job of it was added, and is done or was
        stopped for a reason."""
        self.served.report('stock')
        base = sqlite3.connect(self.served.db)
        jobs = {
            name: (load, target, phase)
            for name, load, target, phase in base.execute('SELECT id, load, target, phase FROM job')
        }
        base.close()
        if set(self.people.added) - set(jobs):
            raise Wrong(f'jobs are lost: {sorted(set(self.people.added) - set(jobs))}')
        self.day.done = sum(1 for _, _, phase in jobs.values() if phase == 'done')
        if self.make is None:
            self.reasons.by_messages(
                self.given.drops, {job: (load, target) for job, (load, target, _) in jobs.items()}
            )
        for job, (load, target, phase) in jobs.items():
            if phase == 'stopped':
                self.day.stopped[job] = self.reasons.why_stopped(job)
            elif phase == 'done':
                self.reasons.check_done(job, load, target, self.goods)
            elif self.day.stands is None:
                raise Wrong(f'all jobs had ended, and {job} is {phase}')
        self.day.circle = self.circles.longest
        self.day.counts.update(self.people.counts)
        self.day.counts['starts of the desk'] = self.served.starts
        self.day.counts['states posted'] = sum(gateway.posted for gateway in self.gateways.values())
        self.day.counts['metres driven'] = int(
            sum(vehicle.driven for vehicle in self.vehicles.values())
        )
        self.day.counts['actions failed'] = len(self.reasons.failed)
        self.day.counts['empty batteries'] = sum(
            vehicle.services for vehicle in self.vehicles.values()
        )
        self.day.counts['orders cancelled by the dispatcher'] = self.reasons.count()[BY_DISPATCHER]
