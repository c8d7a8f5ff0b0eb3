"""The people of a simulated plant. They add jobs, and now and then cancel an order, take a job
back, count, and move a load by hand. They also put right what needs hands: a vehicle that left its
order, a load on a vehicle without an order, a vehicle in the way. They drive a vehicle to where no
order leads, as people look first."""
from __future__ import annotations

import functools
import random
import re
from collections import Counter
from collections.abc import Callable, Mapping

from nulvrader.desk.client import Desk, NoAnswer, Refused
from nulvrader.common.layouts import Layout
from nulvrader.desk.reports import read_holds, read_stock

from .clock import Clock
from .plan import Habits
from .reasons import BY_PERSON, PLACED, TAKEN_BACK, Reasons
from .truth import Goods, Track
from .vehicles import Vehicle


class People:
    """All people together. `reasons` gets why jobs and orders end by them, and `say` what they
    do."""

    def __init__(
        self,
        desk: Desk,
        clock: Clock,
        layout: Layout,
        goods: Goods,
        track: Track,
        vehicles: Mapping[str, Vehicle],
        chance: random.Random,
        habits: Habits,
        jobs: int,
        waits: Callable[[], Mapping[str, str] | None],
        reasons: Reasons,
        say: Callable[[str], None],
    ) -> None:
        self.desk, self.clock, self.layout, self.goods, self.track, self.vehicles = (
            desk,
            clock,
            layout,
            goods,
            track,
            vehicles,
        )
        self.chance, self.habits, self.wanted, self.waits, self.reasons, self.say = (
            chance,
            habits,
            jobs,
            waits,
            reasons,
            say,
        )
        self.added: dict[str, tuple[str, str]] = {}  # by job its load and target
        self.trying: tuple[
            str, str, str
        ] | None = None  # the job that is being added: where no answer came it is asked again
        self.counts: Counter[str] = Counter()
        self.carried: set[
            str
        ] = (
            set()
        )  # the loads whose correction may have been made, and which are still where they were
        self.number = self.jobs_named = 0
        self.blocked: dict[str, float] = {}  # since when a vehicle stands in the way

    def begin(self, chance_acts: bool) -> None:
        add = self.add_wave if self.habits.wave else self.add_jobs
        self.clock.every(self.habits.jobs, add, 12.0)
        self.clock.every(self.habits.looks, self.put_right, self.habits.looks)
        if chance_acts:
            self.clock.every(self.habits.chance, self.act_by_chance, self.habits.chance)

    def reference(self) -> str:
        self.number += 1
        return f'person-{self.number}'

    # Jobs.

    def add_jobs(self) -> None:
        """Adds a job where not enough of them wait."""
        try:
            stock = read_stock(self.desk.stock_report())
            busy = sum(1 for one in self.vehicles.values() if one.order and not one.is_done())
            if self.trying is None and stock.live_jobs() < self.habits.backlog + busy:
                self.trying = self.new_job()
            if self.trying is not None:
                self.add_job(*self.trying)
                self.trying = None
        except NoAnswer:
            pass

    def add_wave(self) -> None:
        """Adds many jobs at once. One for a load that has a job is refused, and is none."""
        try:
            for _ in range(self.habits.wave):
                self.trying = self.trying or self.new_job()
                if self.trying is not None:
                    self.add_job(*self.trying)
                    self.trying = None
        except NoAnswer:
            pass

    def add_job(self, job: str, load: str, to: str) -> None:
        try:
            self.desk.add_job(job, load, to)
        except Refused as refusal:
            if refusal.name != 'Exists':  # else it was added, and the answer was lost
                self.counts['jobs refused: ' + refusal.name] += 1
                return
        self.added[job] = load, to

    def new_job(self) -> tuple[str, str, str] | None:
        if len(self.added) >= self.wanted:
            return None
        places = {
            load: place
            for load, place in self.goods.places().items()
            if place.startswith('station ')
        }
        load = self.chance.choice(sorted(places))
        others = [name for name in self.layout.stations if 'station ' + name != places[load]]
        near = [name for name in others if name[0] == places[load].removeprefix('station ')[0]]
        to = self.chance.choice(
            near if near and self.chance.random() < self.habits.near else others
        )
        self.jobs_named += 1
        return f'job-{self.jobs_named}', load, to

    # What they do by chance.

    def act_by_chance(self) -> None:
        act = self.chance.choice(
            (
                self.cancel,
                self.cancel,
                self.take_back,
                self.count,
                self.count,
                self.carry,
                self.drive_by_hand,
                self.pause,
            )
        )
        try:
            act()
        except NoAnswer:
            self.counts['no answer'] += 1
        except Refused as refusal:
            self.counts['refused: ' + refusal.name] += 1

    def some_vehicle(self, with_order: bool) -> Vehicle | None:
        there = [one for one in self.vehicles.values() if not one.by_hand and one.restarted is None]
        found = [one for one in there if (bool(one.order) and not one.is_done()) == with_order]
        return self.chance.choice(found) if found else None

    def cancel(self) -> None:
        vehicle = self.some_vehicle(True)
        if vehicle is not None:
            order = self.desk.vehicle(vehicle.key).order
            with self.reasons.noted(self.reasons.orders, order, BY_PERSON):
                self.desk.cancel(vehicle.key)
            self.counts['orders cancelled'] += 1
            self.say(f'a person cancels order {order} of {vehicle.name}')

    def pause(self) -> None:
        vehicle = self.some_vehicle(True)
        if vehicle is not None:
            # (the desk may have told it so though no answer comes)
            self.clock.after(self.chance.uniform(20, 90), functools.partial(self.resume, vehicle))
            self.desk.pause(vehicle.key)
            self.counts['pauses'] += 1

    def resume(self, vehicle: Vehicle) -> None:
        """Resumes it, until it goes on and no pause is still to reach it, as where its gateway is
        away."""
        try:
            if vehicle.paused:
                self.desk.resume(vehicle.key)
            elif self.desk.vehicle(vehicle.key).pending != 'startPause':
                return
        except (NoAnswer, Refused):
            pass
        self.clock.after(10, functools.partial(self.resume, vehicle))

    def take_back(self) -> None:
        live = [load for load, place in self.goods.places().items() if place.startswith('station ')]
        for load in self.chance.sample(sorted(live), min(20, len(live))):
            job = self.desk.load(load).job
            if job is not None:
                with self.reasons.noted(self.reasons.jobs, job, TAKEN_BACK):
                    self.desk.stop_job(job)
                self.counts['jobs taken back'] += 1
                self.say(f'a person takes {job} back')
                return

    def count(self) -> None:
        """Counts some stations, as they truly are."""
        rows = ['station,load']
        for station in self.chance.sample(sorted(self.layout.stations), 3):
            rows += [f'{station},{load}' for load in self.goods.at('station ' + station)] or [
                f'{station},'
            ]
        self.desk.stocktake(self.reference(), ''.join(row + '\n' for row in rows).encode())
        self.counts['stocktakes'] += 1

    def carry(self) -> None:
        """Carries a load without a job by hand to another station, and says so: the desk first,
        since it may refuse."""
        loads = [
            load
            for load, place in self.goods.places().items()
            if place.startswith(('station ', 'checking'))
        ]
        load = self.chance.choice(sorted(loads))
        self.put_at(load, self.goods.places()[load])

    def put_at(self, load: str, place: str) -> None:
        stock = read_stock(self.desk.stock_report())
        room = [
            one.name
            for one in stock.stations.values()
            if len(one.loads) + one.reserved < one.capacity
        ]
        station = self.chance.choice([name for name in room if 'station ' + name != place])
        self.correct(load, place, station, self.reference())

    def correct(self, load: str, place: str, station: str, ref: str, again: bool = False) -> None:
        """Tells the desk that a load is carried to a station, and carries it once the desk has
        taken that. Where no answer came it is asked again by the same reference."""
        self.carried.add(load)
        try:
            self.desk.correct_load(load, ref, station)
        except NoAnswer:
            self.clock.after(1, lambda: self.correct(load, place, station, ref, True))
            return
        except Refused as refusal:
            if not again or refusal.name != 'RefUsed':
                self.counts['refused: ' + refusal.name] += 1
                self.carried.discard(load)
                return
        self.carried.discard(load)
        self.goods.move(load, place, 'station ' + station)
        self.counts['loads carried by hand'] += 1

    def drive_by_hand(self) -> None:
        vehicle = self.some_vehicle(False)
        if vehicle is not None:
            self.take_over(vehicle, elsewhere=True)

    # What needs hands.

    def put_right(self) -> None:
        try:
            self.see_vehicles()
        except NoAnswer:
            pass
        except Refused as refusal:
            self.counts['refused: ' + refusal.name] += 1

    def see_vehicles(self) -> None:
        stations = {station.node for station in self.layout.stations.values()}
        for vehicle in self.vehicles.values():
            if vehicle.by_hand or vehicle.in_service:
                continue
            if vehicle.restarted is not None:
                self.bring_back(vehicle, vehicle.restarted)
                continue
            row = self.desk.vehicle(vehicle.key)
            if row.astray:
                self.take_over(vehicle, elsewhere=False)
                continue
            if row.order is not None or not vehicle.is_done():
                self.blocked.pop(vehicle.name, None)
                continue
            for load in self.goods.at('vehicle ' + vehicle.name):
                self.unload(vehicle, load)
            if vehicle.node not in stations or self.is_in_the_way(vehicle):
                since = self.blocked.setdefault(vehicle.name, self.clock.now)
                if self.clock.now - since > self.habits.patience:
                    self.blocked.pop(vehicle.name)
                    self.counts['vehicles driven out of the way'] += 1
                    self.take_over(vehicle, elsewhere=True)
                    return
            else:
                self.blocked.pop(vehicle.name, None)

    def bring_back(self, vehicle: Vehicle, restarted: float) -> None:
        """Resyncs a vehicle that was restarted and places it where it stands, as docs/OPERATE.md
        says; not before its older states have come."""
        if self.clock.now - restarted < 15:
            return
        self.desk.resync(vehicle.key)
        order = self.desk.vehicle(vehicle.key).order
        vehicle.by_hand = True
        self.track.take_off(vehicle.name)
        self.put_down(vehicle, vehicle.node, self.reference(), order)

    def is_in_the_way(self, vehicle: Vehicle) -> bool:
        """Whether the dispatcher says so; where nobody hears it, whether nothing moves."""
        waits = self.waits()
        if waits is None:
            return (
                self.clock.now - max(one.last_moved for one in self.vehicles.values())
                > self.habits.patience
            )
        return any(re.search(fr'{vehicle.name} (stands )?at', why) for why in waits.values())

    def unload(self, vehicle: Vehicle, load: str) -> None:
        """Takes a load off a vehicle whose order has ended, once the desk has it there and in no
        job."""
        told = self.desk.load(load)
        if told.job is None and told.place == 'vehicle ' + vehicle.name:
            self.put_at(load, told.place)
            self.counts['loads taken off vehicles'] += 1

    def take_over(self, vehicle: Vehicle, elsewhere: bool) -> None:
        """Takes a vehicle into a person's hands, and places it, where it stands or at a free node
        where no order leads."""
        vehicle.by_hand = True
        vehicle.tell()
        self.clock.after(12, lambda: self.place(vehicle, elsewhere, self.reference()))

    def place(self, vehicle: Vehicle, elsewhere: bool, ref: str) -> None:
        """Places it once the desk knows that it is not ready and what it has picked and put down,
        and it stands. It is lifted off the floor until the desk has answered."""
        try:
            row = self.desk.vehicle(vehicle.key)
            is_told = all(vehicle.has_told(load) for load in vehicle.moved)
            if row.ready or vehicle.node_is_left() or vehicle.is_acting() or not is_told:
                vehicle.tell()
                self.clock.after(5, lambda: self.place(vehicle, elsewhere, ref))
                return
            if row.order is not None and elsewhere:
                self.give_back(vehicle)  # it was given an order meanwhile
                return
            node = self.free_node() if elsewhere else vehicle.node
        except NoAnswer:
            self.clock.after(5, lambda: self.place(vehicle, elsewhere, ref))
            return
        if node is None:
            self.give_back(vehicle)
            return
        self.track.take_off(vehicle.name)
        self.put_down(vehicle, node, ref, row.order)

    def put_down(
        self, vehicle: Vehicle, node: str, ref: str, order: str | None, again: bool = False
    ) -> None:
        """Tells the desk where the vehicle will stand, and sets it there. Where no answer came it
        is asked again by the same reference."""
        try:
            with self.reasons.noted(self.reasons.orders, order, PLACED):
                self.desk.place(vehicle.key, ref, node)
        except NoAnswer:
            self.clock.after(1, lambda: self.put_down(vehicle, node, ref, order, True))
            return
        except Refused as refusal:
            if not again or refusal.name != 'RefUsed':
                self.counts['refused: ' + refusal.name] += 1
                self.track.put(vehicle.name, vehicle.node)
                self.give_back(vehicle)
                return
        self.counts['vehicles placed'] += 1
        vehicle.clear()
        vehicle.node = node
        self.track.put(vehicle.name, node)
        self.say(f'a person places {vehicle.name} at {node}')
        self.clock.after(15, lambda: self.give_back(vehicle))

    def free_node(self) -> str | None:
        """Returns the node of a station which nobody holds, where no vehicle is, and where no order
        leads, as people look first. Only if there is no such node it is one where an order
        leads."""
        held = read_holds(self.desk.hold_report()).nodes
        nodes = {station.node for station in self.layout.stations.values()}
        free = sorted(node for node in nodes if node not in held and node not in self.track.nodes)
        ahead = {
            node['nodeId']
            for one in self.vehicles.values()
            if not one.is_done()
            for node in one.nodes.values()
        }
        best = [node for node in free if node not in ahead] or free
        return self.chance.choice(best) if best else None

    def give_back(self, vehicle: Vehicle) -> None:
        vehicle.by_hand, vehicle.restarted = False, None
        vehicle.tell()
        vehicle.go_on()
