"""The random traffic of a dispatcher: orders, drives, updates and instant actions."""
from __future__ import annotations

from tests.model.bodies import Stop
from tests.support import calls
from tests.support.sight import Vehicle
from tests.support.traffic_people import People
from tests.support.traffic_requests import Exchange


class Dispatcher(People):
    """What a dispatcher asks, which turns to people where a vehicle can't go on without them."""

    def dispatch(self, serial: str) -> Exchange:
        """An order, or an update of one. A vehicle without an order that another one waits for is
        seen to first; where they wait for one another in a ring, an order of theirs is cancelled,
        and its vehicle gets another.
        """
        turn = self.chance.random()
        if turn < 0.024:
            call = self.chance.choice(('pause', 'resume', 'resume') if turn < 0.02 else ('cancel',))
            return self.instant(self.choose(self.has_news), call)
        if turn < 0.026 or self.headers[serial] < (self.sight.vehicle(serial).header or 0):
            return self.asked(calls.resync(serial), serial)
        row, ring = self.row(serial)
        if self.sight.vehicle(row[-1]).trip is None:
            serial = row[-1]
        vehicle = self.sight.vehicle(serial)
        if vehicle.trip is None:
            return self.dispatch_idle(serial, vehicle, len(row) > 1)
        if self.happens(0.002):
            return self.order(serial)
        if (
            vehicle.pending == 'cancelOrder'
            or vehicle.confirmed != vehicle.sent
            or vehicle.base == len(vehicle.edges)
        ):
            if not self.happens(0.05):
                return self.fetch(serial)
        if ring and self.turned_down[serial] > 2:
            return self.instant(self.gives_way(ring), 'cancel')
        if self.turned_down[serial] > 40:
            self.turned_down[serial] = 0
            return self.help(serial) if self.happens(0.3) else self.instant(serial, 'cancel')
        return self.advance(serial)

    def dispatch_idle(self, serial: str, vehicle: Vehicle, is_in_the_way: object) -> Exchange:
        """A vehicle without an order gets one, or help, where it is stuck."""
        loads = len(self.sight.aboard(serial))
        stuck = 0.8 if vehicle.rest or loads == vehicle.capacity else 0.3 if loads else 0.002
        if self.happens(stuck):
            return self.help(serial)
        if self.happens(0.3 if is_in_the_way else 0.05):
            return self.lead_away(serial)
        if is_in_the_way or vehicle.node not in self.bays or not self.crowded():
            return self.order(serial)
        return self.store() if self.happens(0.1) else self.fetch(serial)

    def may_go_on(self, serial: str) -> bool:
        """Whether nothing is known that keeps the vehicle from an order or an update."""
        vehicle = self.sight.vehicle(serial)
        if not vehicle.ready or vehicle.pending == 'cancelOrder':
            return False
        if vehicle.trip is None:
            return vehicle.node not in self.bays or not self.crowded()
        return (
            not self.waits_for(serial)
            and vehicle.confirmed == vehicle.sent
            and vehicle.base < len(vehicle.edges)
        )

    def crowded(self) -> bool:
        """Whether so many vehicles are on the streets that they would stand in one another's
        way."""
        return self.sight.on_streets() * 10 > len(self.streets.streets)

    def row(self, serial: str) -> tuple[list[str], list[str]]:
        """The vehicle, the one that it waits for, the one that this waits for, and so on; and those
        of them that wait for one another in a ring, if the row ends in one."""
        row, by = [serial], self.waits_for(serial)
        while by and by not in row:
            row.append(by)
            by = self.waits_for(by)
        return row, row[row.index(by) :] if by else []

    def waits_for(self, serial: str) -> str | None:
        """The vehicle that holds what this one needs for its order to go on, by the last answer to
        it."""
        by = self.sight.holder(*self.waits[serial]) if serial in self.waits else None
        return by if by != serial and self.sight.vehicle(serial).trip else None

    def gives_way(self, ring: list[str]) -> str:
        """The vehicle of a ring whose order is cancelled: where it isn't astray then, and has
        little on it."""

        def cost(serial: str) -> tuple[bool, bool, int]:
            vehicle = self.sight.vehicle(serial)
            return (
                vehicle.pending is not None,
                bool(vehicle.trip) and vehicle.seen < vehicle.base,
                len(self.sight.aboard(serial)),
            )

        return min(ring, key=cost)

    def instant(self, serial: str, what: str) -> Exchange:
        return self.asked(calls.instant(what, serial), serial)

    def noted(self, serial: str, call: calls.Call) -> Exchange:
        """An order or an update, of whose answer is noted who was in its way."""
        call, answer = self.asked(call, serial)
        self.turned_down[serial] += 1
        if 'by' in answer[1]:
            kind, name = answer[1]['what'].split(' ')
            self.waits[serial] = kind, name
        elif answer[0] == 200:
            self.turned_down[serial] = 0
            self.waits.pop(serial, None)
        return call, answer

    def lead_away(self, serial: str) -> Exchange:
        """A drive without a load, mostly to a free bay."""
        chance, streets = self.chance, self.streets
        free = [node for node in streets.bays if self.sight.holder('node', node) is None]
        node = self.pick(free if free and self.happens(0.8) else streets.nodes)
        order = self.name('D')
        if self.happens():
            order = self.old.get('order', order)
        edges = chance.randint(0, 3) if not self.turned_down[serial] else 0
        call, answer = self.noted(serial, calls.drive(order, node, edges, serial))
        if answer[0] == 200:
            self.old['order'] = order
        return call, answer

    def order(self, serial: str) -> Exchange:
        """An order for some of the jobs that wait, mostly for near ones to which the way is free,
        and for no more than the vehicle can carry."""
        chance, vehicle = self.chance, self.sight.vehicle(serial)
        self.look_for_jobs()
        if not self.waiting and not self.happens(0.1):
            return self.store()
        jobs, stops = self.stops(serial, vehicle)
        order = self.name('O')
        if self.happens(0.02 if vehicle.reported and self.sight.is_used(vehicle.reported) else 0.1):
            order = vehicle.reported or self.old.get('order') or order
        edges = chance.randint(0, 2) if not self.turned_down[serial] else 0
        is_plain = len(stops) == 2 and stops == [('pick', stops[0][1]), ('drop', stops[0][1])]
        if is_plain and self.happens(0.5):
            call = calls.order(order, stops[0][1], edges, serial)
        else:
            call = calls.order_of_stops(order, stops, edges, serial)
        call, answer = self.noted(serial, call)
        if answer[0] == 200:
            self.old.update(order=order, job=jobs[0])
        return call, answer

    def stops(self, serial: str, vehicle: Vehicle) -> tuple[list[str], list[Stop]]:
        """Jobs for an order, and its stops; now and then they don't fit."""
        chance = self.chance
        free = max(1, vehicle.capacity - len(self.sight.aboard(serial)))
        jobs = chance.sample(self.waiting, min(40, len(self.waiting)))
        number = free + 1 if self.happens(0.04) else chance.randint(1, free)
        if not self.happens(0.1):
            jobs.sort(key=lambda job: self.price(serial, job))
        stops: list[Stop] = []
        for job in jobs[:number]:
            at = chance.randint(0, len(stops))
            stops.insert(at, ('pick', job))
            stops.insert(chance.randint(at + 1, len(stops)), ('drop', job))
        if self.happens(0.04):
            job = chance.choice((self.old.get('job', 'none'), 'none'))
            other = [('pick', job), ('drop', job)]
            stops = chance.choice((stops[1:], stops[::-1], stops * 2, stops + other, other))
        return jobs, stops

    def price(self, serial: str, job: str) -> tuple[int, int]:
        """How dear a job is for the vehicle: others hold its stations, or the next node, and then
        the way to it."""
        node, ends = self.sight.vehicle(serial).node, self.sight.ends(job)
        goal = ends[0] if node != ends[0] else ends[1]
        ahead = [self.streets.next_node(node, goal)] if node != goal else []
        held = sum(self.sight.holder('node', one) not in (None, serial) for one in ends + ahead)
        return held, self.streets.hops_to(ends[0])[node]

    def advance(self, serial: str) -> Exchange:
        chance, vehicle = self.chance, self.sight.vehicle(serial)
        update = vehicle.sent + (1 if not self.happens() else 2)
        edges = 1 if self.turned_down[serial] else chance.randint(1, 3)
        edges = min(edges, len(vehicle.edges) - vehicle.base) if not self.happens(0.05) else edges
        return self.noted(serial, calls.advance(vehicle.order, update, edges, serial))
