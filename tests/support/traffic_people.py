"""The random traffic of people: loads come, move and leave, jobs are added, stations are counted,
and reports are read."""
from __future__ import annotations

from tests.support import calls
from tests.support.traffic_requests import DONE, Exchange, Requests


class People(Requests):
    """What people ask."""

    def help(self, serial: str) -> Exchange:
        """A person takes the load from a vehicle without an order, or places it: where it stands,
        at a bay, or on any node."""
        vehicle, loads = self.sight.vehicle(serial), self.sight.aboard(serial)
        if loads and not vehicle.trip and not vehicle.rest:
            return self.correct(loads[0], None)
        bays = [
            node for node in self.streets.bays if self.sight.holder('node', node) in (None, serial)
        ]
        stands = [vehicle.node] + ([vehicle.rest] if vehicle.rest else [])
        node = self.pick(self.chance.choice((stands, stands, bays or stands, self.streets.nodes)))
        return self.asked(calls.place(self.ref(), node, serial), serial)

    def correct(self, load: str, station: str | None) -> Exchange:
        return self.asked(calls.correct(load, self.ref(), station))

    def store(self) -> Exchange:
        """Loads come, move and leave, jobs are added and taken back, and stations are counted."""
        sight, chance, stations = self.sight, self.chance, list(self.streets.stations)
        there, some = sight.free_loads(), chance.sample(stations, min(8, len(stations)))
        roomy = some if self.happens(0.1) else list(filter(sight.has_room, some))
        turn = chance.random()
        self.look_for_jobs()
        wanted = roomy and len(self.waiting) < len(sight.serials) + 5
        if turn < 0.04 or wanted and len(there) < 5 and not self.happens(0.1):
            return self.come(self.name('L'), self.pick(roomy, None))
        if turn < 0.06:
            return self.asked(calls.stop_job(self.pick(self.waiting, self.old.get('job', 'none'))))
        if turn < 0.1:
            return self.count(self.ref(), stations)
        if turn < 0.25:
            load = self.pick(sight.checking(), self.pick(list(self.here)))
            return self.correct(load, self.pick(roomy, None))
        if turn < 0.29 or not roomy:
            return self.leave(self.pick(there, self.pick(self.recent)))
        if not wanted and not self.happens():
            return self.ask(chance.choice(sight.serials))
        job, load, to = self.name('J'), self.pick(there, self.pick(self.recent)), self.pick(roomy)
        call, answer = self.asked(calls.job(job, load, to))
        if answer == DONE:
            self.waiting += [job]
            self.jobs = self.jobs[-100:] + [job]
        return call, answer

    def come(self, load: str, station: str | None) -> Exchange:
        call, answer = self.asked(calls.load(load, station))
        if answer == DONE:
            self.here[load] = True
            self.recent = self.recent[-400:] + [load]
        return call, answer

    def leave(self, load: str) -> Exchange:
        call, answer = self.asked(calls.leave(load, self.ref()))
        if answer == DONE:
            del self.here[load]
        return call, answer

    def count(self, ref: str, stations: list[str]) -> Exchange:
        chance, rows = self.chance, []
        for station in chance.sample(stations, chance.randint(1, 3)):
            rows.append((station, ''))
            rows += [
                (station, load) for load in self.sight.at_station(station) if chance.random() < 0.95
            ]
            if chance.random() < 0.2:
                rows.append((station, self.pick(self.sight.checking() or self.recent, 'unknown')))
        if self.happens(0.1):
            rows.append(chance.choice(rows))
        return self.asked(calls.stocktake(ref, rows))

    def ask(self, serial: str) -> Exchange:
        turn = self.chance.random()
        if turn < 0.5:
            return self.fetch(serial)
        if turn < 0.7:
            return self.asked(calls.get_vehicle(self.pick([serial])))
        if turn < 0.84:
            return self.asked(calls.get_load(self.pick(self.recent)))
        if turn < 0.88:
            return self.asked(calls.get_job(self.pick(self.jobs)))
        if turn < 0.92:
            return self.asked(calls.HOLD_REPORT)
        if turn < 0.97:
            return self.asked(self.chance.choice((calls.JOBS_EXPORT, calls.VEHICLES_EXPORT)))
        return self.asked(
            self.chance.choice((calls.STOCK_REPORT, calls.LOADS_EXPORT, calls.LAYOUT_EXPORT))
        )
