"""A whole plant: a desk over a file, vehicles with their gateways, people, a dispatcher, and the
truth. It ends once all jobs are done or stopped, or where something is `Wrong`."""
from __future__ import annotations

import re
import time
from collections.abc import Callable

from nulvrader.desk.client import NoAnswer
from nulvrader.dispatch.shut_in import BEFORE

from .day import TIME_OVER, Day
from .reasons import Killed, Mortal
from .troubles import Troubled

CHARGING = 5.0  # seconds between two looks at who stands at a charger


class Plant(Troubled):
    """A plant over a desk's program and a file that is not there yet. `dispatcher` makes a
    dispatcher over a client, which takes its lines and the clock; `say` takes all lines, and
    `words` tells a board what vehicles say."""

    def run(self, ready: Callable[[], None] = lambda: None) -> Day:
        """Returns the whole run, to its end. `ready` is called once the desk has its layout,
        vehicles and loads."""
        begun = time.monotonic()
        try:
            self.set_up()
            ready()
            self.begin()
            self.clock.run(lambda: self.over or self.clock.now > self.plan.limit)
            if not self.over:
                self.day.stands = TIME_OVER
            self.day.seconds = self.clock.now
            self.day.real = time.monotonic() - begun
            self.served.settle()
            if self.day.stands is None:
                self.settle()
        finally:
            self.served.stop()
        self.close()
        return self.day

    def begin(self) -> None:
        clock, trouble = self.clock, self.plan.trouble
        self.people.begin(trouble.people)
        clock.every(1.0, self.fetch)
        clock.every(1.0, self.measure)
        clock.every(self.plan.audit, self.audit, self.plan.audit)
        clock.every(10.0, self.look_for_circles, 10.0)
        clock.every(10.0, self.look_for_end, 60.0)
        clock.every(2.0, self.served.supervise)
        if self.words is not None:
            clock.every(1.0, self.words.turn)
        if self.plan.chargers:
            clock.every(CHARGING, self.charge)
        if self.make is not None:
            clock.every(self.plan.every, self.dispatch, 8.0)
        troubles = (
            (trouble.desk, self.kill_desk),
            (trouble.dispatcher, self.kill_dispatcher),
            (trouble.gateway, self.kill_gateway),
            (trouble.vehicle, self.restart_vehicle),
            (trouble.stop, self.press_stop),
        )
        for seconds, what in troubles:
            if seconds is not None:
                clock.every(seconds, what, seconds)

    def dispatch(self) -> None:
        """Does a turn of the dispatcher, and starts one anew that was killed."""
        if self.dispatcher is None:
            assert self.make is not None
            self.mortal = Mortal(self.served.wire, self.reasons)
            self.dispatcher = self.make(self.mortal, self.hear, lambda: self.clock.now)
            self.day.counts['starts of the dispatcher'] += 1
        try:
            if self.dispatcher.turn():
                self.note_shut_in(self.dispatcher.shut_in())
                self.check_plans(self.dispatcher.plans())
            self.day.counts['turns of the dispatcher'] += 1
        except Killed:
            self.dispatcher = None

    def charge(self) -> None:
        """Vehicles at chargers are charged."""
        for name, vehicle in self.vehicles.items():
            is_there = self.track.at.get(name) in self.floor.chargers
            vehicle.stand_at_charger(CHARGING, is_there)
            self.day.counts['seconds at chargers'] += (
                int(CHARGING) if vehicle.battery.charging else 0
            )

    def hear(self, line: str) -> None:
        """Takes a line of the dispatcher."""
        self.day.counts['times that a vehicle is silent'] += ': has sent no state for ' in line
        self.day.counts['drives'] += ': drives to ' in line
        about = re.match(r'(\S+/\S+?):? (.*)', line)
        if about:
            self.heard[about.group(1)] = about.group(2)
            if about.group(2).startswith('cancels order '):
                self.day.cancels.append(
                    line.replace(BEFORE, self.shut_by.get(about.group(1), BEFORE))
                )
        self.say(line)

    def fetch(self) -> None:
        """Has the gateways look for messages, on one connection."""
        self.fetches += 1
        try:
            with self.desk.kept():
                for gateway in self.gateways.values():
                    gateway.fetch(all_topics=self.fetches % 3 == 0)
        except NoAnswer:
            pass

    def measure(self) -> None:
        """Notes who has an order and waits, with the last reason that the dispatcher had for it, or
        else its last line about the vehicle."""
        told = self.waits() or {}
        for name, vehicle in self.vehicles.items():
            has_order = not vehicle.is_done() and not vehicle.by_hand
            if has_order:
                self.day.ordered[name] = self.day.ordered.get(name, 0.0) + 1
            if (
                not has_order
                or vehicle.node_is_left()
                or vehicle.is_acting()
                or vehicle.in_service
                or vehicle.paused
            ):
                self.since.pop(name, None)
                self.reason.pop(name, None)
                continue
            self.day.waited[name] = self.day.waited.get(name, 0.0) + 1
            since = self.since.setdefault(name, self.clock.now)
            if name in told:
                self.reason[name] = told[name]
            self.day.has_waited(
                name,
                since,
                self.clock.now,
                self.reason.get(name, self.heard.get(name, 'nobody says why')),
            )

    def look_for_end(self) -> None:
        """Whether all jobs have ended, or nothing has moved for long."""
        last = max(vehicle.last_moved for vehicle in self.vehicles.values())
        try:
            stock = self.desk.stock_report()
        except NoAnswer:
            return
        live = sum(int(part.split()[0]) for part in stock.decode().split('reserved ')[1:])
        is_done = all(one.is_done() for one in self.vehicles.values()) and not self.people.carried
        if live == 0 and len(self.people.added) >= self.plan.jobs and is_done:
            self.over = True
        elif self.clock.now - last > self.plan.stands:
            self.over = True
            waits = sorted((self.waits() or {}).items())
            said = [f'{name} {why}' for name, why in waits if not name.startswith('job ')]
            self.day.stands = (
                f'{live} jobs are live, and nothing moves:'
                f' {"; ".join(said) or "nobody says why"}'
            )
