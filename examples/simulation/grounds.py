"""What a plant has: the desk over a file, the vehicles with their gateways, people, and the
truth."""
from __future__ import annotations

import random
from collections.abc import Callable, Mapping, Sequence
from typing import Protocol

from nulvrader.common.names import VehicleKey
from nulvrader.desk.client import Desk
from nulvrader.dispatch.plan import Plan as Standing
from nulvrader.gateway.telemetry import TelemetrySender

from .clock import Clock
from .day import Day
from .desks import PATIENCE, Served, Wired
from .floors import FLOORS
from .gateways import Gateway
from .people import People
from .plan import Plan
from .reasons import Mortal, Reasons
from .truth import Given, Goods, Track
from .vehicles import Vehicle
from .watch import Circles


class Dispatching(Protocol):
    """A dispatcher, as the plant has it: a turn each second."""

    def turn(self) -> bool:
        ...

    def waits(self) -> Mapping[str, str]:
        ...

    def shut_in(self) -> Mapping[str, tuple[float, str]]:
        ...

    def plans(self) -> Sequence[Standing]:
        ...


class Grounds:
    """A plant over a desk's program and a file that is not there yet, as it begins."""

    def __init__(
        self,
        plan: Plan,
        served: Served,
        dispatcher: Callable[[Desk, Callable[[str], None], Callable[[], float]], Dispatching]
        | None,
        say: Callable[[str], None] = lambda line: None,
        words: TelemetrySender | None = None,
        batteries: dict[str, float] | None = None,
    ) -> None:
        self.plan, self.served, self.make, self.words = plan, served, dispatcher, words
        self.chance = random.Random(plan.seed)
        self.clock = Clock(plan.pace)
        self._say = say
        self.batteries = {} if batteries is None else batteries  # as gateways have told them
        self.floor = FLOORS[plan.floor]().with_chargers(plan.chargers)
        self.layout = self.floor.layout()
        # where others ask too, each call has a connection
        self.desk = (
            Desk(served.address, timeout=PATIENCE) if dispatcher is None else Wired(served.wire)
        )
        self.track, self.goods, self.given = Track(self.layout.edges), Goods(), Given()
        self.goods.alone = dispatcher is not None
        self.vehicles: dict[str, Vehicle] = {}
        self.gateways: dict[str, Gateway] = {}
        self.dispatcher: Dispatching | None = None
        self.mortal: Mortal | None = None
        self.day = Day()
        self.circles = Circles(plan.circle)
        self.since: dict[str, float] = {}  # since when each vehicle waits
        self.reason: dict[str, str] = {}  # and why, as far as the dispatcher has said since then
        self.heard: dict[str, str] = {}  # by vehicle the last line of the dispatcher
        self.shut_by: dict[str, str] = {}  # why vehicles are shut in, as of the last turn
        self.can_move = 0.0  # when nothing could move by the dispatcher's plan last
        self.over, self.fetches = False, 0
        self.reasons = Reasons()
        self.people = People(
            self.desk,
            self.clock,
            self.layout,
            self.goods,
            self.track,
            self.vehicles,
            self.chance,
            plan.habits,
            plan.jobs,
            self.waits,
            self.reasons,
            self.say,
        )

    def say(self, line: str) -> None:
        self._say(f'{self.clock.now:8.1f}  {line}')

    def set_up(self) -> None:
        """Begins a new file: sets the layout, and registers the vehicles in bays and the loads at
        stations."""
        self.served.start()
        with self.desk.kept():
            self.desk.set_layout(self.layout.csv())
            for n, node in enumerate(self.chance.sample(self.floor.bays, self.plan.vehicles), 1):
                key = VehicleKey('KIT', f'{n:04d}')
                self.desk.register_vehicle(key, node, 1 + n % 2)
                self.goods.room[f'vehicle {key}'] = 1 + n % 2
                self.add_vehicle(key, node)
            stations = list(self.layout.stations.values())
            room = {station.name: station.capacity - 2 for station in stations}
            self.goods.room.update(
                {'station ' + station.name: station.capacity for station in stations}
            )
            for n in range(self.plan.loads):
                station = self.chance.choice([name for name, left in room.items() if left > 0])
                room[station] -= 1
                self.desk.register_load(f'load-{n}', station)
                self.goods.add(f'load-{n}', 'station ' + station)

    def waits(self) -> Mapping[str, str] | None:
        """Returns why vehicles and jobs wait, as the dispatcher says. None where it is not the
        plant's own."""
        if self.make is None:
            return None
        return self.dispatcher.waits() if self.dispatcher else {}

    def add_vehicle(self, key: VehicleKey, node: str) -> None:
        chance = random.Random(self.chance.random())
        gateway = Gateway(self.desk, self.clock, self.given, self.plan.line, chance, self.refused)
        gateway.words, gateway.batteries = self.words, self.batteries
        vehicle = Vehicle(
            key,
            node,
            self.clock,
            self.track,
            self.goods,
            self.given,
            self.reasons.failed,
            self.floor.metres,
            self.plan.nature,
            chance,
            gateway.tell,
        )
        self.vehicles[str(key)], self.gateways[str(key)] = vehicle, gateway
        gateway.serve(vehicle)

    def refused(self, line: str) -> None:
        self.day.counts['states refused: ' + line.split(': ')[1]] += 1
