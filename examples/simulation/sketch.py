"""A plant in one process, without a desk's program: the dispatcher itself over a desk that is only
sketched. Vehicles drive and act in time as those of `plant.py` do, nothing fails, and a turn costs
what the dispatcher costs. It serves to compare dispatchers over many days, and to look at what one
does after each turn."""
from __future__ import annotations

import contextlib
import random
import time
from collections.abc import Callable, Iterator, Mapping, Sequence
from typing import Self

from nulvrader.common.names import VehicleKey
from nulvrader.desk.client import Job, Stop, Vehicle
from nulvrader.desk.messages import Act, Order, OrderEdge, OrderNode
from nulvrader.desk.reports import Holds, Stock
from nulvrader.dispatch.judge import Judge
from nulvrader.dispatch.routes import Ways
from nulvrader.dispatch.shared import Settings
from nulvrader.dispatch.snapshot import Seen, Snapshot

from .clock import Clock
from .floors import Floor
from .sketched import Acts, Car, Figures, OverASketch, Sketched, Trip, stop_jobs
from .truth import Wrong

FOLLOWS = 60.0
"""Where nothing has moved for so many seconds, though something can by the plan, it is wrong."""


class Sketch(Sketched):
    """A desk over a floor, and all that goes on there. After each turn the dispatcher's plan is
    checked."""

    def __init__(
        self,
        floor: Floor,
        vehicles: int,
        loads: int,
        seed: int = 1,
        *,
        near: float = 0.8,
        judge: Judge | None = None,
        settings: Settings = Settings(silent=1e9),
        say: Callable[[str], None] = lambda line: None,
    ) -> None:
        super().__init__('127.0.0.1:1')
        self.floor, self.map = floor, floor.layout()
        self.chance, self.clock, self.ways = random.Random(seed), Clock(), Ways(self.map)
        self.near = near
        self.edge = {(edge.start, edge.finish): edge for edge in self.map.edges.values()}
        self.cars: dict[str, Car] = {}
        self.jobs_open: dict[str, Job] = {}
        self.since: dict[str, float] = {}
        self.places: dict[str, str] = {}
        self.free_room: dict[str, int] = {
            one.name: one.capacity for one in self.map.stations.values()
        }
        self.holders: dict[str, str] = {}
        self.figures = Figures()
        self.last_moved = self.could_move = 0.0  # (the second: when nothing could by the plan last)
        self.number = 0
        self._place(vehicles, loads)
        self.dispatcher = OverASketch(
            self,
            self.map,
            settings,
            judge=judge,
            say=lambda line: say(f'{self.clock.now:8.1f}  {line}'),
            clock=lambda: self.clock.now,
        )

    def _place(self, vehicles: int, loads: int) -> None:
        for n, node in enumerate(self.chance.sample(self.floor.bays, vehicles), 1):
            car = Car(VehicleKey('KIT', f'{n:04d}'), 1 + n % 2, node)
            self.cars[car.name] = car
            self.holders[node] = car.name
        room = {name: count - 2 for name, count in self.free_room.items()}
        for n in range(loads):
            station = self.chance.choice([name for name, left in room.items() if left > 0])
            room[station] -= 1
            self.free_room[station] -= 1
            self.places[f'load-{n}'] = station

    # The desk.

    @contextlib.contextmanager
    def kept(self, count: int | None = None) -> Iterator[Self]:
        yield self

    def snapshot(self) -> Snapshot:
        vehicles = {name: self._seen(car) for name, car in self.cars.items()}
        nodes = {node: self.cars[name].key for node, name in self.holders.items()}
        edges = {edge: car.key for car in self.cars.values() for edge in self._edges_of(car)}
        places = {
            load: place if place.startswith('vehicle ') else 'station ' + place
            for load, place in self.places.items()
        }
        return Snapshot(vehicles, dict(self.jobs_open), Stock(), Holds(nodes, edges), places)

    def _edges_of(self, car: Car) -> list[str]:
        if car.trip is None:
            return []
        way = car.trip.way[car.trip.at : car.trip.base + 1]
        return [self.edge[pair].name for pair in zip(way, way[1:])]

    def _seen(self, car: Car) -> Seen:
        trip = car.trip
        row = Vehicle(
            car.key,
            car.node,
            car.capacity,
            True,
            car.paused,
            False,
            car.pending,
            trip.name if trip else None,
            trip.sent if trip else None,
            trip.confirmed if trip else None,
            car.header,
        )
        nodes = frozenset([car.node] if trip is None else trip.way[trip.at : trip.base + 1])
        edges = 0 if trip is None else trip.base - trip.at
        return Seen(
            row, tuple(car.loads), None if trip is None else self._order(car, trip), nodes, edges
        )

    def _order(self, car: Car, trip: Trip) -> Order:
        nodes = tuple(
            OrderNode(trip.way[n], n <= trip.base, self._acts(trip, n))
            for n in range(trip.at, len(trip.way))
        )
        edges = tuple(
            OrderEdge(one.name, one.start, one.finish, n <= trip.base)
            for n in range(trip.at + 1, len(trip.way))
            for one in [self.edge[trip.way[n - 1], trip.way[n]]]
        )
        return Order(trip.name, trip.sent, car.key, nodes, edges)

    def _acts(self, trip: Trip, index: int) -> tuple[Act, ...]:
        return tuple(
            Act(0, kind, self.jobs_open[job].load, '')
            for kind, job in trip.acts.get(index, ())
            if job in self.jobs_open
        )

    def start_order_of_stops(
        self, order: str, vehicle: VehicleKey, *, stops: Sequence[Stop], edges: int
    ) -> int:
        car, acts = self.cars[str(vehicle)], dict[int, Acts]()
        way = [car.node]
        assert car.trip is None
        for stop in stops:
            one = self.jobs_open[stop.job]
            assert one.order is None
            node = self.ways.node_of(one.origin if stop.action == 'pick' else one.target)
            way += (self.ways.way((way[-1], node)) or ())[1:]
            acts[len(way) - 1] = (*acts.get(len(way) - 1, ()), (stop.action, stop.job))
        for stop in stops:
            one = self.jobs_open[stop.job]
            self.jobs_open[stop.job] = Job(
                one.name, one.load, one.origin, one.target, vehicle, order
            )
        self._begin(car, order, tuple(way), acts, frozenset(stop.job for stop in stops), edges)
        return 0

    def start_drive(self, order: str, vehicle: VehicleKey, to: str, edges: int) -> int:
        """Gives a vehicle an order without actions, to a node."""
        car = self.cars[str(vehicle)]
        assert car.trip is None
        way = self.ways.way((car.node, to))
        assert way is not None and len(way) > 1
        self.figures.counts['drives'] += 1
        self._begin(car, order, way, {}, frozenset(), edges)
        return 0

    def _begin(
        self,
        car: Car,
        order: str,
        way: tuple[str, ...],
        acts: Mapping[int, Acts],
        jobs: frozenset[str],
        edges: int,
    ) -> None:
        car.trip = Trip(order, way, acts, 0, jobs)
        car.known = car.place = car.done = 0
        self._release(car, car.trip, edges)

    def advance(self, vehicle: VehicleKey, order: str, update: int, edges: int) -> int:
        car = self.cars[str(vehicle)]
        assert car.trip is not None and car.trip.name == order
        assert update == car.trip.sent + 1 and car.trip.confirmed == car.trip.sent
        car.trip.sent = update
        self._release(car, car.trip, edges)
        return update

    def _release(self, car: Car, trip: Trip, edges: int) -> None:
        for node in trip.way[trip.base + 1 : trip.base + 1 + edges]:
            if self.holders.setdefault(node, car.name) != car.name:
                raise Wrong(f'{node} is released to {car.name}, and held by another')
        trip.base += edges
        trip.bases.append(trip.base)
        update, at_end = trip.sent, car.place >= car.known - 1
        delay = self.chance.uniform(0, 1 if at_end else 3) + self.chance.uniform(0, 0.4)
        self.clock.after(delay, lambda: self._hear(car, trip, update))

    def cancel(self, vehicle: VehicleKey) -> str:
        """Ends the order of a vehicle that stands, once it has heard of it and does nothing."""
        car = self.cars[str(vehicle)]
        assert car.trip is not None and car.trip.at == car.trip.base
        car.pending = 'cancelOrder'

        def end() -> None:
            if car.busy:
                self.clock.after(1.0, end)
                return
            stop_jobs(car, self.jobs_open, self.free_room, self.since)
            car.trip, car.pending, car.header = None, None, car.header + 1

        self.clock.after(self.chance.uniform(0, 3.4), end)
        return 'instant-1'

    # The vehicles.

    def _hear(self, car: Car, trip: Trip, update: int) -> None:
        if car.trip is trip:
            car.known = max(car.known, trip.bases[update])
            self._tell(car, trip, update)
            self.go_on(car)

    def _tell(self, car: Car, trip: Trip, update: int | None = None) -> None:
        """Gives the desk the vehicle's state, a moment later."""
        place, done, delay = car.place, car.done, self.chance.uniform(0, 0.4)

        def post() -> None:
            car.header += 1
            if car.trip is not trip:
                return
            if update is not None:
                trip.confirmed = max(update, trip.confirmed or 0)
            for node in trip.way[trip.at : place]:
                if node not in trip.way[place : trip.base + 1]:
                    self.holders.pop(node, None)
            trip.at = max(trip.at, place)
            car.node = trip.way[trip.at]
            if place == len(trip.way) - 1 and done >= len(trip.acts.get(place, ())):
                car.trip = None

        self.clock.after(delay, post)

    def go_on(self, car: Car) -> None:
        """Begins what comes next."""
        trip = car.trip
        if trip is None or car.busy or car.paused:
            return
        acts = trip.acts.get(car.place, ())
        if car.done < len(acts):
            self._begin_act(car, trip, *acts[car.done])
        elif car.place < car.known:
            self._begin_edge(car, trip)
        else:
            return
        car.busy = True
        self.last_moved = self.clock.now

    def _begin_edge(self, car: Car, trip: Trip) -> None:
        edge = self.edge[trip.way[car.place], trip.way[car.place + 1]]
        metres = self.floor.metres[edge.name]

        def arrive() -> None:
            self.figures.metres += metres
            car.place, car.done, car.busy = car.place + 1, 0, False
            self._tell(car, trip)
            self.go_on(car)

        self.clock.after(metres / 1.6 * self.chance.uniform(0.9, 1.2), arrive)

    def _begin_act(self, car: Car, trip: Trip, kind: str, job: str) -> None:
        def finish() -> None:
            car.busy, car.done = False, car.done + 1
            one = self.jobs_open[job]
            if kind == 'pick':
                car.loads.append(one.load)
                self.places[one.load] = 'vehicle ' + car.name
                self.free_room[one.origin] += 1
            else:
                car.loads.remove(one.load)
                self.places[one.load] = one.target
                del self.jobs_open[job]
                self.figures.done += 1
                self.figures.oldest = max(self.figures.oldest, self.clock.now - self.since.pop(job))
            self.last_moved = self.clock.now
            self._tell(car, trip)
            self.go_on(car)

        self.clock.after(self.chance.uniform(6, 14), finish)

    # What goes wrong.

    def halt(self, seconds: float) -> None:
        """Has a vehicle with an order stand still for a while, once it has come to its next
        node."""
        car = self.chance.choice([car for car in self.cars.values() if not car.paused])
        car.paused = True

        def resume() -> None:
            car.paused = False
            self.go_on(car)

        self.clock.after(seconds, resume)
        self.figures.counts['pauses'] += 1

    def carry_off(self) -> None:
        """Has a person carry a vehicle that stands and has no load to another free bay. Its order
        has ended, and its jobs are gone."""
        cars = [car for car in self.cars.values() if not (car.busy or car.loads or car.paused)]
        ahead = {node for car in self.cars.values() if car.trip for node in car.trip.way}
        free = [node for node in self.floor.bays if node not in self.holders]
        free = [node for node in free if node not in ahead] or free
        if not cars or not free:
            return
        car, node = self.chance.choice(cars), self.chance.choice(free)
        stop_jobs(car, self.jobs_open, self.free_room, self.since)
        for held in [held for held, name in self.holders.items() if name == car.name]:
            del self.holders[held]
        car.trip, car.node, self.holders[node] = None, node, car.name
        self.figures.counts['placed'] += 1

    # Jobs and time.

    def add_jobs(self, count: int) -> None:
        """Adds so many jobs, as far as there are loads and room for them."""
        busy = {one.load for one in self.jobs_open.values()}
        for _ in range(count):
            loads = [
                load
                for load, place in self.places.items()
                if load not in busy and not place.startswith('vehicle ')
            ]
            if not loads:
                return
            load = self.chance.choice(loads)
            place = self.places[load]
            others = [name for name, room in self.free_room.items() if name != place and room > 0]
            if not others:
                return
            near = [name for name in others if name[0] == place[0]]
            to = self.chance.choice(near if near and self.chance.random() < self.near else others)
            self.number += 1
            job = f'job-{self.number:05d}'
            self.free_room[to] -= 1
            busy.add(load)
            self.jobs_open[job] = Job(job, load, place, to)
            self.since[job] = self.clock.now

    def keep_backlog(self, backlog: int) -> None:
        waiting = sum(1 for one in self.jobs_open.values() if one.order is None)
        self.add_jobs(max(0, backlog - waiting))

    def turn(self) -> None:
        begun = time.process_time()
        if not self.dispatcher.turn():
            raise Wrong('a turn of the dispatcher fails')
        self.figures.turns.append(time.process_time() - begun)
        plans, now = self.dispatcher.plans(), self.clock.now
        for plan in plans:
            fault = plan.fault()
            if fault is not None:
                raise Wrong(f'the plan of the dispatcher can not be carried out: {fault}')
        self.could_move = self.could_move if plans and plans[0].can_move() else now
        if now - max(self.last_moved, self.could_move) > FOLLOWS:
            raise Wrong(f'nothing has moved for {FOLLOWS:.0f} s, though something can by the plan')

    def measure(self) -> None:
        figures, now = self.figures, self.clock.now
        for car in self.cars.values():
            if car.trip is None:
                car.waits = None
                continue
            figures.ordered += 1
            if car.busy or car.paused:
                car.waits = None
                continue
            figures.waited += 1
            car.waits = now if car.waits is None else car.waits
            figures.longest = max(figures.longest, now - car.waits)
        if self.jobs_open:
            figures.still = max(figures.still, now - self.last_moved)
        else:
            self.last_moved = now

    def run(self, seconds: float, until: Callable[[], bool] = lambda: False) -> Figures:
        self.clock.every(1.0, self.measure)
        self.clock.every(1.0, self.turn, 0.5)
        self.clock.run(lambda: self.clock.now > seconds or until())
        self.figures.seconds = self.clock.now
        for since in self.since.values():
            self.figures.oldest = max(self.figures.oldest, self.clock.now - since)
        return self.figures
