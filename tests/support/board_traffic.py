"""100 vehicles that post a state each second and go round one ring by orders, for `bench/board`,
with what goes wrong on such a day: vehicles pause, are not ready, begin to count their states anew,
and are cancelled on the way, placed and led on by a drive."""
from __future__ import annotations

import contextlib
import re
import threading
import time
from collections import deque
from collections.abc import Callable, Iterator, Mapping

from tests.support.board_run import Board
from tests.support.lateness import Lateness

from nulvrader.desk.client import Desk, Refused, Stop
from nulvrader.common.names import VehicleKey

NODES, VEHICLES, LOADS = 500, 100, 5000
APART = NODES // VEHICLES
LENGTH, RELEASED = 30, 4
HOLDS = 3  # seconds for which a vehicle stays as it came to be
COMMAND_EVERY = 5.0


def layout() -> str:
    """A ring of nodes, with a station at every fifth."""
    rows = ['kind,id,from,to', *(f'node,{node(at)},,' for at in range(NODES))]
    rows += [f'edge,{edge(at)},{node(at)},{node(at + 1)}' for at in range(NODES)]
    rows += [f'station,{station(at)},{node(at)},999' for at in range(0, NODES, APART)]
    return ''.join(row + '\n' for row in rows)


def node(at: int) -> str:
    return f'N{at % NODES:03d}'


def edge(at: int) -> str:
    """The edge from a node to the next one."""
    return f'E{at % NODES:03d}'


def station(at: int) -> str:
    return f'T{at % NODES:03d}'


class Vehicle:
    """A vehicle on the ring as the desk has it, and what it still has to do."""

    def __init__(self, number: int) -> None:
        self.key = VehicleKey('KIT', f'{number:04d}')
        self.name = str(self.key)
        self.at, self.header = number * APART, 0
        self.order, self.update, self.seen, self.base = '', 0, 0, 0
        self.confirmed: int | None = None
        self.load = ''  # that of its order
        self.length = self.origin = 0  # of its order, and where that begins
        # of its next order: of the first ones such that they end one after another
        self.next = APART * (1 + number % (LENGTH // APART))
        self.actions: dict[str, str] = {}
        self.loads: list[str] = []
        self.ready, self.paused, self.astray, self.heard = True, False, False, True
        self.pending: str | None = None
        self.instant = ''  # the instant action that it reports as done
        self.is_told = False  # whether the page is sending it a command
        self.held: set[str] = set()  # edges
        self.course: Iterator[None] | None = None  # what it does instead of driving on

    def facts(self) -> dict[str, object]:
        """How the page has to show it."""
        has = bool(self.order)
        ahead = {'edge': edge(self.at), 'node': node(self.at + 1)}
        told = {} if self.is_told else {'pending': self.pending}
        return {
            **told,
            'node': node(self.at),
            'order_name': self.order or None,
            'seen': self.seen if has else None,
            'base': self.base if has else None,
            'edges': self.length if has else None,
            'sent': self.update if has else None,
            'confirmed': self.confirmed if has else None,
            'ready': int(self.ready),
            'paused': int(self.paused),
            'astray': int(self.astray),
            'header': self.header if self.heard else None,
            'loads': list(self.loads),
            'rest': ahead if self.astray else None,
            'way': self.order or None,
        }

    def edges(self) -> set[str]:
        """The edges that it holds: those that are released and not behind it, or where it is astray
        the next one."""
        count = 1 if self.astray else self.base - self.seen if self.order else 0
        return {edge(self.at + k) for k in range(count)}

    def message(self) -> dict[str, object]:
        """Its next state."""
        self.header += 1
        actions = {**self.actions, **({self.instant: 'FINISHED'} if self.instant else {})}
        return {
            'headerId': self.header,
            'timestamp': '2026-11-28T06:00:00Z',
            'version': '2.0.0',
            'manufacturer': self.key.manufacturer,
            'serialNumber': self.key.serial,
            'orderId': self.order,
            'orderUpdateId': self.update,
            'lastNodeId': node(self.at),
            'lastNodeSequenceId': 2 * self.seen,
            'driving': False,
            'nodeStates': [],
            'edgeStates': [],
            'actionStates': [
                {'actionId': name, 'actionStatus': status} for name, status in actions.items()
            ],
            'paused': self.paused,
            'operatingMode': 'AUTOMATIC' if self.ready else 'MANUAL',
            'errors': [],
            'safetyState': {'eStop': 'NONE', 'fieldViolation': False},
        }

    def begins(self, order: str, load: str, length: int) -> None:
        """It has an order, of a load or none."""
        self.order, self.load, self.length, self.origin = order, load, length, self.at
        self.update, self.seen, self.base, self.confirmed = 0, 0, min(RELEASED, length), None
        self.actions = {f'{order}.{number}': 'WAITING' for number in range(2 if load else 0)}

    def job(self) -> str:
        """The job of its order."""
        return f'J{self.order[1:]}'

    def ends(self) -> None:
        """It has no order any more."""
        self.order, self.load, self.actions, self.confirmed = '', '', {}, None
        self.update = self.seen = self.base = self.length = 0


class Traffic(threading.Thread):
    """All vehicles, each a step and a state in every second, and the orders that they drive. Each
    request has a connection of its own; `answers` are the seconds of each until its answer, and
    `told` has what the desk comes to know."""

    def __init__(self, address: str) -> None:
        super().__init__(daemon=True)
        self.desk = Desk(address)
        self.told = Lateness()
        self.vehicles = [Vehicle(number) for number in range(VEHICLES)]
        self.free = [one for one in self.vehicles if one not in self.commanded()]
        each = LOADS // VEHICLES
        self.stock = {
            at: deque(f'L{at:03d}-{k:02d}' for k in range(each)) for at in range(0, NODES, APART)
        }
        self.count = 0
        self.answers: list[float] = []
        self.over = threading.Event()
        # What begins in which of eight seconds, each with another vehicle.
        often = self.pauses, self.is_unready, self.pauses, self.counts_anew
        self.courses = *often, *often[:2], self.strays, self.counts_anew

    def commanded(self) -> list[Vehicle]:
        """The vehicles to which the page gives commands."""
        return self.vehicles[9::10]

    def set_up(self) -> None:
        """The vehicles and the loads."""
        with self.desk.kept():
            for vehicle in self.vehicles:
                self.desk.register_vehicle(vehicle.key, node(vehicle.at))
                self.desk.post_state(vehicle.key, vehicle.message())
            for at, loads in self.stock.items():
                for load in loads:
                    self.desk.register_load(load, station(at))

    def run(self) -> None:
        begun = time.monotonic()
        step = 0
        while not self.over.is_set():
            chosen = self.free[step * 37 % len(self.free)]
            if chosen.course is None:
                chosen.course = self.courses[step % len(self.courses)](chosen)
            for number, vehicle in enumerate(self.vehicles):
                due = begun + step + number / VEHICLES
                if self.over.wait(max(0.0, due - time.monotonic())):
                    return
                self.turn(vehicle)
            step += 1

    def end(self) -> None:
        """Ends the thread, and waits for it."""
        self.over.set()
        self.join()

    def timed(self, call: Callable[..., object], *values: object, **named: object) -> None:
        """A call, of which the time is kept."""
        begun = time.monotonic()
        call(*values, **named)
        self.answers.append(time.monotonic() - begun)

    @contextlib.contextmanager
    def noting(self, vehicle: Vehicle, **others: Mapping[str, object]) -> Iterator[None]:
        """The desk comes to know how a vehicle is, which edges it holds, and what is said of other
        things, while a block runs; nothing where the block raises."""
        edges = vehicle.edges()
        with contextlib.ExitStack() as stack:
            stack.enter_context(self.told.becoming(vehicle.name, vehicle.facts()))
            for name in edges ^ vehicle.held:
                holder = vehicle.name if name in edges else None
                stack.enter_context(self.told.becoming(f'edge {name}', {'holder': holder}))
            for name, values in others.items():
                stack.enter_context(self.told.becoming(name, values))
            yield
        vehicle.held = edges

    def turn(self, vehicle: Vehicle) -> None:
        """A second of a vehicle."""
        if vehicle.course is not None:
            try:
                return next(vehicle.course)
            except StopIteration:
                vehicle.course = None
        self.step(vehicle)

    def step(self, vehicle: Vehicle) -> None:
        """The vehicle drives on, and posts its state."""
        if not vehicle.order:
            self.begin(vehicle)
        elif vehicle.seen < vehicle.base:
            vehicle.seen, vehicle.at = vehicle.seen + 1, (vehicle.at + 1) % NODES
        self.post(vehicle)
        is_near = vehicle.base - vehicle.seen < 2 and vehicle.base < vehicle.length
        if vehicle.order and is_near:
            self.release(vehicle)

    def post(self, vehicle: Vehicle, is_cancelled: bool = False) -> None:
        """A state of a vehicle. It picks at the first node of an order, and drops at the last."""
        others: dict[str, dict[str, object]] = {}
        load, job, is_over = vehicle.load, vehicle.job(), vehicle.seen == vehicle.length
        if load and not vehicle.loads:
            vehicle.actions[f'{vehicle.order}.0'], vehicle.loads = 'FINISHED', [load]
            others[load] = {'place': f'vehicle {vehicle.name}'}
        if load and is_over:
            vehicle.actions[f'{vehicle.order}.1'], vehicle.loads = 'FINISHED', []
            others[load] = {'place': f'station {station(vehicle.at)}'}
            self.stock[vehicle.at].append(load)
        message = vehicle.message()
        vehicle.heard, vehicle.confirmed = True, vehicle.update if vehicle.order else None
        if vehicle.instant:
            vehicle.instant, vehicle.pending = '', None
        if vehicle.order and (is_over or is_cancelled):
            others |= {job: {'phase': None}} if load else {}
            vehicle.ends()
            vehicle.astray = is_cancelled
        with self.noting(vehicle, **others):
            self.timed(self.desk.post_state, vehicle.key, message)

    def begin(self, vehicle: Vehicle) -> None:
        """An order from the station here to another one ahead, or a drive to the next station."""
        self.count += 1
        order, job, rest = f'O{self.count}', f'J{self.count}', vehicle.at % APART
        if rest:
            vehicle.begins(order, '', APART - rest)
            call = self.desk.start_drive
            self.tried(vehicle, call, order, vehicle.key, node(vehicle.at + APART - rest))
            return
        load = self.stock[vehicle.at].popleft()
        self.timed(self.desk.add_job, job, load, station(vehicle.at + vehicle.next))
        vehicle.begins(order, load, vehicle.next)
        stops = [Stop('pick', job), Stop('drop', job)]
        if self.tried(vehicle, self.desk.start_order_of_stops, order, vehicle.key, stops=stops):
            vehicle.next = LENGTH
        else:
            self.desk.stop_job(job)
            self.stock[vehicle.at].append(load)

    def tried(
        self, vehicle: Vehicle, call: Callable[..., object], *values: object, **named: object
    ) -> bool:
        """Whether an order could be begun: not where the track is held."""
        others = {vehicle.job(): {'phase': 'riding'}} if vehicle.load else {}
        try:
            with self.noting(vehicle, **others):
                self.timed(call, *values, edges=vehicle.base, **named)
        except Refused:
            vehicle.ends()
            return False
        return True

    def release(self, vehicle: Vehicle) -> None:
        """Four edges more, where the track is free."""
        edges = min(RELEASED, vehicle.length - vehicle.base)
        vehicle.update, vehicle.base = vehicle.update + 1, vehicle.base + edges
        try:
            with self.noting(vehicle):
                self.timed(self.desk.advance, vehicle.key, vehicle.order, vehicle.update, edges)
        except Refused:
            vehicle.update, vehicle.base = vehicle.update - 1, vehicle.base - edges

    def pauses(self, vehicle: Vehicle) -> Iterator[None]:
        """It says that it pauses, and then that it goes on."""
        for paused in (True, False):
            vehicle.paused = paused
            for _ in range(HOLDS):
                self.step(vehicle)
                yield

    def is_unready(self, vehicle: Vehicle) -> Iterator[None]:
        """It is led by hand for a while."""
        vehicle.ready = False
        for _ in range(HOLDS):
            self.post(vehicle)
            yield
        vehicle.ready = True
        self.post(vehicle)
        yield

    def counts_anew(self, vehicle: Vehicle) -> Iterator[None]:
        """It was started again, and counts its states from 1."""
        vehicle.heard, vehicle.header = False, 0
        with self.noting(vehicle):
            self.timed(self.desk.resync, vehicle.key)
        for _ in range(HOLDS):
            yield
        self.post(vehicle)
        yield

    def strays(self, vehicle: Vehicle) -> Iterator[None]:
        """Its order is cancelled on the way, a person places it, and takes its load back."""
        if not vehicle.loads or vehicle.seen == vehicle.base:
            return
        load, at = vehicle.load, vehicle.origin
        vehicle.pending = 'cancelOrder'
        with self.noting(vehicle):
            instant = self.desk.cancel(vehicle.key)
        yield
        vehicle.instant = instant
        self.post(vehicle, is_cancelled=True)
        for _ in range(HOLDS):
            yield
            self.post(vehicle)
        yield
        self.count += 1
        vehicle.astray = False
        with self.noting(vehicle):
            self.timed(self.desk.place, vehicle.key, f'P{self.count}', node(vehicle.at))
        vehicle.loads = []
        with self.noting(vehicle, **{load: {'place': f'station {station(at)}'}}):
            self.timed(self.desk.correct_load, load, f'C{self.count}', station(at))
        self.stock[at].append(load)
        yield

    def obeys(self, vehicle: Vehicle, pauses: bool) -> Iterator[None]:
        """It carries out a command of the page, once that is sent."""
        while not vehicle.instant:
            self.step(vehicle)
            yield
        vehicle.paused = pauses
        for _ in range(HOLDS):
            self.step(vehicle)
            yield


class Commands(threading.Thread):
    """Someone at a page, who has vehicles pause and go on."""

    def __init__(self, traffic: Traffic, board: Board) -> None:
        super().__init__(daemon=True)
        self.traffic, self.board = traffic, board
        self.over = threading.Event()

    def run(self) -> None:
        number = 0
        chosen = self.traffic.commanded()
        while not self.over.wait(COMMAND_EVERY):
            vehicle = chosen[number // 2 % len(chosen)]
            if vehicle.course is None:
                self.command(vehicle, number % 2 == 0)
                number += 1

    def command(self, vehicle: Vehicle, pauses: bool) -> None:
        """A command, which the vehicle carries out with its next state."""
        vehicle.is_told = True
        vehicle.course = self.traffic.obeys(vehicle, pauses)
        action = 'startPause' if pauses else 'stopPause'
        with self.traffic.told.becoming(vehicle.name, {'pending': action}):
            told = self.board.do('pause' if pauses else 'resume', vehicle=vehicle.name)
        found = re.search(r'\((instant-\d+)\)', told['text'])
        assert found is not None, told
        vehicle.pending, vehicle.is_told = action, False
        vehicle.instant = found.group(1)
