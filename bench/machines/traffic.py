"""What asks the desks of all machines, as a plant does: gateways, vehicles, people who give orders,
and readers.

Each machine has a gateway and a reader of its own, which ask its desk alone, also while the machine
is cut off: a socket of Unix needs no cable. The people ask the machine that has answered last, and
the next one where none does."""
from __future__ import annotations

import importlib.machinery
import importlib.util
import json
import os
import sys
import threading
import time
from collections.abc import Callable
from typing import Any

from nulvrader.desk.answers import refused
from nulvrader.desk.client import Answer, Desk, NoAnswer, Refused
from nulvrader.gateway.carrier import Gateway
from nulvrader.gateway.inbox import FRONT, Inbox
from nulvrader.gateway.log import Tally

from .records import Answered, Records, asked

HERE = os.path.dirname(os.path.abspath(__file__))
EXAMPLE = os.path.normpath(os.path.join(HERE, '..', '..', 'examples', 'vehicle'))
PATIENCE = 30.0  # seconds for an answer
PAUSE = 0.05
STEP = 0.3  # seconds from one state of a vehicle to the next
MAKER = 'KIT'


def example_vehicle() -> Any:
    """Returns the class of `examples/vehicle`."""
    loader = importlib.machinery.SourceFileLoader('example_vehicle', EXAMPLE)
    spec = importlib.util.spec_from_loader(loader.name, loader)
    assert spec is not None
    made = importlib.util.module_from_spec(spec)
    sys.modules[loader.name] = made
    loader.exec_module(made)
    return made.Vehicle


def layout(vehicles: int) -> bytes:
    """Returns the layout: three nodes in a row for each vehicle, with a station at each end."""
    rows = []
    for number in range(1, vehicles + 1):
        nodes = [f'N{number}.{at}' for at in (1, 2, 3)]
        rows += [f'node,{node},,' for node in nodes]
        for start, end in ((0, 1), (1, 0), (1, 2), (2, 1)):
            rows.append(f'edge,E{number}.{start + 1}{end + 1},{nodes[start]},{nodes[end]}')
        rows += [f'station,A{number},{nodes[0]},9', f'station,B{number},{nodes[2]},9']
    kinds = ('node', 'edge', 'station')
    rows.sort(key=lambda row: kinds.index(row.split(',')[0]))
    return ('kind,id,from,to\n' + '\n'.join(rows) + '\n').encode()


class Asks:
    """Asks the desk of one machine, and notes what it answers."""

    def __init__(self, machine: int, socket: str, records: Records) -> None:
        self.machine, self.records = machine, records
        self.desk = Desk(f'unix:{socket}', timeout=PATIENCE)

    def ask(self, method: str, target: str, body: bytes | None = None) -> Answer:
        """Makes a request. `NoAnswer` where there is none."""
        changes = method != 'GET'
        what = f'{method} {target}'
        answer, noted = asked(
            self.machine, what, changes, lambda: self.desk.ask(method, target, body)
        )
        done = changes and answer.status == 200 and b'"accepted":false' not in answer.body
        self.records.note(Answered(self.machine, what, done, noted.sent, noted.came))
        found: Answer = answer
        return found


class Noted(Desk):
    """The client that a gateway uses, whose answers are noted."""

    def __init__(self, asks: Asks) -> None:
        super().__init__(asks.desk.address, timeout=PATIENCE)
        self.asks = asks

    def ask(self, method: str, target: str, body: bytes | None = None) -> Answer:
        answer = self.asks.ask(method, target, body)
        if method == 'POST' and target.endswith('/state') and b'"accepted":true' in answer.body:
            vehicle = target.removeprefix('/uagv/v2/').removesuffix('/state')
            self.asks.records.note_state(vehicle, json.loads(body or b'{}')['headerId'])
        return answer


class Thread(threading.Thread):
    """Does something again and again until it is to end, while it may."""

    def __init__(
        self, turn: Callable[[], None], pause: float, may: threading.Event, faults: list[str]
    ) -> None:
        super().__init__(daemon=True)
        self.turn, self.pause, self.may, self.faults = turn, pause, may, faults
        self.over = threading.Event()
        self.start()

    def run(self) -> None:
        while not self.over.wait(self.pause):
            try:
                if self.may.wait(1):
                    self.turn()
            except (NoAnswer, Refused):
                pass
            except Exception as fault:  # the drill itself is wrong
                self.faults.append(f'{type(fault).__name__}: {fault}')


class Broker:
    """Carries what the gateways publish to the vehicles, and notes it."""

    def __init__(self, machine: int, plant: Traffic) -> None:
        self.machine, self.plant, self.connections = machine, plant, 1

    def publish(self, topic: str, data: bytes) -> bool:
        """Publishes a message."""
        vehicle, _, kind = topic.removeprefix(FRONT + '/').rpartition('/')
        message = json.loads(data)
        self.plant.records.note_message(self.machine, vehicle, kind, message['headerId'], data)
        if kind == 'order':
            self.plant.records.note_order(vehicle, message)
        self.plant.mail[vehicle, kind] = data
        return True


class Traffic:
    """All that asks. `sockets` are those of the desks, by machine."""

    def __init__(self, sockets: dict[int, str], vehicles: int, records: Records) -> None:
        self.records = records
        self.asks = {number: Asks(number, path, records) for number, path in sockets.items()}
        self.sockets = sockets
        self.vehicles = vehicles
        self.current = min(sockets)
        self.mail: dict[tuple[str, str], bytes] = {}
        self.inboxes: list[Inbox] = []
        self.faults: list[str] = []
        self.may = threading.Event()  # whether anything is asked
        self.may.set()
        self.threads: list[Thread] = []
        self.counts = dict.fromkeys(sockets, 0)
        self.done = 0  # transports
        self.moved: dict[int, int] = {}  # by vehicle, how often its load was moved

    # Asking whoever has the desk.

    def call(
        self, method: str, target: str, body: object = None, passed: tuple[str, ...] = ()
    ) -> Answer:
        """Makes a call of whichever machine answers, again until one does. A refusal of one of
        these names says that the call was carried out before its answer was lost."""
        data = None if body is None else json.dumps(body).encode()
        again = False
        while not self.is_over():
            if not self.may.wait(1):
                continue
            for number in self.order():
                if not os.path.exists(self.sockets[number]):
                    continue
                try:
                    answer = self.asks[number].ask(method, target, data)
                except NoAnswer:
                    again = True
                    continue
                if answer.status >= 500:
                    again = True
                    continue
                self.current = number
                if answer.status in (200, 204):
                    return answer
                fault = refused(answer)
                if not (again and isinstance(fault, Refused) and fault.name in passed):
                    self.records.lost.append(f'{method} {target} {body}: {fault}')
                return answer
            time.sleep(PAUSE)
        raise NoAnswer('it is over', False)

    def order(self) -> list[int]:
        """Returns the machines, the one that has answered last first."""
        return sorted(self.sockets, key=lambda number: (number != self.current, number))

    def is_over(self) -> bool:
        """Whether it is to end."""
        return any(thread.over.is_set() for thread in self.threads)

    # What is done.

    def begin(self) -> None:
        """Sets the layout, registers the vehicles and their loads, and starts all."""
        answer = self.asks[self.holder()].ask('PUT', '/layout', layout(self.vehicles))
        assert answer.status == 200, answer
        for number in range(1, self.vehicles + 1):
            key = {'manufacturer': MAKER, 'serialNumber': f'{number:04}'}
            self.call('POST', '/vehicles', {**key, 'node': f'N{number}.1'}, ('Exists',))
            self.call(
                'POST', '/loads', {'load': f'T{number}', 'station': f'A{number}'}, ('Exists',)
            )
        for machine in self.sockets:
            self.add_gateway(machine)
            self.add(lambda machine=machine: self.read(machine), PAUSE)  # type: ignore[misc]
        for number in range(1, self.vehicles + 1):
            self.add_vehicle(number)
            self.add(lambda number=number: self.carry(number), PAUSE)  # type: ignore[misc]

    def holder(self) -> int:
        """Waits for a machine that answers, and returns it."""
        ends = time.monotonic() + 120
        while time.monotonic() < ends:
            for number in self.order():
                try:
                    self.asks[number].ask('GET', '/report/holds')
                    return number
                except NoAnswer:
                    pass
            time.sleep(PAUSE)
        raise TimeoutError('no desk answers')

    def add(self, turn: Callable[[], None], pause: float) -> None:
        """Starts a thread."""
        self.threads.append(Thread(turn, pause, self.may, self.faults))

    def end(self) -> None:
        """Ends all threads."""
        for thread in self.threads:
            thread.over.set()
        for thread in self.threads:
            thread.join(2 * PATIENCE)

    def add_gateway(self, machine: int) -> None:
        """Starts the gateway of a machine, which asks the machine's own desk."""
        inbox = Inbox(Tally(lambda line: None))
        self.inboxes.append(inbox)
        broker = Broker(machine, self)
        names = [f'{MAKER}/{number:04}' for number in range(1, self.vehicles + 1)]
        gateway = Gateway(Noted(self.asks[machine]), broker, inbox, names, write=lambda line: None)
        self.add(gateway.turn, STEP)

    def add_vehicle(self, number: int) -> None:
        """Starts a vehicle: that of `examples/vehicle`, with the broker between it and the
        gateways."""
        name = f'{MAKER}/{number:04}'
        plant = self

        class Carried(example_vehicle()):  # type: ignore[misc]
            """A vehicle behind a broker."""

            def ask(self, method: str, target: str, body: Any = None) -> tuple[int, Any]:
                """Takes what was published last, or sends a state."""
                kind = target.rpartition('/')[2]
                if method == 'POST':
                    for inbox in plant.inboxes:
                        inbox.put(f'{FRONT}/{name}/state', json.dumps(body).encode())
                    return 200, {}
                data = plant.mail.get((name, kind))
                return (200, json.loads(data)) if data else (204, None)

        vehicle = Carried(None, MAKER, f'{number:04}', f'N{number}.1')
        vehicle.header = 0
        self.add(vehicle.turn, STEP)

    def read(self, machine: int) -> None:
        """Asks a machine's desk for what was answered before, and registers a load there."""
        if not os.path.exists(self.sockets[machine]):
            return
        asks, known = self.asks[machine], self.records.last_load()
        if known is not None and asks.ask('GET', f'/loads/{known}').status == 404:
            self.records.stale.append(f'm{machine} does not know {known}')
        vehicle = f'{MAKER}/0001'
        newest = self.records.newest(vehicle, 'order')
        answer = asks.ask('GET', f'/uagv/v2/{vehicle}/order')
        if answer.status == 200 and json.loads(answer.body)['headerId'] < newest:
            self.records.stale.append(f'm{machine} has an old order of {vehicle}')
        self.counts[machine] += 1
        name = f'P{machine}-{self.counts[machine]}'
        if asks.ask('POST', '/loads', json.dumps({'load': name}).encode()).status == 200:
            self.records.note_load(name)

    def carry(self, number: int) -> None:
        """One transport: a load from one end of the vehicle's track to the other, and the next one
        back. Its names are those of the load that it moves and how often it was moved."""
        vehicle, load = f'{MAKER}/{number:04}', f'T{number}'
        moved = self.moved.get(number, 0)
        name = f'{load}-{moved}'
        to = ('B', 'A')[moved % 2] + str(number)
        self.call('POST', '/jobs', {'job': name, 'load': load, 'to': to}, ('Exists',))
        key = {'manufacturer': MAKER, 'serialNumber': f'{number:04}'}
        self.wait(lambda: bool(self.row(vehicle).get('ready')))
        body = {'order': name, 'job': name, **key, 'edges': 1}
        self.call('POST', '/orders', body, ('Exists',))
        self.wait(lambda: bool(self.row(vehicle)['confirmed'] == 0))
        body = {'order': name, 'orderUpdateId': 1, 'edges': 1}
        self.call('POST', f'/vehicles/{vehicle}/advance', body, ('WrongUpdate', 'NoOrder'))
        self.wait(lambda: self.job_of(load) != name)
        self.moved[number] = moved + 1
        self.done += 1

    def row(self, vehicle: str) -> dict[str, Any]:
        """Returns what the desk knows of a vehicle."""
        found: dict[str, Any] = json.loads(self.call('GET', f'/vehicles/{vehicle}').body)
        return found

    def job_of(self, load: str) -> str | None:
        """Returns the live job of a load."""
        found: str | None = json.loads(self.call('GET', f'/loads/{load}').body)['job']
        return found

    def wait(self, is_so: Callable[[], bool]) -> None:
        """Waits until something is so."""
        while not is_so():
            time.sleep(STEP)

    # What must be there.

    def check(self) -> None:
        """Compares all that was answered with what the desk has, and notes what was lost."""
        with self.records.lock:
            loads, headers = list(self.records.loads), dict(self.records.headers)
        for line in missing(self.call('GET', '/export/loads').body, loads):
            self.records.lost.append(line)
        for vehicle, header in headers.items():
            if (self.row(vehicle)['headerId'] or 0) < header:
                self.records.lost.append(f'the state {header} of {vehicle}')


def missing(export: bytes, loads: list[str]) -> list[str]:
    """Returns the loads that an export of a desk does not have."""
    have = {line.split(',')[0].strip('"') for line in export.decode().splitlines()}
    return [f'the load {name}' for name in loads if name not in have]
