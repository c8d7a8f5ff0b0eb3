"""A dispatcher over the built program, for its tests: a layout, two vehicles, and turns with states
between them."""
import os
import tempfile
import unittest
from typing import Any

from tests.support import calls
from tests.support.programs import PATIENCE, TOOLS
from tests.support.desks import Serving

from nulvrader.desk.client import Desk
from nulvrader.dispatch.dispatcher import Dispatcher
from nulvrader.common.instructions import Instructions
from nulvrader.dispatch.shared import Settings
from nulvrader.dispatch.snapshot import take
from nulvrader.common.layouts import read_layout
from nulvrader.common.names import VehicleKey

assert TOOLS

# A one-way ring a > b > c > d > a, and at each node a bay with a station of its name: at a the bay
# ab with the station A, and so on.
RING = 'abcd'
LAYOUT = (
    '\n'.join(
        ['kind,id,from,to', *(f'node,{node},,' for name in RING for node in (name, name + 'b'))]
        + [
            f'edge,{x}-{y},{x},{y}'
            for name, after in zip(RING, 'bcda')
            for x, y in ((name, after), (name, name + 'b'), (name + 'b', name))
        ]
        + [f'station,{name.upper()},{name}b,3' for name in RING]
    ).encode()
    + b'\n'
)
ONE, TWO = VehicleKey('KIT', '0001'), VehicleKey('KIT', '0002')


class Told:
    """Vehicles that tell a desk where they are, as their gateways do."""

    def __init__(self, desk: Any) -> None:
        self.desk = desk
        self.headers: dict[Any, int] = {}

    def __call__(
        self,
        key: Any,
        node: str,
        sequence: int = 0,
        acts: str = '',
        *,
        mode: str = 'AUTOMATIC',
        paused: bool = False,
        instant: Any = (),
        fresh: bool = True,
        named: str | None = None,
    ) -> Any:
        """A state of a vehicle that has its last order with its last update, or names this one.
        `acts` has a letter for each action that has ended: f for finished, x for failed."""
        last = self.desk.order_message(key) if fresh else None
        order, update = named or '', 0
        if last:
            order, update = last['orderId'], last['orderUpdateId']
        statuses = {'f': 'FINISHED', 'x': 'FAILED', 'r': 'RUNNING'}
        listed = [(f'{order}.{n}', statuses[letter]) for n, letter in enumerate(acts)]
        listed += [(name, 'FINISHED') for name in instant]
        self.headers[key] = self.headers.get(key, 0) + 1
        vehicle = calls.key(key.serial, key.manufacturer)
        number = self.headers[key]
        message = calls.state_body(number, vehicle, order, update, node, sequence, listed)
        return self.desk.post_state(key, {**message, 'paused': paused, 'operatingMode': mode})


class OverADesk(unittest.TestCase):
    """Turns of a dispatcher, and states between them, over a desk with two vehicles: one in the bay
    of A, one in that of C. `places` has the parking places, if these are given."""

    places: tuple[str, ...] | None = None

    def setUp(self) -> None:
        self.folder = tempfile.TemporaryDirectory()
        self.addCleanup(self.folder.cleanup)
        self.serving = Serving(os.path.join(self.folder.name, 'warehouse.db'), 10**6)
        self.addCleanup(self.serving.__exit__)
        self.address = f'127.0.0.1:{self.serving.port}'
        self.desk = Desk(self.address, timeout=PATIENCE)
        self.desk.set_layout(LAYOUT)
        self.desk.register_vehicle(ONE, 'ab', 2)
        self.desk.register_vehicle(TWO, 'cb')
        self.told = Told(self.desk)
        self.told(ONE, 'ab')
        self.told(TWO, 'cb')
        for load, station in (('L1', 'A'), ('L2', 'A'), ('L3', 'C')):
            self.desk.register_load(load, station)
        self.now = 0.0
        self.lines: list[str] = []
        self.begin()

    def a_desk(self) -> Desk:
        """The desk as the dispatcher has it."""
        return Desk(self.address, timeout=PATIENCE)

    def begin(self) -> None:
        self.dispatcher = Dispatcher(
            self.a_desk(),
            read_layout(LAYOUT),
            Settings(ahead=2),
            parking=self.places,
            instructions=self.instructions,
            say=self.lines.append,
            clock=lambda: self.now,
            wall=self.wall,
        )

    def instructions(self) -> Instructions:
        """What people say to the dispatcher."""
        return Instructions()

    def wall(self) -> float:
        """What time it is, in seconds since 1970."""
        return self.now

    def turn(self, seconds: float = 1.0) -> Any:
        """A turn, and what it has said."""
        self.now += seconds
        before = len(self.lines)
        self.assertTrue(self.dispatcher.turn())
        return self.lines[before:]

    def go_on(self, key: Any, acts: int = 2) -> None:
        """Lets a vehicle drive to the end of what is released to it and do there what is to be
        done, where its order has so many acts in all."""
        message: Any = self.desk.order_message(key)
        if message is None:
            self.told(key, self.desk.vehicle(key).node)
            return
        last = [node for node in message['nodes'] if node['released']][-1]
        left = [act for node in message['nodes'] if not node['released'] for act in node['actions']]
        is_drive = not any(node['actions'] for node in message['nodes'])
        done = 0 if is_drive else acts - len(left)
        self.told(key, last['nodeId'], last['sequenceId'], 'f' * done)

    def held(self, key: Any) -> Any:
        return sorted(take(self.desk).vehicles[str(key)].nodes)

    def place(self, load: str) -> Any:
        return self.desk.load(load).place
