"""What goes wrong in the night of `bench/night`: each trouble with how it is planted in the plant,
what the page has to say of it, and how it ends."""
from __future__ import annotations

import dataclasses
from collections.abc import Callable
from dataclasses import dataclass
from typing import Protocol

from nulvrader.desk.client import Desk
from nulvrader.desk.reports import read_stock
from simulation.desks import Served
from simulation.plant import Plant
from simulation.vehicles import Vehicle

DIRTY = {
    'errorType': 'scannerDirty',
    'errorLevel': 'FATAL',
    'errorDescription': 'front scanner dirty',
    'errorReferences': [],
}


class Night(Protocol):
    """The plant of a night, its desk, and what waits in it."""

    plant: Plant
    desk: Desk
    other: Served

    def do(self, what: Callable[[], None]) -> None:
        """Has something happen in the plant, in its own turn."""

    def wait(self, what: Callable[[], bool], words: str) -> None:
        """Waits until something is so."""


@dataclass(frozen=True)
class Trouble:
    """A trouble: its name; the words of what is wrong, and of what to do, that the page has to
    have; how it begins, and how it ends. `within` is how many seconds the page may take, and
    `after` of these are those that the board waits before it calls it an alarm."""

    name: str
    says: tuple[str, ...]
    todo: str
    begin: Callable[[Night], None]
    end: Callable[[Night], None]
    after: float = 0.0
    within: float = 5.0


# In the small plant: a node of the ring, a station behind it, and the bay of KIT/0004.
IN_THE_WAY, BEHIND, HOME = 'N07', 'N08s', 'N00b'


def vehicle(night: Night, number: int) -> Vehicle:
    return night.plant.vehicles[f'KIT/{number:04d}']


def station(night: Night, number: int) -> str:
    """Returns the station where a vehicle stands."""
    node = vehicle(night, number).node
    return next(one.name for one in night.plant.layout.stations.values() if one.node == node)


def press_stop(night: Night) -> None:
    night.do(lambda: vehicle(night, 1).press_stop(1e9))


def release_stop(night: Night) -> None:
    night.do(vehicle(night, 1).end_stop)


def soil(night: Night) -> None:
    vehicle(night, 2).faults.append(DIRTY)
    night.do(vehicle(night, 2).tell)


def clean(night: Night) -> None:
    vehicle(night, 2).faults.clear()
    night.do(vehicle(night, 2).tell)


def charge(part: float) -> Callable[[Night], None]:
    """Returns what makes a battery so full."""

    def do(night: Night) -> None:
        one = vehicle(night, 3)
        one.battery.left = part * one.nature.battery
        night.do(one.tell)

    return do


def drive_by_hand(on: bool) -> Callable[[Night], None]:
    def do(night: Night) -> None:
        vehicle(night, 4).by_hand = on
        night.do(vehicle(night, 4).tell)

    return do


def connect(on: bool) -> Callable[[Night], None]:
    """Returns what makes the gateway of a vehicle be there, or away."""

    def do(night: Night) -> None:
        night.plant.gateways['KIT/0005'].up = on

    return do


def order(night: Night, number: int, name: str, to: str, edges: int) -> str:
    """Gives a vehicle an order for a load that stands where it stands, and returns the load."""
    load = f'night-{name}'
    here = station(night, number)
    night.desk.register_load(load, here)
    night.do(lambda: night.plant.goods.add(load, f'station {here}'))
    night.desk.add_job(f'job-{name}', load, to)
    key = vehicle(night, number).key
    night.desk.start_order(f'order-{name}', key, job=f'job-{name}', edges=edges)
    return load


def cancel_with_a_load(night: Night) -> None:
    """Cancels the order of a vehicle that has picked a load up."""
    load = order(night, 1, 'cancel', station(night, 2), 0)
    aboard = f'vehicle {vehicle(night, 1).name}'
    night.wait(lambda: night.desk.load(load).place == aboard, 'the load is aboard')
    night.desk.cancel(vehicle(night, 1).key)
    night.wait(lambda: night.desk.vehicle(vehicle(night, 1).key).order is None, 'the cancel')


def take_the_load_off(night: Night) -> None:
    here = station(night, 1)
    night.do(lambda: night.plant.goods.move('night-cancel', 'vehicle KIT/0001', f'station {here}'))
    night.desk.correct_load('night-cancel', 'night-cancel', here)
    night.do(vehicle(night, 1).clear)


def fail(night: Night) -> None:
    one = vehicle(night, 2)
    one.nature = dataclasses.replace(one.nature, failing=1000)
    order(night, 2, 'fail', station(night, 3), 0)
    night.wait(lambda: 'FAILED' in one.statuses.values(), 'the pick has failed')


def end_the_failed_order(night: Night) -> None:
    """Cancels it, as a person does, and clears it on the vehicle."""
    one = vehicle(night, 2)
    one.nature = dataclasses.replace(one.nature, failing=0)
    night.desk.cancel(one.key)
    night.wait(lambda: night.desk.vehicle(one.key).order is None, 'the cancel')
    night.do(one.clear)
    night.do(one.tell)


def drive(night: Night, number: int, node: str, name: str) -> None:
    """Sends a vehicle to a node, all the way, and waits until it is there."""
    one = vehicle(night, number)
    way = night.plant.layout.route(one.node, node)
    assert way is not None
    night.desk.start_drive(name, one.key, node, len(way))
    night.wait(lambda: night.desk.vehicle(one.key).order is None, f'{name} has ended')


def shut_in(night: Night) -> None:
    """Has a vehicle come as far as a node of the ring where another one stands without an order."""
    drive(night, 4, IN_THE_WAY, 'drive-there')
    one, end = vehicle(night, 3), night.plant.layout.stations[BEHIND].node
    way = night.plant.layout.route(one.node, end)
    assert way is not None
    nodes = [night.plant.layout.edges[edge].finish for edge in way]
    free = nodes.index(IN_THE_WAY)
    order(night, 3, 'shut', BEHIND, free)
    night.wait(lambda: one.node == nodes[free - 1], 'it has come as far as it may')


def let_out(night: Night) -> None:
    """Sends the one in the way to its bay, and then the other one on."""
    drive(night, 4, HOME, 'drive-back')
    one = vehicle(night, 3)
    row = night.desk.vehicles()[one.key]
    assert row.sent is not None and row.edges is not None and row.released is not None
    night.desk.advance(one.key, 'order-shut', row.sent + 1, row.edges - row.released)
    night.wait(lambda: night.desk.vehicle(one.key).order is None, 'the order has ended')


def let_a_job_wait(night: Night) -> None:
    here = station(night, 4)
    night.desk.register_load('night-late', here)
    night.desk.add_job('job-late', 'night-late', station(night, 5))


def stop_the_job(night: Night) -> None:
    night.desk.stop_job('job-late')


def fill(night: Night) -> None:
    name = station(night, 5)
    free = night.plant.layout.stations[name].capacity - len(loads_at(night, name))
    for number in range(free):
        night.desk.register_load(f'night-full-{number}', name)


def empty(night: Night) -> None:
    night.desk.correct_load('night-full-0', 'night-full', None)


def loads_at(night: Night, name: str) -> list[str]:
    """Returns the loads that the desk has at a station."""
    return read_stock(night.desk.stock_report()).stations[name].loads


def stop_the_desk(night: Night) -> None:
    night.plant.served.stop()


def start_the_desk(night: Night) -> None:
    night.plant.served.start()


def start_another_desk(night: Night) -> None:
    night.plant.served.stop()
    night.other.start()


def start_the_right_desk(night: Night) -> None:
    night.other.stop()
    night.plant.served.start()


TROUBLES = (
    Trouble(
        'an emergency stop is pressed',
        ('KIT/0001 is not ready', 'emergency stop MANUAL'),
        'See why it was pressed. Once nobody is in danger, acknowledge it.',
        press_stop,
        release_stop,
    ),
    Trouble(
        'a FATAL error: front scanner dirty',
        ('KIT/0002 is not ready', 'FATAL scannerDirty: front scanner dirty'),
        'Solve the error at the vehicle.',
        soil,
        clean,
    ),
    Trouble(
        'a battery at 12 %',
        ('The battery of KIT/0003 is low', '12 %'),
        'Charge it',
        charge(0.12),
        charge(1.0),
    ),
    Trouble(
        'a vehicle is driven by hand',
        ('KIT/0004 is not ready', 'operating mode MANUAL'),
        'then switch it to AUTOMATIC',
        drive_by_hand(True),
        drive_by_hand(False),
    ),
    Trouble(
        'a vehicle falls silent',
        ('KIT/0005 sends no state',),
        'Look at the vehicle, its radio',
        connect(False),
        connect(True),
        after=10.0,
    ),
    Trouble(
        'a load is aboard after a cancel',
        ('KIT/0001 carries night-cancel in no job',),
        'Take it off, and correct its place',
        cancel_with_a_load,
        take_the_load_off,
        after=2.5,
    ),
    Trouble(
        'a pick fails',
        ('KIT/0002', 'failed', 'pick night-fail'),
        'Look at the load and the station',
        fail,
        end_the_failed_order,
        after=2.5,
    ),
    Trouble(
        'a vehicle is shut in',
        ('KIT/0003 can not go on: KIT/0004 holds node', 'has no order'),
        'Send KIT/0004 to a free node',
        shut_in,
        let_out,
        after=60.0,
    ),
    Trouble(
        'a job waits for longer than the limit',
        ('Job job-late has waited for long: night-late',),
        'See whether a vehicle is free and ready',
        let_a_job_wait,
        stop_the_job,
        after=30.0,
    ),
    Trouble('a station is full', ('No place is free at',), 'Take loads away', fill, empty),
    Trouble(
        'the desk is down',
        ('The desk has not answered',),
        'See whether the desk runs',
        stop_the_desk,
        start_the_desk,
    ),
    Trouble(
        'another desk is on the port',
        ('Another desk answers',),
        'move board.db away',
        start_another_desk,
        start_the_right_desk,
    ),
)
