"""The values that a client sends to a desk, and that it gets from it."""
from __future__ import annotations

from dataclasses import dataclass

from ..common.names import VehicleKey


PHASES = ('waiting', 'riding', 'done', 'stopped')


@dataclass(frozen=True)
class Answer:
    """An answer: its status and the bytes of its body."""

    status: int
    body: bytes


@dataclass(frozen=True)
class Stop:
    """A stop of an order: `action` is `pick` or `drop`."""

    action: str
    job: str


@dataclass(frozen=True)
class Load:
    """A load: its place is `checking`, `left`, `station A` or `vehicle KIT/0001`, and `job` its
    live job, if it has one."""

    name: str
    place: str
    job: str | None


@dataclass(frozen=True)
class Job:
    """A live job: its load, and the stations from which and to which the load is carried. While the
    job rides, `vehicle` and `order` name the open order that has it; while it waits, both are
    None."""

    name: str
    load: str
    origin: str
    target: str
    vehicle: VehicleKey | None = None
    order: str | None = None

    @property
    def phase(self) -> str:
        """`waiting` or `riding`."""
        return 'waiting' if self.order is None else 'riding'


@dataclass(frozen=True)
class JobPhase:
    """A job, ended or not: its load, the stations from which and to which the load is carried, and
    its phase, one of `PHASES`. While the job rides, `vehicle` and `order` name the open order that
    has it; else both are None."""

    name: str
    load: str
    origin: str
    target: str
    phase: str
    vehicle: VehicleKey | None = None
    order: str | None = None


@dataclass(frozen=True)
class Vehicle:
    """What a desk knows of a vehicle. `sent` and `confirmed` are the last updates of its open order
    that were sent and confirmed; without an order both are None, and `confirmed` also until a state
    has named the order. `header` is the headerId of the last accepted state, and `pending` the type
    of the pending instant action. `astray` says that its order was cancelled between two nodes."""

    key: VehicleKey
    node: str
    capacity: int
    ready: bool
    paused: bool
    astray: bool
    pending: str | None
    order: str | None
    sent: int | None
    confirmed: int | None
    header: int | None


@dataclass(frozen=True)
class ExportedVehicle(Vehicle):
    """A row of the export of vehicles. The way of its open order has `edges` edges, of which the
    first `released` are released and the first `seen` are behind the vehicle; without an order the
    three are None. `rest` is the edge and the node that a vehicle which is astray holds besides its
    own node."""

    released: int | None
    edges: int | None
    seen: int | None
    rest: tuple[str, str] | None


@dataclass(frozen=True)
class Stocktake:
    """The result of a count: how many loads moved, and the counted names that no load has, or only
    one that has left."""

    moved: int
    unknown: tuple[str, ...]
