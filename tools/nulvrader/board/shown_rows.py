"""What pages are shown: the kinds of values in `Shown`, and the row of each. The followers of the
desk put them there; commands, alarms and metrics read them; a page gets them as JSON."""
from __future__ import annotations

from collections.abc import Mapping, Sequence
from typing import Generic, NotRequired, TypedDict, TypeVar

from .messages import ToldLine

RowT = TypeVar('RowT')


class ShownKind(str, Generic[RowT]):
    """The name of a kind of values, which says what type these have."""


class ShownDesk(TypedDict):
    """Whether the desk answers, since when, and why it does not; `other` says that another desk
    answers than the one of the record."""

    up: bool
    since: int
    fault: str | None
    other: bool
    says: NotRequired[list[ToldLine]]


class ShownFault(TypedDict):
    """What is wrong with a file of the board."""

    words: str
    says: list[ToldLine]


class ShownLoad(TypedDict):
    """Where a load is, and since when, where that is known."""

    place: str
    since: int | None


class ShownStation(TypedDict):
    """How many loads a station has, and how many places are reserved."""

    taken: int
    reserved: int


class ShownCounts(TypedDict):
    """How many loads and live jobs there are."""

    loads: int
    checking: int
    left: int
    jobs: int


class ShownJob(TypedDict):
    """A live job, as `LiveJob` has it."""

    load: str
    origin: str
    target: str
    phase: str
    order: str | None
    vehicle: str | None
    added: int | None
    began: int | None


class VehicleColumns(TypedDict):
    """How a vehicle is, by the columns of `vehicles`; 1 stands for yes."""

    node: str
    order_name: str | None
    seen: int | None
    base: int | None
    edges: int | None
    sent: int | None
    confirmed: int | None
    pending: str | None
    ready: int
    paused: int
    astray: int
    capacity: int


class Rest(TypedDict):
    """Where a vehicle that has no order stands on an edge: the edge, and the node at its end."""

    edge: str
    node: str


class ShownVehicle(VehicleColumns):
    """How a vehicle is, with what it carries; `header` is the headerId of its newest state, if any
    counts, `silent` since when none has come, and `unready` since when it is not ready."""

    loads: Sequence[str]
    rest: Rest | None
    silent: int | None
    header: int | None
    unready: int | None


class ShownAct(TypedDict):
    """A pick or a drop, and the place of its node on the way."""

    kind: str
    load: str
    station: str
    at: int


class ShownWay(TypedDict):
    """The way of an open order, as `progress.Way` has it."""

    order: str
    first: int
    nodes: Sequence[str]
    edges: Sequence[str]
    acts: list[ShownAct]


class ShownWait(TypedDict):
    """Which thing a vehicle waits for, and who holds it; `stands` says that it has come to the end
    of what is released to it."""

    kind: str
    name: str
    by: str
    stands: bool
    since: int


class ShownUrgency(TypedDict):
    """How urgent a job is, as `Urgency` has it."""

    due: int | None
    priority: int
    truck: str | None
    place: int


class ShownClosed(TypedDict):
    """A node or an edge that people have closed."""

    closed: bool


class Taken(TypedDict):
    """Who has taken an alarm on, and when."""

    who: str
    at: int


class ShownAlarm(TypedDict):
    """An alarm: the number of its row in the record, what it says, and who has taken it on."""

    n: int
    kind: str
    level: str
    values: Mapping[str, object]
    words: str
    todo: str
    since: int
    taken: Taken | None


class ShownWords(TypedDict):
    """What a vehicle says of itself, as `vehicle_words.Words` has it; `since` has the moments from
    which on it says so, `low` that its battery is low, and `at` when it said it."""

    mode: str | None
    stop: str | None
    field: bool | None
    battery: float | None
    charging: bool | None
    map: str | None
    connection: str | None
    position: tuple[float, float] | None
    errors: list[dict[str, object]]
    failed: list[dict[str, object]]
    since: dict[str, int]
    low: bool
    at: int


class DrawnLayout(TypedDict):
    """The layout: each node with its point, each edge with its ends, and each station with its node
    and how many loads it has room for. With a plan also how long a metre is, and where the picture
    lies."""

    nodes: list[tuple[str, float, float]]
    edges: list[tuple[str, str, str]]
    stations: list[tuple[str, str, int]]
    metre: NotRequired[float]
    picture: NotRequired[list[float] | None]


DESK: ShownKind[ShownDesk] = ShownKind('desk')
FAULT: ShownKind[ShownFault] = ShownKind('fault')
LAYOUT: ShownKind[DrawnLayout] = ShownKind('layout')
LOAD: ShownKind[ShownLoad] = ShownKind('load')
STATION: ShownKind[ShownStation] = ShownKind('station')
COUNTS: ShownKind[ShownCounts] = ShownKind('counts')
JOB: ShownKind[ShownJob] = ShownKind('job')
VEHICLE: ShownKind[ShownVehicle] = ShownKind('vehicle')
WAY: ShownKind[ShownWay] = ShownKind('way')
WAIT: ShownKind[ShownWait] = ShownKind('wait')
CIRCLES: ShownKind[list[list[str]]] = ShownKind('circles')
HOLD: ShownKind[str] = ShownKind('hold')  # by `node N1` or `edge E12`, the vehicle that holds it
WORDS: ShownKind[ShownWords] = ShownKind('said')
URGENCY: ShownKind[ShownUrgency] = ShownKind('urgency')
CLOSED: ShownKind[ShownClosed] = ShownKind('closed')
WHY: ShownKind[str] = ShownKind(
    'why'
)  # by vehicle or `job J1`, why it waits as the dispatcher says
ALARM: ShownKind[ShownAlarm] = ShownKind('alarm')
