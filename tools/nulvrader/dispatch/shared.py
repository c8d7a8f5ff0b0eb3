"""What the parts of a dispatcher share, and what they know in one turn."""
from __future__ import annotations

from collections.abc import Sequence
from dataclasses import dataclass, field

from ..desk.client import Desk, Refused
from .closures import Closures
from .job_book import JobBook
from .judge import Judge
from .lines import Lines
from .memory import Memory
from .routes import Ways
from .snapshot import Seen, Snapshot
from .traffic import Traffic


@dataclass(frozen=True)
class Settings:
    """`ahead`: so many edges are held before a vehicle at most. `detour`: so many edges may an
    order become longer by a further job. `silent`: a vehicle with an order that has sent no state
    for so many seconds is not counted on. `told`: a wait is told after so many seconds."""

    ahead: int = 2
    detour: int = 8
    silent: float = 30.0
    told: float = 15.0


@dataclass(frozen=True)
class Shared:
    """The desk, what is remembered of its vehicles and waiting jobs, and what decides and tells."""

    desk: Desk
    settings: Settings
    ways: Ways
    judge: Judge
    lines: Lines
    memory: dict[str, Memory] = field(default_factory=dict)
    book: JobBook = field(default_factory=JobBook)

    def say(self, line: str) -> None:
        self.lines.say(line)

    def tell_refusal(self, vehicle: Seen, what: str, refusal: Refused) -> None:
        """Says that the desk refuses something, or raises the refusal again if it is a fault of the
        desk."""
        if refusal.is_fault():
            raise refusal
        self.lines.once('refusal ' + vehicle.name, f'{vehicle.name}: {what}: {refusal}')

    def cancel(self, vehicle: Seen, why: str) -> bool:
        """Cancels the order of a vehicle, and says which one and why. Returns False where the desk
        refuses that."""
        memory = self.memory[vehicle.name]
        order = f'order {vehicle.row.order}, {told_of(memory, vehicle)}'
        self.say(f'{vehicle.name}: cancels {order}{why}')
        try:
            self.desk.cancel(vehicle.row.key)
        except Refused as refusal:
            self.tell_refusal(vehicle, 'its order is not cancelled', refusal)
            return False
        memory.cancelled = True
        return True

    def no_refusal(self, vehicle: Seen) -> None:
        """Notes that the desk has done what it was asked for a vehicle."""
        self.lines.once('refusal ' + vehicle.name, None)


@dataclass
class Turn:
    """What is known in one turn, which each release and order changes: what was seen at its
    beginning, and when that was; what the vehicles hold and have before them; who has each node and
    edge, as `node N7`; what is closed; and why vehicles and jobs wait."""

    seen: Snapshot
    now: float
    traffic: Traffic
    held: dict[str, str]
    reasons: dict[str, str] = field(default_factory=dict)

    @property
    def closed(self) -> Closures:
        return self.traffic.closed

    def start(self, vehicle: str, way: Sequence[str], edges: int) -> None:
        """Notes that a vehicle was given an order along this way, with so many edges."""
        self.traffic = self.traffic.started(vehicle, way).released(vehicle, edges)
        self.held.update({'node ' + node: vehicle for node in way[: edges + 1]})


def told_of(memory: Memory, seen: Seen) -> str:
    """Returns what an order is for: its jobs, or where its drive leads."""
    if seen.order is not None and seen.order.is_drive():
        return f'a drive to {seen.order.nodes[-1].name}'
    return 'of ' + (', '.join(one.job for one in memory.jobs) or 'jobs that are not known')


def held_in(seen: Snapshot) -> dict[str, str]:
    """Returns the vehicle of each node and edge that is held."""
    return {f'{kind} {name}': str(key) for (kind, name), key in seen.holds.holders().items()}
