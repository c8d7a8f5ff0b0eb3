"""What the random traffic sees of a model: its vehicles with their orders, and where loads and jobs
are."""
from __future__ import annotations

import json
from typing import Any

from tests.model.bodies import Stop
from tests.model.desk import Model
from tests.model.orders import OF_VEHICLE
from tests.model.tables import Key
from tests.support.calls import Call

Answer = tuple[int, Any]  # the status, and what is told: JSON, a text or None


class Vehicle:
    """A vehicle and its open order, as they are in a moment."""

    def __init__(self, model: Model, key: Key) -> None:
        row = model.vehicle(key)
        self.node: str = row['node']
        self.rest: str | None = row['rest_node']
        self.reported: str | None = row['reported']
        self.header: int | None = row['last_header']
        self.ready, self.pending = bool(row['ready']), row['pending']
        self.instants: int = row['instant_header']
        self.capacity, self.trip = model.capacity(key), model.trip(key)
        if self.trip:
            of = self.trip.row
            self.order: str = of['order_id']
            self.first, self.base, self.sent = of['first'], of['base'], of['sent']
            self.confirmed, self.seen = of['confirmed'], of['seen']
            self.edges, self.nodes = self.trip.edges, self.trip.nodes
            self.stops: list[Stop] = [(act['kind'], act['job']) for act in self.trip.acts]
            self.at: list[int] = [act['place_at'] for act in self.trip.acts]
            self.acts: list[str] = [act['status'] for act in self.trip.acts]
            self.names = [self.trip.action(act) for act in self.trip.acts]


class Sight:
    """What is seen of a model. A vehicle changes by no request but those that name it."""

    def __init__(self, model: Model) -> None:
        self.model = model
        self.serials: list[str] = []
        self.seen: dict[str, Vehicle] = {}

    def vehicle(self, serial: str) -> Vehicle:
        if serial not in self.seen:
            self.seen[serial] = Vehicle(self.model, ('KIT', serial))
        return self.seen[serial]

    def answer(self, call: Call, serial: str | None = None) -> Answer:
        """The model's answer to a call, which is of this vehicle: the status and what is told."""
        if serial is not None:
            self.seen.pop(serial, None)
        return told(self.model, call)

    def aboard(self, serial: str) -> list[str]:
        """The loads on a vehicle."""
        rows = self.model.base.execute(
            'SELECT id FROM load' + OF_VEHICLE + ' ORDER BY id', ('KIT', serial)
        )
        return [row['id'] for row in rows]

    def holder(self, kind: str, name: str) -> str | None:
        """The serial number of the vehicle that holds it, or none."""
        key = self.model.holder(kind, name)
        return key[1] if key else None

    def checking(self) -> list[str]:
        return self.ids("SELECT id FROM load WHERE kind = 'checking' ORDER BY id")

    def at_station(self, station: str) -> list[str]:
        return self.ids('SELECT id FROM load WHERE station = ? ORDER BY id', station)

    def free_loads(self) -> list[str]:
        """The loads at stations that have no live job."""
        return self.ids(
            "SELECT id FROM load WHERE station IS NOT NULL AND NOT EXISTS "
            "(SELECT 1 FROM job WHERE job.load = load.id AND phase IN ('waiting', 'riding'))"
        )

    def ids(self, question: str, *values: Any) -> list[str]:
        return [row['id'] for row in self.model.base.execute(question, values)]

    def has_room(self, station: str) -> bool:
        return self.model.room(station) > 0

    def on_streets(self) -> int:
        """How many vehicles stand at no bay; the names of bays begin with B."""
        return self.model.number("SELECT count(*) FROM vehicle WHERE node NOT BETWEEN 'B' AND 'C'")

    def still_waiting(self, jobs: list[str]) -> list[str]:
        """Those of the jobs that wait."""
        found = set(
            self.ids(
                (
                    "SELECT id FROM job WHERE phase = 'waiting' AND id IN"
                    f" ({', '.join('?' * len(jobs))})"
                ),
                *jobs,
            )
        )
        return [job for job in jobs if job in found]

    def ends(self, job: str) -> list[str]:
        """The nodes where a job begins and ends."""
        row = self.model.one('SELECT origin, target FROM job WHERE id = ?', job)
        return [self.model.layout.stations[station][0] for station in row]

    def is_used(self, order: str) -> bool:
        return self.model.is_used('order', order)


def told(model: Model, call: Call) -> Answer:
    """How a model answers: the status, and what is told, as `comparable` has it."""
    status, found, _, _ = model.answer(call.method, call.target, call.data)
    return comparable(status, found)


def comparable(status: int, found: Any) -> Answer:
    """An answer but for its timestamp, which is a matter of the clock; `found` is JSON, a text or
    none."""
    if isinstance(found, dict) and 'version' in found:
        found = {name: value for name, value in found.items() if name != 'timestamp'}
    return status, found


def read_answer(status: int, kind: str | None, data: bytes) -> Answer:
    """An answer of the program, as `comparable` has it."""
    if status == 204:
        return 204, data.decode() or None
    return comparable(status, json.loads(data) if kind == 'application/json' else data.decode())
