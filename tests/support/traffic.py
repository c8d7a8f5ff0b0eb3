"""What people, a dispatcher and the vehicles ask at random, each request with what the model of the
rules answers to it. Most of it is answered 200, and some is refused, as the rules say."""
from __future__ import annotations

from dataclasses import dataclass, field
from typing import Any

from tests.model.bodies import FINAL
from tests.support import calls
from tests.support.sight import Vehicle
from tests.support.traffic_orders import Dispatcher
from tests.support.traffic_requests import Exchange


@dataclass
class Report:
    """What a vehicle reports: its order, the node at which it stands, the update and the place on
    the way, the statuses of its acts, those of all actions by their ids, and the places to come."""

    order: str
    node: str
    k: int = 0
    update: int = 0
    acts: list[str] = field(default_factory=list)
    listed: list[tuple[str, str]] = field(default_factory=list)
    rest: range = range(0)


def way_left(vehicle: Vehicle, rest: range) -> dict[str, list[dict[str, Any]]]:
    """Returns the members of a state that say which nodes and edges are to come."""
    return {
        'nodeStates': [
            {'nodeId': vehicle.nodes[at], 'released': at <= vehicle.base, 'sequenceId': 2 * at}
            for at in rest
        ],
        'edgeStates': [
            {'edgeId': vehicle.edges[at], 'released': at < vehicle.base, 'sequenceId': 2 * at + 1}
            for at in rest[:-1]
        ],
    }


class Traffic(Dispatcher):
    """The traffic as a whole: whose turn it is, and what the vehicles report."""

    def next(self) -> Exchange:
        turn = self.chance.random()
        if turn < 0.5:
            return self.state(self.choose(self.has_news))
        if turn < 0.8:
            return self.dispatch(self.choose(self.may_go_on))
        serial = self.choose(lambda _: True)
        if self.happens(0.01):
            return self.anew(serial)
        if turn < 0.9:
            return self.store()
        return self.ask(serial)

    def anew(self, serial: str) -> Exchange:
        """The layout or a vehicle once more, or one that the desk can't have."""
        if self.happens(0.3):
            return self.asked(calls.layout(self.streets.rows()))
        node = self.chance.choice(self.streets.nodes) if self.happens(0.8) else 'none'
        if self.happens(0.5):
            return self.register(serial, node, 1)
        return self.register(self.name('V'), node, self.chance.choice((0, 5)))

    def state(self, serial: str) -> Exchange:
        """Returns what the vehicle reports next. Now and then it sends its last message again, or
        begins to count anew."""
        if serial in self.before and self.happens(0.05):
            return self.asked(self.before[serial], serial)
        if self.happens(0.002):
            self.headers[serial] = 0
        vehicle = self.sight.vehicle(serial)
        report = self.report(vehicle)
        self.headers[serial] += 1
        self.before[serial] = calls.state(
            self.headers[serial],
            report.order,
            report.update,
            report.node,
            2 * report.k,
            report.listed,
            serial,
            paused=self.happens(0.1),
            **way_left(vehicle, report.rest),
            **self.health(report.acts),
        )
        return self.asked(self.before[serial], serial)

    def report(self, vehicle: Vehicle) -> Report:
        """Returns where the vehicle is next and what has become of its actions; some of it is
        wrong at times."""
        chance = self.chance
        over = (
            chance.choice(('RUNNING', 'FINISHED', 'FINISHED', 'FAILED'))
            if chance.random() < 0.5
            else None
        )
        listed = [(f'instant-{vehicle.instants}', over)] if vehicle.pending and over else []
        found = Report(vehicle.reported or '', chance.choice((vehicle.node, vehicle.node, '')))
        found.listed = listed
        if vehicle.trip:
            found.order = vehicle.order
            found.k, found.update, found.acts = self.progress(vehicle, over)
            found.node = vehicle.nodes[found.k]
            found.listed = list(zip(vehicle.names, found.acts)) + listed
            found.rest = range(found.k + 1, len(vehicle.nodes))
            if found.k == 0 and self.happens(0.2):
                found.node, found.rest = '', range(len(vehicle.nodes))
        if found.listed and self.happens(0.01):
            found.listed.append(chance.choice(found.listed))
        if self.happens(0.01):
            found.node = chance.choice(self.streets.nodes)
        if self.happens(0.01):
            found.order = self.name('X')
        return found

    def health(self, acts: list[str]) -> dict[str, Any]:
        """Returns the members of a state that say whether the vehicle can drive."""
        return {
            'operatingMode': self.chance.choice(('AUTOMATIC',) * 60 + ('SEMIAUTOMATIC', 'MANUAL')),
            'errors': [
                {
                    'errorType': 'orderError',
                    'errorLevel': self.chance.choice(('WARNING', 'WARNING', 'FATAL')),
                }
                for status in acts
                if status == 'FAILED' and self.happens(0.1)
            ],
            'safetyState': {
                'eStop': 'NONE' if not self.happens(0.01) else 'AUTOACK',
                'fieldViolation': False,
            },
        }

    def progress(self, vehicle: Vehicle, over: str | None) -> tuple[int, int, list[str]]:
        """The node to which a vehicle has come on its way, the update that it names, and the
        statuses of its acts."""
        chance, update, k, acts = self.chance, vehicle.sent, vehicle.seen, list(vehicle.acts)
        if vehicle.confirmed is not None and self.happens(0.1):
            update = vehicle.confirmed
        if vehicle.pending == 'cancelOrder' and over == 'FINISHED':
            left = 'RUNNING' if self.happens(0.1) else 'FAILED'
            acts = [act if act in FINAL else left for act in acts]
        else:
            k = self.drive(
                vehicle, k, vehicle.base if update == vehicle.sent else vehicle.first, acts
            )
        if self.happens():
            k, update = chance.randint(0, len(vehicle.edges)), chance.randint(0, vehicle.sent + 1)
        if acts and self.happens(0.01):
            acts[chance.randrange(len(acts))] = chance.choice(('WAITING', 'FINISHED'))
        return k, update, acts

    def drive(self, vehicle: Vehicle, k: int, base: int, acts: list[str]) -> int:
        """The node that the vehicle comes to, at most the `base`, where it does the next of its
        actions; mostly one step of these, now and then several. A drop fails where its pick has."""
        chance = self.chance
        while True:
            n = next((n for n, act in enumerate(acts) if act not in FINAL), None)
            goal = len(vehicle.edges) if n is None else vehicle.at[n]
            if k < goal:
                k = chance.randint(min(k + 1, base, goal), min(base, goal)) if k < base else k
            elif n is not None:
                kind, job = vehicle.stops[n]
                failed = kind == 'drop' and acts[vehicle.stops.index(('pick', job))] == 'FAILED'
                failed = self.happens() if not failed else not self.happens(0.3)
                acts[n] = (
                    'FAILED' if failed else chance.choice(('RUNNING', 'PAUSED') + ('FINISHED',) * 5)
                )
            if not self.happens(0.2):
                return k
