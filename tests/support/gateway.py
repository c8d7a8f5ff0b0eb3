"""What stands on both sides of a gateway in the tests: a broker, a vehicle on it, a desk, and
the messages that the desk has."""
from __future__ import annotations

import json
import unittest
import unittest.mock
from collections.abc import Callable, Collection, Sequence
from typing import Any

from nulvrader.common.names import VehicleKey
from nulvrader.desk import client, exports
from nulvrader.desk.client import Answer, NoAnswer
from nulvrader.gateway import carrier, inbox, log
from tests.support.gateway_states import STATE
from tests.support.programs import module

vehicle = module('vehicle', 'examples')


class StandIn:
    """A broker within the test: what vehicles send goes into an inbox; what is published is kept.
    It may refuse a message, and so many that it takes next may be lost on their way."""

    def __init__(self, box: inbox.Inbox) -> None:
        self.inbox = box
        self.published: list[tuple[str, bytes]] = []
        self.connections, self.refuses, self.loses = 1, False, 0

    def publish(self, topic: str, data: bytes) -> bool:
        if not self.refuses and not self.loses:
            self.published.append((topic, data))
        self.loses = max(0, self.loses - 1)
        return not self.refuses

    def of_topic(self, name: str) -> list[bytes]:
        return [data for topic, data in self.published if topic == 'uagv/v2/KIT/0001/' + name]


class OnBroker:
    """Stands in the place of a desk for the simulated vehicle of examples/: it gives the vehicle
    the last messages that were published, and adds positions and fractions to its states."""

    def __init__(self, broker: StandIn) -> None:
        self.broker = broker

    def ask(self, method: str, target: str, body: bytes | None = None) -> Answer:
        if method == 'GET':
            sent = self.broker.of_topic(target.split('/')[-1])
            return Answer(200, sent[-1]) if sent else Answer(204, b'')
        state = dict(
            json.loads(body or b''),
            agvPosition=STATE['agvPosition'],
            velocity=STATE['velocity'],
            batteryState=STATE['batteryState'],
            distanceSinceLastNode=1.25,
            edgeStates=STATE['edgeStates'],
        )
        for node in state['nodeStates']:
            node['nodePosition'] = STATE['nodeStates'][0]['nodePosition']
        self.broker.inbox.put(target[1:], json.dumps(state).encode())
        return Answer(200, b'')


def vehicle_on(broker: StandIn, node: str) -> Any:
    """Returns a simulated vehicle on the broker."""
    return vehicle.Vehicle(OnBroker(broker), 'KIT', '0001', node)


ACCEPTED, OLD = Answer(200, b'{"accepted":true}'), Answer(200, b'{"accepted":false}')


class StandInDesk:
    """A desk within the test: the vehicles that it has; what it has for each of them by topic; what
    states it was told, and what it answers these; and how often it was asked which vehicles it
    has. A test may give it another function that answers, or another export of vehicles."""

    address = '127.0.0.1:8080'

    def __init__(self, *vehicles: str) -> None:
        self.fleet = list(vehicles or ('KIT/0001', 'KIT/0002', 'KIT/0003'))
        self.has: dict[str, dict[str, Any]] = {}
        self.told: list[tuple[str, int]] = []
        self.looks = self.asked = 0
        self.answer, self.is_down, self.header = ACCEPTED, False, 5000
        self.other: Callable[[str, str, bytes | None], Answer] | None = None
        self.other_export: bytes | None = None

    def ask(self, method: str, target: str, body: bytes | None = None) -> Answer:
        return (self.other or self.own)(method, target, body)

    def own(self, method: str, target: str, body: bytes | None) -> Answer:
        """Answers as a desk that has these vehicles and messages."""
        self.asked += 1
        if self.is_down:
            raise NoAnswer('no desk', False)
        name = '/'.join(target.split('/')[3:5])
        if name not in self.fleet:
            return Answer(404, b'{"name":"NoVehicle","refusal":20}')
        if method == 'POST':
            self.told.append((target, json.loads(body or b'')['headerId']))
            return self.answer
        message = self.has.get(target.split('/')[-1])
        if message is None:
            return Answer(204, b'')
        return Answer(200, json.dumps(dict(message, **key_of(name))).encode())

    def vehicles(self) -> Collection[VehicleKey]:
        if self.other_export is not None:
            return exports.read_vehicles(self.other_export)
        self.looks += 1
        if self.is_down:
            raise NoAnswer('no desk', False)
        rows = [
            f'{name.replace("/", ",")},N{number},1,true,false,false,,,,,,,,,,'
            for number, name in enumerate(sorted(self.fleet))
        ]
        lines = [exports.VEHICLES_HEADER, *rows]
        return exports.read_vehicles(''.join(f'{line}\n' for line in lines).encode())

    def vehicle(self, key: VehicleKey) -> client.Vehicle:
        return client.Vehicle(key, 'N1', 1, True, False, False, None, None, None, None, self.header)


def key_of(name: str) -> dict[str, str]:
    """The members of a message that name a vehicle."""
    manufacturer, serial = name.split('/')
    return {'manufacturer': manufacturer, 'serialNumber': serial}


def order(name: str = 'O1', update: int = 0) -> dict[str, Any]:
    """The members of an order message but for the vehicle: L1 is brought from N1 to N2."""
    stops = []
    for number, (kind, station) in enumerate((('pick', 'A'), ('drop', 'B'))):
        parameters = [{'key': 'loadId', 'value': 'L1'}, {'key': 'stationName', 'value': station}]
        stops.append(
            {'actionId': f'{name}.{number}', 'actionType': kind, 'actionParameters': parameters}
        )
    nodes = [
        {'nodeId': f'N{number}', 'released': True, 'actions': [act]}
        for number, act in enumerate(stops, 1)
    ]
    edge = {'edgeId': 'E12', 'startNodeId': 'N1', 'endNodeId': 'N2', 'released': True}
    return {
        'headerId': update + 1,
        'orderId': name,
        'orderUpdateId': update,
        'nodes': nodes,
        'edges': [edge],
    }


def drive(name: str = 'G1') -> dict[str, Any]:
    """The members of the message of a drive from N1 to N2, but for the vehicle."""
    told = order(name)
    return {**told, 'nodes': [{**node, 'actions': []} for node in told['nodes']]}


def instant(number: int = 1) -> dict[str, Any]:
    return {
        'headerId': number,
        'actions': [{'actionId': f'instant-{number}', 'actionType': 'startPause'}],
    }


class BetweenStandIns(unittest.TestCase):
    """A gateway between a stand-in broker and a stand-in desk, whose clock the test has."""

    def setUp(self) -> None:
        self.desk, self.now = StandInDesk(), 1000.0
        self.said: list[str] = []
        self.gateway = self.new_gateway()

    def clock(self) -> float:
        return self.now

    def new_gateway(
        self, vehicles: Sequence[str] = (), front: str = 'uagv/v2', **words: Any
    ) -> carrier.Gateway:
        self.box = inbox.Inbox(log.Tally(self.said.append, self.clock), front)
        self.broker = StandIn(self.box)
        return carrier.Gateway(
            self.desk,
            self.broker,
            self.box,
            vehicles,
            front=front,
            write=self.said.append,
            clock=self.clock,
            **words,
        )

    def come(self, vehicle: str = 'KIT/0001', **members: Any) -> None:
        """A state comes."""
        self.box.put(f'uagv/v2/{vehicle}/state', json.dumps(dict(STATE, **members)).encode())

    def turn(self, seconds: float = 0.0) -> None:
        self.now += seconds
        self.gateway.turn()

    def count(self, topic: str, rows: list[tuple[float, dict[str, Any] | None, int]]) -> None:
        """For each row some seconds pass, and a state with these members comes, or none; so often
        was a message published on the topic by then."""
        for number, (seconds, members, wanted) in enumerate(rows):
            if members is not None:
                self.come(**members)
            self.turn(seconds)
            self.assertEqual(len(self.broker.of_topic(topic)), wanted, f'row {number}')
