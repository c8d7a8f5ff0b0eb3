"""A simulated vehicle: it takes order messages and instant actions, drives and acts in time, and
tells its state. What it does is done to the truth of the plant."""
from __future__ import annotations

import random
from collections.abc import Callable
from typing import Any

from nulvrader.common.names import VehicleKey

from .batteries import Battery
from .clock import Clock
from .plan import Nature
from .truth import Given, Goods, Track, Wrong

OVER = ('FINISHED', 'FAILED')


class Vehicle:
    """A vehicle on a node. `tell` is called whenever its state has changed, so that its gateway
    posts it. `failed` gets the acts that fail."""

    def __init__(
        self,
        key: VehicleKey,
        node: str,
        clock: Clock,
        track: Track,
        goods: Goods,
        given: Given,
        failed: set[str],
        metres: dict[str, float],
        nature: Nature,
        chance: random.Random,
        tell: Callable[[], None],
    ) -> None:
        self.key, self.name = key, str(key)
        self.clock, self.track, self.goods = clock, track, goods
        self.given, self.failed, self.metres = given, failed, metres
        self.nature, self.chance, self.tell = nature, chance, tell
        self.node, self.sequence = node, 0
        self.order, self.update = '', 0
        self.nodes: dict[int, dict[str, Any]] = {}  # of its order, by sequenceId
        self.edges: dict[int, dict[str, Any]] = {}
        self.statuses: dict[str, str] = {}
        self.missed: set[str] = set()  # the loads whose pick in its order has failed
        self.instant: tuple[str, str] | None = None  # the last instant action and its status
        self.order_header = self.instant_header = -1  # of the last messages that it took
        self.header = 0
        self.paused = False
        # the id of a cancelOrder that it carries out once it stands
        self.cancelling: str | None = None
        self.in_service = False
        self.by_hand = False
        self.stopped = False  # whether its emergency stop is pressed
        self.faults: list[dict[str, Any]] = []  # errors that it has besides
        self.battery = Battery(nature.battery, nature.charge, chance.uniform(0.3, 1.0))
        self.turn = 0  # what was to happen before the last call of `stop` does not happen
        self.driven = 0.0
        self.last_moved = 0.0
        self.life = 0  # counts its restarts
        self.restarted: float | None = None  # when it was restarted, until a person has placed it
        self.services = 0  # how often its battery was empty
        self.posted = -1  # the number of the last state that the desk has accepted
        # by load that it has picked or put down the number of the last state before that
        self.moved: dict[str, int] = {}
        # the orders that were cancelled or cleared: a late update of one is passed over
        self.dropped: set[str] = set()
        track.put(self.name, node)

    # Messages.

    def take_order(self, message: dict[str, Any]) -> None:
        """Takes an order message: a new order where it has none, or more of the one that it has.
        One that is older than another that it had is passed over."""
        is_known = message['headerId'] <= self.order_header or message['orderId'] in self.dropped
        if is_known or self.by_hand or self.restarted is not None:
            return
        if message['orderId'] != self.order:
            if (
                not self.is_done()
                or self.cancelling is not None
                or message['nodes'][0]['nodeId'] != self.node
                or self.node_is_left()
            ):
                return
            self.nodes, self.edges, self.statuses, self.missed, self.sequence = {}, {}, {}, set(), 0
        self.order_header = message['headerId']
        self.order, self.update = message['orderId'], message['orderUpdateId']
        for node in message['nodes']:
            self.nodes[node['sequenceId']] = node
            for action in node['actions']:
                self.statuses.setdefault(action['actionId'], 'WAITING')
        for edge in message['edges']:
            self.edges[edge['sequenceId']] = edge
        self.tell()
        self.go_on()

    def take_instant(self, message: dict[str, Any]) -> None:
        if message['headerId'] <= self.instant_header or self.by_hand:
            return
        self.instant_header = message['headerId']
        action = message['actions'][0]
        name, kind = action['actionId'], action['actionType']
        if kind == 'cancelOrder':
            self.instant = (name, 'RUNNING')
            self.cancelling = name
            if not self.node_is_left():
                self.finish_cancel()
        else:
            self.paused = kind == 'startPause'
            self.instant = (name, 'FINISHED')
            self.tell()
            self.go_on()

    def finish_cancel(self) -> None:
        """Drops the order, where it stands."""
        assert self.cancelling is not None
        self.stop()
        had = not self.is_done()
        self.drop_order()
        for name, status in self.statuses.items():
            if status not in OVER:
                self.statuses[name] = 'FAILED'
        self.nodes = {at: node for at, node in self.nodes.items() if at <= self.sequence}
        self.instant = (self.cancelling, 'FINISHED' if had else 'FAILED')
        self.cancelling = None
        self.tell()

    def drop_order(self) -> None:
        """Drops the track of its order."""
        self.dropped.add(self.order)
        self.given.take_back(self.name, self.order)

    # Driving and acting.

    def node_is_left(self) -> bool:
        """Whether it drives along an edge."""
        return self.name in self.track.on

    def is_done(self) -> bool:
        """Whether it has no order, or has carried it out."""
        return all(at <= self.sequence for at in self.nodes) and all(
            status in OVER for status in self.statuses.values()
        )

    def goes_on(self) -> bool:
        """Whether it is ready and is not paused; whether the desk hears its states is not looked at
        here."""
        is_held = self.paused or self.in_service or self.by_hand or self.stopped
        return not is_held and self.restarted is None

    def is_acting(self) -> bool:
        return 'RUNNING' in self.statuses.values()

    def open_loads(self) -> set[str]:
        """Returns the loads that it still has to pick or put down."""
        actions = [
            action
            for node in self.nodes.values()
            for action in node['actions']
            if self.statuses[action['actionId']] not in OVER
        ]
        return {_said(action)['loadId'] for action in actions}

    def has_told(self, load: str) -> bool:
        """Whether the desk has a state from after its last move of this load."""
        return self.posted > self.moved.get(load, -1)

    def is_at_end(self) -> bool:
        """Whether at most one released edge is left to it, the one that it drives along."""
        return not self.is_released(self.sequence + (4 if self.node_is_left() else 2))

    def is_released(self, number: int) -> bool:
        """Whether its order has a node of this number, and it is released."""
        return number in self.nodes and bool(self.nodes[number]['released'])

    def stop(self) -> None:
        """Drops what it was about to finish."""
        self.turn += 1

    def later(self, seconds: float, what: Callable[[], None]) -> None:
        turn = self.turn
        self.clock.after(seconds, lambda: what() if turn == self.turn else None)

    def go_on(self) -> None:
        """Begins what comes next: an action where it stands, or the next released edge."""
        if (
            self.paused
            or self.in_service
            or self.by_hand
            or self.stopped
            or self.node_is_left()
            or self.cancelling is not None
        ):
            return
        if self.is_done():
            self.given.take_back(self.name, self.order)
        here = self.nodes.get(self.sequence)
        for action in here['actions'] if here else []:
            status = self.statuses[action['actionId']]
            if status == 'RUNNING':
                return
            if status == 'WAITING':
                self.act(action)
                return
        if self.battery.left <= 0:
            self.begin_service()
            return
        if self.is_released(self.sequence + 2):
            self.drive()

    def drive(self) -> None:
        number = self.sequence + 1
        edge = self.edges[number]['edgeId']
        self.given.check(self.name, self.order, number, edge)
        self.track.leave(self.name, edge)
        self.last_moved = self.clock.now
        self.stop()
        self.later(
            self.metres[edge] / self.nature.speed * self.chance.uniform(0.9, 1.2), self.arrive
        )

    def arrive(self) -> None:
        self.driven += self.metres[self.track.on[self.name]]
        self.battery.left -= self.metres[self.track.on[self.name]]
        self.node = self.track.arrive(self.name)
        self.sequence += 2
        self.last_moved = self.clock.now
        if self.cancelling is not None:
            self.finish_cancel()
            return
        self.tell()
        self.go_on()

    def act(self, action: dict[str, Any]) -> None:
        name = action['actionId']
        self.statuses[name] = 'RUNNING'
        self.tell()
        self.stop()
        self.later(self.chance.uniform(*self.nature.action), lambda: self.finish(action))

    def finish(self, action: dict[str, Any]) -> None:
        """Ends a pick or a drop, each of which fails at times. A load that is not where it is to be
        picked is wrong. So is one that is to be put down and is not on the vehicle, but where its
        pick in this order has failed: then the drop fails too."""
        name, said = action['actionId'], _said(action)
        load, station = said['loadId'], said['stationName']
        places = ['station ' + station, 'vehicle ' + self.name]
        is_pick = action['actionType'] == 'pick'
        start, finish = places if is_pick else places[::-1]
        is_there = self.goods.has(load, start)
        if self.goods.alone and not is_there and (is_pick or load not in self.missed):
            told = (
                '%s is to pick %s at %s, which is not there'
                if is_pick
                else '%s is to put down %s at %s, and does not carry it'
            )
            raise Wrong(told % (self.name, load, station))
        if self.chance.randrange(1000) < self.nature.failing or not is_there:
            self.statuses[name] = 'FAILED'
            self.failed.add(name)
            if is_pick:
                self.missed.add(load)
        else:
            self.goods.move(load, start, finish)
            self.moved[load] = self.header
            if not is_pick:
                self.goods.drops[name] = load, station
            self.statuses[name] = 'FINISHED'
        self.last_moved = self.clock.now
        self.tell()
        self.go_on()

    def begin_service(self) -> None:
        """Its battery is empty: it is out of service until a person has changed it."""
        self.in_service = True
        self.services += 1
        self.tell()
        self.clock.after(self.nature.service, self.end_service)

    def end_service(self) -> None:
        self.in_service, self.battery.left = False, self.nature.battery
        self.last_moved = self.clock.now
        self.tell()
        self.go_on()

    def stand_at_charger(self, seconds: float, is_there: bool) -> None:
        """Lets so many seconds go by, in which its battery is charged if it stands at a charger."""
        if self.battery.stand(seconds, is_there and self.is_done() and self.goes_on()):
            self.tell()

    def press_stop(self, seconds: float) -> None:
        """Presses its emergency stop, while it stands, until somebody acknowledges it later."""
        self.stopped = True
        self.tell()
        self.clock.after(seconds, self.end_stop)

    def end_stop(self) -> None:
        self.stopped = False
        self.last_moved = self.clock.now
        self.tell()
        self.go_on()

    def mode(self) -> str:
        """Returns its operating mode."""
        return 'SERVICE' if self.in_service else 'MANUAL' if self.by_hand else 'AUTOMATIC'

    def errors(self) -> list[dict[str, Any]]:
        """Returns what is wrong with it, as its states say it."""
        found = list(self.faults)
        if self.in_service:
            text = f'battery empty at {self.node}, it has to be changed'
            found.append(_error('batteryEmpty', 'FATAL', text, 'nodeId', self.node))
        if self.stopped:
            text = f'emergency stop pressed at {self.node}'
            found.append(_error('emergencyStop', 'FATAL', text, 'nodeId', self.node))
        for name, status in self.statuses.items():
            if status == 'FAILED' and name in self.failed:
                found.append(_error('actionFailed', 'WARNING', 'no grip', 'actionId', name))
        return found

    def clear(self) -> None:
        """Has a person clear the order on it."""
        self.stop()
        self.drop_order()
        self.nodes, self.edges, self.statuses, self.missed, self.sequence = {}, {}, {}, set(), 0
        self.order, self.update, self.cancelling = '', 0, None
        self.instant = None

    def may_restart(self) -> bool:
        """Whether it has an order, stands, and the desk knows all that it has moved: nobody has to
        look for loads then."""
        busy = (
            self.by_hand
            or self.in_service
            or self.node_is_left()
            or self.is_acting()
            or self.cancelling is not None
        )
        return not busy and not self.is_done() and all(self.has_told(load) for load in self.moved)

    def restart(self) -> None:
        """Has it lose its order, and count its states from the start again."""
        self.clear()
        self.paused, self.header, self.posted, self.moved = False, 0, -1, {}
        self.life += 1
        self.restarted = self.clock.now
        self.tell()

    # Its state.

    def nodes_ahead(self) -> list[dict[str, Any]]:
        """Returns the nodes of its order that it has not reached, as a state lists them."""
        ahead = (self.nodes[at] for at in sorted(self.nodes) if at > self.sequence)
        names = 'nodeId', 'sequenceId', 'released'
        return [{name: node[name] for name in names} for node in ahead]

    def state(self) -> dict[str, Any]:
        """Returns the next state message."""
        self.header += 1
        actions = [
            {'actionId': name, 'actionStatus': status} for name, status in self.statuses.items()
        ]
        if self.instant:
            actions.append({'actionId': self.instant[0], 'actionStatus': self.instant[1]})
        days, seconds = divmod(int(self.clock.now), 86400)
        clock = f'{seconds // 3600:02d}:{seconds // 60 % 60:02d}:{seconds % 60:02d}'
        return {
            'headerId': self.header,
            'timestamp': f'2026-01-{1 + days:02d}T{clock}.00Z',
            'version': '2.0.0',
            'manufacturer': self.key.manufacturer,
            'serialNumber': self.key.serial,
            'orderId': self.order,
            'orderUpdateId': self.update,
            'lastNodeId': self.node,
            'lastNodeSequenceId': self.sequence,
            'driving': self.node_is_left(),
            'paused': self.paused,
            'nodeStates': self.nodes_ahead(),
            'edgeStates': [],
            'actionStates': actions,
            'batteryState': self.battery.state(),
            'operatingMode': self.mode(),
            'errors': self.errors(),
            'safetyState': {'eStop': 'MANUAL' if self.stopped else 'NONE', 'fieldViolation': False},
        }


def _error(kind: str, level: str, text: str, refers: str, to: str) -> dict[str, Any]:
    """Returns an error of a state."""
    references = [{'referenceKey': refers, 'referenceValue': to}]
    told = {'errorType': kind, 'errorLevel': level, 'errorDescription': text}
    return {**told, 'errorReferences': references}


def _said(action: dict[str, Any]) -> dict[str, str]:
    """Returns the parameters of a pick or a drop."""
    return {pair['key']: pair['value'] for pair in action['actionParameters']}
