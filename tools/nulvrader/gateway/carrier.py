"""Carries messages between a desk and a broker, in turns."""
from __future__ import annotations

import json
import time
from collections.abc import Iterable, Sequence
from typing import Protocol

from ..desk.answers import refused
from ..desk.client import Answer, NoAnswer, Refused
from ..desk.errors import told
from ..desk.members import Members, read_object
from ..common.names import VehicleKey
from ..desk.states import Named, instant_for_vehicle, read_sent
from .vehicles import DeskCalls, DeskFleet
from .inbox import FRONT, Inbox, Message
from .log import Clock, Log, Say, Tally, say
from .owed import INSTANT, ORDER, Owed, read_message
from .telemetry import TelemetrySender
from .waiting import StateQueue, VehicleState

OLD = 3  # how many states in a row have to be old before it is logged
FAR = 1000  # a headerId so far below the one at the desk comes from a new count
CONNECTION = ('ONLINE', 'OFFLINE', 'CONNECTIONBROKEN')
OVERTAKEN = 'the desk has not answered in time'


class Publishes(Protocol):
    """A broker, as the gateway needs it."""

    connections: int  # how often it was connected to

    def publish(self, topic: str, data: bytes) -> bool:
        """Publishes a message, and returns whether it went out."""


class Gateway:
    """Carries messages between a desk and a broker, which puts what vehicles send into `inbox`."""

    def __init__(
        self,
        desk: DeskCalls,
        broker: Publishes,
        inbox: Inbox,
        vehicles: Iterable[str] = (),
        *,
        front: str = FRONT,
        instant_list: str = 'actions',
        telemetry: Sequence[TelemetrySender] = (),
        write: Say = say,
        clock: Clock = time.monotonic,
    ) -> None:
        self.desk, self.broker, self.inbox = desk, broker, inbox
        self.front, self.instant_list, self.clock = front, instant_list, clock
        self.telemetry = telemetry  # what sends boards and dispatchers the telemetry
        self.log = Log(write, clock)
        self.fleet = DeskFleet(desk, vehicles, self.log, clock)
        self.polled: dict[str, None] = {}  # the vehicles whose messages are fetched, in their turn
        self.waiting: dict[str, StateQueue] = {}  # by vehicle, its states until the desk has them
        self.named: dict[str, list[Named]] = {}  # by vehicle, what its last state names
        self.owed: dict[tuple[str, str], Owed] = {}  # by vehicle and topic, what was fetched last
        self.old: dict[str, int] = {}  # by vehicle, how many of its states in a row were old

    @property
    def tally(self) -> Tally:
        """The count of messages that were dropped."""
        return self.inbox.tally

    def turn(self) -> None:
        """Receives what has come, posts the states that wait, and fetches the messages of each
        vehicle once."""
        self.receive()
        for sender in self.telemetry:
            sender.turn()
        try:
            self.refresh_vehicles()
            for vehicle in list(self.waiting):
                self.post(vehicle)
            for vehicle in list(self.polled):
                self.fetch(vehicle, ORDER)
                self.fetch(vehicle, INSTANT)
                if vehicle in self.polled:  # it goes behind those that are still to be served
                    self.polled[vehicle] = self.polled.pop(vehicle)
            self.log.of('desk', 'answer', None)
        except NoAnswer as fault:
            self.log.of('desk', 'answer', f'the desk can not be reached: {fault}')
        self.tally.say_due()

    def refresh_vehicles(self) -> None:
        """Asks the desk for its vehicles, if that is due, and drops the messages of those that it
        doesn't have."""
        strangers = self.inbox.strangers()
        if self.fleet.refresh(strangers):
            for vehicle in self.polled.keys() - self.fleet.known:
                self.forget(vehicle)
            self.inbox.know(self.fleet.known)
            self.receive()
            self.inbox.drop(strangers)
            self.polled |= dict.fromkeys(sorted(self.fleet.named & self.fleet.known))

    def forget(self, vehicle: str) -> None:
        """Drops all that is kept of a vehicle that the desk does not have."""
        self.fleet.forget(vehicle)
        self.inbox.know(self.fleet.known)
        self.polled.pop(vehicle, None)
        self.waiting.pop(vehicle, None)
        self.named.pop(vehicle, None)
        self.old.pop(vehicle, None)
        for sender in self.telemetry:
            sender.forget(vehicle)
        for topic in (ORDER, INSTANT):
            self.owed.pop((vehicle, topic), None)
        self.log.once('vehicles', f'{vehicle}: the desk does not have this vehicle')

    def receive(self) -> None:
        """Takes the messages of the desk's vehicles from the inbox."""
        for message in self.inbox.take():
            thing = f'sent {message.kind}'
            try:
                if message.kind == 'connection':
                    self.receive_connection(message)
                else:
                    self.receive_state(message)
                self.log.of(message.vehicle, thing, None)
            except (ValueError, RecursionError) as fault:
                line = f'{message.vehicle}: {message.kind}: {fault}'
                self.log.of(message.vehicle, thing, line)

    def receive_state(self, message: Message) -> None:
        """Adds a state to those that wait for the desk."""
        state = VehicleState.read(message.data)
        for sender in self.telemetry:
            sender.state(message.vehicle, message.data)
        overtaken = self.waiting.setdefault(message.vehicle, StateQueue()).add(state)
        if overtaken:
            self.tally.count(OVERTAKEN, message.vehicle, overtaken)
        self.named[message.vehicle] = state.named
        for topic in (ORDER, INSTANT):
            owed = self.owed.get((message.vehicle, topic))
            if owed:
                owed.see(state.named)
        self.polled.setdefault(message.vehicle)

    def receive_connection(self, message: Message) -> None:
        """Logs whether the vehicle is connected. The desk takes no such message."""
        state = read_sent(message.data).get('connectionState')
        if state not in CONNECTION:
            raise ValueError('no connectionState')
        self.log.of(message.vehicle, 'connection', f'{message.vehicle}: {state}')
        for sender in self.telemetry:
            sender.connection(message.vehicle, str(state))

    def ask(
        self, vehicle: str, method: str, topic: str, body: bytes | None = None
    ) -> Answer | Refused:
        """Sends the desk one request for a vehicle. Returns the answer or the refusal, which is
        logged."""
        answer = self.desk.ask(method, f'/uagv/v2/{vehicle}/{topic}', body)
        if answer.status in (200, 204):
            self.log.of(vehicle, topic, None)
            return answer
        fault = refused(answer)
        if not isinstance(fault, Refused):
            raise fault
        if fault.name == 'NoVehicle':
            self.forget(vehicle)
        else:
            self.log.of(vehicle, topic, f'{vehicle}: {topic}: {told(fault)}')
        return fault

    def post(self, vehicle: str) -> None:
        """Posts the states of a vehicle that wait. A state stays if no desk answers, or if the desk
        answers with a fault of its machine."""
        while vehicle in self.waiting:
            waiting = self.waiting[vehicle]
            state = waiting.states[0]
            answer = self.ask(vehicle, 'POST', 'state', state.body)
            if isinstance(answer, Refused):
                if answer.is_fault():
                    return
            else:
                self.count_old(vehicle, state, is_old=not is_accepted(answer))
            waiting.states.pop(0)
            if not waiting.states:
                self.waiting.pop(vehicle, None)

    def count_old(self, vehicle: str, state: VehicleState, *, is_old: bool) -> None:
        """Counts the states in a row that are old, which change nothing at the desk, and logs it
        once there are several. Raises `NoAnswer`, and has not counted the state, if the desk does
        not answer what the line says of it."""
        count = self.old.get(vehicle, 0) + 1 if is_old else 0
        if count == OLD:
            self.log.once(vehicle, self.old_line(vehicle, state))
        self.old[vehicle] = count

    def old_line(self, vehicle: str, state: VehicleState) -> str:
        """Returns the line that is logged of states that are old. Asks the desk for the headerId
        that it has of the vehicle, and raises `NoAnswer` if none comes."""
        try:
            last = self.desk.vehicle(VehicleKey.parse(vehicle)).header
        except Refused:
            last = None
        line = f'{vehicle}: {OLD} states in a row are old for the desk: '
        line += f'the last has headerId {state.header}, and the desk has {last}. '
        call = f'tools/ask --desk {self.desk.address} resync {vehicle}'
        if last is None or state.header is None or last - state.header >= FAR:
            return (
                f'{line}The vehicle counts from the start again, or a forged state had a high '
                'number (docs/OPERATE.md, States that are old). This makes the desk accept them: '
                f'{call}'
            )
        return (
            f'{line}If this goes on, another gateway posts its states too, or it counts from the '
            f'start again; then this makes the desk accept them: {call}'
        )

    def fetch(self, vehicle: str, topic: str) -> None:
        """Fetches the last message of a topic, and publishes it if it is new or due again."""
        if vehicle not in self.polled:
            return
        answer = self.ask(vehicle, 'GET', topic)
        if isinstance(answer, Refused):
            return
        if answer.status == 204:
            self.owed.pop((vehicle, topic), None)
            return
        owed = self.owed.get((vehicle, topic))
        if not owed or owed.message.body != answer.body:
            owed = Owed(read_message(topic, vehicle, answer.body))
            self.owed[vehicle, topic] = owed
        owed.see(self.named.get(vehicle, []))
        if owed.is_due(self.clock(), self.broker.connections):
            self.publish(vehicle, topic, owed)

    def publish(self, vehicle: str, topic: str, owed: Owed) -> None:
        """Publishes a message. One that does not go out is published in a later turn."""
        data, connection = owed.message.body, self.broker.connections
        if topic == INSTANT and self.instant_list != 'actions':
            message = instant_for_vehicle(owed.message.members, self.instant_list)
            data = json.dumps(message, separators=(',', ':')).encode()
        if self.broker.publish(f'{self.front}/{vehicle}/{topic}', data):
            owed.at, owed.connection = self.clock(), connection


def is_accepted(answer: Answer) -> bool:
    """Whether the desk has accepted a state; else the state is old. Raises `NotADesk` where no desk
    answers so."""
    return Members(read_object(answer.body, True), True).flag('accepted')
