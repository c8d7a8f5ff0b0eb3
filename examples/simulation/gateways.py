"""The gateway of a simulated vehicle: it posts states and fetches messages, over a line that loses,
repeats and delays some."""
from __future__ import annotations

import json
import random
from collections.abc import Callable
from typing import Any

from nulvrader.desk.client import Desk, NoAnswer, Refused
from nulvrader.gateway.telemetry import TelemetrySender

from .clock import Clock
from .plan import Line
from .truth import Given
from .vehicles import Vehicle

AGAIN = 5.0
"""A message that no state has named is handed to the vehicle again after so many seconds."""


class Gateway:
    """The gateway of one vehicle. `refused` takes what the desk refuses."""

    def __init__(
        self,
        desk: Desk,
        clock: Clock,
        given: Given,
        line: Line,
        chance: random.Random,
        refused: Callable[[str], None],
    ) -> None:
        self.desk, self.clock, self.given, self.line, self.chance, self.refused = (
            desk,
            clock,
            given,
            line,
            chance,
            refused,
        )
        self.vehicle: Vehicle | None = None
        self.up = True
        self.life = 0  # counts its restarts: what was under way before one is lost
        self.handed: dict[
            tuple[str, int], float
        ] = {}  # when a message was last handed to the vehicle
        self.posted = 0
        self.words: TelemetrySender | None = None  # what tells a board what the vehicle says
        self.batteries: dict[str, float] = {}  # what the dispatcher is told of batteries

    def serve(self, vehicle: Vehicle) -> None:
        """Begins to serve this vehicle."""
        self.vehicle = vehicle
        self.clock.every(self.line.beat, self.tell, self.chance.uniform(0, self.line.beat))

    def restart(self, seconds: float) -> None:
        """Stops it for so long. It forgets what it had."""
        self.up, self.life, self.handed = False, self.life + 1, {}

        def back() -> None:
            self.up = True
            self.tell()

        self.clock.after(seconds, back)

    def carry(self, what: Callable[[], None]) -> None:
        """Lets a message go over the line."""
        if self.chance.randrange(100) < self.line.lost:
            return
        life = self.life
        for _ in range(2 if self.chance.randrange(100) < self.line.twice else 1):
            delay = self.chance.uniform(
                0, self.line.late if self.chance.randrange(50) == 0 else self.line.delay
            )
            self.clock.after(delay, lambda: what() if self.up and self.life == life else None)

    def tell(self) -> None:
        """Sends the vehicle's state."""
        if self.up and self.vehicle is not None:
            state, life = self.vehicle.state(), self.vehicle.life
            self.carry(lambda: self.post(state, life))

    def post(self, state: dict[str, Any], life: int) -> None:
        """Posts a state that the vehicle has made in this life of its own."""
        assert self.vehicle is not None
        self.posted += 1
        self.batteries[self.vehicle.name] = state['batteryState']['batteryCharge']
        if self.words is not None:
            self.words.state(self.vehicle.name, json.dumps(state).encode())
        try:
            if self.desk.post_state(self.vehicle.key, state) and life == self.vehicle.life:
                self.vehicle.posted = state['headerId']
        except Refused as refusal:
            self.refused(f'{self.vehicle.name}: {refusal.name}: {refusal}')
        except NoAnswer:
            pass

    def fetch(self, all_topics: bool) -> None:
        """Fetches the order, and the instant action too where all topics are to be fetched, and
        hands over what the vehicle has not named. One that has more to drive is not asked for in
        between."""
        if not self.up or self.vehicle is None or not (all_topics or self.vehicle.is_at_end()):
            return
        vehicle = self.vehicle
        try:
            order = self.desk.order_message(vehicle.key)
            instant: Any = self.desk.instant_actions(vehicle.key) if all_topics else None
        except (NoAnswer, Refused):
            return
        if order is not None:
            self.given.note(vehicle.name, order)
            if (order['orderId'], order['orderUpdateId']) != (vehicle.order, vehicle.update):
                self.hand('order', order, vehicle.take_order)
        if instant is not None and instant['headerId'] > vehicle.instant_header:
            self.hand('instant', instant, vehicle.take_instant)

    def hand(
        self, topic: str, message: dict[str, Any], take: Callable[[dict[str, Any]], None]
    ) -> None:
        number = topic, int(message['headerId'])
        if self.clock.now - self.handed.get(number, -AGAIN) >= AGAIN:
            self.handed[number] = self.clock.now
            self.carry(lambda: take(message))
