"""A sketch of a plant in which batteries drain while vehicles drive and act, and charge while they
stand at a charger without an order."""
from __future__ import annotations

from collections.abc import Collection, Mapping

from nulvrader.dispatch.chargers import Marks
from nulvrader.dispatch.shared import Settings

from .floors import Floor
from .sketch import Sketch
from .sketched import Car, OverASketch

SERVICE = 90.0
"""A vehicle whose battery is empty stands for so many seconds, until a person has changed it."""


LASTS, TAKES = 1200.0, 300.0
"""A battery lasts so many seconds of driving and acting, and a charger fills it in so many."""


class Charged(Sketch):
    """A sketch with batteries, which are full at first. `lies` has what some vehicles say of theirs
    instead. Where `knows` is false, the dispatcher has no chargers."""

    def __init__(
        self, floor: Floor, vehicles: int, loads: int, lies: Mapping[str, float], knows: bool
    ) -> None:
        super().__init__(floor, vehicles, loads)
        self.charge = dict.fromkeys(self.cars, 100.0)
        self.least = dict(self.charge)
        self.lies = lies
        self.dispatcher = OverASketch(
            self,
            self.map,
            Settings(silent=1e9),
            chargers={node: frozenset() for node in floor.chargers} if knows else {},
            marks=Marks(),
            batteries=self.told,
            say=lambda line: None,
            clock=lambda: self.clock.now,
        )

    def told(self, vehicles: Collection[str]) -> Mapping[str, float]:
        """Returns what vehicles say of their batteries."""
        return {name: self.lies.get(name, self.charge[name]) for name in vehicles}

    def charging(self) -> list[str]:
        """Returns the vehicles that stand at a charger without an order."""
        cars = self.cars.values()
        return [one.name for one in cars if one.trip is None and one.node in self.floor.chargers]

    def measure(self) -> None:
        """Measures the plant, and charges and drains the batteries by a second."""
        super().measure()
        for name in self.charging():
            self.charge[name] = min(100.0, self.charge[name] + 100 / TAKES)
        for car in self.cars.values():
            if car.busy:
                self.charge[car.name] -= 100 / LASTS
                self.least[car.name] = min(self.least[car.name], self.charge[car.name])
            if self.charge[car.name] <= 0 and not car.paused:
                self._empty(car)
        count = len(self.charging())
        self.figures.counts['seconds at chargers'] += count
        most = max(self.figures.counts['most at chargers'], count)
        self.figures.counts['most at chargers'] = most

    def _empty(self, car: Car) -> None:
        """Stops a vehicle whose battery is empty, until a person has changed it."""
        self.figures.counts['empty'] += 1
        car.paused = True

        def serve() -> None:
            self.charge[car.name], car.paused = 100.0, False
            self.go_on(car)

        self.clock.after(SERVICE, serve)
