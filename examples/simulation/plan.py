"""The plan of a plant: what it is, how its vehicles, lines and people are, and what goes wrong in
it."""
from __future__ import annotations

from dataclasses import dataclass, replace


@dataclass(frozen=True)
class Nature:
    """How vehicles are: metres a second, how long an action takes (seconds, from .. to), how many
    of a thousand picks and drops fail, and how many metres a battery lasts, behind which the
    vehicle is out of service for `service` seconds until it has another one. At a charger it gets
    `charge` metres a second.
    """

    speed: float = 1.6
    action: tuple[float, float] = (6.0, 14.0)
    failing: int = 10
    battery: float = 6000.0
    service: float = 90.0
    charge: float = 8.0


@dataclass(frozen=True)
class Habits:
    """Seconds between two jobs that are added, two acts by chance and two looks at what needs
    hands; how many jobs wait at most; how many come at once every `jobs` seconds, whatever waits,
    if they come in waves; which part of the jobs, from 0 to 1, stays on the ring of its
    load; and how long a vehicle stands in the way before somebody drives it away.
    """

    jobs: float = 2.0
    chance: float = 60.0
    looks: float = 20.0
    backlog: int = 30
    wave: int = 0
    near: float = 0.8
    patience: float = 240.0


@dataclass(frozen=True)
class Trouble:
    """Seconds between two kills of the desk, of the dispatcher and of a gateway, and two restarts
    of a vehicle. None: never. `people`: whether people cancel, count and carry by chance. `away`:
    how long a gateway is away (seconds, from .. to). `stop`: seconds between two presses of an
    emergency stop, and `stopped`: how long each lasts.
    """

    desk: float | None = 240.0
    dispatcher: float | None = 300.0
    gateway: float | None = 120.0
    people: bool = True
    vehicle: float | None = 400.0
    away: tuple[float, float] = (5.0, 120.0)
    stop: float | None = None
    stopped: tuple[float, float] = (20.0, 90.0)


@dataclass(frozen=True)
class Line:
    """How a line is: of a hundred messages so many are lost, so many come twice, and each is late
    by so many seconds at most, some by `late`. A vehicle posts a state at least every `beat`
    seconds."""

    lost: int = 3
    twice: int = 3
    delay: float = 0.4
    late: float = 6.0
    beat: float = 5.0


CALM = Trouble(None, None, None, False, None)


@dataclass(frozen=True)
class Plan:
    """What a plant is: its floor, how many vehicles, loads, jobs and chargers, and what goes wrong
    in it."""

    floor: str = 'large'
    vehicles: int = 20
    loads: int = 300
    jobs: int = 200
    seed: int = 1
    trouble: Trouble = Trouble()
    nature: Nature = Nature()
    line: Line = Line()
    habits: Habits = Habits()
    every: float = 1.0  # seconds between two turns of the dispatcher
    audit: float = 5.0  # seconds between two looks at what the desk holds
    # where no vehicle has moved for so many seconds although there are jobs, the plant stands for
    # good
    stands: float = 1800.0
    # where nothing has moved for so many seconds although the dispatcher has a plan by which
    # something can, it is wrong; a vehicle that it does not hear is in its plan for a minute
    follows: float = 180.0
    circle: float = 120.0  # where vehicles have waited for each other for longer, it is wrong
    limit: float = 200_000.0  # seconds until the plant is given up
    pace: float | None = None
    chargers: int = 0

    def calm(self) -> Plan:
        """Returns the same plant, in which nothing fails and nothing is killed. No vehicle is
        silent there, so something moves within a minute."""
        return replace(
            self,
            trouble=CALM,
            line=Line(lost=0, twice=0, late=0.4),
            nature=Nature(failing=0),
            follows=60.0,
        )
