"""Who waits for whom: whose next edge is held by which vehicle, and circles of these."""
from __future__ import annotations

from collections.abc import Mapping
from dataclasses import dataclass

from ..desk import waits as waits_of_desk
from ..desk.waits import first_held
from .progress import Thing, Way


@dataclass(frozen=True)
class Wait:
    """A vehicle whose way goes on over a thing that another one holds. `stands` says that it has
    come to the end of what is released to it."""

    vehicle: str
    thing: Thing
    by: str
    stands: bool


def wait_of(
    vehicle: str, way: Way, seen: int, released: int, holders: Mapping[Thing, str]
) -> Wait | None:
    """Returns what a vehicle on a way waits for: of the edge behind what is released and the node
    at its end the first that another vehicle holds; None where none does."""
    found = first_held(vehicle, way.behind(released), holders)
    return None if found is None else Wait(vehicle, *found, seen == released)


def circles_of(waits: Mapping[str, Wait]) -> list[list[str]]:
    """Returns the circles of vehicles of which each waits for the next and the last for the
    first."""
    return waits_of_desk.circles_of({name: wait.by for name, wait in waits.items()})
