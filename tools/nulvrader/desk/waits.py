"""Finds which vehicle waits for which: for one that holds a node or an edge ahead of it; and the
circles of vehicles of which each waits for the next."""
from __future__ import annotations

from collections.abc import Iterable, Mapping
from typing import TypeVar

from ..common.names import VehicleKey

Thing = tuple[str, str]  # `node` or `edge`, and its name
VehicleName = TypeVar('VehicleName', str, VehicleKey)


def first_held(
    vehicle: VehicleName, ahead: Iterable[Thing], holders: Mapping[Thing, VehicleName]
) -> tuple[Thing, VehicleName] | None:
    """Returns the first thing ahead of a vehicle that another one holds, and which one that is."""
    for thing in ahead:
        holder = holders.get(thing)
        if holder is not None and holder != vehicle:
            return thing, holder
    return None


def circles_of(waits_for: Mapping[VehicleName, VehicleName]) -> list[list[VehicleName]]:
    """Returns the circles of vehicles of which each waits for the next and the last for the first.
    Each circle begins with its least vehicle, and the circles are in the order of these."""
    found: list[list[VehicleName]] = []
    over: set[VehicleName] = set()
    for start in sorted(waits_for):
        row: list[VehicleName] = []
        at = start
        while at in waits_for and at not in over and at not in row:
            row.append(at)
            at = waits_for[at]
        if at in row:
            circle = row[row.index(at) :]
            least = circle.index(min(circle))
            found.append(circle[least:] + circle[:least])
        over.update(row)
    return sorted(found)
