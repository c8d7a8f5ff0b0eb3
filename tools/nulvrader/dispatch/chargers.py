"""The chargers of a layout, as a file names them, and the marks of a battery."""
from __future__ import annotations

from collections.abc import Mapping
from dataclasses import dataclass

from ..common.layouts import Layout
from ..common.names import BadName, VehicleKey
from ..common.text import shown

HEADER = 'node,vehicles'
SHOWN = 60  # the most characters of a line that are told

Chargers = Mapping[str, frozenset[str]]
"""By the node of each charger the vehicles that may charge there; all, where none are named."""


class BadChargers(ValueError):
    """A file of chargers that can't be used. Its `str()` says where and why."""


@dataclass(frozen=True)
class Marks:
    """Marks of a battery, in percent. Below `low` a vehicle takes no job and goes to charge; from
    `high` on it leaves a charger that another one wants."""

    low: float = 20.0
    high: float = 80.0

    @property
    def enough(self) -> float:
        """The middle of the two. A vehicle at a charger takes no job below it."""
        return (self.low + self.high) / 2


def read_chargers(text: str, layout: Layout) -> Chargers:
    """Returns the chargers of a file `chargers.csv`. Each line has a node, with a station or
    without one, and the vehicles that may charge there, with blanks between them."""
    lines = text.removeprefix('\ufeff').splitlines()
    if not lines or lines[0].strip() != HEADER:
        raise BadChargers(f'line 1: the header is not {HEADER}')
    nodes = set(layout.nodes)
    found: dict[str, frozenset[str]] = {}
    for number, line in enumerate(lines[1:], 2):
        if not line.strip():
            continue
        node, _, vehicles = (part.strip() for part in line.partition(','))
        if node not in nodes:
            raise BadChargers(f'line {number}: the layout has no node {shown(node, SHOWN)}')
        if node in found:
            raise BadChargers(f'line {number}: the node {node} is a charger already')
        found[node] = _vehicles(vehicles, number)
    return found


def _vehicles(text: str, number: int) -> frozenset[str]:
    """Returns the vehicles that a line names."""
    try:
        return frozenset(str(VehicleKey.parse(name)) for name in text.split())
    except BadName:
        raise BadChargers(
            f'line {number}: {shown(text, SHOWN)} is no list of vehicles such as KIT/0001'
        ) from None
