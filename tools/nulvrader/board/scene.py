"""What commands are looked at against: the layout and what the page shows now."""
from __future__ import annotations

from dataclasses import dataclass

from ..common.layouts import Layout
from .page_state import Shown
from .shown_rows import HOLD, JOB, LOAD, STATION, VEHICLE, WAY
from .shown_rows import ShownJob, ShownLoad, ShownStation, ShownVehicle, ShownWay


@dataclass(frozen=True)
class Scene:
    """What is known at the moment of a look. It may be a second old: the desk alone decides."""

    layout: Layout
    shown: Shown

    def load(self, name: str) -> ShownLoad | None:
        """Returns where a load is; None where the board knows none of that name, or it has left."""
        return self.shown.get(LOAD, name)

    def vehicle(self, name: str) -> ShownVehicle | None:
        """Returns how a vehicle is."""
        return self.shown.get(VEHICLE, name)

    def way(self, name: str) -> ShownWay | None:
        """Returns the way of a vehicle's open order."""
        return self.shown.get(WAY, name)

    def job(self, name: str) -> ShownJob | None:
        """Returns a live job."""
        return self.shown.get(JOB, name)

    def job_of(self, load: str) -> str | None:
        """Returns the live job of a load, where it is known."""
        return next(
            (name for name, job in self.shown.all(JOB).items() if job['load'] == load), None
        )

    def holder(self, kind: str, name: str) -> str | None:
        """Returns the vehicle that holds a node or an edge."""
        return self.shown.get(HOLD, f'{kind} {name}')

    def room(self, station: str) -> int | None:
        """Returns how many loads more fit at a station, or None where there is none of that
        name."""
        found = self.layout.stations.get(station)
        if found is None:
            return None
        row = self._station(station)
        return max(0, found.capacity - row['taken'] - row['reserved'])

    def _station(self, name: str) -> ShownStation:
        """Returns how full a station is, of which nothing is known before the first report."""
        return self.shown.get(STATION, name) or {'taken': 0, 'reserved': 0}

    def room_of(self, station: str) -> dict[str, object]:
        """Returns how full a station is, as a sentence says it."""
        row = self._station(station)
        capacity = self.layout.stations[station].capacity
        return {'station': station, 'capacity': capacity, **row}
