"""Follows the jobs by the export of the live ones, and by where the load of one stands that is no
longer there."""
from __future__ import annotations

from collections.abc import Callable, Iterable, Mapping
from dataclasses import dataclass, field, replace

from ..desk.client import Job

LIVE = ('waiting', 'riding')


@dataclass(frozen=True)
class LiveJob:
    """A job: `phase` is `waiting`, `riding`, `done` or `stopped`. The moments are those at which
    the board saw it come (None where it was there at the first look), begin to ride, end, and its
    load picked and dropped. `is_unseen` says that it came to be so while the board did not look for
    long."""

    name: str
    load: str
    origin: str
    target: str
    phase: str
    order: str | None = None
    vehicle: str | None = None
    added: int | None = None
    began: int | None = None
    ended: int | None = None
    picked: int | None = None
    dropped: int | None = None
    is_unseen: bool = field(default=False, compare=False)


class Jobs:
    """The live jobs by their names. `told` is called with each job that came to be so."""

    def __init__(self, told: Callable[[LiveJob], None]):
        self.told = told
        self.live: dict[str, LiveJob] = {}
        self.ended: list[LiveJob] = []  # which have ended, it is not known yet how

    def restore(self, jobs: Iterable[LiveJob]) -> None:
        """Takes the live jobs of an earlier run from the record."""
        self.live = {job.name: job for job in jobs}

    def take(self, jobs: Mapping[str, Job], at: int, is_first: bool, is_unseen: bool) -> None:
        """Takes the export of jobs, at a moment; at the first look it isn't known since when they
        are. `is_unseen` says that the look before was long ago."""
        for name in self.live.keys() - jobs.keys():
            self.ended.append(replace(self.live.pop(name), ended=at, is_unseen=is_unseen))
        for name, job in jobs.items():
            before = self.live.get(name)
            added = None if is_first else at
            now = LiveJob(
                name, job.load, job.origin, job.target, job.phase, job.order,
                vehicle=None if job.vehicle is None else str(job.vehicle),
                added=before.added if before else added,
                picked=before.picked if before else None,
                is_unseen=is_unseen,
            )  # fmt: skip
            if now.order is not None:
                is_same = before is not None and before.order == now.order
                now = replace(now, began=before.began if before and is_same else at)
            if now != before:
                self.live[name] = now
                self.told(now)

    def of(self, load: str) -> LiveJob | None:
        """Returns the job of a load that lives, or of which it is not known yet how it has
        ended."""
        found = [job for job in (*self.ended, *self.live.values()) if job.load == load]
        return found[0] if found else None

    def has_moved(self, name: str, at: int, *, is_pick: bool) -> None:
        """Notes that the load of a job was picked or dropped, at this moment, or before the job was
        over."""
        what = 'picked' if is_pick else 'dropped'
        self.ended = [
            replace(job, **{what: job.ended}) if job.name == name else job for job in self.ended
        ]
        if name in self.live:
            self.live[name] = replace(self.live[name], **{what: at})
            self.told(self.live[name])

    def take_places(self, places: Mapping[str, str], looked: int) -> None:
        """Decides how the jobs of `ended` have ended, by the places of a later stock report, and
        calls `told` with each. A job is done where its load stands at its target, else it was
        stopped. A job that rode and isn't done is kept in `ended` until its vehicle was looked at
        after the end: `looked` is the moment of the last look at the vehicles."""
        ended, self.ended = self.ended, []
        for job in ended:
            is_done = places.get(job.load) == f'station {job.target}'
            if not is_done and job.order is not None and looked <= (job.ended or 0):
                self.ended.append(job)
            else:
                self.told(replace(job, phase='done' if is_done else 'stopped'))
