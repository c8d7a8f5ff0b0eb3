"""Follows where the loads are, how full the stations are, and the jobs, by the stock report and the
exports of loads and jobs."""
from __future__ import annotations

from collections.abc import Mapping

from ..desk.client import Job
from ..desk.reports import Stock
from . import sentences
from .events import UNSEEN, VEHICLE, Cause
from .live_jobs import Jobs, LiveJob
from .news import News
from .record import moment_of, text_of
from .shown_rows import COUNTS, JOB, LOAD, STATION, ShownCounts, ShownLoad, ShownStation

HANDS = ('correct', 'stocktake')  # the calls that move a load in the records
STOPPED = {'cancelled': 'cancelled', 'placed': 'placed', 'broken': 'cancelled', 'ended': 'failed'}


class Stores:
    """The loads, stations and jobs, as the desk's answers tell of them."""

    def __init__(self, news: News):
        """Begins with what the record has of an earlier run, and shows it."""
        self.news = news
        self.places: dict[str, str] = {}  # of the loads that have not left
        self.since: dict[str, int | None] = {}
        self.left = 0
        self.needs_export = True
        self.jobs = Jobs(self._job)
        self._restore()

    def _restore(self) -> None:
        record = self.news.record
        loads = record.rows("SELECT load, place, since FROM loads WHERE place <> 'left'")
        for name, place, since in loads:
            self.places[name] = place
            self.since[name] = None if since is None else moment_of(since)
            self.news.shown.put(LOAD, name, ShownLoad(place=place, since=self.since[name]))
        self.left = record.rows("SELECT count(*) FROM loads WHERE place = 'left'")[0][0]
        self.first = not (self.places or self.left or record.has_look('stock'))
        times = 'added, began, ended, picked, dropped'
        columns = f'job, load, origin, target, phase, order_name, vehicle, {times}'
        rows = record.rows(f"SELECT {columns} FROM jobs WHERE phase IN ('waiting', 'riding')")
        moments = ([None if at is None else moment_of(at) for at in row[7:]] for row in rows)
        self.jobs.restore(LiveJob(*row[:7], *times) for row, times in zip(rows, moments))
        for job in self.jobs.live.values():
            self.news.shown.put(JOB, job.name, sentences.job(job))

    def take_stock(self, stock: Stock) -> None:
        """Takes the stock report."""
        places, is_unseen = stock.places(), self.news.look('stock')
        for load in self.places.keys() - places.keys():
            self._move(load, 'left', is_unseen)
        for load, place in places.items():
            if self.places.get(load) != place:
                self._move(load, place, is_unseen)
        if self.first:
            self.news.record.note_look('stock', self.news.at)
        self.first = False
        for station in stock.stations.values():
            taken, row = len(station.loads), (station.name, station.node, station.capacity)
            told = ShownStation(taken=taken, reserved=station.reserved)
            if self.news.shown.put(STATION, station.name, told):
                self.news.record.station(*row, taken, station.reserved)
        counts = ShownCounts(
            loads=len(places),
            checking=len(stock.checking),
            left=stock.left,
            jobs=stock.live_jobs(),
        )
        self.news.shown.put(COUNTS, '', counts)
        self.needs_export = self.needs_export or stock.left != self.left
        self.jobs.take_places(places, self.news.looked('vehicles'))

    def _move(self, load: str, place: str, is_unseen: bool) -> None:
        before = self.places.get(load)
        since = None if self.first else self.news.at
        self.news.record.load(load, place, since)
        if not self.first:
            self.news.record.load_move(self.news.at, load, before, place)
            self._tell_move(load, before, place, is_unseen)
        if place == 'left':
            del self.places[load], self.since[load]
            self.left += 1
            self.news.shown.put(LOAD, load, None)
        else:
            self.places[load], self.since[load] = place, since
            self.news.shown.put(LOAD, load, ShownLoad(place=place, since=since))

    def _tell_move(self, load: str, before: str | None, after: str, is_unseen: bool) -> None:
        """Tells of a move by what may have caused it: a load with a live job is moved by its
        vehicle alone, and one without a job by calls alone; calls put none onto a vehicle."""
        job = self.jobs.of(load)
        kinds = (before or '').partition(' ')[0], after.partition(' ')[0]
        about: dict[str, str | None] = {'load': load}
        is_riding = job is not None and job.vehicle is not None
        if before is None and is_unseen:
            what, cause = 'found', UNSEEN
        elif before is None:
            what, cause = 'registered', self._by(('register',), load)
        elif after == 'left':
            what, cause = 'left', self._by(('leave',), load)
        elif kinds[1] == 'vehicle' and kinds[0] != 'vehicle':
            what, cause, about['vehicle'] = 'picked', VEHICLE, after.partition(' ')[2]
        elif is_unseen:
            what, cause = 'unseen', UNSEEN
        elif job is not None and is_riding and after == f'station {job.target}':
            what = 'dropped' if kinds[0] == 'vehicle' else 'carried'
            cause, about['vehicle'] = VEHICLE, job.vehicle
        else:
            what, cause = self._by_hand(load, after, kinds[0] == 'vehicle')
        if job is not None and cause is VEHICLE:
            about |= {'job': job.name, 'order_name': job.order}
            self.jobs.has_moved(job.name, self.news.at, is_pick=what == 'picked')
        place = before if what == 'picked' else after
        if place and place.startswith('station '):
            about['station'] = place.partition(' ')[2]
        self.news.event(f'load.{what}', cause, about, before=before, after=after)

    def _by(self, calls: tuple[str, ...], load: str) -> Cause:
        return self.news.cause(*calls, of=lambda values: values.get('load') == load)

    def _by_hand(self, load: str, after: str, is_aboard: bool) -> tuple[str, Cause]:
        """Returns by which call a load was recorded elsewhere: a stocktake moves none that is on a
        vehicle."""
        station = after.removeprefix('station ') if after != 'checking' else ''

        def is_of(values: Mapping[str, str]) -> bool:
            return values.get('load') == load and (values.get('station') or '') == station

        def counts(values: Mapping[str, str]) -> bool:
            return 'file' in values

        cause = self.news.sent_commands.find(('correct',), is_of, self.news.at)
        if cause is not None:
            return 'corrected', cause
        if is_aboard:
            return 'corrected', Cause('client', call='correct')
        cause = self.news.sent_commands.find(('stocktake',), counts, self.news.at)
        return ('counted', cause) if cause else ('moved', Cause('client', call=' or '.join(HANDS)))

    def take_export(self, loads: Mapping[str, str]) -> None:
        """Takes the places of all loads. Those that came and left unseen are known by it alone."""
        record = self.news.record
        left = {load for load, place in loads.items() if place == 'left'}
        known = {name for (name,) in record.rows("SELECT load FROM loads WHERE place = 'left'")}
        for load in left - known - self.places.keys():
            record.load(load, 'left', None)
        self.left = len(left - self.places.keys())
        self.needs_export = False

    def take_jobs(self, jobs: Mapping[str, Job]) -> None:
        """Takes the export of jobs."""
        is_unseen = self.news.look('jobs')
        self.jobs.take(jobs, self.news.at, self.first, is_unseen)

    def _job(self, job: LiveJob) -> None:
        before = self.news.shown.get(JOB, job.name)
        is_live = job.ended is None
        is_new = before is None and job.added is not None
        told: tuple[str, Cause] | None = None
        if is_new or (before is not None and before['phase'] != job.phase):
            told = self._tell_job(job, is_new)
        self.news.shown.put(JOB, job.name, sentences.job(job) if is_live else None)
        row = {'job': job.name, 'load': job.load, 'origin': job.origin, 'target': job.target}
        times = {'added': job.added, 'began': job.began, 'ended': job.ended}
        times |= {'picked': job.picked, 'dropped': job.dropped}
        moments = {name: None if at is None else text_of(at) for name, at in times.items()}
        about = {'phase': job.phase, 'order_name': job.order, 'vehicle': job.vehicle}
        outcome, cause = told if told is not None and not is_live else (None, None)
        failure = self._failure(job) if outcome == 'failed' else {}
        end = {'outcome': outcome, 'action': failure.get('action')}
        end |= {'cause': cause.of if cause else None, 'who': cause.who if cause else None}
        self.news.record.job({**row, **about, **moments, **end})

    def _tell_job(self, job: LiveJob, is_new: bool) -> tuple[str, Cause]:
        """Tells of a job that came to be so, and says of one that has ended how and by whom."""
        if is_new and job.phase == 'riding':
            self._tell(job, 'added', self._cause_of(job, 'job'))
        what, cause = self._change_of(job)
        self._tell(job, what, cause, self._failure(job) if what == 'failed' else {})
        return what, cause

    def _failure(self, job: LiveJob) -> dict[str, str]:
        """Returns which action of a job has failed, where its vehicle has said so."""
        end = self.news.ends.get(job.order or '')
        for number, kind, load in end.acts if end else ():
            result = self.news.failures.get((job.vehicle or '', f'{job.order}.{number}'))
            if load == job.load and result is not None:
                return {'action': kind, 'result': f' ({result})' if result else ''}
        return {}

    def _tell(
        self, job: LiveJob, what: str, cause: Cause, failure: Mapping[str, str] | None = None
    ) -> None:
        about: dict[str, str | None] = {'job': job.name, 'load': job.load, 'vehicle': job.vehicle}
        about |= {'order_name': job.order, 'station': job.target}
        name = f'job.{what}.action' if failure else f'job.{what}'
        ends = {'before': job.origin, 'after': job.target}
        self.news.event(name, cause, about, **ends, more=failure)

    def _cause_of(self, job: LiveJob, call: str) -> Cause:
        def is_of(values: Mapping[str, str]) -> bool:
            if call != 'order':
                return values.get('job') == job.name
            return values.get('vehicle') == job.vehicle and values.get('order') == job.order

        return UNSEEN if job.is_unseen else self.news.cause(call, of=is_of)

    def _change_of(self, job: LiveJob) -> tuple[str, Cause]:
        """Returns what has become of a job, and by what."""
        if job.phase == 'waiting':
            return 'added', self._cause_of(job, 'job')
        if job.phase == 'riding':
            return 'given', self._cause_of(job, 'order')
        if job.phase == 'done':
            return 'done', UNSEEN if job.is_unseen else VEHICLE
        if job.is_unseen:
            return 'unseen', UNSEEN
        if job.order is None:
            return 'stopped', self._cause_of(job, 'stop')
        end = self.news.ends.get(job.order)
        if end is None or end.how not in STOPPED:
            return 'unseen', UNSEEN
        return STOPPED[end.how], end.cause
