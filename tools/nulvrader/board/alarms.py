"""What needs a person: found anew each second from what the followers know, kept in the record with
since when it is so and who has taken it on, and shown first on the page."""
from __future__ import annotations

import json
import os
import time
from collections.abc import Iterator, Mapping
from dataclasses import dataclass, field

from ..common.layouts import Layout
from .events import ABOUT, BOARD
from .fleet import Fleet, KnownVehicle
from .messages import Line, say, told, words_of
from .news import News
from .progress import Thing
from .record import moment_of
from .shown_rows import ALARM, DESK, STATION, ShownAlarm, Taken
from .stock import Stores
from .vehicle_words import FailedAction
from .words_keeper import Keeper

EVERY = 1.0  # seconds from one look to the next
SETTLE = (
    2_500  # milliseconds, for which something is so that the desk's answers may show in between
)
SETTLES = ('aboard', 'action')  # the kinds of which that holds
STAYS = 60_000  # milliseconds from the end of an alarm, in which it flaps where it comes again
SAID = ('action', 'battery')  # the kinds that are made by what a vehicle says
UNHEARD = 60_000  # milliseconds from a vehicle's registration, in which its first state is due
IN_THE_WAY = 60_000  # milliseconds that a vehicle waits for one that has no order
BLOCKED = 300_000  # and for any other
JUMP = 5.0  # seconds by which a clock is set that is an alarm
JUMPED = 600_000  # milliseconds that it lasts
FREE, PART = 200_000_000, 0.02  # bytes of the disk that are free, and the part of it, at least
NAMES = 10  # that one alarm says


@dataclass(frozen=True)
class Condition:
    """Something that needs a person. `level` is `bad`, or `warn` where it is to be looked at; its
    sentences are `alarm.KIND` and `alarm.KIND.do` of the table, with these values. `since` is the
    moment from which on it is so, where that is known."""

    key: str
    kind: str
    level: str
    values: Mapping[str, object] = field(default_factory=dict)
    since: int | None = None

    def about(self) -> dict[str, str | None]:
        """Returns the things that it is about."""
        found = {name: self.values.get(name) for name in ABOUT}
        return {name: one if isinstance(one, str) else None for name, one in found.items()}

    def words(self) -> str:
        """Returns what is so."""
        return say(f'alarm.{self.kind}', self.values)

    def todo(self) -> str:
        """Returns what to do."""
        return say(f'alarm.{self.kind}.do', self.values)


@dataclass
class Alarm:
    """An alarm that is in the record: the number of its row, what was found, since when, who has
    taken it on, when it came again where it flaps, and since when it is not so any more."""

    number: int
    found: Condition
    began: int
    taken: tuple[str, int] | None = None
    again: int | None = None
    gone: int | None = None

    def stands(self, at: int) -> bool:
        """Whether it is so, or flaps: then it stands for a minute more."""
        if self.gone is None:
            return True
        flaps = self.again is not None and self.gone - self.again < STAYS
        return flaps and abs(at - self.gone) < STAYS


class Alarms:
    """The alarms that are open. `late` is how long a job may wait, in milliseconds."""

    def __init__(self, news: News, late: int):
        self.news, self.late = news, late
        self.open: dict[str, Alarm] = {}
        self.due = 0.0
        self.begun = 0
        self._first: dict[str, int] = {}  # when something was found that has to settle
        self._ended: dict[str, int] = {}  # when an alarm ended, for as long as it may flap
        self._offset: float | None = None
        self._jump: tuple[int, int] | None = None  # when the clock was set, and by how many seconds
        rows = news.record.rows(
            'SELECT n, key, kind, level, more, began, taken_by, taken_at FROM alarms'
            ' WHERE ended IS NULL'
        )
        for number, key, kind, level, more, began, who, at in rows:
            found = Condition(key, kind, level, json.loads(more), moment_of(began))
            taken = None if who is None else (str(who), moment_of(at))
            self.open[key] = Alarm(number, found, moment_of(began), taken)
            self._show(self.open[key])

    def turn(self, stores: Stores, fleet: Fleet, keeper: Keeper | None, layout: Layout) -> bool:
        """Looks for what needs a person, where that is due. Whether it has looked."""
        if time.monotonic() < self.due:
            return False
        self.due = time.monotonic() + EVERY
        at = time.time_ns() // 1_000_000
        self.begun = self.begun or at
        found = {one.key: one for one in self._of_the_machine(at)}
        desk = self.news.shown.get(DESK, '')
        has_looked = all(self.news.looked(kind) for kind in ('vehicles', 'jobs', 'stock'))
        if desk is None or not desk['up'] or not has_looked:
            kept = {
                key: one.found
                for key, one in self.open.items()
                if key not in MACHINE and one.gone is None
            }
            found = {**kept, **found}
        else:
            for one in self._of_the_plant(stores, fleet, keeper, layout, at):
                found[one.key] = one
        self._take(self._settled(found, at), at, keeper)
        return True

    def _settled(self, found: Mapping[str, Condition], at: int) -> dict[str, Condition]:
        """Returns what is found, without what may be so only between two answers of the desk."""
        self._first = {key: self._first.get(key, at) for key in found}
        return {
            key: one
            for key, one in found.items()
            if key in self.open or one.kind not in SETTLES or at - self._first[key] >= SETTLE
        }

    def _take(self, found: Mapping[str, Condition], at: int, keeper: Keeper | None) -> None:
        """Brings the open alarms in line with what was found: raises new ones, changes those that
        say something else, and ends those that are over, in the record and on the page. Reads from
        the record who has taken each on, which another thread writes there."""
        before, self.news.at = self.news.at, at
        for key in self.open.keys() - found.keys():
            self._lose(self.open[key], keeper)
        for key, one in found.items():
            alarm = self.open.get(key)
            if alarm is None:
                self.open[key] = alarm = self._begin(one, keeper)
            elif alarm.found != one:
                alarm.found = one
                self._change(alarm)
            if alarm.gone is not None:
                alarm.again, alarm.gone = at, None
        question = 'SELECT n, taken_by, taken_at FROM alarms WHERE ended IS NULL'
        taken = {number: (who, at) for number, who, at in self.news.record.rows(question)}
        for alarm in self.open.values():
            who, moment = taken.get(alarm.number, (None, None))
            alarm.taken = None if who is None else (str(who), moment_of(moment))
            if alarm.stands(at):
                self._show(alarm)
        self.news.at = before

    def _begin(self, found: Condition, keeper: Keeper | None) -> Alarm:
        """Raises an alarm. Where a vehicle's words make it, its row and its entry are counted, and
        made in any case: its end is not told as long as there are too many."""
        began = found.since or self.news.at
        number = self.news.record.alarm(found, began)
        self._tell('raised', found)
        self._may_tell(found, keeper, 2)
        ended = self._ended.get(found.key)
        flaps = ended is not None and abs(self.news.at - ended) < STAYS
        return Alarm(number, found, began, again=self.news.at if flaps else None)

    def _lose(self, alarm: Alarm, keeper: Keeper | None) -> None:
        """Notes that what was found is not so any more. The alarm is over, unless it flaps, or its
        vehicle has said too much: where it comes again it is the same one."""
        at, found = self.news.at, alarm.found
        alarm.gone = alarm.gone or at
        if alarm.stands(at) and found.key not in MACHINE:
            return
        self.news.shown.put(ALARM, found.key, None)
        if self._may_tell(found, keeper):
            self._end(self.open.pop(found.key))
            self._ended = {key: end for key, end in self._ended.items() if abs(at - end) < STAYS}
            self._ended[found.key] = at

    @staticmethod
    def _may_tell(found: Condition, keeper: Keeper | None, count: int = 1) -> bool:
        """Whether so many rows may be made of an alarm that may be of what a vehicle says."""
        if found.kind not in SAID or keeper is None:
            return True
        return keeper.may_tell(str(found.values['vehicle']), count)

    def _change(self, alarm: Alarm) -> None:
        self.news.record.change_alarm(alarm.number, alarm.found)

    def _end(self, alarm: Alarm) -> None:
        self.news.record.end_alarm(alarm.number, alarm.gone or self.news.at)
        self._tell('over', alarm.found)

    def _tell(self, what: str, found: Condition) -> None:
        more = dict(found.values)
        more |= {'alarm': found.kind, 'key': found.key, 'level': found.level}
        self.news.event(f'alarm.{what}', BOARD, found.about(), more=more)

    def _show(self, alarm: Alarm) -> None:
        found = alarm.found
        row: ShownAlarm = {
            'n': alarm.number,
            'kind': found.kind,
            'level': found.level,
            'values': dict(found.values),
            'words': found.words(),
            'todo': found.todo(),
            'since': alarm.began,
            'taken': alarm.taken and Taken(who=alarm.taken[0], at=alarm.taken[1]),
        }
        self.news.shown.put(ALARM, found.key, row)

    def _of_the_machine(self, at: int) -> Iterator[Condition]:
        """Yields the desk, the clock and the disk."""
        desk = self.news.shown.get(DESK, '')
        if desk is not None and not desk['up']:
            kind = 'other' if desk['other'] else 'desk'
            values = {'fault': desk['fault'], 'says': desk.get('says', [])}
            yield Condition('desk', kind, 'bad', values, desk['since'])
        offset = time.time() - time.monotonic()
        if self._offset is not None and abs(offset - self._offset) > JUMP:
            self._jump = at, round(offset - self._offset)
        self._offset = offset
        if self._jump is not None and at < self._jump[0] + JUMPED:
            yield Condition('clock', 'clock', 'bad', {'seconds': self._jump[1]}, self._jump[0])
        free = free_of(self.news.record.path)
        if free is not None:
            yield Condition('disk', 'disk', 'bad', {'free': free})

    def _of_the_plant(
        self, stores: Stores, fleet: Fleet, keeper: Keeper | None, layout: Layout, at: int
    ) -> Iterator[Condition]:
        for name, seen in fleet.seen.items():
            yield from self._of_a_vehicle(name, seen, at)
            loads = [load for load in fleet.loads.get(name, ()) if stores.jobs.of(load) is None]
            if loads:
                values = {'vehicle': name, 'load': loads[0], 'loads': loads, 'node': seen.row.node}
                level = 'bad' if seen.row.order is None else 'warn'
                yield Condition(f'aboard {name}', 'aboard', level, values)
        yield from self._of_words(fleet, keeper)
        for circle in fleet.circles:
            values = {'vehicle': circle[0], 'vehicles': circle}
            yield Condition(f'circle {" ".join(circle)}', 'circle', 'bad', values)
        yield from self._of_waits(fleet, layout, at)
        yield from self._of_jobs(stores, at)
        yield from self._of_stations(layout)

    def _of_a_vehicle(self, name: str, seen: KnownVehicle, at: int) -> Iterator[Condition]:
        row, values = seen.row, {'vehicle': name, 'node': seen.row.node}
        if row.astray:
            yield Condition(f'astray {name}', 'astray', 'bad', values)
        elif seen.silent is not None:
            yield Condition(f'silent {name}', 'silent', 'bad', values, seen.silent)
        elif seen.heard is None and at - seen.first >= UNHEARD:
            yield Condition(f'unheard {name}', 'unheard', 'warn', values, seen.first)
        elif row.header is not None and not row.ready:
            why = self.news.reasons.get(name) or []
            kind = 'unready' if why else 'unready.unknown'
            more = {}
            if why:
                rows = dict.fromkeys(f'{one.name}.do' for one in why)
                does = [Line(row, values) for row in rows]
                more = {'why': words_of(why, ', '), 'says': told(why), 'does': told(does)}
            yield Condition(f'unready {name}', kind, 'bad', {**values, **more}, seen.unready)

    def _of_words(self, fleet: Fleet, keeper: Keeper | None) -> Iterator[Condition]:
        """Actions that have failed, and batteries that are low."""
        for name, said in keeper.said.items() if keeper is not None else ():
            seen = fleet.seen.get(name)
            if seen is None:
                continue
            failed = [one for one in said.words.failed or () if one.action in said.failures]
            for one in failed[-1:]:  # the last one, for all of them
                values = self._of_action(seen, one, said.words.result_of(one))
                if len(failed) > 1:
                    values['action'] = f'{one.action} (+{len(failed) - 1})'
                yield Condition(f'action {name}', 'action', 'bad', values)
            charge = said.words.battery
            if said.is_low and charge is not None and not said.words.charging:
                values = {'vehicle': name, 'node': seen.row.node, 'battery': f'{charge:g}'}
                yield Condition(f'battery {name}', 'battery', 'warn', values)

    def _of_action(
        self, seen: KnownVehicle, failed: FailedAction, result: str
    ) -> dict[str, object]:
        """Returns what an alarm says of an action that has failed: what it was, where its order is
        known, and what the vehicle says of it."""
        values = {'vehicle': str(seen.row.key), 'action': failed.action, 'type': failed.type}
        values |= {'result': result, 'node': seen.row.node}
        order, _, number = failed.action.rpartition('.')
        end = self.news.ends.get(order)
        acts = end.acts if end is not None else ()
        if seen.way is not None and seen.way.order == order:
            acts = tuple((act.number, act.kind, act.load) for act in seen.way.acts)
        says = [
            Line('failed.act', {'act': kind, 'load': load})
            for at, kind, load in acts
            if str(at) == number
        ]
        if not says and failed.type:
            says = [Line('failed.words', {'words': failed.type})]
        says.append(Line('failed.words', {'words': result}) if result else Line('failed.unsaid'))
        return {**values, 'what': words_of(says, ': '), 'says': told(says)}

    def _of_waits(self, fleet: Fleet, layout: Layout, at: int) -> Iterator[Condition]:
        """Vehicles that have waited for long for another one, which may have no order."""
        for name, wait in fleet.waits.items():
            since, holder = fleet.waits_since[name], fleet.seen.get(wait.by)
            is_shut = holder is not None and holder.row.order is None
            if not wait.stands or at - since < (IN_THE_WAY if is_shut else BLOCKED):
                continue
            values: dict[str, object] = {'vehicle': name, 'by': wait.by}
            values['thing'] = ' '.join(wait.thing)
            kind, level = ('shut', 'bad') if is_shut else ('blocked', 'warn')
            if holder is not None and is_shut:
                is_free = has_exit(layout, fleet.holders, wait.by, holder.row.node)
                does = Line('shut.send' if is_free else 'shut.cancel', dict(values))
                values['does'] = [does.told()]
            yield Condition(f'wait {name}', kind, level, values, since)

    def _of_jobs(self, stores: Stores, at: int) -> Iterator[Condition]:
        for job in stores.jobs.live.values():
            since = job.added or self.begun
            if job.phase == 'waiting' and at - since >= self.late:
                values = {'job': job.name, 'load': job.load, 'station': job.target}
                yield Condition(f'late {job.name}', 'late', 'warn', values, since)

    def _of_stations(self, layout: Layout) -> Iterator[Condition]:
        """Yields the stations in which no place is free, all in one alarm."""
        full = []
        for name, station in layout.stations.items():
            row = self.news.shown.get(STATION, name)
            if row is not None and row['taken'] >= station.capacity:
                full.append(name)
        if full:
            more = f' (+{len(full) - NAMES})' if len(full) > NAMES else ''
            values = {'stations': ', '.join(full[:NAMES]) + more, 'count': len(full)}
            yield Condition('full', 'full', 'warn', {**values, 'station': full[0]})


MACHINE = ('desk', 'clock', 'disk')  # the keys of what is of the machine


def has_exit(layout: Layout, holders: Mapping[Thing, str], vehicle: str, node: str) -> bool:
    """Whether a vehicle may leave its node by an edge that nobody else holds, to a node that nobody
    else holds."""
    return any(
        holders.get(('edge', edge.name)) in (None, vehicle)
        and holders.get(('node', edge.finish)) in (None, vehicle)
        for edge in layout.edges.values()
        if edge.start == node
    )


def free_of(path: str) -> str | None:
    """Returns how much of a disk is free, where that is too little: `120 MB`."""
    try:
        disk = os.statvfs(os.path.dirname(os.path.abspath(path)))
    except OSError:
        return None
    free, whole = disk.f_bavail * disk.f_frsize, disk.f_blocks * disk.f_frsize
    return f'{free // 1_000_000} MB' if free < min(FREE, whole * PART) else None
