"""Follows the vehicles: how each is, its order and how far it is, what it holds, whether its states
come, and who waits for whom, by the export of vehicles, the hold report and order messages."""
from __future__ import annotations

from collections.abc import Mapping
from dataclasses import dataclass, replace
from typing import Any

from ..desk.client import NotADesk, ExportedVehicle
from ..common.names import VehicleKey, natural
from ..desk.reports import Holds, Stock
from . import sentences, shown_rows
from .events import BOARD, UNSEEN, VEHICLE, Cause
from .messages import Line, told, words_of
from .news import News, OrderEnd
from .progress import Thing, Way
from .record import moment_of
from .shown_rows import CIRCLES, HOLD, WAIT, WAY, Rest, VehicleColumns
from .uses import last_look
from .waits import Wait, circles_of, wait_of


# The call by which a vehicle is told to do an instant action.
CALLS = {'startPause': 'pause', 'stopPause': 'resume', 'cancelOrder': 'cancel'}


@dataclass
class KnownVehicle:
    """What is known of a vehicle: what the desk tells of it, and the way of its open order, None
    until the order's message has told it. `is_asked` says that it was asked for since the vehicle
    was told of last. `first` is when the board saw the vehicle first, `heard` when it last saw that
    a state had come, and `silent` since when none has come, where that is long; `unready` is since
    when it is not ready. `kept` is the row that the record has."""

    row: ExportedVehicle
    first: int
    way: Way | None = None
    is_asked: bool = False
    heard: int | None = None
    silent: int | None = None
    unready: int | None = None
    kept: VehicleColumns | None = None


class Fleet:
    """The vehicles by their names. `silent_after` is in milliseconds."""

    def __init__(self, news: News, silent_after: int):
        self.news, self.silent_after = news, silent_after
        self.seen: dict[str, KnownVehicle] = {}
        self.loads: dict[str, tuple[str, ...]] = {}
        self.holders: dict[Thing, str] = {}
        self.waits: dict[str, Wait] = {}
        self.waits_since: dict[str, int] = {}
        self.circles: list[list[str]] = []
        for kind, name, vehicle in news.record.rows('SELECT kind, name, vehicle FROM holds'):
            self.holders[kind, name] = vehicle
            news.shown.put(HOLD, f'{kind} {name}', vehicle)
        rows = news.record.rows(
            'SELECT vehicle, order_name FROM vehicles WHERE order_name IS NOT NULL'
        )
        # the orders that were open when the board was stopped
        self.earlier = {str(vehicle): str(order) for vehicle, order in rows}
        news.record.end_waits(last_look(news.record) or 0)
        self.placed: set[int | None] = set()  # the commands that have ended an order
        # whether vehicles were looked at, in this run or an earlier one
        known = news.record.rows('SELECT 1 FROM vehicles LIMIT 1')
        self.has_looked = bool(known) or news.record.has_look('vehicles')

    def again(self) -> None:
        """Notes that the desk answers again: every vehicle has time to post a state."""
        for seen in self.seen.values():
            seen.heard = None if seen.heard is None else self.news.at

    def take_stock(self, stock: Stock) -> None:
        """Takes the loads that are on vehicles."""
        self.loads = {
            str(key): tuple(sorted(loads, key=natural)) for key, loads in stock.vehicles.items()
        }
        for name, seen in self.seen.items():
            self._show(name, seen)

    def take_holds(self, holds: Holds) -> None:
        """Takes the hold report."""
        told: dict[Thing, str] = {('node', name): str(key) for name, key in holds.nodes.items()}
        told |= {('edge', name): str(key) for name, key in holds.edges.items()}
        for kind, name in {thing for thing, _ in self.holders.items() ^ told.items()}:
            self.news.record.hold(self.news.at, kind, name, told.get((kind, name)))
            self.news.shown.put(HOLD, f'{kind} {name}', told.get((kind, name)))
        self.holders = told
        self._wait()

    def take_vehicles(self, rows: Mapping[VehicleKey, ExportedVehicle]) -> None:
        """Takes the export of vehicles."""
        is_unseen = self.news.look('vehicles')
        for key, row in rows.items():
            self._take_row(str(key), row, is_unseen)
        self.news.cancelling = {
            row.order for row in rows.values() if row.order and row.pending == 'cancelOrder'
        }
        if not self.has_looked:
            self.news.record.note_look('vehicles', self.news.at)
        self.has_looked = True
        self._wait()

    def _take_row(self, name: str, row: ExportedVehicle, is_unseen: bool) -> None:
        seen = self.seen.get(name)
        if seen is None:
            seen = self.seen[name] = self._met(name, row)
            self._is_new(name, row, is_unseen)
        before, seen.row, seen.is_asked = seen.row, row, False
        self._hear(name, seen, row.header not in (None, before.header))
        if self.earlier.get(name) not in (None, row.order):
            self._is_over(name, self.earlier.pop(name), OrderEnd('unseen', UNSEEN))
        elif before.order not in (None, row.order):
            end = self._end_of(name, before, row, is_unseen)
            acts = seen.way.acts if seen.way is not None else ()
            end = replace(end, acts=tuple((act.number, act.kind, act.load) for act in acts))
            self.news.ends_order(str(before.order), end)
            if seen.way is not None:
                self._is_over(name, str(before.order), end)
        if seen.way is not None and seen.way.order != row.order:
            seen.way = None
        self._tell_changes(name, before, row, is_unseen)
        self._show(name, seen)

    def _met(self, name: str, row: ExportedVehicle) -> KnownVehicle:
        """Returns what is known of a vehicle at its first look: since when it is there, as far as
        the record reaches, and whether a state was ever seen."""
        first = 'SELECT min(at) FROM vehicle_states WHERE vehicle = ?'
        ((at,),) = self.news.record.rows(first, (name,))
        heard = 'SELECT 1 FROM vehicles WHERE vehicle = ? AND heard IS NOT NULL'
        is_heard = row.header is not None or bool(self.news.record.rows(heard, (name,)))
        now = self.news.at
        return KnownVehicle(row, moment_of(at) if at else now, heard=now if is_heard else None)

    def _is_new(self, name: str, row: ExportedVehicle, is_unseen: bool) -> None:
        """Notes a vehicle that was not there as registered, unless the board looks for the first
        time."""
        is_known = self.news.record.rows('SELECT 1 FROM vehicles WHERE vehicle = ?', (name,))
        if not is_known and self.has_looked:
            cause = UNSEEN if is_unseen else Cause('client', call='vehicle')
            self.news.event('vehicle.registered', cause, {'vehicle': name, 'node': row.node})

    def _end_of(
        self, name: str, before: ExportedVehicle, row: ExportedVehicle, is_unseen: bool
    ) -> OrderEnd:
        """Returns how an order has ended that was open at the last look. It ends by itself at its
        last node; else it is cancelled, which leaves the vehicle astray or is pending before; or
        the vehicle is placed, which needs no state of it."""
        place = self._command('place', name)
        if place is not None and place.command in self.placed:
            place = None  # it has ended another order
        if is_unseen:
            return OrderEnd('unseen', UNSEEN)
        if place is not None:
            self.placed.add(place.command)
            return OrderEnd('placed', place)
        if before.pending == 'cancelOrder' or row.astray:
            return OrderEnd('cancelled', self._cause('cancel', name))
        if row.header == before.header:
            return OrderEnd('placed', Cause('client', call='place'))
        way = self.seen[name].way
        if way is not None and row.node != way.nodes[-1]:
            cancel = self._command('cancel', name)
            if cancel is not None:
                return OrderEnd('cancelled', cancel)
            return OrderEnd('broken', Cause('client', call='cancel or place'))
        return OrderEnd('ended', VEHICLE)

    def _command(self, call: str, vehicle: str) -> Cause | None:
        """Returns a command of this board that may have caused what is seen of a vehicle: one to
        it, or to all."""

        def is_of(values: Mapping[str, str]) -> bool:
            is_named = vehicle in values.get('vehicles', '').split()
            return values.get('vehicle') == vehicle or is_named

        return self.news.sent_commands.find((call, f'{call}_all'), is_of, self.news.at)

    def _cause(self, call: str, vehicle: str) -> Cause:
        return self._command(call, vehicle) or Cause('client', call=call)

    def _tell_changes(
        self, name: str, before: ExportedVehicle, row: ExportedVehicle, is_unseen: bool
    ) -> None:
        """Makes an entry of each change of a vehicle that is worth one."""

        def tell(what: str, cause: Cause, **others: Any) -> None:
            why = UNSEEN if is_unseen else cause
            about = {'vehicle': name, 'node': row.node, 'order_name': before.order}
            self.news.event(f'vehicle.{what}', why, about, **others)

        if before.ready != row.ready:
            reasons = [] if row.ready else self.news.reasons.get(name, [])
            tell('ready' if row.ready else 'unready', VEHICLE, more=why_of(reasons))
        if before.paused != row.paused:
            tell('paused' if row.paused else 'resumed', VEHICLE)
        if before.header is not None and row.header is None:
            tell('resynced', self._cause('resync', name))
        if row.astray and not before.astray:
            tell('astray', VEHICLE)
        is_placed = self._is_placed(name, before, row, is_unseen)
        if is_placed:
            cause = self._cause('place', name)
            tell('placed', cause, before=before.node, after=row.node)
        elif before.order is None and row.order is None and before.node != row.node:
            cause = Cause('client', call='place or order')
            tell('moved', cause, before=before.node, after=row.node)
        if before.pending != row.pending:
            if before.pending:
                what = 'freed' if is_placed else self._obeys(before.pending, row)
                tell(what, VEHICLE, more={'action': before.pending})
            if row.pending:
                cause = self._cause(CALLS.get(row.pending, row.pending), name)
                tell('told', cause, more={'action': row.pending})

    def _is_placed(
        self, name: str, before: ExportedVehicle, row: ExportedVehicle, is_unseen: bool
    ) -> bool:
        """Whether a vehicle was placed: only that takes an astray one back, moves one without an
        order and a state, or ends an order without a state."""
        if before.astray and not row.astray:
            return True
        if is_unseen:
            return False
        if before.order is None and row.order is None and before.node != row.node:
            return row.header == before.header or self._command('place', name) is not None
        end = self.news.ends.get(before.order or '')
        return before.order not in (None, row.order) and end is not None and end.how == 'placed'

    @staticmethod
    def _obeys(action: str, row: ExportedVehicle) -> str:
        """Returns `obeyed` where a vehicle that reports the end of an instant action is as it was
        told to be, else `disobeyed`."""
        is_so = {'startPause': row.paused, 'stopPause': not row.paused}
        is_so['cancelOrder'] = row.order is None
        return 'obeyed' if is_so.get(action, True) else 'disobeyed'

    def _hear(self, name: str, seen: KnownVehicle, is_new: bool) -> None:
        """Notes a new state of a vehicle, or that none has come for a while."""
        at = self.news.at
        if is_new:
            seen.heard = at
            self.news.record.heard(name, at)
            if seen.silent is not None:
                self.news.event('vehicle.heard', VEHICLE, {'vehicle': name})
                seen.silent = None
        elif seen.heard is not None and seen.silent is None:
            if at - seen.heard >= self.silent_after:
                seen.silent = seen.heard
                self.news.event('vehicle.silent', BOARD, {'vehicle': name})

    def next_order(self) -> VehicleKey | None:
        """Returns a vehicle whose order message is to be asked for, or None."""
        for seen in self.seen.values():
            if seen.row.order is not None and seen.way is None and not seen.is_asked:
                return seen.row.key
        return None

    def take_order(self, key: VehicleKey, way: Way | None) -> None:
        """Takes the way that an order message tells, None where the vehicle has no open order any
        more. One of an order that the vehicle has by now is taken once the export tells of it."""
        name = str(key)
        seen = self.seen[name]
        seen.is_asked = True
        if way is None or way.order != seen.row.order:
            return
        if way.end != seen.row.edges:
            raise NotADesk(f'its answers contradict each other about order {way.order}')
        seen.way = way
        if self.earlier.pop(name, None) != way.order:
            self._tell_start(name, way)
        self._show(name, seen)
        self._wait()

    def _tell_start(self, name: str, way: Way) -> None:
        """Tells of an order that has begun."""

        def is_of(values: Mapping[str, str]) -> bool:
            return values.get('vehicle') == name and values.get('order') == way.order

        stops = sentences.stops(way)
        more = {'edges': way.end, 'stops': words_of(stops, ', '), 'says': told(stops)}
        about: dict[str, str | None] = {'vehicle': name, 'order_name': way.order}
        about['node'] = way.nodes[0]
        call = 'order' if way.acts else 'drive'
        self.news.event('order.started', self.news.cause(call, of=is_of), about, more=more)

    def _is_over(self, name: str, order: str, end: OrderEnd) -> None:
        about = {'vehicle': name, 'order_name': order}
        self.news.event(f'order.{end.how}', end.cause, about)

    def _show(self, name: str, seen: KnownVehicle) -> None:
        row = seen.row
        values = sentences.vehicle(row)
        if values != seen.kept:
            seen.kept = values
            self.news.record.vehicle(self.news.at, name, values, seen.heard)
        if row.ready or seen.unready is None:
            seen.unready = None if row.ready else self._unready_since(name)
        told = sentences.shown_vehicle(
            values,
            loads=self.loads.get(name, ()),
            rest=None if row.rest is None else Rest(edge=row.rest[0], node=row.rest[1]),
            silent=seen.silent,
            header=row.header,
            unready=seen.unready,
        )
        self.news.shown.put(shown_rows.VEHICLE, name, told)
        self.news.shown.put(WAY, name, None if seen.way is None else sentences.way(seen.way))

    def _unready_since(self, name: str) -> int:
        """Returns since when a vehicle is not ready, as far as the record reaches."""
        ready = 'SELECT coalesce(max(n), 0) FROM vehicle_states WHERE vehicle = ? AND ready = 1'
        question = f'SELECT min(at) FROM vehicle_states WHERE vehicle = ? AND n > ({ready})'
        ((at,),) = self.news.record.rows(question, (name, name))
        return self.news.at if at is None else moment_of(at)

    def _wait(self) -> None:
        waits: dict[str, Wait] = {}
        for name, seen in self.seen.items():
            row, way = seen.row, seen.way
            if way is not None and row.seen is not None and row.released is not None:
                wait = wait_of(name, way, row.seen, row.released, self.holders)
                waits |= {} if wait is None else {name: wait}
        for name in self.waits.keys() | waits.keys():
            self._change_wait(name, self.waits.get(name), waits.get(name))
        self.waits = waits
        circles = circles_of({name: wait for name, wait in waits.items() if wait.stands})
        for circle in circles:
            if circle not in self.circles:
                more = {'vehicles': circle}
                self.news.event('wait.circle', BOARD, {'vehicle': circle[0]}, more=more)
        self.circles = circles
        self.news.shown.put(CIRCLES, '', circles or None)

    def _change_wait(self, name: str, before: Wait | None, after: Wait | None) -> None:
        if before == after:
            return
        if before is None or after is None or (before.thing, before.by) != (after.thing, after.by):
            at = self.waits_since[name] = self.news.at
            thing, by = (None, None) if after is None else (after.thing, after.by)
            self.news.record.wait(at, name, thing, by)
        told = None if after is None else sentences.wait(after, self.waits_since[name])
        self.news.shown.put(WAIT, name, told)


def why_of(reasons: list[Line]) -> dict[str, object]:
    """Returns why a vehicle is not ready, as its entry says it; nothing where that is not known."""
    if not reasons:
        return {}
    words = words_of(reasons, ', ')
    why = Line('event.why', {'why': words, 'says': told(reasons)})
    return {'why': why.words(), 'says': [why.told()]}
