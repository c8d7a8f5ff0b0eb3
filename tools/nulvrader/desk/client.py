"""A client of a desk: a method for each call.

A method raises `Refused` where the desk refuses, `NoAnswer` where no answer of a desk has come, and
of these `NotADesk` where an answer came that no desk writes. A value that no call takes is a
`BadValue`, and nothing is sent."""
from __future__ import annotations

import json
from collections.abc import Mapping, Sequence

from . import exports, reports
from .answers import refused
from .errors import NoAnswer, NotADesk, Refused
from .members import JsonObject, Members, read_object
from .messages import read_instant_action, read_order
from .transport import Transport
from .values import PHASES, Answer, Job, JobPhase, Load, Stocktake, Stop, Vehicle, ExportedVehicle
from ..common.names import (
    BadName,
    BadValue,
    VehicleKey,
    checked,
    checked_number,
    checked_vehicle,
    is_name,
)
from ..common.layouts import Layout
from ..common.tables import BODY
from ..common.text import shown

__all__ = [
    'Answer',
    'BadName',
    'BadValue',
    'Desk',
    'Job',
    'JobPhase',
    'Load',
    'NoAnswer',
    'NotADesk',
    'Refused',
    'Stocktake',
    'Stop',
    'Vehicle',
    'ExportedVehicle',
]


class Desk(Transport):
    """A client of the desk at an address. Each call of the desk is a method, which returns what the
    desk answers."""

    def _bytes(self, method: str, target: str, body: object = None) -> bytes:
        """Sends a request, and returns the body of the answer. Raises a refusal, and any other
        status than 200 or 204. A body that is not bytes is sent as JSON."""
        data = body if body is None or isinstance(body, bytes) else _json_of(body)
        if data is not None and len(data) > BODY:
            raise BadValue(f'a body of {len(data):,} bytes: a desk takes {BODY:,}')
        answer = self.ask(method, target, data)
        if answer.status not in (200, 204):
            raise refused(answer)
        return answer.body

    def _members(self, method: str, target: str, body: object = None) -> Members:
        """Sends a request, and returns the members of the answer."""
        changes = method != 'GET'
        return Members(read_object(self._bytes(method, target, body), changes), changes)

    def _do(self, method: str, target: str, body: object = None) -> None:
        """Sends a request that a desk answers with `{}`."""
        answer = self._bytes(method, target, body)
        if read_object(answer, True):
            raise NotADesk(f'it answers {shown(answer, 80)} where a desk answers {{}}', True)

    def set_layout(self, csv: bytes) -> None:
        """Sets the layout, once for good (docs/PROFILE.md)."""
        self._do('PUT', '/layout', _table(csv))

    def register_vehicle(self, vehicle: VehicleKey, node: str, capacity: int | None = None) -> None:
        """Registers a vehicle at a node, for one load or `capacity` (1 to 4) at once."""
        loads = None if capacity is None else checked_number(capacity, 'loads')
        body = {**_key(vehicle), 'node': checked(node, 'node')}
        self._do('POST', '/vehicles', _present(body, capacity=loads))

    def register_load(self, load: str, station: str | None = None) -> None:
        """Registers a load at a station, or at the checking place."""
        body = {'load': checked(load, 'load')}
        self._do('POST', '/loads', _present(body, station=_station(station)))

    def correct_load(self, load: str, ref: str, station: str | None = None) -> None:
        """Says that a load stands at a station, or at the checking place."""
        body = {'ref': checked(ref, 'reference')}
        path = f'/loads/{checked(load, "load")}/correct'
        self._do('POST', path, _present(body, station=_station(station)))

    def leave_load(self, load: str, ref: str) -> None:
        """Says that a load has left the warehouse."""
        body = {'ref': checked(ref, 'reference')}
        self._do('POST', f'/loads/{checked(load, "load")}/leave', body)

    def add_job(self, job: str, load: str, to: str) -> None:
        """Adds a job that takes a load from the station where it stands to another one."""
        names = checked(job, 'job'), checked(load, 'load'), checked(to, 'station')
        self._do('POST', '/jobs', dict(zip(('job', 'load', 'to'), names)))

    def stop_job(self, job: str) -> None:
        """Stops a job that waits."""
        self._do('DELETE', f'/jobs/{checked(job, "job")}')

    def start_order(self, order: str, vehicle: VehicleKey, *, job: str, edges: int) -> int:
        """Gives a vehicle an order of one job, with so many edges released. Returns the number of
        its update."""
        return self._start_order(order, vehicle, edges, 'job', checked(job, 'job'))

    def start_order_of_stops(
        self, order: str, vehicle: VehicleKey, *, stops: Sequence[Stop], edges: int
    ) -> int:
        """Gives a vehicle an order of stops, with so many edges released. Returns the number of its
        update."""
        return self._start_order(order, vehicle, edges, 'stops', [_stop(stop) for stop in stops])

    def _start_order(
        self, order: str, vehicle: VehicleKey, edges: int, member: str, value: object
    ) -> int:
        """Sends an order with what it is of, a job or stops."""
        named = {**_key(vehicle), 'order': checked(order, 'order')}
        body = {**named, 'edges': checked_number(edges, 'edges'), member: value}
        return self._members('POST', '/orders', body).number('orderUpdateId')

    def start_drive(self, order: str, vehicle: VehicleKey, to: str, edges: int) -> int:
        """Gives a vehicle an order without actions, to a node, with so many edges released. Returns
        the number of its update."""
        body = {
            **_key(vehicle),
            'order': checked(order, 'order'),
            'to': checked(to, 'node'),
            'edges': checked_number(edges, 'edges'),
        }
        return self._members('POST', '/drives', body).number('orderUpdateId')

    def advance(self, vehicle: VehicleKey, order: str, update: int, edges: int) -> int:
        """Releases so many edges more, by the update of this number, and returns the number."""
        body = {
            'order': checked(order, 'order'),
            'orderUpdateId': checked_number(update, 'an update'),
            'edges': checked_number(edges, 'edges'),
        }
        members = self._members('POST', f'/vehicles/{checked_vehicle(vehicle)}/advance', body)
        members.same('orderUpdateId', members.number('orderUpdateId'), update)
        return update

    def cancel(self, vehicle: VehicleKey) -> str:
        """Cancels the order of a vehicle. Returns the id of the instant action."""
        return self._instant(vehicle, 'cancel')

    def pause(self, vehicle: VehicleKey) -> str:
        """Tells a vehicle to pause. Returns the id of the instant action."""
        return self._instant(vehicle, 'pause')

    def resume(self, vehicle: VehicleKey) -> str:
        """Tells a vehicle to go on. Returns the id of the instant action."""
        return self._instant(vehicle, 'resume')

    def _instant(self, vehicle: VehicleKey, what: str) -> str:
        """Sends an instant action, and returns its id."""
        members = self._members('POST', f'/vehicles/{checked_vehicle(vehicle)}/{what}')
        return members.name('actionId')

    def place(self, vehicle: VehicleKey, ref: str, node: str) -> None:
        """Says that a vehicle stands at a node. Its order ends, and it holds that node alone."""
        body = {'ref': checked(ref, 'reference'), 'node': checked(node, 'node')}
        self._do('POST', f'/vehicles/{checked_vehicle(vehicle)}/place', body)

    def resync(self, vehicle: VehicleKey) -> None:
        """Has the desk take the vehicle's next state whatever its headerId, as after a restart."""
        self._do('POST', f'/vehicles/{checked_vehicle(vehicle)}/resync')

    def post_state(self, vehicle: VehicleKey, message: Mapping[str, object]) -> bool:
        """Posts a state of a vehicle. Returns False where it is old, and changes nothing."""
        if not isinstance(message, Mapping):
            raise BadValue('a state is a JSON object')
        path = f'/uagv/v2/{checked_vehicle(vehicle)}/state'
        return self._members('POST', path, dict(message)).flag('accepted')

    def order_message(self, vehicle: VehicleKey) -> JsonObject | None:
        """Returns the last order message of a vehicle's open order, or None without one."""
        message = self._message(vehicle, 'order')
        if message is not None and read_order(message).vehicle != vehicle:
            raise NotADesk(f'the order message of {vehicle} is of another vehicle')
        return message

    def instant_actions(self, vehicle: VehicleKey) -> JsonObject | None:
        """Returns the last instantActions message of a vehicle, while its action is pending, else
        None."""
        message = self._message(vehicle, 'instantActions')
        if message is not None and read_instant_action(message)[0] != vehicle:
            raise NotADesk(f'the instantActions message of {vehicle} is of another vehicle')
        return message

    def _message(self, vehicle: VehicleKey, topic: str) -> JsonObject | None:
        """Returns the message of a topic for a vehicle, or None where there is none."""
        answer = self.ask('GET', f'/uagv/v2/{checked_vehicle(vehicle)}/{topic}')
        if answer.status == 204:
            return None
        if answer.status != 200:
            raise refused(answer)
        return read_object(answer.body)

    def stocktake(self, ref: str, csv: bytes) -> Stocktake:
        """Sends a count of stations, as CSV (docs/PROFILE.md)."""
        members = self._members('POST', f'/stocktakes/{checked(ref, "reference")}', _table(csv))
        unknown = members.items('unknown')
        if not all(is_name(name) for name in unknown):
            raise members.wrong('unknown', unknown)
        return Stocktake(members.number('moved'), tuple(map(str, unknown)))

    def load(self, name: str) -> Load:
        """Returns where a load is, and its live job."""
        members = self._members('GET', f'/loads/{checked(name, "load")}')
        members.same('load', members.name('load'), name)
        return Load(name, members.place('place'), members.name_or_none('job'))

    def job(self, name: str) -> JobPhase:
        """Returns a job, ended or not, and which vehicle carries it out."""
        members = self._members('GET', f'/jobs/{checked(name, "job")}/phase')
        members.same('job', members.name('job'), name)
        found = JobPhase(
            name=name,
            load=members.name('load'),
            origin=members.name('from'),
            target=members.name('to'),
            phase=members.one_of('phase', PHASES),
            vehicle=members.key_or_none('vehicle'),
            order=members.name_or_none('order'),
        )
        if {found.vehicle is not None, found.order is not None} != {found.phase == 'riding'}:
            raise NotADesk(f'job {name} is {found.phase}, by order {found.order}')
        return found

    def vehicle(self, vehicle: VehicleKey) -> Vehicle:
        """Returns what the desk knows of a vehicle."""
        members = self._members('GET', f'/vehicles/{checked_vehicle(vehicle)}')
        members.same('serialNumber', members.vehicle(), vehicle)
        found = Vehicle(
            key=vehicle,
            node=members.name('node'),
            capacity=members.number('capacity', 1, 4),
            ready=members.flag('ready'),
            paused=members.flag('paused'),
            astray=members.flag('astray'),
            pending=members.name_or_none('pending'),
            order=members.name_or_none('order'),
            sent=members.number_or_none('sent'),
            confirmed=members.number_or_none('confirmed'),
            header=members.number_or_none('headerId'),
        )
        members.same('sent', found.sent is None, found.order is None)
        members.same('confirmed', (found.confirmed or 0) <= (found.sent or 0), True)
        return found

    def stock_report(self) -> bytes:
        """Returns where the loads are, as text."""
        return reports.check_stock(self._bytes('GET', '/report/stock'))

    def hold_report(self) -> bytes:
        """Returns what the vehicles hold, as text."""
        return reports.check_holds(self._bytes('GET', '/report/holds'))

    def loads_export(self) -> bytes:
        """Returns all loads, as CSV."""
        return exports.check_loads(self._bytes('GET', '/export/loads'))

    def jobs(self) -> dict[str, Job]:
        """Returns the live jobs, by their names."""
        return exports.read_jobs(self._bytes('GET', '/export/jobs'))

    def vehicles(self) -> dict[VehicleKey, ExportedVehicle]:
        """Returns what the desk knows of each vehicle."""
        return exports.read_vehicles(self._bytes('GET', '/export/vehicles'))

    def layout(self) -> Layout | None:
        """Returns the layout, or None where it is not set yet."""
        return exports.read_layout(self._bytes('GET', '/export/layout'))


def _json_of(body: object) -> bytes:
    """Returns a body as JSON, or raises `BadValue` where it is none."""
    try:
        text = json.dumps(body, separators=(',', ':'), allow_nan=False, ensure_ascii=False)
        return text.encode()
    except (TypeError, ValueError, RecursionError) as fault:
        raise BadValue(f'the body can not be sent as JSON: {shown(str(fault), 100)}') from None


def _table(csv: bytes) -> bytes:
    """Returns a table, or raises `BadValue` where it is not bytes."""
    if not isinstance(csv, bytes):
        raise BadValue('a table is sent as bytes')
    return csv


def _key(vehicle: VehicleKey) -> dict[str, str]:
    """Returns the members of a body that name a vehicle."""
    key = checked_vehicle(vehicle)
    return {'manufacturer': key.manufacturer, 'serialNumber': key.serial}


def _station(name: str | None) -> str | None:
    """Returns the name of a station, or None for the checking place."""
    return None if name is None else checked(name, 'station')


def _stop(stop: Stop) -> dict[str, str]:
    """Returns a stop as a body has it."""
    if not isinstance(stop, Stop) or stop.action not in ('pick', 'drop'):
        raise BadValue('a stop of an order is a pick or a drop of a job')
    return {'action': stop.action, 'job': checked(stop.job, 'job')}


def _present(body: Mapping[str, object], **more: object) -> dict[str, object]:
    """Returns a body with further members, but without those that are None."""
    return {**body, **{name: value for name, value in more.items() if value is not None}}
