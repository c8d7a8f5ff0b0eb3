"""Requests: one of each call of the desk, and the bytes of any. The manufacturer of all vehicles is
KIT."""
import functools
import json
from collections.abc import Iterable, Sequence
from typing import Any, NamedTuple


class Asked(NamedTuple):
    line: str
    body: object = None


class Call(Asked):
    """A request: the method and the target, as `POST /loads`, and the body, which is a JSON value,
    a text, bytes, or none."""

    @property
    def method(self) -> str:
        return self.line.split(' ')[0]

    @property
    def target(self) -> str:
        return self.line.split(' ')[1]

    @functools.cached_property
    def data(self) -> bytes:
        """The bytes of the body."""
        if isinstance(self.body, (bytes, type(None))):
            return self.body or b''
        return (
            self.body
            if isinstance(self.body, str)
            else json.dumps(self.body, separators=(',', ':'))
        ).encode()

    def to_bytes(self, more: str = '') -> bytes:
        """The request as bytes; `more` are further lines of its head."""
        length = '' if self.body is None else f'Content-Length: {len(self.data)}\r\n'
        return (f'{self.line} HTTP/1.1\r\n{length}{more}\r\n').encode() + self.data


def request(line: str, body: object = None, more: str = '') -> bytes:
    """The bytes of a request."""
    return Call(line, body).to_bytes(more)


def present(**members: object) -> dict[str, object]:
    """An object with those of the members that aren't none."""
    return {name: value for name, value in members.items() if value is not None}


def key(serial: str, manufacturer: str = 'KIT') -> dict[str, object]:
    return {'manufacturer': manufacturer, 'serialNumber': serial}


def layout(rows: str) -> Call:
    return Call('PUT /layout', rows)


def vehicle(serial: str, node: str, capacity: int | None = None) -> Call:
    body: dict[str, object] = {**key(serial), 'node': node, **present(capacity=capacity)}
    return Call('POST /vehicles', body)


def load(name: str, station: str | None = None) -> Call:
    return Call('POST /loads', present(load=name, station=station))


def correct(name: str, ref: str, station: str | None = None) -> Call:
    return Call(f'POST /loads/{name}/correct', present(ref=ref, station=station))


def leave(name: str, ref: str) -> Call:
    return Call(f'POST /loads/{name}/leave', {'ref': ref})


def job(name: str, of: str, to: str) -> Call:
    return Call('POST /jobs', {'job': name, 'load': of, 'to': to})


def stop_job(name: str) -> Call:
    return Call('DELETE /jobs/' + name)


def order(name: str, of: str, edges: int, serial: str = '0001') -> Call:
    """An order of one job."""
    return Call('POST /orders', {'order': name, 'job': of, **key(serial), 'edges': edges})


def order_of_stops(
    name: str, stops: Iterable[Sequence[str]], edges: int, serial: str = '0001'
) -> Call:
    """An order over several jobs; the stops are pairs as `('pick', 'J1')`."""
    said = [{'action': action, 'job': of} for action, of in stops]
    return Call('POST /orders', {'order': name, 'stops': said, **key(serial), 'edges': edges})


def drive(name: str, to: str, edges: int, serial: str = '0001') -> Call:
    """An order without actions, to a node."""
    return Call('POST /drives', {'order': name, **key(serial), 'to': to, 'edges': edges})


def advance(name: str, update: int, edges: int, serial: str = '0001') -> Call:
    return Call(
        f'POST /vehicles/KIT/{serial}/advance',
        {'order': name, 'orderUpdateId': update, 'edges': edges},
    )


def instant(what: str, serial: str = '0001') -> Call:
    """`cancel`, `pause` or `resume`."""
    return Call(f'POST /vehicles/KIT/{serial}/{what}', '')


def place(ref: str, node: str, serial: str = '0001') -> Call:
    return Call(f'POST /vehicles/KIT/{serial}/place', {'ref': ref, 'node': node})


def resync(serial: str = '0001') -> Call:
    return Call(f'POST /vehicles/KIT/{serial}/resync', '')


def state_body(
    number: int,
    vehicle: dict[str, object],
    order: str,
    update: int,
    node: str,
    sequence: int,
    statuses: Iterable[tuple[str, str]],
) -> dict[str, Any]:
    """The message of a vehicle that is ready; `statuses` are pairs of an action's id and its
    status."""
    return {
        'headerId': number,
        'timestamp': '2023-11-14T22:13:19.50Z',
        'version': '2.0.0',
        **vehicle,
        'orderId': order,
        'orderUpdateId': update,
        'lastNodeId': node,
        'lastNodeSequenceId': sequence,
        'driving': False,
        'nodeStates': [],
        'edgeStates': [],
        'actionStates': [{'actionId': name, 'actionStatus': status} for name, status in statuses],
        'batteryState': {'batteryCharge': 80, 'charging': False},
        'operatingMode': 'AUTOMATIC',
        'errors': [],
        'safetyState': {'eStop': 'NONE', 'fieldViolation': False},
    }


def state(
    number: int,
    order: str = '',
    update: int = 0,
    node: str = 'N1',
    sequence: int = 0,
    statuses: Iterable[tuple[str, str]] = (),
    serial: str = '0001',
    **others: Any,
) -> Call:
    """A state of a vehicle that is ready; `statuses` are pairs of an action's id and its status."""
    body = state_body(number, key(serial), order, update, node, sequence, statuses)
    return Call(f'POST /uagv/v2/KIT/{serial}/state', {**body, **others})


def stocktake(ref: str, rows: Iterable[tuple[str, str]]) -> Call:
    """What was counted: pairs of a station and a load, which is empty where none was found."""
    return Call(
        'POST /stocktakes/' + ref,
        'station,load\n' + ''.join(f'{station},{load}\n' for station, load in rows),
    )


def get_load(name: str) -> Call:
    return Call('GET /loads/' + name)


def get_job(name: str) -> Call:
    return Call(f'GET /jobs/{name}/phase')


def get_vehicle(serial: str = '0001') -> Call:
    return Call('GET /vehicles/KIT/' + serial)


def get_order(serial: str = '0001') -> Call:
    return Call(f'GET /uagv/v2/KIT/{serial}/order')


def get_instant(serial: str = '0001') -> Call:
    return Call(f'GET /uagv/v2/KIT/{serial}/instantActions')


STOCK_REPORT, HOLD_REPORT = Call('GET /report/stock'), Call('GET /report/holds')
LOADS_EXPORT, JOBS_EXPORT = Call('GET /export/loads'), Call('GET /export/jobs')
VEHICLES_EXPORT, LAYOUT_EXPORT = Call('GET /export/vehicles'), Call('GET /export/layout')
EXPORTS = LOADS_EXPORT, JOBS_EXPORT, VEHICLES_EXPORT, LAYOUT_EXPORT
REPORTS = STOCK_REPORT, HOLD_REPORT, *EXPORTS
