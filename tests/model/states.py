"""The states that vehicles post: each is judged against the open order, and then it moves loads,
frees track and may end the order."""
from __future__ import annotations

import collections
from typing import Any

from tests.model.bodies import ACTIVE, FINAL, Told, check, is_name, read_state
from tests.model.orders import OF_VEHICLE
from tests.model.tables import Key, Tables, Trip, things


def state(desk: Tables, manufacturer: str, serial: str, body: bytes) -> Told:
    told, key = read_state(body), (manufacturer, serial)
    check((told['manufacturer'], told['serialNumber']) != key, 'WrongVehicle')
    vehicle = desk.vehicle(key)
    if vehicle['last_header'] is not None and told['headerId'] <= vehicle['last_header']:
        return {'accepted': False}
    trip, listed = desk.trip(key), [
        (act['actionId'], act['actionStatus']) for act in told['actionStates']
    ]
    action = f'instant-{vehicle["instant_header"]}' if vehicle['pending'] else None
    over = next((status for name, status in listed if name == action and status in FINAL), None)
    cancelled = over == 'FINISHED' and vehicle['pending'] == 'cancelOrder'
    if trip is not None and trip.row['order_id'] == told['orderId']:
        k, acts = judged(trip, action, told, listed)
        check(cancelled and any(act in ACTIVE for act in acts), 'CancelEarly')
        report(desk, key, trip, k, acts, cancelled, told['orderUpdateId'])
    else:
        check(trip is not None and trip.row['confirmed'] is not None, 'OtherOrder')
        check(sum(name == action for name, _ in listed) > 1, 'ActionTwice')
        check(told['lastNodeId'] not in ('', vehicle['node']), 'NotThere')
    desk.put(
        'UPDATE vehicle SET last_header = ?, reported = ?, ready = ?, paused = ?, pending = ?'
        + OF_VEHICLE,
        told['headerId'],
        told['orderId'] if is_name(told['orderId']) else None,
        is_ready(told),
        bool(told.get('paused')),
        None if over else vehicle['pending'],
        *key,
    )
    return {'accepted': True}


def is_ready(told: Any) -> bool:
    """Whether a state says that the vehicle is under the desk's control and can drive."""
    return (
        told['operatingMode'] in ('AUTOMATIC', 'SEMIAUTOMATIC')
        and told['safetyState']['eStop'] == 'NONE'
        and all(error['errorLevel'] != 'FATAL' for error in told['errors'])
    )


def judged(
    trip: Trip, action: str | None, told: Any, listed: list[tuple[str, str]]
) -> tuple[int, list[str]]:
    """The node that a state of the trip reports, and the statuses of its actions by it."""
    row, update = trip.row, told['orderUpdateId']
    check(update > row['sent'], 'UpdateNotSent')
    check(row['confirmed'] is not None and update < row['confirmed'], 'UpdateBackwards')
    k = 0
    if all(node['sequenceId'] != 0 for node in told['nodeStates']):
        k, odd = divmod(told['lastNodeSequenceId'], 2)
        check(odd or k > len(trip.edges) or told['lastNodeId'] != trip.nodes[k], 'NotOurNode')
    check(k < row['seen'], 'Backwards')
    check(k > (row['base'] if update == row['sent'] else row['first']), 'BeyondBase')
    wanted = [trip.action(act) for act in trip.acts]
    counts = collections.Counter(name for name, _ in listed)
    check(
        any(count > 1 for name, count in counts.items() if name in [*wanted, action]), 'ActionTwice'
    )
    before = [act['status'] for act in trip.acts]
    found = dict(listed)
    acts = [found.get(name, old) for name, old in zip(wanted, before)]
    check(
        any(new != old and (old in FINAL or new == 'WAITING') for old, new in zip(before, acts)),
        'ActionBackwards',
    )
    check(
        any(new == 'FINISHED' and act['place_at'] > k for act, new in zip(trip.acts, acts)),
        'ActionEarly',
    )
    picked = {
        act['job']
        for act, new in zip(trip.acts, acts)
        if (act['kind'], new) == ('pick', 'FINISHED')
    }
    dropped = {
        act['job']
        for act, new in zip(trip.acts, acts)
        if (act['kind'], new) == ('drop', 'FINISHED')
    }
    check(not dropped <= picked, 'DropFirst')
    return k, acts


def report(
    desk: Tables, key: Key, trip: Trip, k: int, acts: list[str], cancelled: bool, update: int
) -> None:
    """What a judged state changes besides the vehicle's own report."""
    row = trip.row
    for act, new in zip(trip.acts, acts):
        if new == 'FINISHED' != act['status'] and act['kind'] == 'pick':
            desk.put_load(act['load'], 'vehicle', None, key)
        elif new == 'FINISHED' != act['status']:
            desk.put_load(act['load'], 'station', act['station'])
            desk.put("UPDATE job SET phase = 'done' WHERE id = ?", act['job'])
    desk.put('UPDATE vehicle SET node = ?' + OF_VEHICLE, trip.nodes[k], *key)
    wanted = things(trip.nodes, trip.edges, k, row['base'])
    at_end = k == len(trip.edges) and all(act in FINAL for act in acts)
    if at_end or cancelled:
        desk.end_trip(trip)
        wanted = wanted[:1]
        if not at_end and k < row['base']:
            desk.put(
                'UPDATE vehicle SET rest_edge = ?, rest_node = ?' + OF_VEHICLE,
                trip.edges[k],
                trip.nodes[k + 1],
                *key,
            )
            wanted = things(trip.nodes, trip.edges, k, k + 1)
    else:
        desk.put(
            'UPDATE journey SET confirmed = ?, seen = ? WHERE order_id = ?',
            update,
            k,
            row['order_id'],
        )
        for act, new in zip(trip.acts, acts):
            desk.put(
                'UPDATE act SET status = ? WHERE order_id = ? AND n = ?',
                new,
                row['order_id'],
                act['n'],
            )
    desk.hold(key, wanted)
