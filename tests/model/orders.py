"""The calls about vehicles and their orders, but for the states that they post."""
from __future__ import annotations

import sqlite3
from collections.abc import Callable

from tests.model.bodies import Stop, Told, check, names, number, read_body, stops_of
from tests.model.loads import REFERENCES
from tests.model.tables import LAST, VEHICLES, Key, Tables, things

OF_VEHICLE = ' WHERE manufacturer = ? AND serial = ?'
SENT = 'UPDATE vehicle SET order_header = order_header + 1, order_at = ?' + OF_VEHICLE


def register_vehicle(desk: Tables, body: bytes) -> Told:
    told = read_body(body)
    manufacturer, serial, node = names(told, 'manufacturer', 'serialNumber', 'node')
    key = manufacturer, serial
    capacity = number(told, 'capacity') if told.get('capacity') is not None else 1
    check(desk.one('SELECT 1 FROM vehicle' + OF_VEHICLE, *key), 'Exists')
    check(node not in desk.layout.nodes, 'NoNode')
    desk.check_free(key, [('node', node)])
    desk.check_limit('vehicle', VEHICLES)
    check(not 1 <= capacity <= 4, 'Limit')
    desk.put(
        'INSERT INTO vehicle VALUES (?, ?, ?, NULL, NULL, NULL, NULL, 0, 0, 0, 0, 0, 0, NULL)',
        *key,
        node,
    )
    desk.put('INSERT INTO capacity VALUES (?, ?, ?)', *key, capacity)
    desk.hold(key, [('node', node)])
    return {}


def plan(
    desk: Tables, at: str, stops: list[Stop], jobs: dict[str, sqlite3.Row]
) -> tuple[list[str], list[int]]:
    """The edges from stop to stop, and the place of each stop on the way."""
    way, places = [], []
    for kind, job in stops:
        node = desk.layout.stations[jobs[job]['origin' if kind == 'pick' else 'target']][0]
        way += desk.layout.route(at, node)
        at = node
        places.append(len(way))
    return way, places


def start_order(desk: Tables, body: bytes) -> Told:
    told = read_body(body)
    order, manufacturer, serial = names(told, 'order', 'manufacturer', 'serialNumber')
    key, edges = (manufacturer, serial), number(told, 'edges')
    stops = stops_of(told)
    check(desk.is_used('order', order), 'Exists')
    vehicle = desk.vehicle(key)
    jobs = jobs_of(desk, stops)
    check(vehicle['reported'] == order, 'OrderKnown')
    check(any(row['phase'] != 'waiting' for row in jobs.values()), 'JobState')
    check(desk.has_trip(key), 'Busy')
    check(vehicle['rest_node'] is not None, 'Astray')
    check(desk.aboard(key) + len(jobs) > desk.capacity(key), 'Loaded')
    check(not vehicle['ready'], 'NotReady')
    check(vehicle['pending'] == 'cancelOrder', 'InstantPending')
    way, places = plan(desk, vehicle['node'], stops, jobs)
    send(desk, key, vehicle, order, way, edges)
    acts = [(order, n, job, kind, at) for n, ((kind, job), at) in enumerate(zip(stops, places))]
    desk.base.executemany("INSERT INTO act VALUES (?, ?, ?, ?, ?, 'WAITING')", acts)
    desk.base.executemany("UPDATE job SET phase = 'riding' WHERE id = ?", [(job,) for job in jobs])
    return {'orderUpdateId': 0}


def start_drive(desk: Tables, body: bytes) -> Told:
    told = read_body(body)
    order, manufacturer, serial, to = names(told, 'order', 'manufacturer', 'serialNumber', 'to')
    key, edges = (manufacturer, serial), number(told, 'edges')
    check(desk.is_used('order', order), 'Exists')
    vehicle = desk.vehicle(key)
    check(to not in desk.layout.nodes, 'NoNode')
    check(vehicle['reported'] == order, 'OrderKnown')
    check(desk.has_trip(key), 'Busy')
    check(vehicle['rest_node'] is not None, 'Astray')
    check(not vehicle['ready'], 'NotReady')
    check(vehicle['pending'] == 'cancelOrder', 'InstantPending')
    way = desk.layout.route(vehicle['node'], to)
    check(not way, 'NoWalk')
    send(desk, key, vehicle, order, way, edges)
    return {'orderUpdateId': 0}


def send(
    desk: Tables, key: Key, vehicle: sqlite3.Row, order: str, way: list[str], edges: int
) -> None:
    """Sends an order over this way to a vehicle, with so many of its edges released."""
    check(len(way) > 200, 'TooLong')
    check(edges > len(way), 'Beyond')
    wanted = things([vehicle['node']] + [desk.layout.edges[edge][1] for edge in way], way, 0, edges)
    desk.check_free(key, wanted)
    check(vehicle['order_header'] == LAST, 'Spent')
    desk.check_limit("used WHERE kind = 'order'")
    desk.put(
        'INSERT INTO journey VALUES (?, ?, ?, ?, 0, ?, 0, NULL, 0)',
        order,
        *key,
        vehicle['node'],
        edges,
    )
    desk.base.executemany(
        'INSERT INTO leg VALUES (?, ?, ?)', [(order, k, edge) for k, edge in enumerate(way)]
    )
    desk.put(SENT, desk.now, *key)
    desk.use('order', order)
    desk.hold(key, wanted)


def jobs_of(desk: Tables, stops: list[Stop]) -> dict[str, sqlite3.Row]:
    """The jobs of an order, each picked once and, later, dropped once."""
    kinds = {job: [kind for kind, of in stops if of == job] for _, job in stops}
    check(not stops or any(said != ['pick', 'drop'] for said in kinds.values()), 'BadStops')
    jobs = {job: desk.one('SELECT * FROM job WHERE id = ?', job) for job in kinds}
    check(None in jobs.values(), 'NoJob')
    return jobs


def advance(desk: Tables, manufacturer: str, serial: str, body: bytes) -> Told:
    told, key = read_body(body), (manufacturer, serial)
    (order,) = names(told, 'order')
    update, edges = number(told, 'orderUpdateId'), number(told, 'edges')
    vehicle, trip = desk.vehicle(key), desk.trip(key)
    check(trip is None or trip.row['order_id'] != order, 'NoOrder')
    assert trip is not None
    row = trip.row
    check(update != row['sent'] + 1, 'WrongUpdate', sent=row['sent'])
    check(row['confirmed'] != row['sent'], 'NotConfirmed')
    check(not vehicle['ready'], 'NotReady')
    check(vehicle['pending'] == 'cancelOrder', 'InstantPending')
    check(edges == 0 or row['base'] + edges > len(trip.edges), 'Beyond')
    wanted = things(trip.nodes, trip.edges, row['seen'], row['base'] + edges)
    desk.check_free(key, wanted)
    check(vehicle['order_header'] == LAST, 'Spent')
    desk.put(
        'UPDATE journey SET first = base, base = base + ?, sent = sent + 1 WHERE order_id = ?',
        edges,
        order,
    )
    desk.put(SENT, desk.now, *key)
    desk.hold(key, wanted)
    return {'orderUpdateId': update}


def instant(kind: str) -> Callable[[Tables, str, str, bytes], Told]:
    """The call that sends this instant action."""

    def told(desk: Tables, manufacturer: str, serial: str, _: bytes) -> Told:
        key = manufacturer, serial
        vehicle = desk.vehicle(key)
        check(kind == 'cancelOrder' and not desk.has_trip(key), 'NoOrder')
        check(vehicle['pending'] is not None, 'InstantPending')
        check(vehicle['instant_header'] == LAST, 'Spent')
        changed = (
            'UPDATE vehicle SET instant_header = instant_header + 1, instant_at = ?, pending = ?'
        )
        desk.put(changed + OF_VEHICLE, desk.now, kind, *key)
        return {'actionId': f'instant-{vehicle["instant_header"] + 1}'}

    return told


def place_vehicle(desk: Tables, manufacturer: str, serial: str, body: bytes) -> Told:
    ref, node = names(read_body(body), 'ref', 'node')
    key = manufacturer, serial
    check(desk.is_used('ref', ref), 'RefUsed')
    desk.vehicle(key)
    check(node not in desk.layout.nodes, 'NoNode')
    desk.check_free(key, [('node', node)])
    desk.check_limit(REFERENCES)
    trip = desk.trip(key)
    if trip:
        desk.end_trip(trip)
    desk.put(
        'UPDATE vehicle SET node = ?, rest_edge = NULL, rest_node = NULL, pending = NULL'
        + OF_VEHICLE,
        node,
        *key,
    )
    desk.use('ref', ref)
    desk.hold(key, [('node', node)])
    return {}


def resync(desk: Tables, manufacturer: str, serial: str, _: bytes) -> Told:
    desk.vehicle((manufacturer, serial))
    desk.put('UPDATE vehicle SET last_header = NULL' + OF_VEHICLE, manufacturer, serial)
    return {}
