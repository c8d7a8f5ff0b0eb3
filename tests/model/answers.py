"""What is only asked: messages, loads, vehicles, the reports and the exports."""
from __future__ import annotations

import datetime
import sqlite3
from collections.abc import Iterable
from typing import Any

from tests.model.bodies import check
from tests.model.orders import OF_VEHICLE
from tests.model.tables import Key, Tables, Trip


def stamp(moment: int) -> str:
    """A moment as messages have it, decimals cut off."""
    at = datetime.datetime.fromtimestamp(moment // 1000, datetime.timezone.utc)
    return at.strftime('%Y-%m-%dT%H:%M:%S.') + f'{moment % 1000 // 10:02d}Z'


def message(key: Key, header: int, moment: int, **more: Any) -> dict[str, Any]:
    return dict(
        more,
        headerId=header,
        manufacturer=key[0],
        serialNumber=key[1],
        timestamp=stamp(moment),
        version='2.0.0',
    )


def actions_at(trip: Trip, k: int) -> list[dict[str, Any]]:
    """The actions of a node of an order message."""
    return [
        {
            'actionId': trip.action(act),
            'actionParameters': [
                {'key': 'stationType', 'value': 'station'},
                {'key': 'stationName', 'value': act['station']},
                {'key': 'loadType', 'value': 'load'},
                {'key': 'loadId', 'value': act['load']},
            ],
            'actionType': act['kind'],
            'blockingType': 'HARD',
        }
        for act in trip.acts
        if act['place_at'] == k
    ]


def get_order(desk: Tables, manufacturer: str, serial: str, _: bytes) -> dict[str, Any] | None:
    """The last message of an open order: its nodes from `first` on."""
    key = manufacturer, serial
    vehicle, trip = desk.vehicle(key), desk.trip(key)
    if trip is None:
        return None
    row = trip.row
    nodes = [
        {
            'actions': actions_at(trip, k),
            'nodeId': trip.nodes[k],
            'released': k <= row['base'],
            'sequenceId': 2 * k,
        }
        for k in range(row['first'], len(trip.nodes))
    ]
    edges = [
        {
            'actions': [],
            'edgeId': trip.edges[k],
            'endNodeId': trip.nodes[k + 1],
            'released': k < row['base'],
            'sequenceId': 2 * k + 1,
            'startNodeId': trip.nodes[k],
        }
        for k in range(row['first'], len(trip.edges))
    ]
    order = {
        'edges': edges,
        'nodes': nodes,
        'orderId': row['order_id'],
        'orderUpdateId': row['sent'],
    }
    return message(key, vehicle['order_header'], vehicle['order_at'], **order)


def get_instant(desk: Tables, manufacturer: str, serial: str, _: bytes) -> dict[str, Any] | None:
    vehicle = desk.vehicle((manufacturer, serial))
    if vehicle['pending'] is None:
        return None
    action = {
        'actionId': f'instant-{vehicle["instant_header"]}',
        'actionParameters': [],
        'actionType': vehicle['pending'],
        'blockingType': 'HARD',
    }
    return message(
        (manufacturer, serial), vehicle['instant_header'], vehicle['instant_at'], actions=[action]
    )


def place_text(row: sqlite3.Row) -> str:
    """Where a load is."""
    texts = {
        'station': f'station {row["station"]}',
        'vehicle': f'vehicle {row["manufacturer"]}/{row["serial"]}',
    }
    return texts.get(row['kind'], row['kind'])


def get_load(desk: Tables, load: str, _: bytes) -> dict[str, Any]:
    row = desk.load(load)
    return {'job': desk.live_job(load), 'load': load, 'place': place_text(row)}


def get_job(desk: Tables, job: str, _: bytes) -> dict[str, Any]:
    row = desk.one('SELECT * FROM job WHERE id = ?', job)
    check(row is None, 'NoJob')
    carrier = desk.one(
        "SELECT order_id, manufacturer, serial FROM act JOIN journey USING (order_id)"
        " WHERE job = ? AND kind = 'drop' AND status <> 'FINISHED'",
        job,
    )
    return {
        'from': row['origin'],
        'job': job,
        'load': row['load'],
        'order': carrier['order_id'] if carrier else None,
        'phase': row['phase'],
        'to': row['target'],
        'vehicle': f'{carrier["manufacturer"]}/{carrier["serial"]}' if carrier else None,
    }


def get_vehicle(desk: Tables, manufacturer: str, serial: str, _: bytes) -> dict[str, Any]:
    key = manufacturer, serial
    row = desk.vehicle(key)
    trip = desk.one('SELECT order_id, sent, confirmed FROM journey' + OF_VEHICLE, *key)
    order, sent, confirmed = trip or (None, None, None)
    return {
        'astray': row['rest_node'] is not None,
        'capacity': desk.capacity(key),
        'confirmed': confirmed,
        'headerId': row['last_header'],
        'manufacturer': manufacturer,
        'node': row['node'],
        'order': order,
        'paused': bool(row['paused']),
        'pending': row['pending'],
        'ready': bool(row['ready']),
        'sent': sent,
        'serialNumber': serial,
    }


def stock_report(desk: Tables, _: bytes) -> str:
    at: dict[str, list[str]] = {}
    for row in desk.base.execute('SELECT * FROM load ORDER BY id'):
        at.setdefault(place_text(row), []).append(row['id'])
    out = []
    for name, (node, capacity) in sorted(desk.layout.stations.items()):
        loads = at.get('station ' + name, [])
        out.append(
            f'station {name} at {node}: {len(loads)} of {capacity}, reserved {desk.coming(name)}'
        )
        out += ['  ' + load for load in loads]
    vehicles = desk.base.execute(
        'SELECT manufacturer, serial FROM vehicle ORDER BY manufacturer, serial'
    )
    for place in [
        'checking',
        *[f'vehicle {row["manufacturer"]}/{row["serial"]}' for row in vehicles],
    ]:
        loads = at.get(place, [])
        out += [f'{place}: {len(loads)}'] + ['  ' + load for load in loads]
    return '\n'.join(out + [f'left: {len(at.get("left", []))}\n'])


def hold_report(desk: Tables, _: bytes) -> str:
    rows = desk.base.execute(
        'SELECT kind, id, manufacturer, serial FROM hold ORDER BY kind DESC, id'
    )
    lines = [
        f'{kind} {name} {manufacturer}/{serial}\n' for kind, name, manufacturer, serial in rows
    ]
    return (
        ''.join(lines) + f'held {len(lines)} of {len(desk.layout.nodes) + len(desk.layout.edges)}\n'
    )


def export_loads(desk: Tables, _: bytes) -> str:
    rows = desk.base.execute('SELECT * FROM load ORDER BY id')
    lines = ['load,place,at']
    for row in rows:
        kind, *at = place_text(row).split(' ')
        lines.append(f'{row["id"]},{kind},{" ".join(at)}')
    return '\n'.join([*lines, ''])


def csv_text(header: str, rows: Iterable[Iterable[object]]) -> str:
    """Returns a CSV file; None is an empty field, and a truth value a word."""
    words = {None: '', False: 'false', True: 'true'}
    shown = [
        [words[field] if field is None or isinstance(field, bool) else str(field) for field in row]
        for row in rows
    ]
    return ''.join(','.join(row) + '\n' for row in [header.split(','), *shown])


def export_jobs(desk: Tables, _: bytes) -> str:
    carriers = {
        act['job']: (act['manufacturer'], act['serial'], act['order_id'])
        for act in desk.base.execute(
            'SELECT job, manufacturer, serial, order_id FROM act JOIN journey USING (order_id)'
        )
    }
    rows = desk.base.execute("SELECT * FROM job WHERE phase IN ('waiting', 'riding') ORDER BY id")
    return csv_text(
        'job,load,from,to,phase,manufacturer,serialNumber,order',
        [(*row, *carriers.get(row['id'], ('', '', ''))) for row in rows],
    )


def export_vehicles(desk: Tables, _: bytes) -> str:
    rows = []
    for row in desk.base.execute('SELECT * FROM vehicle ORDER BY manufacturer, serial'):
        key = row['manufacturer'], row['serial']
        told = get_vehicle(desk, *key, b'')
        trip = desk.trip(key)
        way = (trip.row['base'], len(trip.edges), trip.row['seen']) if trip else (None, None, None)
        seen = [
            told[name]
            for name in ('node', 'capacity', 'ready', 'paused', 'astray', 'headerId', 'pending')
        ]
        open_order = [told[name] for name in ('order', 'sent', 'confirmed')]
        rows.append([*key, *seen, *open_order, *way, row['rest_edge'], row['rest_node']])
    return csv_text(
        'manufacturer,serialNumber,node,capacity,ready,paused,astray,headerId,pending,order,'
        'sent,confirmed,released,'
        'edges,seen,restEdge,restNode',
        rows,
    )


def export_layout(desk: Tables, _: bytes) -> str:
    nodes = [
        ('node', row['id'], '', '') for row in desk.base.execute('SELECT * FROM node ORDER BY id')
    ]
    edges = [('edge', *row) for row in desk.base.execute('SELECT * FROM edge ORDER BY id')]
    stations = [('station', *row) for row in desk.base.execute('SELECT * FROM station ORDER BY id')]
    return csv_text('kind,id,from,to', nodes + edges + stations)
