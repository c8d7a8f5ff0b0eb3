"""What a desk answers to each call of the client, and what may not stand in its exports."""
from __future__ import annotations

import json
from collections.abc import Callable
from typing import Any

from nulvrader.common.layouts import read_layout
from nulvrader.common.names import VehicleKey
from nulvrader.desk import client, exports, reports
from tests.support.dispatching import LAYOUT

KIT = VehicleKey('KIT', '0001')
STOCK = (
    b'station A at N1: 1 of 2, reserved 0\n  L1\nchecking: 1\n  L2\n'
    b'vehicle KIT/0001: 1\n  L3\nleft: 4\n'
)
HOLDS = b'node N1 KIT/0001\nedge E12 KIT/0001\nheld 2 of 7\n'
EXPORT = b'load,place,at\nL1,station,A\nL2,vehicle,KIT/0001\nL3,checking,\nL4,left,\n'
JOBS = b'job,load,from,to,phase,manufacturer,serialNumber,order\nJ1,L1,A,B,waiting,,,\n'
JOBS += b'J2,L2,A,B,riding,KIT,0001,O1\nJ3,L3,B,A,riding,KIT,0001,O1\n'
VEHICLES = (
    b'manufacturer,serialNumber,node,capacity,ready,paused,astray,headerId,pending,order,sent,'
)
VEHICLES += b'confirmed,released,edges,seen,restEdge,restNode\n'
VEHICLES += b'KIT,0001,N1,2,true,false,false,2,startPause,O1,1,0,2,3,1,,\n'
VEHICLES += (
    b'KIT,0002,N3,1,true,true,true,3,,,,,,,,E32,N2\nKIT,0003,N4,1,false,false,false,,,,,,,,,,\n'
)
VEHICLE: dict[str, Any] = {
    'astray': False,
    'capacity': 1,
    'confirmed': 0,
    'headerId': 2,
    'manufacturer': 'KIT',
    'node': 'N1',
    'order': 'O1',
    'paused': False,
    'pending': None,
    'ready': True,
    'sent': 0,
    'serialNumber': '0001',
}


def act(number: int, kind: str, station: str) -> dict[str, Any]:
    """A pick or a drop, as docs/PROFILE.md has it."""
    pairs = {'stationType': 'station', 'stationName': station, 'loadType': 'load', 'loadId': 'L1'}
    listed = [{'key': key, 'value': value} for key, value in pairs.items()]
    more = {'actionParameters': listed, 'actionType': kind, 'blockingType': 'HARD'}
    return {'actionId': f'O1.{number}', **more}


def node(name: str, number: int, released: bool, *acts: dict[str, Any]) -> dict[str, Any]:
    """A node of an order message."""
    return {'actions': [*acts], 'nodeId': name, 'released': released, 'sequenceId': number}


HEAD = {'headerId': 1, 'manufacturer': 'KIT', 'serialNumber': '0001', 'version': '2.0.0'}
EDGE = {'actions': [], 'edgeId': 'E12', 'startNodeId': 'N1', 'endNodeId': 'N2', 'sequenceId': 1}
ORDER: dict[str, Any] = {
    **HEAD,
    'edges': [{**EDGE, 'released': False}],
    'nodes': [node('N1', 0, True, act(0, 'pick', 'A')), node('N2', 2, False, act(1, 'drop', 'B'))],
    'orderId': 'O1',
    'orderUpdateId': 0,
    'timestamp': '2023-11-14T22:13:20.00Z',
}
INSTANT = {'actionId': 'instant-1', 'actionParameters': [], 'actionType': 'startPause'}
TRUE: dict[str, bytes] = {
    'GET /report/stock': STOCK,
    'GET /report/holds': HOLDS,
    'GET /export/loads': EXPORT,
    'GET /export/jobs': JOBS,
    'GET /export/vehicles': VEHICLES,
    'GET /export/layout': read_layout(LAYOUT).csv(),
    'GET /vehicles/KIT/0001': json.dumps(VEHICLE).encode(),
    'GET /loads/L1': b'{"job":"J1","load":"L1","place":"station A"}',
    'GET /uagv/v2/KIT/0001/order': json.dumps(ORDER).encode(),
    'GET /uagv/v2/KIT/0001/instantActions': json.dumps({**HEAD, 'actions': [INSTANT]}).encode(),
    'GET /jobs/J1/phase': b'{"from":"A","job":"J1","load":"L1","order":"O1","phase":"riding",'
    b'"to":"B","vehicle":"KIT/0001"}',
    'POST /orders': b'{"orderUpdateId":0}',
    'POST /drives': b'{"orderUpdateId":0}',
    'POST /vehicles/KIT/0001/advance': b'{"orderUpdateId":1}',
    'POST /vehicles/KIT/0001/cancel': b'{"actionId":"instant-1"}',
    'POST /uagv/v2/KIT/0001/state': b'{"accepted":true}',
    'POST /stocktakes/R1': b'{"moved":1,"unknown":["L9"]}',
}

# What of these exports may not stand there, each with what is in its place.
WRONG_JOBS = (
    (b'J2', b'J1'),
    (b'J3', b'J0'),
    (b'L2', b'L1'),
    (b'L1,A', b'L1,B'),
    (b'B,waiting', b'B,done'),
    (b'waiting,,,', b'waiting,KIT,0001,O1'),
    (b'riding,KIT,0001,O1\nJ3', b'riding,,,\nJ3'),
    (b'0001,O1\nJ3', b'0001,O2\nJ3'),
    (b'0001,O1\nJ3', b'0002,O1\nJ3'),
    (b'0001,O1', b'0001'),
)
WRONG_VEHICLES = (
    (b'0002', b'0001'),
    (b'0002', b'0000'),
    (b'N3', b'N1'),
    (b'N3,1', b'N3,5'),
    (b'N1,2', b'N1,0'),
    (b'O1,1,0', b'O1,0,1'),
    (b'2,3,1', b'4,3,1'),
    (b'2,3,1', b'2,3,3'),
    (b'2,3,1', b'2,201,1'),
    (b'2,3,1', b'2,03,1'),
    (b'E32,N2', b','),
    (b'E32,N2', b'E32,'),
    (b'true,true,true', b'true,true,false'),
    (b'startPause', b'startpause'),
    (b'2,startPause', b'4294967296,startPause'),
    (b'true,3,,,,,,,,E32', b'true,3,,O2,0,,0,1,0,E32'),
    (b'false,,,,,,,,,,', b'false,1,,O1,0,,0,1,0,,'),
)
WRONG_LAYOUTS = (
    (b'node,ab', b'node,zz'),
    (b'id', b'name'),
    (b'station,A', b'station,"A"'),
    (b'\nedge', b'\r\nedge'),
)

# A call of each method of the client, by the request that it makes.
CALLS: dict[str, Callable[[client.Desk], object]] = {
    'GET /report/stock': lambda desk: reports.read_stock(desk.stock_report()),
    'GET /report/holds': lambda desk: reports.read_holds(desk.hold_report()),
    'GET /export/loads': lambda desk: exports.read_loads(desk.loads_export()),
    'GET /export/jobs': lambda desk: desk.jobs(),
    'GET /export/vehicles': lambda desk: desk.vehicles(),
    'GET /export/layout': lambda desk: desk.layout(),
    'GET /vehicles/KIT/0001': lambda desk: desk.vehicle(KIT),
    'GET /loads/L1': lambda desk: desk.load('L1'),
    'GET /uagv/v2/KIT/0001/order': lambda desk: desk.order_message(KIT),
    'GET /uagv/v2/KIT/0001/instantActions': lambda desk: desk.instant_actions(KIT),
    'GET /jobs/J1/phase': lambda desk: desk.job('J1'),
    'POST /orders': lambda desk: desk.start_order('O1', KIT, job='J1', edges=1),
    'POST /drives': lambda desk: desk.start_drive('O1', KIT, 'N1', 1),
    'POST /vehicles/KIT/0001/advance': lambda desk: desk.advance(KIT, 'O1', 1, 1),
    'POST /vehicles/KIT/0001/cancel': lambda desk: desk.cancel(KIT),
    'POST /uagv/v2/KIT/0001/state': lambda desk: desk.post_state(KIT, {}),
    'POST /stocktakes/R1': lambda desk: desk.stocktake('R1', b'station,load\n'),
    'POST /loads': lambda desk: desk.register_load('L1', 'A'),
    'PUT /layout': lambda desk: desk.set_layout(b'kind,id,from,to\n'),
    'POST /vehicles': lambda desk: desk.register_vehicle(KIT, 'N1', 2),
    'POST /loads/L1/correct': lambda desk: desk.correct_load('L1', 'R1'),
    'POST /loads/L1/leave': lambda desk: desk.leave_load('L1', 'R1'),
    'POST /jobs': lambda desk: desk.add_job('J1', 'L1', 'B'),
    'DELETE /jobs/J1': lambda desk: desk.stop_job('J1'),
    'POST /vehicles/KIT/0001/place': lambda desk: desk.place(KIT, 'R1', 'N1'),
    'POST /vehicles/KIT/0001/resync': lambda desk: desk.resync(KIT),
}
