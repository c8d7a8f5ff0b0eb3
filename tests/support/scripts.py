"""Scripts of calls, each with the answers that are expected, by what they show."""
from __future__ import annotations

from tests.support import calls
from tests.support.calls import advance, state
from tests.support.script_calls import (
    AT_A,
    BOTH_EDGES,
    CANCELLED,
    FINISHED,
    FIRST_EDGE,
    LAYOUT,
    READY,
    THREE_NODES,
    TWO_LOADS,
    accepted,
    drive,
    export,
    holds,
    job,
    load,
    ok,
    order,
    order_over,
    phase,
    refused,
    refused_drive,
    refused_state,
    stands,
    vehicle,
)

SCRIPTS = {
    'a station is full': AT_A
    + [
        refused('POST /loads', {'load': 'L2', 'station': 'A'}, 409, 'Full', 34),
        refused('GET /loads/L2', None, 404, 'NoLoad', 23),
    ],
    'an update comes once the message before is confirmed': FIRST_EDGE
    + [
        holds('node N1 KIT/0001', 'node N2 KIT/0001', 'edge E12 KIT/0001'),
        refused(*advance('O1', 1, 1), 409, 'NotConfirmed', 43),
        accepted(state(2, 'O1')),
        ok(*advance('O1', 1, 1), '{"orderUpdateId":1}'),
        (*advance('O1', 1, 1), 409, '{"name":"WrongUpdate","refusal":44,"sent":1}'),
    ],
    'one vehicle is kept from what another holds': [
        ok('PUT /layout', LAYOUT),
        vehicle('0001', 'N1'),
        accepted(state(1)),
        vehicle('0002', 'N3'),
        accepted(state(1, node='N3', serial='0002')),
        load('L1', 'A'),
        load('L3', 'C'),
        job('J1', 'L1', 'B'),
        order('O1', 'J1', 1),
        accepted(state(2, 'O1', statuses=[('O1.0', 'FINISHED')])),
        stands('L1', 'vehicle KIT/0001', 'J1'),
        job('J2', 'L3', 'A'),
        order('O2', 'J2', 0, '0002'),
        accepted(state(2, 'O2', node='N3', serial='0002')),
        (
            *advance('O2', 1, 1, '0002'),
            409,
            '{"by":"KIT/0001","name":"Held","refusal":33,"what":"node N2"}',
        ),
    ],
    'a node that is passed twice stays held': THREE_NODES
    + [
        load('L1', 'A'),
        job('J1', 'L1', 'C'),
        order('O3', 'J1', 4, '0002'),
        holds(
            'node N1 KIT/0002',
            'node N2 KIT/0002',
            'node N3 KIT/0002',
            'edge E12 KIT/0002',
            'edge E21 KIT/0002',
            'edge E23 KIT/0002',
            'edge E32 KIT/0002',
        ),
        accepted(state(2, 'O3', node='N2', sequence=2, serial='0002')),
        holds(
            'node N1 KIT/0002',
            'node N2 KIT/0002',
            'node N3 KIT/0002',
            'edge E12 KIT/0002',
            'edge E21 KIT/0002',
            'edge E23 KIT/0002',
        ),
        accepted(state(3, 'O3', node='N1', sequence=4, serial='0002')),
        holds(
            'node N1 KIT/0002',
            'node N2 KIT/0002',
            'node N3 KIT/0002',
            'edge E12 KIT/0002',
            'edge E23 KIT/0002',
        ),
    ],
    'a pick and a drop at one node': THREE_NODES
    + [
        load('L4', 'B'),
        job('J4', 'L4', 'C'),
        order('O4', 'J4', 0, '0002'),
        accepted(
            state(
                2,
                'O4',
                node='N3',
                statuses=[('O4.0', 'FINISHED'), ('O4.1', 'FINISHED')],
                serial='0002',
            )
        ),
        stands('L4', 'station C'),
        ('GET /uagv/v2/KIT/0002/order', None, 204, ''),
    ],
    'one state tells of the whole way, and again moves nothing': BOTH_EDGES
    + [
        accepted(state(2, 'O1', node='N3', sequence=4, statuses=FINISHED)),
        stands('L1', 'station B'),
        holds('node N3 KIT/0001'),
        accepted(state(2, 'O1', node='N3', sequence=4, statuses=FINISHED), '{"accepted":false}'),
        ok('POST /vehicles/KIT/0001/resync', ''),
        accepted(state(2, 'O1', node='N3', sequence=4, statuses=FINISHED)),
        stands('L1', 'station B'),
    ],
    'a drop needs its pick': BOTH_EDGES
    + [
        accepted(state(2, 'O1', statuses=[('O1.0', 'FAILED')])),
        refused_state(
            state(
                3, 'O1', node='N3', sequence=4, statuses=[('O1.0', 'FAILED'), ('O1.1', 'FINISHED')]
            ),
            409,
            'DropFirst',
            69,
        ),
        stands('L1', 'station A', 'J1'),
    ],
    'an order is cancelled on its way': CANCELLED
    + [
        accepted(state(2, 'O1', statuses=[('instant-1', 'FINISHED')])),
        holds('node N1 KIT/0001', 'node N2 KIT/0001', 'edge E12 KIT/0001'),
        job('J2', 'L1', 'B'),
        export('jobs', 'J2,L1,A,B,waiting,,,'),
        export('vehicles', 'KIT,0001,N1,1,true,false,true,2,,,,,,,,E12,N2'),
        refused(*calls.order('O2', 'J2', 1), 409, 'Astray', 39),
        ok('POST /vehicles/KIT/0001/place', {'ref': 'R1', 'node': 'N2'}),
        holds('node N2 KIT/0001'),
    ],
    'a cancel ends once everything has stopped': CANCELLED
    + [
        refused_state(
            state(2, 'O1', statuses=[('O1.0', 'RUNNING'), ('instant-1', 'FINISHED')]),
            409,
            'CancelEarly',
            70,
        ),
        accepted(state(2, 'O1', statuses=[('O1.0', 'FINISHED'), ('instant-1', 'FINISHED')])),
        stands('L1', 'vehicle KIT/0001'),
    ],
    'fractions and positions are refused': READY
    + [
        refused_state(
            state(2, agvPosition={}, batteryState={'batteryCharge': 80.5, 'charging': False}),
            422,
            'Fraction',
            8,
        ),
        refused_state(state(2, agvPosition={}), 422, 'Position', 9),
        accepted(state(2)),
    ],
    'a stocktake finds a load elsewhere': AT_A
    + [
        ok('POST /stocktakes/R2', 'station,load\nA,\nC,L1\n', '{"moved":1,"unknown":[]}'),
        stands('L1', 'station C'),
        refused('POST /stocktakes/R2', 'station,load\nA,\nC,L1\n', 409, 'RefUsed', 49),
        ok('POST /stocktakes/R3', 'station,load\nA,\nC,L1\n', '{"moved":0,"unknown":[]}'),
    ],
    'a stocktake moves no load of a live job': AT_A
    + [
        job('J1', 'L1', 'B'),
        refused('POST /stocktakes/R2', 'station,load\nA,\nC,L1\n', 409, 'InJob', 35),
        stands('L1', 'station A', 'J1'),
    ],
    'what a stocktake lists': AT_A
    + [
        load('L3', 'C'),
        ok('POST /stocktakes/R1', 'station,load\n', '{"moved":0,"unknown":[]}'),
        ok('POST /stocktakes/R2', 'station,load\nC,L3\nC,L9\n', '{"moved":0,"unknown":["L9"]}'),
        refused('POST /stocktakes/R3', 'station,load\nA,L1\nC,L1\n', 409, 'CountTwice', 80),
        refused('POST /stocktakes/R3', 'station,load\nA,L1\nA,L3\n', 409, 'Full', 34),
        refused('POST /stocktakes/R3', 'station,load\nD,L1\n', 404, 'NoStation', 22),
        ok('POST /stocktakes/R3', 'station,load\nC,\n', '{"moved":1,"unknown":[]}'),
        stands('L3', 'checking'),
    ],
    'a load leaves once it has no job; a vehicle has one instant action at a time': AT_A
    + [
        job('J1', 'L1', 'B'),
        refused('POST /loads/L1/leave', {'ref': 'R1'}, 409, 'InJob', 35),
        ok('DELETE /jobs/J1'),
        refused('DELETE /jobs/J1', None, 409, 'JobState', 50),
        ok('POST /loads/L1/leave', {'ref': 'R1'}),
        stands('L1', 'left'),
        ok('POST /vehicles/KIT/0001/pause', '', '{"actionId":"instant-1"}'),
        refused('POST /vehicles/KIT/0001/resume', '', 409, 'InstantPending', 42),
        accepted(state(4294967295, statuses=[('instant-1', 'FINISHED')])),
        accepted(state(4294967295), '{"accepted":false}'),
        ok('POST /vehicles/KIT/0001/resume', '', '{"actionId":"instant-2"}'),
    ],
    'a vehicle for two carries two loads in one order': TWO_LOADS
    + [
        accepted(
            state(3, 'O5', node='N3', sequence=4, statuses=[('O5.3', 'FINISHED')], serial='0003')
        ),
        stands('L2', 'station B'),
        ('GET /uagv/v2/KIT/0003/order', None, 204, ''),
        holds('node N3 KIT/0003'),
    ],
    'a load that is not dropped keeps its place': TWO_LOADS
    + [
        accepted(
            state(3, 'O5', node='N3', sequence=4, statuses=[('O5.3', 'FAILED')], serial='0003')
        ),
        stands('L2', 'vehicle KIT/0003'),
        load('L5', 'C'),
        job('J4', 'L5', 'B'),
        refused(
            *order_over('O6', ['pick J3', 'drop J3', 'pick J4', 'drop J4'], 0, '0003'),
            409,
            'Loaded',
            40,
        ),
        ok(*order_over('O6', ['pick J3', 'drop J3'], 0, '0003'), '{"orderUpdateId":0}'),
        refused(
            *order_over('O7', ['pick J4', 'pick J4', 'drop J4'], 0, '0003'), 409, 'BadStops', 53
        ),
        refused(*order_over('O7', [], 0, '0003'), 409, 'BadStops', 53),
    ],
    'a vehicle is for one load to four': [
        ok('PUT /layout', LAYOUT),
        refused(*calls.vehicle('0003', 'N1', 0), 409, 'Limit', 51),
        refused(*calls.vehicle('0003', 'N1', 5), 409, 'Limit', 51),
        vehicle('0003', 'N1', 4),
    ],
    'the exports of a new desk, and of an order on its way': [
        *map(export, ('loads', 'jobs', 'vehicles', 'layout')),
        *FIRST_EDGE,
        ok('POST /vehicles/KIT/0001/pause', '', '{"actionId":"instant-1"}'),
        accepted(
            state(2, 'O1', node='N2', sequence=2, statuses=[('O1.0', 'FINISHED')], paused=True)
        ),
        export('loads', 'L1,vehicle,KIT/0001'),
        export('jobs', 'J1,L1,A,B,riding,KIT,0001,O1'),
        export('vehicles', 'KIT,0001,N2,1,true,true,false,2,startPause,O1,0,0,1,2,1,,'),
        ok('GET /export/layout', None, LAYOUT),
    ],
    'the exports of vehicles and jobs': [
        ok('PUT /layout', LAYOUT),
        vehicle('0002', 'N3', 4),
        vehicle('0001', 'N1'),
        load('L2', 'C'),
        load('L1', 'A'),
        job('J2', 'L2', 'B'),
        job('J1', 'L1', 'C'),
        accepted(state(7, node='N3', serial='0002', operatingMode='MANUAL')),
        export('jobs', 'J1,L1,A,C,waiting,,,', 'J2,L2,C,B,waiting,,,'),
        export(
            'vehicles',
            'KIT,0001,N1,1,false,false,false,,,,,,,,,,',
            'KIT,0002,N3,4,false,false,false,7,,,,,,,,,',
        ),
        ok('DELETE /jobs/J2'),
        export('jobs', 'J1,L1,A,C,waiting,,,'),
    ],
    'a drive takes a load along; a job in each of its phases': AT_A
    + [
        refused('GET /jobs/J1/phase', None, 404, 'NoJob', 24),
        job('J1', 'L1', 'B'),
        phase('J1', 'L1', 'A', 'B', 'waiting'),
        order('O1', 'J1', 0),
        phase('J1', 'L1', 'A', 'B', 'riding', 'O1', 'KIT/0001'),
        ok('POST /vehicles/KIT/0001/cancel', '', '{"actionId":"instant-1"}'),
        accepted(
            state(
                2,
                'O1',
                statuses=[('O1.0', 'FINISHED'), ('O1.1', 'FAILED'), ('instant-1', 'FINISHED')],
            )
        ),
        phase('J1', 'L1', 'A', 'B', 'stopped'),
        drive('G1', 'N3', 1),
        export('jobs'),
        export('vehicles', 'KIT,0001,N1,1,true,false,false,2,,G1,0,,1,2,0,,'),
        holds('node N1 KIT/0001', 'node N2 KIT/0001', 'edge E12 KIT/0001'),
        accepted(state(3, 'G1', node='N2', sequence=2)),
        holds('node N2 KIT/0001'),
        stands('L1', 'vehicle KIT/0001'),
        ok(*advance('G1', 1, 1), '{"orderUpdateId":1}'),
        accepted(state(4, 'G1', 1, 'N3', 4)),
        holds('node N3 KIT/0001'),
        ('GET /uagv/v2/KIT/0001/order', None, 204, ''),
        stands('L1', 'vehicle KIT/0001'),
        refused('POST /vehicles/KIT/0001/cancel', '', 409, 'NoOrder', 25),
        ok('POST /loads/L1/correct', {'ref': 'R1', 'station': 'B'}),
        job('J2', 'L1', 'A'),
        order('O2', 'J2', 2),
        accepted(
            state(
                5,
                'O2',
                node='N1',
                sequence=4,
                statuses=[('O2.0', 'FINISHED'), ('O2.1', 'FINISHED')],
            )
        ),
        phase('J2', 'L1', 'B', 'A', 'done'),
        phase('J1', 'L1', 'A', 'B', 'stopped'),
    ],
    'what is refused of a drive, in the order of the checks': [
        *READY[:2],
        refused_drive('NoVehicle', 20, to='N9', status=404, serial='0009'),
        refused_drive('NoNode', 21, to='N9', status=404),
        refused_drive('NotReady', 41, to='N1'),
        accepted(state(1, 'G8')),
        refused_drive('OrderKnown', 52, 'G8', 'N1'),
        refused_drive('NoWalk', 46, to='N1', edges=9),
        refused_drive('Beyond', 45, edges=3),
        vehicle('0002', 'N2'),
        refused_drive('Held', 33, by='KIT/0002', what='node N2'),
        drive('G1', 'N3', 0),
        refused_drive('Exists', 30, 'G1', 'N9', serial='0009'),
        refused_drive('Busy', 38, to='N1'),
        accepted(state(2, 'G1')),
        ok('POST /vehicles/KIT/0001/cancel', '', '{"actionId":"instant-1"}'),
        refused(*advance('G1', 1, 1), 409, 'InstantPending', 42),
        ok('POST /vehicles/KIT/0001/place', {'ref': 'R1', 'node': 'N1'}),
        ok('POST /vehicles/KIT/0002/place', {'ref': 'R2', 'node': 'N3'}),
        drive('G2', 'N2', 1),
        ok('POST /vehicles/KIT/0001/cancel', '', '{"actionId":"instant-2"}'),
        accepted(state(3, 'G2', statuses=[('instant-2', 'FINISHED')])),
        refused_drive('Astray', 39, to='N1'),
        ok('POST /vehicles/KIT/0001/place', {'ref': 'R3', 'node': 'N1'}),
        accepted(state(4, 'G2', operatingMode='MANUAL')),
        refused_drive('NotReady', 41),
    ],
    'a drive of 200 edges, and of one more': [
        ok(
            'PUT /layout',
            'kind,id,from,to\n'
            + ''.join(f'node,N{n},,\n' for n in range(202))
            + ''.join(f'edge,E{n},N{n},N{n + 1}\n' for n in range(201)),
        ),
        vehicle('0001', 'N0'),
        accepted(state(1, node='N0')),
        refused_drive('TooLong', 47, to='N201', edges=999),
        refused_drive('Beyond', 45, to='N200', edges=201),
        drive('G1', 'N200', 200),
        refused(*advance('G1', 1, 1), 409, 'NotConfirmed', 43),
        accepted(state(2, 'G1', node='N0')),
        refused(*advance('G1', 1, 1), 409, 'Beyond', 45),
        accepted(state(3, 'G1', node='N199', sequence=398)),
        holds('node N199 KIT/0001', 'node N200 KIT/0001', 'edge E199 KIT/0001', of=403),
    ],
    'a layout is set once': READY + [refused('PUT /layout', LAYOUT, 409, 'LayoutSet', 31)],
    'a layout with an edge to nowhere': [
        refused('PUT /layout', 'kind,id,from,to\nnode,N1,,\nedge,E1,N1,N2\n', 409, 'LayoutBad', 32)
    ],
    'a hundred vehicles': [
        ok('PUT /layout', 'kind,id,from,to\n' + ''.join(f'node,N{n},,\n' for n in range(101))),
        *[vehicle(f'{n:04d}', f'N{n}') for n in range(100)],
        refused(
            'POST /vehicles',
            {'manufacturer': 'KIT', 'serialNumber': '0100', 'node': 'N100'},
            409,
            'Limit',
            51,
        ),
    ],
    'methods, paths and bodies': [
        refused('PUT /loads/L1', '', 405, 'BadMethod', 6),
        refused('GET /nothing', None, 404, 'NoPath', 5),
        refused('POST /loads', '[' * 128 + ']' * 128, 400, 'BadJson', 7),
        refused('POST /loads', '[' * 127 + ']' * 127, 400, 'BadBody', 10),
    ],
}
