"""Shows that a call whose answer was lost is asked again, and that what docs/OPERATE.md says of
each day holds."""
from __future__ import annotations

import json
import re
import unittest
from typing import Any

from tests.support import calls
from tests.support.calls import advance, state
from tests.support.desks import Serving, over_sockets
from tests.support.operating import AGAIN, PICKED, SIDING, Program
from tests.support.script_calls import LAYOUT, job, load, ok, order, vehicle


@over_sockets
class AskedAgain(Program):
    VEHICLE = '/vehicles/KIT/0001'
    # Each call of the page's table as it stands there, or none for what is asked once between them.
    STEPS = [
        ('PUT /layout', 'PUT /layout', LAYOUT),
        ('POST /vehicles', *calls.vehicle('0001', 'N1')),
        ('POST /uagv/v2/../state', *state(1)),
        ('POST /loads', 'POST /loads', {'load': 'L1', 'station': 'A'}),
        (None, 'POST /loads', {'load': 'L2'}),
        ('POST /loads/../correct', 'POST /loads/L2/correct', {'ref': 'R1', 'station': 'C'}),
        ('POST /loads/../leave', 'POST /loads/L2/leave', {'ref': 'R2'}),
        ('POST /jobs', 'POST /jobs', {'job': 'J0', 'load': 'L1', 'to': 'C'}),
        ('DELETE /jobs/..', 'DELETE /jobs/J0', None),
        (None, 'POST /jobs', {'job': 'J1', 'load': 'L1', 'to': 'B'}),
        ('POST /orders', *calls.order('O1', 'J1', 1)),
        (None, *state(2, 'O1', statuses=PICKED)),
        ('POST /vehicles/../advance', *advance('O1', 1, 1)),
        ('POST /vehicles/../pause', f'POST {VEHICLE}/pause', ''),
        (None, *state(3, 'O1', 1, statuses=PICKED + [('instant-1', 'FINISHED')], paused=True)),
        ('POST /vehicles/../resume', f'POST {VEHICLE}/resume', ''),
        (None, *state(4, 'O1', 1, statuses=PICKED + [('instant-2', 'FINISHED')])),
        ('POST /vehicles/../cancel', f'POST {VEHICLE}/cancel', ''),
        ('POST /vehicles/../place', f'POST {VEHICLE}/place', {'ref': 'R3', 'node': 'N2'}),
        ('POST /vehicles/../resync', f'POST {VEHICLE}/resync', ''),
        (None, *state(5, node='N2')),
        ('POST /drives', *calls.drive('G1', 'N3', 0)),
        (None, 'POST /loads/L1/correct', {'ref': 'R4'}),
        ('POST /stocktakes/..', 'POST /stocktakes/R5', 'station,load\nA,\nB,L1\nC,L9\n'),
    ]
    TARGETS = {'`GET /vehicles/..`': 'GET ' + VEHICLE, '`GET /report/stock`': 'GET /report/stock'}

    def test_each_call(self) -> None:
        """Asked again, it is answered as the page has it, and nothing changes; what shows that it
        was done is there."""
        self.assertEqual({call for call, *_ in self.STEPS if call}, set(AGAIN))
        with Serving(self.db) as desk:
            for call, request, body in self.STEPS:
                self.done(desk, (request, body))
                if call:
                    before = self.seen(desk)
                    status, told = self.ask(desk, request, body)
                    answer, shown = AGAIN[call]
                    if answer.startswith('`'):
                        self.assertEqual(
                            (status, told), (200, json.loads(answer.split('`')[1])), call
                        )
                    else:
                        self.assertEqual(told['name'], answer, call)
                    self.assertEqual(told.get('sent'), 1 if call.endswith('advance') else None)
                    self.assertEqual(self.seen(desk), before, call)
                    self.check_shown(desk, request, body, shown)
            # the answer of a stocktake that was lost
            self.assertEqual(
                self.ask(desk, 'POST /stocktakes/R6', self.STEPS[-1][2]),
                (200, {'moved': 0, 'unknown': ['L9']}),
            )

    def check_shown(self, desk: Any, request: str, body: Any, shown: Any) -> None:
        """The question that the page names has the members that it names."""
        target = self.TARGETS.get(shown.split(':')[0].split(' has')[0])
        if shown.startswith('`GET /jobs/../phase`: '):
            target = f'GET /jobs/{(body or {}).get("job", "J0")}/phase'
        if target is None:
            self.assertTrue(shown.startswith('`GET /loads/..`: '), shown)
            of_load = re.search('/loads/(L[0-9])', request)
            target = 'GET /loads/' + (
                of_load.group(1) if of_load else (body or {}).get('load', 'L1')
            )
        status, told = self.ask(desk, target)
        self.assertEqual(status, 200)
        if ': ' in shown:
            for member in re.findall('`(\\w+)`', shown.split(': ')[1].split(' is `')[0]):
                self.assertIn(member, told)


@over_sockets
class DayByDay(Program):
    def holds(self, desk: Any, *lines: Any) -> None:
        told = self.ask(desk, 'GET /report/holds')[1].splitlines()
        self.assertEqual(told[:-1], list(lines))

    def test_two_vehicles_that_wait_for_one_another(self) -> None:
        """KIT/0001 stands at N2 and is to fetch L2 at N3, where KIT/0002 stands and is to come by
        N2."""
        with Serving(self.db) as desk:
            self.done(
                desk,
                ok('PUT /layout', SIDING),
                vehicle('0001', 'N1'),
                vehicle('0002', 'N3'),
                state(1),
                state(1, node='N3', serial='0002'),
                load('L1', 'B'),
                load('L2', 'B'),
                load('L3', 'C'),
                job('J1', 'L2', 'A'),
                job('J2', 'L1', 'A'),
                order('O1', 'J1', 1),
                order('O2', 'J2', 0, '0002'),
                state(2, 'O1', node='N2', sequence=2),
                state(2, 'O2', node='N3', statuses=[('O2.0', 'FINISHED')], serial='0002'),
            )
            self.refused(desk, advance('O1', 1, 1), 'Held', by='KIT/0002', what='node N3')
            self.refused(desk, advance('O2', 1, 1, '0002'), 'Held', by='KIT/0001', what='node N2')
            self.done(desk, ok('POST /vehicles/KIT/0001/cancel', ''))
            self.done(
                desk, state(3, 'O1', node='N2', sequence=2, statuses=[('instant-1', 'FINISHED')])
            )
            self.holds(desk, 'node N2 KIT/0001', 'node N3 KIT/0002')
            self.refused(desk, advance('O2', 1, 1, '0002'), 'Held', by='KIT/0001', what='node N2')
            # another job leads it into the siding
            self.done(
                desk,
                job('J3', 'L3', 'A'),
                order('O3', 'J3', 1),
                state(4, 'O3', node='N4', sequence=2),
            )
            self.done(desk, advance('O2', 1, 1, '0002'))
            self.holds(
                desk,
                'node N2 KIT/0002',
                'node N3 KIT/0002',
                'node N4 KIT/0001',
                'edge E32 KIT/0002',
            )
            # the stopped job is added anew
            self.refused(desk, job('J1', 'L2', 'A'), 'Exists')
            self.done(desk, job('J4', 'L2', 'A'))

    def test_an_order_that_the_vehicle_rejects(self) -> None:
        """A cancel doesn't end it, whatever becomes of the cancel; a person who places the vehicle
        does."""
        for status in ('FAILED', 'FINISHED'):
            self.db = self.path(f'{status}.db')
            with Serving(self.db) as desk:
                self.done(
                    desk,
                    ok('PUT /layout', SIDING),
                    vehicle('0001', 'N1'),
                    state(1),
                    load('L1', 'A'),
                    job('J1', 'L1', 'B'),
                    order('O1', 'J1', 1),
                    ok('POST /vehicles/KIT/0001/cancel', ''),
                    state(2, statuses=[('instant-1', status)]),
                )
                told = self.ask(desk, 'GET /vehicles/KIT/0001')[1]
                self.assertEqual((told['order'], told['pending']), ('O1', None))
                self.done(desk, ok('POST /vehicles/KIT/0001/place', {'ref': 'R1', 'node': 'N1'}))
                self.assertIsNone(self.ask(desk, 'GET /vehicles/KIT/0001')[1]['order'])

    def test_a_vehicle_that_was_restarted(self) -> None:
        with Serving(self.db) as desk:
            self.done(
                desk,
                ok('PUT /layout', SIDING),
                vehicle('0001', 'N1'),
                state(7),
                load('L1', 'A'),
                job('J1', 'L1', 'B'),
                order('O1', 'J1', 2),
                state(8, 'O1', node='N2', sequence=2, statuses=PICKED),
            )
            self.assertEqual(self.ask(desk, *state(1, node='N2')), (200, {'accepted': False}))
            self.done(desk, ok('POST /vehicles/KIT/0001/resync', ''))
            self.refused(desk, state(1, node='N2'), 'OtherOrder')
            self.holds(desk, 'node N2 KIT/0001', 'node N3 KIT/0001', 'edge E23 KIT/0001')
            self.done(
                desk,
                ok('POST /vehicles/KIT/0001/place', {'ref': 'R1', 'node': 'N2'}),
                state(1, node='N2'),
            )
            self.holds(desk, 'node N2 KIT/0001')
            self.assertEqual(
                self.ask(desk, 'GET /loads/L1')[1],
                {'job': None, 'load': 'L1', 'place': 'vehicle KIT/0001'},
            )
            self.refused(desk, job('J2', 'L1', 'B'), 'Elsewhere')
            self.done(
                desk,
                ok('POST /loads/L1/correct', {'ref': 'R2', 'station': 'A'}),
                job('J2', 'L1', 'B'),
            )


if __name__ == '__main__':
    unittest.main()
