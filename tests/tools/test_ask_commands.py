"""Shows what each command of `tools/ask` prints, for people and for programs, and what it tells
of a mistake."""
from __future__ import annotations

import json
import os
import unittest
from typing import Any

from nulvrader.common.names import natural
from nulvrader.desk import refusals
from tests.support.asking import Asking, ask
from tests.support.desks import over_sockets
from tests.support.programs import within
from tests.support.script_calls import LAYOUT
from tests.support.states import told


@over_sockets
class Commands(Asking):
    def setUp(self) -> None:
        super().setUp()
        self.serve()
        self.ask('set-layout', self.file('layout.csv', LAYOUT))
        self.ask('register-vehicle KIT/0001 --node N1')
        self.ask('register-load L1 --station A')

    def test_tables(self) -> None:
        self.assertEqual(self.ask('loads'), 'load  place\nL1    station A\n')
        self.assertEqual(
            self.ask('stations').splitlines()[:2],
            [
                'station  node  capacity  reserved  free  loads',
                'A        N1    1         0         0     L1',
            ],
        )
        self.assertEqual(self.ask('held'), 'thing    vehicle\nnode N1  KIT/0001\n')
        self.assertEqual(self.ask('jobs'), 'there are no live jobs\n')
        lines = self.ask('vehicles').splitlines()
        self.assertEqual(
            [line.split()[:3] for line in lines],
            [['vehicle', 'node', 'order'], ['KIT/0001', 'N1', '-']],
        )
        self.ask('add-job J1 --load L1 --to B')
        self.state(1)
        self.ask('order O1 --vehicle KIT/0001 --job J1 --edges 1')
        self.assertEqual(
            self.ask('jobs').splitlines(),
            [
                'job  load  from  to  phase   vehicle   order',
                'J1   L1    A     B   riding  KIT/0001  O1',
            ],
        )
        self.assertEqual(
            self.ask('vehicles').splitlines()[1].split(),
            ['KIT/0001', 'N1', 'O1', '0', '1', '2', '0', '-', '1', 'yes', '-', '-', '-'],
        )
        self.ask('place KIT/0001 --node N1')
        self.assertEqual(self.ask('load L1'), 'load L1: station A, job -\n')
        lines = dict(line.split() for line in self.ask('vehicle KIT/0001').splitlines())
        self.assertEqual(
            [lines[name] for name in ('vehicle', 'node', 'ready', 'order')],
            ['KIT/0001', 'N1', 'yes', '-'],
        )

    def test_a_drive(self) -> None:
        """With one edge released, until it has ended; its order is listed with its end."""
        self.assertIn('NotReady (41)', self.ask('drive KIT/0001 --to N3', status=1))
        self.state(1)
        self.assertEqual(
            self.ask('drive KIT/0001 --to N3 --order G1'),
            'vehicle KIT/0001 drives to node N3 (order G1); edges released: 1\n',
        )
        (row,) = self.json('orders')
        self.assertEqual(
            (row['order'], row['released_to'], row['stops']), ('G1', 'N2', ['drive@N3'])
        )
        self.assertEqual(
            self.ask('orders').splitlines()[1].split(),
            ['G1', 'KIT/0001', 'N1', '0', '-', 'N2', '1', 'drive@N3'],
        )
        self.assertIn('Busy (38)', self.ask('drive KIT/0001 --to N2', status=1))
        self.assertIn('Exists (30)', self.ask('drive KIT/0001 --to N2 --order G1', status=1))
        self.state(2, order='G1')
        self.assertEqual(self.json('advance KIT/0001'), {'order': 'G1', 'orderUpdateId': 1})
        self.assertEqual(len(self.json('order-message KIT/0001')['nodes']), 2)
        self.state(3, order='G1', update=1, node='N3', sequence=4)
        self.assertEqual(self.ask('orders'), 'there are no open orders\n')
        made = self.json('drive KIT/0001 --to N1 --edges 2')
        self.assertRegex(made['order'], r'^20\d\d-\d\d-\d\d-\d{6}-\w{4}$')
        self.assertEqual((made['orderUpdateId'], self.json('orders')[0]['edges_left']), (0, 0))
        self.state(4, order=made['order'], node='N1', sequence=4)
        self.assertIn('NoWalk (46)', self.ask('drive KIT/0001 --to N1', status=1))
        self.assertIn('NoNode (21)', self.ask('drive KIT/0001 --to N9', status=1))
        self.assertIn('NoVehicle (20)', self.ask('drive KIT/0009 --to N3', status=1))
        self.assertIn('Beyond (45)', self.ask('drive KIT/0001 --to N3 --edges 3', status=1))
        self.ask('register-vehicle KIT/0002 --node N2')
        self.assertIn('Held (33)', self.ask('drive KIT/0001 --to N3', status=1))

    def test_a_job(self) -> None:
        """In each of its phases."""
        self.assertIn('NoJob (24)', self.ask('job J1', status=1))
        self.ask('add-job J1 --load L1 --to B')
        told_of: dict[str, Any] = {
            'job': 'J1', 'load': 'L1', 'from': 'A', 'to': 'B', 'phase': 'waiting', 'vehicle': None,
            'order': None,
        }  # fmt: skip
        self.assertEqual(self.json('job J1'), told_of)
        self.state(1)
        self.ask('order O1 --vehicle KIT/0001 --job J1 --edges 2')
        riding: dict[str, Any] = {
            **told_of,
            'phase': 'riding',
            'vehicle': 'KIT/0001',
            'order': 'O1',
        }
        self.assertEqual(self.json('job J1'), riding)
        lines = [line.split() for line in self.ask('job J1').splitlines()]
        self.assertEqual(lines, [[name, str(value)] for name, value in riding.items()])
        self.state(2, order='O1', node='N3', sequence=4, done='01')
        self.assertEqual(self.json('job J1'), {**told_of, 'phase': 'done'})
        self.ask('add-job J2 --load L1 --to C')
        self.ask('stop-job J2')
        self.assertEqual(self.json('job J2')['phase'], 'stopped')
        self.assertIn(['order', '-'], [line.split() for line in self.ask('job J2').splitlines()])

    def test_the_order_of_names(self) -> None:
        """Numbers in names are compared by their values: L10 comes after L9, though not as a
        text."""
        names = ['1', 'L', 'L01', 'L1', 'L2', 'L2-9', 'L2-10', 'L10', 'M1']
        self.assertEqual(sorted(reversed(names), key=natural), names)
        for load in ('L10', 'L9'):
            self.ask(f'register-load {load} --station C')
        self.assertEqual(
            [line.split()[0] for line in self.ask('loads').splitlines()],
            ['load', 'L1', 'L9', 'L10'],
        )
        self.assertEqual([row['load'] for row in self.json('loads --station C')], ['L9', 'L10'])
        self.assertEqual(self.ask('stations').splitlines()[3].split()[-2:], ['L9', 'L10'])

    def test_names_that_the_desk_does_not_have(self) -> None:
        """A question about a place that is unknown is told, and not answered by an empty table."""
        for line, wanted in (
            ('loads --station Z', 'there is no station Z: the desk has A, B, C'),
            ('loads --vehicle KIT/0009', 'there is no vehicle KIT/0009: the desk has KIT/0001'),
            ('held --vehicle KIT/0009', 'there is no vehicle KIT/0009: the desk has KIT/0001'),
        ):
            self.assertEqual(self.ask(line, status=2), f'ask: {wanted}\n')
        self.assertEqual(self.ask('loads --vehicle KIT/0001'), 'there are no loads there\n')

    def test_who_waits(self) -> None:
        """KIT/0001 may go no further than N2, since KIT/0002 stands on N3."""
        self.ask('register-vehicle KIT/0002 --node N3')
        self.ask('add-job J1 --load L1 --to B')
        self.state(1)
        self.ask('order O1 --vehicle KIT/0001 --job J1 --edges 1')
        wanted = {
            'vehicle': 'KIT/0001',
            'order': 'O1',
            'at': 'N2',
            'waits_for': 'node N3',
            'held_by': 'KIT/0002',
        }
        self.assertEqual(self.json('who-waits'), [{**wanted, 'in_circle': False}])

    def test_messages(self) -> None:
        self.assertEqual(self.ask('order-message KIT/0001'), 'there is none\n')
        self.ask('pause KIT/0001')
        self.assertEqual(
            self.json('instant-actions KIT/0001')['actions'][0]['actionType'], 'startPause'
        )
        self.assertEqual(self.json('vehicle KIT/0001')['pending'], 'startPause')

    def test_references(self) -> None:
        """One that is made has the day in front, and each is another one."""
        made = [self.json('correct L1')['ref'], self.json('correct L1 --station A')['ref']]
        self.assertRegex(made[0], r'^20\d\d-\d\d-\d\d-\d{6}-\w{4}$')
        self.assertNotEqual(*made)
        self.assertIn('RefUsed (49)', self.ask('correct L1 --ref ' + made[0], status=1))

    def test_reports(self) -> None:
        lines = (
            ('stock-report', '/report/stock'),
            ('hold-report', '/report/holds'),
            ('loads-export', '/export/loads'),
        )
        for line, target in (*lines, ('layout', '/export/layout')):
            self.assertEqual(self.ask(line).encode(), self.serving.ask('GET', target)[1])
        for target in ('/export/jobs', '/export/vehicles'):
            self.assertEqual(
                self.ask('call GET ' + target).encode(), self.serving.ask('GET', target)[1]
            )

    def test_a_layout_for_another_desk(self) -> None:
        """The layout of one is printed, and set at another one, which has none yet."""
        file = self.file('copy.csv', self.ask('layout'))
        self.stop()
        os.rename(self.db, self.db + '.old')
        self.serve()
        self.assertEqual(self.ask('layout', status=2), 'ask: the desk has no layout yet\n')
        self.ask('set-layout', file)
        self.assertEqual(self.ask('layout'), LAYOUT)

    def test_a_call_as_it_is_written(self) -> None:
        self.assertEqual(self.ask('call POST /loads', '{"load":"L2","station":null}'), '{}\n')
        self.assertEqual(self.json('call get /loads/L2')['place'], 'checking')
        path = self.file('body.json', '{"load":"L3"}')
        self.assertEqual(self.ask('call POST /loads', '@' + path), '{}\n')
        self.assertEqual(self.ask('call GET /uagv/v2/KIT/0001/order'), '\n')

    def test_what_is_refused(self) -> None:
        """It is told by name, number and sentence, with what to do, to programs too."""
        said = self.ask('register-load L1', status=1)
        self.assertEqual(
            said, f'ask: Exists (30): The name is taken. {refusals.BY_NAME["Exists"].advice}\n'
        )
        said = self.ask('register-vehicle KIT/0002 --node N1', status=1)
        self.assertTrue(
            said.startswith('ask: Held (33): The vehicle KIT/0001 holds node N1. Wait until'), said
        )
        self.assertIn('NoOrder (25)', self.ask('advance KIT/0001', status=1))
        ends, out, _ = within(ask, '--json', 'load', 'L9', env=self.env)
        self.assertEqual(
            (ends, json.loads(out)['refused']['name'], json.loads(out)['refused']['refusal']),
            (1, 'NoLoad', 23),
        )

    def test_a_body_that_is_wrong(self) -> None:
        """It is not sent, and the member is named."""
        vehicle = '{"manufacturer":"KIT","serialNumber":"0002","node":"N2","capcity":2}'
        said = self.ask('call POST /vehicles', vehicle, status=2)
        self.assertEqual(
            said.splitlines()[1:], ['there is no member capcity; capacity was probably meant']
        )
        self.assertIn('NoVehicle', self.ask('vehicle KIT/0002', status=1))
        self.ask('--unchecked call POST /vehicles', vehicle)
        self.assertEqual(self.json('vehicle KIT/0002')['capacity'], 1)
        state = told(1)
        state['batteryState']['batteryCharge'] = 80.5
        said = self.ask('post-state KIT/0001 -', stdin=json.dumps(state), status=2)
        self.assertIn('batteryState.batteryCharge: 80.5 is no whole number', said)

    def test_a_file_that_is_wrong(self) -> None:
        layout = self.file('bad.csv', 'kind,id,from,to\nnode,N1,,\nedge,E1,N1,N2\n')
        self.assertIn(
            'line 3: LayoutBad: edge E1 leads to N2, which is no node',
            self.ask('set-layout', layout, status=2),
        )
        count = self.file('bad.csv', 'station;load\nA;L1\n')
        self.assertIn('write commas for the semicolons', self.ask('stocktake', count, status=2))
        self.assertIn('nothing.csv: No such file', self.ask('stocktake nothing.csv', status=2))


if __name__ == '__main__':
    unittest.main()
