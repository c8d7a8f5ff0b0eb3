"""Shows, over the real program, what each command of the board says before it is done, what it
does, and when it is refused."""
from __future__ import annotations

import json
import unittest
from typing import Any

from tests.support.board_run import ONE, TWO, Watching, until
from nulvrader.desk import refusals


class Commands(Watching):
    words = ('--user-header', 'X-User')

    def check(self, told: dict[str, object], words: str) -> None:
        self.assertEqual((told.get('done'), told.get('text')), (True, words), told)

    def refused(self, told: dict[str, Any], name: str, warning: str) -> None:
        """It was refused so, which the look had told before."""
        self.assertEqual((told.get('done'), told.get('refusal')), (False, name), told)
        self.assertIn(warning, told['warns'])
        self.assertTrue(told['text'] and told['advice'])

    def test_loads_and_jobs(self) -> None:
        do = self.board.do
        self.check(do('register', load='L7', station='B'), 'L7 is registered.')
        self.wait('load', 'L7', place='station B')
        self.refused(
            do('register', load='L7', station='B'), 'Exists', 'There is a load L7 already.'
        )
        self.check(do('register', load='L8', station=''), 'L8 is registered.')
        self.wait('load', 'L8', place='checking')
        self.check(do('correct', load='L8', station='C'), 'The place of L8 is corrected.')
        self.wait('load', 'L8', place='station C')
        self.wait('station', 'C', taken=1, reserved=0)
        self.refused(
            do('correct', load='L7', station='C'),
            'Full',
            'Station C (1 of 1 taken, 0 reserved) is full.',
        )
        self.refused(
            do('correct', load='L8', station='C'), 'SameStation', 'L8 is recorded there already.'
        )
        self.check(do('leave', load='L8'), 'L8 has left.')
        until(lambda: not self.board.get('load', 'L8'), 'it has left')
        self.refused(do('leave', load='L8'), 'Elsewhere', 'No load L8 is in the warehouse.')
        self.check(do('job', load='L1', to='B', job='J1'), 'Job J1 waits.')
        self.wait('job', 'J1', load='L1', origin='A', target='B', phase='waiting')
        self.refused(do('job', load='L1', to='C', job='J2'), 'InJob', 'L1 has the live job J1.')
        self.check(do('stop', job='J1'), 'Job J1 is stopped.')
        until(lambda: not self.board.get('job', 'J1'), 'the job is gone')
        self.refused(do('stop', job='J1'), 'JobState', 'No live job J1 is known.')

    def test_an_order(self) -> None:
        do = self.board.do
        self.check(do('job', load='L1', to='B', job='J1'), 'Job J1 waits.')
        self.wait('job', 'J1', target='B')
        told = do('order', vehicle='KIT/0001', stops='J1', edges='1', order='O1')
        self.check(told, 'KIT/0001 has the order O1.')
        says = ['KIT/0001 gets the order O1:', 'Pick L1 at A.', 'Drop L1 at B.']
        self.assertEqual(told['says'], [*says, 'Released now: 1 edge, over N2. Left then: 1.'])
        self.wait('vehicle', 'KIT/0001', order_name='O1', sent=0)
        self.wait('job', 'J1', phase='riding')
        self.wait('way', 'KIT/0001', order='O1')
        again = do('order', vehicle='KIT/0001', stops='pick J1, drop J1', edges='1', order='O2')
        self.refused(again, 'JobState', 'KIT/0001 has the order O1.')
        more = do('advance', vehicle='KIT/0001', edges='1')
        self.refused(more, 'NotConfirmed', 'The vehicle has not confirmed the last update.')
        self.plant.state(ONE, 'N1', 'O1', 0, 0)
        self.wait('vehicle', 'KIT/0001', confirmed=0)
        self.check(do('advance', vehicle='KIT/0001', edges='1'), 'Update 1 of order O1 is sent.')
        self.wait('vehicle', 'KIT/0001', base=2, sent=1)
        self.check(do('pause', vehicle='KIT/0001'), 'KIT/0001 is told to pause (instant-1).')
        self.wait('vehicle', 'KIT/0001', pending='startPause')
        pending = 'Another instant action, to pause, is not over yet.'
        self.refused(do('resume', vehicle='KIT/0001'), 'InstantPending', pending)
        self.refused(do('cancel', vehicle='KIT/0001'), 'InstantPending', pending)
        self.plant.state(ONE, 'N1', 'O1', 1, 0, (('instant-1', 'FINISHED'),), paused=True)
        self.wait('vehicle', 'KIT/0001', pending=None, paused=1)
        self.check(do('resume', vehicle='KIT/0001'), 'KIT/0001 is told to go on (instant-2).')
        self.plant.state(ONE, 'N1', 'O1', 1, 0, (('instant-2', 'FINISHED'),))
        self.wait('vehicle', 'KIT/0001', pending=None, paused=0)
        self.check(
            do('cancel', vehicle='KIT/0001'), 'KIT/0001 is told to cancel its order (instant-3).'
        )
        self.wait('vehicle', 'KIT/0001', pending='cancelOrder')
        self.check(do('place', vehicle='KIT/0001', node='N2'), 'KIT/0001 stands at N2.')
        self.wait('vehicle', 'KIT/0001', order_name=None, node='N2')
        words = 'The next state of KIT/0001 is taken, whatever its number.'
        self.check(do('resync', vehicle='KIT/0001'), words)

    def test_as_far_as_it_is_free(self) -> None:
        """The look says how many edges these are: all, or those before what another one holds."""
        do, post = self.board.do, self.board.post
        self.check(do('job', load='L1', to='B', job='J1'), 'Job J1 waits.')
        self.wait('job', 'J1', target='B')
        said = {'vehicle': 'KIT/0001', 'stops': 'J1', 'order': 'O1'}
        for edges, number in (('all', '2'), ('free', '2'), ('0', '0')):
            look = post('/look', 'order', **said, edges=edges)
            self.assertEqual(look['values']['edges'], number, edges)
        self.plant.vehicle(TWO, 'N3')
        until(lambda: self.board.get('hold', 'node N3'), 'the second vehicle')
        look = post('/look', 'order', **said, edges='free')
        self.assertEqual((look['values']['edges'], look['warns']), ('1', []))
        look = post('/look', 'order', **said, edges='all')
        self.assertEqual(
            (look['values']['edges'], look['warns']), ('2', ['KIT/0002 holds node N3.'])
        )
        for path in ('/do', '/look'):
            fault = post(path, 'order', **said, edges='some').get('fault', '')
            self.assertIn("'some' is no number", fault)
        self.assertIn('look first', post('/do', 'order', **said, edges='all')['fault'])
        self.check(do('order', **said, edges='free'), 'KIT/0001 has the order O1.')
        self.wait('vehicle', 'KIT/0001', base=1)
        self.plant.state(ONE, 'N1', 'O1', 0, 0)
        self.wait('vehicle', 'KIT/0001', confirmed=0)
        self.wait('way', 'KIT/0001', order='O1')
        look = post('/look', 'advance', vehicle='KIT/0001', edges='free')
        self.assertEqual(look['values']['edges'], '0')
        self.assertIn(
            'No edge would be released: the way is not free, or is at its end.', look['warns']
        )

    def test_a_drive(self) -> None:
        """Its look tells the way, who holds what of it, and the load aboard, which stays there; the
        record says who has sent it."""
        do, drive = self.board.do, {'vehicle': 'KIT/0001', 'node': 'N3', 'order': 'G1'}
        self.plant.vehicle(TWO, 'N3')
        until(lambda: self.board.get('hold', 'node N3'), 'the second vehicle')
        says = [
            'KIT/0001 drives to node N3 by the order G1, without a job.',
            'Its way: 2 edges, over N1 N2 N3.',
            'On the way KIT/0002 holds node N3.',
        ]
        look = self.board.post('/look', 'drive', **drive, edges='all')
        released = 'Released now: 2 edges, over N2 N3. Left then: 0.'
        self.assertEqual(look['says'], [*says, released])
        self.assertEqual(look['warns'], ['KIT/0002 holds node N3.'])
        self.refused(do('drive', **drive, edges='all'), 'Held', 'KIT/0002 holds node N3.')
        told = do('drive', **drive, edges='free')
        self.check(told, 'KIT/0001 drives to N3 by the order G1.')
        self.assertEqual(told['says'], [*says, 'Released now: 1 edge, over N2. Left then: 1.'])
        self.assertEqual(told['warns'], [])
        self.wait('vehicle', 'KIT/0001', order_name='G1', base=1, edges=2)
        answer = 'KIT/0001 drives to N3 by the order G1.'
        self.said(f'Send KIT/0001 to node N3 by order G1, 1 edge released: {answer}')
        started = "SELECT vehicle, order_name, cause, call FROM events WHERE what = 'order.started'"
        self.rows(started, [('KIT/0001', 'G1', 'person', 'drive')])
        given = "SELECT kind, node, order_name, call FROM events WHERE what = 'command.drive'"
        self.rows(f'{given} ORDER BY n DESC LIMIT 1', [('command', 'N3', 'G1', 'drive')])

    def test_a_drive_with_a_load_aboard(self) -> None:
        self.check(self.board.do('job', load='L1', to='B', job='J1'), 'Job J1 waits.')
        self.desk.start_order('O1', ONE, job='J1', edges=0)
        self.plant.state(ONE, 'N1', 'O1', 0, 0, (('O1.0', 'FINISHED'),))
        action = self.desk.cancel(ONE)
        acts = (('O1.0', 'FINISHED'), ('O1.1', 'FAILED'), (action, 'FINISHED'))
        self.plant.state(ONE, 'N1', 'O1', 0, 0, acts)
        self.wait('vehicle', 'KIT/0001', order_name=None, loads=['L1'], pending=None)
        told = self.board.do('drive', vehicle='KIT/0001', node='N4', edges='all', order='G1')
        self.check(told, 'KIT/0001 drives to N4 by the order G1.')
        self.assertIn('It carries L1, and keeps them aboard.', told['says'])
        self.wait('vehicle', 'KIT/0001', order_name='G1', base=2, loads=['L1'])

    def test_what_is_refused_of_a_drive(self) -> None:
        post = self.board.post

        def check(
            name: str,
            warning: str = '',
            vehicle: str = 'KIT/0001',
            node: str = 'N3',
            edges: str = '1',
            order: str = 'G9',
        ) -> None:
            told = self.board.do('drive', vehicle=vehicle, node=node, edges=edges, order=order)
            self.refused({**told, 'warns': [*told['warns'], '']}, name, warning)

        check('NoVehicle', 'No vehicle KIT/0009 is registered.', vehicle='KIT/0009')
        check('NoWalk', 'KIT/0001 stands at node N1 already.', node='N1', edges='all')
        check('Beyond', 'The order has 2 edges in all.', edges='3')
        self.plant.state(ONE, 'N1', operatingMode='MANUAL')
        self.wait('vehicle', 'KIT/0001', ready=0)
        check('NotReady', 'KIT/0001 is not ready.')
        self.plant.state(ONE, 'N1', 'O7')
        self.wait('vehicle', 'KIT/0001', ready=1)
        check('OrderKnown', order='O7')
        self.check(
            self.board.do('drive', vehicle='KIT/0001', node='N2', edges='1', order='G1'),
            'KIT/0001 drives to N2 by the order G1.',
        )
        self.wait('vehicle', 'KIT/0001', order_name='G1')
        check('Exists', order='G1')
        check('Busy', 'KIT/0001 has the order G1.')
        self.desk.cancel(ONE)
        self.plant.state(ONE, 'N2', 'G1', 0, 2)
        self.wait('vehicle', 'KIT/0001', order_name=None, pending='cancelOrder', node='N2')
        check('InstantPending', 'It is told to cancel its order.')
        self.desk.place(ONE, 'R1', 'N1')
        self.desk.start_drive('G2', ONE, 'N2', 1)
        action = self.desk.cancel(ONE)
        self.plant.state(ONE, 'N1', 'G2', 0, 0, ((action, 'FINISHED'),))
        self.wait('vehicle', 'KIT/0001', order_name=None, astray=1)
        words = 'KIT/0001 left its last order on the way, and has to be placed first.'
        check('Astray', words)
        for node, fault in (('N9', 'There is no node N9.'), ('', 'Node is missing.')):
            values = {'vehicle': 'KIT/0001', 'node': node, 'edges': '1', 'order': 'G9'}
            for path in ('/look', '/do'):
                self.assertEqual(post(path, 'drive', **values).get('fault'), fault)
        values = {'vehicle': 'KIT/0001', 'node': 'N3', 'edges': 'all', 'order': 'G9'}
        self.assertIn('look first', post('/do', 'drive', **values)['fault'])

    def test_all_vehicles(self) -> None:
        """One look and one command; each entry names who has told it; one that can't be told keeps
        no other waiting."""
        self.plant.vehicle(TWO, 'N3')
        until(lambda: self.board.get('vehicle', 'KIT/0002').get('ready'), 'the second vehicle')
        self.desk.pause(TWO)
        self.wait('vehicle', 'KIT/0002', pending='startPause')
        told = self.board.do('pause_all')
        self.check(told, 'Told: KIT/0001.')
        self.assertEqual(
            told['says'][0], 'Told to pause. Each keeps its order and all that it holds: KIT/0001.'
        )
        self.assertEqual(told['warns'], ['Another instant action is not over yet: KIT/0002.'])
        self.wait('vehicle', 'KIT/0001', pending='startPause')
        row = "SELECT cause, call FROM events WHERE what = 'vehicle.told' AND vehicle = '%s'"
        self.rows(row % 'KIT/0001', [('person', 'pause_all')])
        self.rows(row % 'KIT/0002', [('client', 'pause')])
        body = {'vehicles': 'KIT/0002 KIT/0001 KIT/0009'}
        told = self.board.post('/do', 'pause_all', **body)
        words = ', '.join(
            f'KIT/{serial} ({why})'
            for serial, why in (
                ('0002', 'An instant action is pending'),
                ('0001', 'An instant action is pending'),
                ('0009', 'No vehicle of that key'),
            )
        )
        self.assertEqual(told['text'], f'Told: none. Not told: {words}.')
        self.assertIn('is no vehicle', self.board.post('/do', 'pause_all', vehicles='x y')['fault'])
        self.plant.served.stop()
        told = self.board.post('/do', 'resume_all', **body)
        self.assertFalse(told['done'])
        self.assertIn('told were none, then:', told['text'])

    def test_a_place_that_another_vehicle_holds(self) -> None:
        self.plant.vehicle(TWO, 'N3')
        until(lambda: self.board.get('hold', 'node N3'), 'the second vehicle')
        told = self.board.do('place', vehicle='KIT/0001', node='N3')
        self.refused(told, 'Held', 'KIT/0002 holds node N3.')

    def test_a_vehicle_that_is_not_registered(self) -> None:
        commands: dict[str, dict[str, str]] = {
            'pause': {},
            'resume': {},
            'cancel': {},
            'resync': {},
            'place': {'node': 'N2'},
        }
        for command, values in commands.items():
            told = self.board.do(command, vehicle='KIT/0009', **values)
            self.refused(told, 'NoVehicle', 'No vehicle KIT/0009 is registered.')

    def test_a_stocktake(self) -> None:
        look = self.board.post('/look', 'stocktake', file='station,load\nA,L1\nB,L2\nC,L9\n')
        says = [
            'Counted: 3 stations. Found: 3 loads.',
            'Moved by it: 1 load.',
            'L2, which is at A, is then at B.',
        ]
        self.assertEqual(look['says'], [*says, 'Names that no load here has: L9.'])
        self.assertEqual(look['warns'], [])
        told = self.board.do('stocktake', file='station,load\nA,L1\nB,L2\nC,L9\n')
        self.check(told, '1 load moved. Unknown names: L9.')
        self.wait('load', 'L2', place='station B')
        bad = 'station,load\nA,L1\nX,L2\nB,L1\nB;L3\n'
        look = self.board.post('/look', 'stocktake', file=bad)
        told = self.board.do('stocktake', file=bad)
        self.assertEqual((told['done'], told['refusal']), (False, 'BadCsv'))
        self.assertTrue(told['advice'])
        self.assertEqual(
            look['says'][1:], ['The desk will refuse this file as a whole: no load moves.']
        )
        for line in ('Line 3: there is no station X', 'Line 4: load L1 stands in line 2 already'):
            self.assertTrue(
                any(warning.startswith(line) for warning in look['warns']), (line, look['warns'])
            )
        self.check(self.board.do('job', load='L1', to='C', job='J1'), 'Job J1 waits.')
        self.wait('job', 'J1', phase='waiting')
        look = self.board.post('/look', 'stocktake', file='station,load\nA,\n')
        job = (
            'load L1 was not found at station A, and would move, but has the live job J1: stop it'
            ' while it waits.'
        )
        self.assertEqual(look['warns'], [f'Line 2: {job}'])

    def test_what_is_no_command(self) -> None:
        cases: tuple[tuple[str, dict[str, str], str], ...] = (
            ('explode', {}, 'There is no such command.'),
            ('leave', {}, 'Load is missing.'),
            ('pause', {'vehicle': 'KIT'}, "'KIT' is no vehicle"),
            ('correct', {'load': 'L1', 'station': 'X'}, 'There is no station X.'),
            ('place', {'vehicle': 'KIT/0001', 'node': 'X'}, 'There is no node X.'),
            ('register', {'load': 'L 1'}, "'L 1' is no name for a load: "),
            ('advance', {'vehicle': 'KIT/0001', 'edges': '-1'}, "'-1' is no number"),
            (
                'drive',
                {'vehicle': 'KIT/0001', 'node': 'N2', 'edges': '1', 'order': 'D/1'},
                "'D/1' is no name for an order: ",
            ),
            (
                'drive',
                {'vehicle': 'KIT/0001', 'node': 'N2', 'edges': '1000', 'order': 'G1'},
                "'1000' is no number from 0 to 999",
            ),
            (
                'order',
                {'vehicle': 'KIT/0001', 'edges': '1', 'order': 'O1', 'stops': 'lift J1'},
                "'lift J1' is no stop",
            ),
        )
        for command, values, fault in cases:
            for path in ('/look', '/do'):
                self.assertIn(
                    fault,
                    self.board.post(path, command, **values).get('fault', ''),
                    (command, path),
                )
        self.assertEqual(self.board.rows('SELECT * FROM commands'), [])

    def test_the_record_of_commands(self) -> None:
        """Who gave it, as the proxy says; what; whether it was done, and the answer."""
        body = json.dumps({'command': 'leave', 'values': {'load': 'L2', 'ref': 'R1'}}).encode()
        headers = {**self.board.headers(), 'X-User': 'anna'}
        for done in (1, 0):
            self.board.ask('POST', '/do', body, headers)
            row = self.board.rows('SELECT who, command, said, done FROM commands ORDER BY n')[-1]
            self.assertEqual(row, ('anna', 'leave', '{"load": "L2", "ref": "R1"}', done))
        self.assertTrue(self.board.said('Load L2 leaves: L2 has left.'))

    def test_a_command_while_the_desk_is_down(self) -> None:
        self.plant.served.stop()
        self.wait('desk', '', up=False)
        told = self.board.do('leave', load='L2')
        self.assertEqual(told['done'], False)
        self.assertIn('The desk does not answer: nothing can be done now', told['warns'][0])
        self.assertRegex(
            told['text'], r'^The desk does not answer: .*no program listens there.*\?$'
        )
        self.assertEqual(told['advice'], 'Nothing was done. Ask again once the desk answers.')
        self.board.refresh()
        self.assertEqual(
            [event['kind'] for event in self.board.events if 'Load L2 leaves' in event['text']],
            ['failed'],
        )


class Advice(unittest.TestCase):
    def test_nothing_that_the_page_has_not(self) -> None:
        """What to do at a refusal, without a program of the command line. Held names the vehicle,
        so no more is lost."""
        for refusal in refusals.BY_NAME.values():
            self.assertNotRegex(refusal.on_page, '`|tools/', refusal.name)
        held = 'Wait until the states of that vehicle have freed it, or release fewer edges.'
        self.assertEqual(refusals.BY_NAME['Held'].on_page, held)
        self.assertEqual(refusals.BY_NAME['CountTwice'].on_page, 'A load stands at one place.')
        full = (
            'The loads at the station and the live jobs to it fill it. Take another station, or'
            ' stop a job to it.'
        )
        self.assertEqual(refusals.BY_NAME['Full'].on_page, full)


if __name__ == '__main__':
    unittest.main()
