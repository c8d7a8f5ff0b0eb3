"""Shows that the record says of each kind of change what was done: the things, the cause and its
call, old and new, as a desk that is made up has answered."""
from __future__ import annotations

import glob
import os
import re
import unittest
from dataclasses import replace
from typing import Any
from unittest import mock

from tests.support.board_follow import BEGUN, ORDER, UNSEEN, VEHICLE, Followed, vehicle
from nulvrader.board import record as record_module
from nulvrader.board import record_tables
from nulvrader.board.messages import table
from nulvrader.board.news import GAP
from nulvrader.board.record import Record
from nulvrader.desk.client import Job


class Loads(Followed):
    def test_calls_of_others(self) -> None:
        """A load is registered, corrected or counted, and leaves."""
        self.look(L2='checking')
        words = 'L2 is registered at the checking place'
        self.told(('load.registered', words, ('client', 'register')))
        self.look(L2='station B')
        words = 'L2 was corrected or counted: it is at B, it was at the checking place'
        self.told(('load.moved', words, ('client', 'correct or stocktake')))
        self.look(L2='left')
        self.told(('load.left', 'L2 has left, it was at B', ('client', 'leave')))

    def test_commands_of_this_board(self) -> None:
        """Each names its call, and the row of the command has who gave it."""
        number = self.person('register', load='L2', station='B')
        self.look(L2='station B')
        (entry,) = self.entries()
        self.assertEqual((entry['who'], entry['command']), ('anna', number))
        self.told(('load.registered', 'L2 is registered at B', ('person', 'register')))
        self.person('correct', load='L2', station='C', ref='R1')
        self.look(L2='station C')
        words = 'L2 was corrected by hand: it is at C, it was at B'
        self.told(('load.corrected', words, ('person', 'correct')))
        self.person('stocktake', ref='R2', file='station,load\nB,L2\n')
        self.look(L2='station B')
        words = 'L2 was counted: it is at B, it was at C'
        self.told(('load.counted', words, ('person', 'stocktake')))
        self.person('leave', load='L2', ref='R3')
        self.look(L2='left')
        self.told(('load.left', 'L2 has left, it was at B', ('person', 'leave')))

    def test_a_command_that_was_refused_has_caused_nothing(self) -> None:
        self.news.sent_commands.note_sending(
            7, 'anna', 'correct', {'load': 'L1', 'station': 'C'}, self.news.at
        )
        self.news.sent_commands.note_outcome(7, False, self.news.at)
        self.look(L1='station C')
        words = 'L1 was corrected or counted: it is at C, it was at A'
        self.told(('load.moved', words, ('client', 'correct or stocktake')))

    def test_a_correction_from_a_vehicle(self) -> None:
        """After a cancel a load that is aboard is taken off by hand, even to where its job led: no
        vehicle has dropped it."""
        self.begin_order()
        self.row = vehicle(**{**ORDER, 'seen': 0}, header=2)
        self.look(L1='vehicle KIT/0001')
        self.row = replace(self.row, pending='cancelOrder', header=3)
        self.look()
        self.row = vehicle(header=4)
        self.jobs = {}
        self.look()
        self.record._put('DELETE FROM events')
        self.look(L1='station B')
        words = 'L1 was corrected by hand: it is at B, it was on KIT/0001'
        self.told(('load.corrected', words, ('client', 'correct')))

    def test_while_the_board_did_not_look(self) -> None:
        self.row = vehicle(header=2, node='N2')
        self.look(GAP + 5000, L1='station C', L2='checking')
        words = 'L1 is at C, it was at A: it moved while the board did not look'
        found = 'L2 is new, at the checking place: it came while the board did not look'
        moved = 'KIT/0001 stands at node N2, it was at N1: it was placed, or carried an order out'
        self.told(
            ('load.unseen', words, UNSEEN),
            ('load.found', found, UNSEEN),
            ('vehicle.moved', f'{moved} between two looks', ('unseen', None)),
        )

    def test_an_order_between_two_looks(self) -> None:
        """What may be either is not said to be one; a command of this board says which."""
        self.row = vehicle(header=5, node='N2')
        self.look()
        moved = 'KIT/0001 stands at node N2, it was at N1: it was placed, or carried an order out'
        self.told(('vehicle.moved', f'{moved} between two looks', ('client', 'place or order')))
        self.person('place', vehicle='KIT/0001', node='N1', ref='R1')
        self.row = vehicle(header=6, node='N1')
        self.look()
        placed = 'KIT/0001 was placed at node N1, it was at N2'
        self.told(('vehicle.placed', placed, ('person', 'place')))


class FirstLook(Followed):
    """A board that has looked at a warehouse without loads and vehicles."""

    def setUp(self) -> None:
        super().setUp()
        self.record.close()
        self.record = Record(':memory:')
        self.addCleanup(self.record.close)
        self.start_again()
        self.places = {}
        self.fleet.take_vehicles({})
        self.stores.take_stock(self.stock())
        self.assertEqual(self.entries(), [])

    def test_what_came_before_it_was_started_again(self) -> None:
        """A load and a vehicle that came meanwhile are told."""
        self.start_again()
        self.look(L7='station A')
        came = 'L7 is new, at A: it came while the board did not look'
        registered = 'KIT/0001 is registered at node N1'
        self.told(
            ('load.found', came, UNSEEN), ('vehicle.registered', registered, ('unseen', None))
        )

    def test_what_is_there_at_the_first_look(self) -> None:
        """It is not told: nobody knows since when it is there."""
        self.record.close()
        self.record = Record(':memory:')
        self.addCleanup(self.record.close)
        self.start_again()
        self.look(L7='station A')
        self.told()


class Jobs(Followed):
    def setUp(self) -> None:
        super().setUp()
        self.jobs = {'J1': Job('J1', 'L1', 'A', 'B')}
        self.look()

    def begin_order(self) -> None:
        super().begin_order()
        self.record._put('DELETE FROM events')

    def test_calls_of_others(self) -> None:
        words = 'Job J1 waits: L1 from A to B'
        self.told(('job.added', words, ('client', 'job')))
        self.jobs = {}
        self.look()
        words = 'Job J1 is stopped while it waits: L1 to B'
        self.told(('job.stopped', words, ('client', 'stop')))

    def test_commands_of_this_board(self) -> None:
        self.entries()
        self.record._put('DELETE FROM events')
        self.person('stop', job='J1')
        self.jobs = {}
        self.look()
        words = 'Job J1 is stopped while it waits: L1 to B'
        self.told(('job.stopped', words, ('person', 'stop')))
        row = self.record.rows('SELECT outcome, cause, who FROM jobs')
        self.assertEqual(row, [('stopped', 'person', 'anna')])

    def test_a_transport(self) -> None:
        self.told(('job.added', 'Job J1 waits: L1 from A to B', ('client', 'job')))
        self.person('order', vehicle='KIT/0001', order='O1', stops='J1', edges='1')
        super().begin_order()
        begins = 'Order O1 of KIT/0001, 2 edges: pick L1 at A, drop L1 at B'
        given = 'Job J1 rides on KIT/0001 by order O1: L1 to B'
        self.told(
            ('order.started', begins, ('person', 'order')),
            ('job.given', given, ('person', 'order')),
        )
        self.row = replace(self.row, header=2)
        self.look(L1='vehicle KIT/0001')
        self.told(('load.picked', 'KIT/0001 picked L1 up at A', VEHICLE))
        self.row = vehicle(node='N3', header=5)
        self.jobs = {}
        self.look(L1='station B')
        self.told(
            ('load.dropped', 'KIT/0001 dropped L1 at B', VEHICLE),
            ('order.ended', 'Order O1 of KIT/0001 is over', VEHICLE),
            ('job.done', 'Job J1 is done: L1 to B', VEHICLE),
        )
        times = 'added < began AND began < picked AND picked < dropped AND dropped <= ended'
        rows = self.record.rows(f'SELECT outcome, cause, {times} FROM jobs')
        self.assertEqual(rows, [('done', 'vehicle', 1)])

    def test_a_cancel(self) -> None:
        self.begin_order()
        self.row = replace(self.row, pending='cancelOrder')
        self.look()
        told = 'KIT/0001 is told to cancel its order'
        self.told(('vehicle.told', told, ('client', 'cancel')))
        self.row, self.jobs = vehicle(header=2, astray=True, node='N2'), {}
        self.look()
        left = 'KIT/0001 left its order on the way, near N2: look where it stands, and place it'
        done = 'KIT/0001 has done what it was told: to cancel its order'
        stopped = 'Job J1 is stopped, as order O1 of KIT/0001 was cancelled: L1 to B'
        self.told(
            ('order.cancelled', 'Order O1 of KIT/0001 was cancelled', ('client', 'cancel')),
            ('vehicle.astray', left, VEHICLE),
            ('vehicle.obeyed', done, VEHICLE),
            ('job.cancelled', stopped, ('client', 'cancel')),
        )
        self.person('place', vehicle='KIT/0001', node='N2', ref='R1')
        self.row = vehicle(header=2, node='N2')
        self.look()
        placed = 'KIT/0001 was placed at node N2, it was at N2'
        self.told(('vehicle.placed', placed, ('person', 'place')))

    def test_a_place_ends_an_order(self) -> None:
        """No state has come, so it was no vehicle that has ended it."""
        self.begin_order()
        self.row, self.jobs = vehicle(node='N2'), {}
        self.look()
        stopped = 'Job J1 is stopped, as KIT/0001 was placed by hand: L1 to B'
        over = 'Order O1 of KIT/0001 ended, as it was placed by hand'
        placed = 'KIT/0001 was placed at node N2, it was at N1'
        self.told(
            ('job.placed', stopped, ('client', 'place')),
            ('order.placed', over, ('client', 'place')),
            ('vehicle.placed', placed, ('client', 'place')),
        )

    def test_a_cancel_or_a_place(self) -> None:
        """Which of the two another client has called is not seen, where a state came as well."""
        self.begin_order()
        self.row, self.jobs = vehicle(node='N2', header=5), {}
        self.look()
        stopped = 'Job J1 is stopped, as order O1 of KIT/0001 was cancelled: L1 to B'
        over = 'Order O1 of KIT/0001 was cancelled, or ended as it was placed'
        cause = 'client', 'cancel or place'
        self.told(('job.cancelled', stopped, cause), ('order.broken', over, cause))

    def test_a_place_ends_one_order(self) -> None:
        """An order that begins and ends soon after it has ended by itself."""
        self.begin_order()
        self.person('place', vehicle='KIT/0001', node='N1', ref='R1')
        self.row, self.jobs = vehicle(), {}
        self.look()
        self.record._put('DELETE FROM events')
        self.row = vehicle(**{**ORDER, 'order': 'O2'}, header=2)
        self.look()
        self.row = vehicle(node='N3', header=3)
        self.look()
        self.assertEqual(self.news.ends['O2'].how, 'ended')

    def test_an_action_that_fails(self) -> None:
        """The order has come to its end, and the load is still where it was."""
        self.begin_order()
        self.row, self.jobs = vehicle(node='N3', header=9), {}
        self.look()
        failed = 'Job J1 has failed on KIT/0001, whose order O1 is over: L1 to B'
        self.told(
            ('job.failed', failed, VEHICLE),
            ('order.ended', 'Order O1 of KIT/0001 is over', VEHICLE),
        )
        self.assertEqual(self.record.rows('SELECT outcome FROM jobs'), [('failed',)])

    def test_whose_action_has_failed(self) -> None:
        """Its own vehicle says so of a job's action; of another vehicle it counts for nothing."""
        for name, wanted in (('KIT/0002', 'job.failed'), ('KIT/0001', 'job.failed.action')):
            with self.subTest(name):
                self.setUp()
                self.begin_order()
                self.news.fails_action(name, 'O1.0', 'forged')
                self.row, self.jobs = vehicle(node='N3', header=9), {}
                self.look()
                found = [row['what'] for row in self.entries() if row['what'].startswith('job.f')]
                self.assertEqual(found, [wanted])

    def test_while_the_board_did_not_look(self) -> None:
        self.begin_order()
        self.row, self.jobs = vehicle(node='N3', header=9), {}
        self.look(GAP + 5000)
        words = 'Job J1 is stopped, while the board did not look: L1 to B'
        over = 'Order O1 of KIT/0001 is over: it ended while the board did not look'
        self.told(('job.unseen', words, UNSEEN), ('order.unseen', over, UNSEEN))


class Vehicles(Followed):
    def changed(self, *wanted: tuple[str, str, tuple[str, str | None]], **values: Any) -> None:
        """The vehicle comes to be so, which is told so."""
        self.row = replace(self.row, **values)
        self.look()
        self.told(*wanted)

    def test_what_a_state_changes(self) -> None:
        ready = ('vehicle.ready', 'KIT/0001 is ready', VEHICLE)
        self.changed(
            ('vehicle.unready', 'KIT/0001 is not ready any more', VEHICLE), ready=False, header=2
        )
        self.changed(ready, ready=True, header=3)
        self.changed(('vehicle.paused', 'KIT/0001 has paused', VEHICLE), paused=True, header=4)
        self.changed(('vehicle.resumed', 'KIT/0001 goes on', VEHICLE), paused=False, header=5)

    def test_what_it_is_told_and_does(self) -> None:
        """The end of an instant action is told by what the vehicle then is."""
        self.person('pause', vehicle='KIT/0001')
        told = ('vehicle.told', 'KIT/0001 is told to pause', ('person', 'pause'))
        self.changed(told, pending='startPause')
        paused = ('vehicle.paused', 'KIT/0001 has paused', VEHICLE)
        done = ('vehicle.obeyed', 'KIT/0001 has done what it was told: to pause', VEHICLE)
        self.changed(paused, done, pending=None, paused=True, header=2)
        told = ('vehicle.told', 'KIT/0001 is told to go on', ('client', 'resume'))
        self.changed(told, pending='stopPause')
        words = 'KIT/0001 has not done what it was told: to go on'
        self.changed(('vehicle.disobeyed', words, VEHICLE), pending=None, header=3)

    def test_a_place_before_it_has_done_it(self) -> None:
        self.person('pause', vehicle='KIT/0001')
        told = ('vehicle.told', 'KIT/0001 is told to pause', ('person', 'pause'))
        self.changed(told, pending='startPause')
        placed = 'KIT/0001 was placed at node N4, it was at N1'
        freed = 'KIT/0001 was told to pause, and was placed before it had'
        wanted = ('vehicle.placed', placed, ('client', 'place')), ('vehicle.freed', freed, VEHICLE)
        self.changed(*wanted, pending=None, node='N4')

    def test_calls(self) -> None:
        placed = 'KIT/0001 was placed at node N4, it was at N1'
        self.changed(('vehicle.placed', placed, ('client', 'place')), node='N4')
        words = 'The states of KIT/0001 are accepted again, whatever their number'
        self.changed(('vehicle.resynced', words, ('client', 'resync')), header=None)

    def test_states_that_do_not_come(self) -> None:
        for _ in range(12):
            self.look()
        words = 'No state of KIT/0001 comes any more'
        self.told(('vehicle.silent', words, ('board', None)))
        words = 'A state of KIT/0001 has come again'
        self.changed(('vehicle.heard', words, VEHICLE), header=7)


class OldRows(Followed):
    """What is removed of the record is removed in portions, so that nobody waits for it."""

    def setUp(self) -> None:
        super().setUp()
        for _ in range(7):
            self.record.hold(BEGUN, 'node', 'N1', 'KIT/0001')
        self.record.commit()
        self.enterContext(mock.patch.object(record_module, 'PORTION', 3))

    def numbers(self) -> list[int]:
        return [n for (n,) in self.record.rows('SELECT n FROM hold_changes ORDER BY n')]

    def test_rows_that_are_old(self) -> None:
        self.assertFalse(self.record.remove_old(BEGUN))
        self.assertEqual(self.numbers(), [1, 2, 3, 4, 5, 6, 7])
        for is_more, left in ((True, 4), (True, 1), (False, 0)):
            self.assertEqual(self.record.remove_old(BEGUN + 1), is_more)
            self.assertEqual(len(self.numbers()), left)

    def test_more_rows_than_are_kept(self) -> None:
        """The newest stay."""
        with mock.patch.dict(record_tables.MOST, hold_changes=2):
            self.assertTrue(self.record.remove_old(BEGUN))
            self.assertFalse(self.record.remove_old(BEGUN))
        self.assertEqual(self.numbers(), [6, 7])


class Sentences(unittest.TestCase):
    def test_each_is_compared(self) -> None:
        """Each kind of entry has its sentence in a test; those of commands, whose names are made,
        are compared as a whole by the tests of refusals."""
        text = ''
        for path in glob.glob(os.path.join(os.path.dirname(__file__), '*.py')):
            with open(path, encoding='utf-8') as file:
                text += file.read()
        for name, row in table().items():
            if name.startswith('event.') and not name.startswith('event.command.'):
                fixed = max(re.split(r'\{[^}]*\}', row['en']), key=len).strip(' :,.')
                with self.subTest(name):
                    self.assertTrue(fixed in text or name.removeprefix('event.') in text, fixed)


if __name__ == '__main__':
    unittest.main()
