"""Shows what the board tells pages of a desk at work, over the real program and without a
browser."""
from __future__ import annotations

import json
import os
import signal
import time
import unittest
from typing import Any

from tests.support.board_run import LAYOUT, ONE, TWO, Plant, Watching, has_loopback, until
from nulvrader.board.fleet import Fleet
from nulvrader.board.news import News
from nulvrader.board.record import Record
from nulvrader.board.page_state import Shown
from nulvrader.board import shown_rows
from nulvrader.desk.client import ExportedVehicle

PICKED = ('O1.0', 'FINISHED')
DROPPED = ('O1.1', 'FINISHED')


class Follows(Watching):
    def test_a_transport(self) -> None:
        """A job waits, rides and is done; the load is picked and dropped; what is held and how far
        the order is."""
        board = self.board
        self.held('node N1')
        self.wait('station', 'A', taken=2, reserved=0)
        self.desk.add_job('J1', 'L1', 'B')
        self.wait('job', 'J1', load='L1', origin='A', target='B', phase='waiting')
        self.wait('station', 'B', taken=0, reserved=1)
        self.desk.start_order('O1', ONE, job='J1', edges=1)
        self.held('node N1', 'node N2', 'edge E12')
        self.check_the_order()
        self.plant.state(ONE, 'N2', 'O1', 0, 2, (PICKED,))
        self.wait('load', 'L1', place='vehicle KIT/0001')
        self.wait('vehicle', 'KIT/0001', seen=1, base=1, confirmed=0, node='N2', loads=['L1'])
        self.held('node N2')
        self.desk.advance(ONE, 'O1', 1, 1)
        self.wait('vehicle', 'KIT/0001', seen=1, base=2, sent=1, confirmed=0)
        self.plant.state(ONE, 'N3', 'O1', 1, 4, (PICKED, DROPPED))
        self.wait('load', 'L1', place='station B')
        self.wait('vehicle', 'KIT/0001', order_name=None, node='N3', loads=[])
        until(
            lambda: not board.get('job', 'J1') and not board.get('way', 'KIT/0001'),
            'the job and the way are gone',
        )
        for words in (
            'Job J1 waits: L1 from A to B',
            'Order O1 of KIT/0001, 2 edges: pick L1 at A, drop L1 at B',
            'KIT/0001 picked L1 up at A',
            'KIT/0001 dropped L1 at B',
            'Order O1 of KIT/0001 is over',
            'Job J1 is done: L1 to B',
        ):
            self.said(words)
        self.check_the_record()

    def check_the_order(self) -> None:
        """The vehicle has the order of the job, with its way and what is done on it."""
        order = {'order_name': 'O1', 'seen': 0, 'base': 1, 'edges': 2, 'sent': 0}
        self.wait('vehicle', 'KIT/0001', node='N1', confirmed=None, **order)
        way = self.wait(
            'way', 'KIT/0001', order='O1', first=0, nodes=['N1', 'N2', 'N3'], edges=['E12', 'E23']
        )
        acts = [{'kind': 'pick', 'load': 'L1', 'station': 'A', 'at': 0}]
        self.assertEqual(
            way['acts'], acts + [{'kind': 'drop', 'load': 'L1', 'station': 'B', 'at': 2}]
        )
        self.wait('job', 'J1', phase='riding', order='O1', vehicle='KIT/0001')

    def check_the_record(self) -> None:
        moves = "SELECT from_place, to_place FROM load_moves WHERE load = 'L1' ORDER BY n"
        way = [('station A', 'vehicle KIT/0001'), ('vehicle KIT/0001', 'station B')]
        self.rows(moves, way)
        job = (
            'SELECT load, origin, target, phase, order_name, vehicle, added <= began AND began <='
            ' ended FROM jobs'
        )
        self.rows(job, [('L1', 'A', 'B', 'done', 'O1', 'KIT/0001', 1)])
        self.rows("SELECT place FROM loads WHERE load = 'L1'", [('station B',)])
        self.rows('SELECT kind, name, vehicle FROM holds', [('node', 'N3', 'KIT/0001')])
        self.rows(
            'SELECT vehicle, node, order_name, ready FROM vehicles', [('KIT/0001', 'N3', None, 1)]
        )
        self.rows("SELECT taken, reserved, capacity FROM stations WHERE station = 'B'", [(1, 0, 2)])
        edges = "SELECT vehicle FROM hold_changes WHERE kind = 'edge' AND name = 'E12' ORDER BY n"
        self.rows(edges, [('KIT/0001',), (None,)])
        seen = (
            'SELECT DISTINCT order_name, node, seen FROM vehicle_states WHERE order_name IS NOT'
            ' NULL ORDER BY n LIMIT 2'
        )
        self.rows(seen, [('O1', 'N1', 0), ('O1', 'N2', 1)])

    def test_a_cancel_with_its_rest(self) -> None:
        """The vehicle stops on the way: it holds the next edge and node until a person places
        it."""
        self.desk.add_job('J1', 'L1', 'B')
        self.desk.start_order('O1', ONE, job='J1', edges=1)
        self.wait('vehicle', 'KIT/0001', order_name='O1')
        self.wait('job', 'J1', target='B', phase='riding')
        action = self.desk.cancel(ONE)
        self.wait('vehicle', 'KIT/0001', pending='cancelOrder')
        self.plant.state(
            ONE, 'N1', 'O1', 0, 0, (('O1.0', 'FAILED'), ('O1.1', 'FAILED'), (action, 'FINISHED'))
        )
        self.wait(
            'vehicle',
            'KIT/0001',
            astray=1,
            pending=None,
            order_name=None,
            rest={'edge': 'E12', 'node': 'N2'},
        )
        self.held('node N1', 'node N2', 'edge E12')
        self.said('Job J1 is stopped, as order O1 of KIT/0001 was cancelled: L1 to B')
        self.desk.place(ONE, 'R1', 'N2')
        self.wait('vehicle', 'KIT/0001', astray=0, node='N2', rest=None)
        self.held('node N2')

    def test_who_waits_for_whom(self) -> None:
        """Two vehicles meet: one waits, and then each for the other."""
        self.plant.vehicle(TWO, 'N3')
        self.desk.register_load('L3', 'B')
        self.desk.add_job('J1', 'L1', 'B')
        self.desk.add_job('J2', 'L3', 'A')
        self.desk.start_order('O1', ONE, job='J1', edges=1)
        self.plant.state(ONE, 'N2', 'O1', 0, 2, (PICKED,))
        wait = self.wait('wait', 'KIT/0001', kind='node', name='N3', by='KIT/0002', stands=True)
        self.assertEqual(self.board.get('circles'), {})
        self.desk.start_order('O2', TWO, job='J2', edges=0)
        self.wait('wait', 'KIT/0002', kind='node', name='N2', by='KIT/0001', stands=True)
        until(lambda: self.board.get('circles') == [['KIT/0001', 'KIT/0002']], 'the circle')
        self.assertEqual(self.board.get('wait', 'KIT/0001'), wait)
        self.wait('vehicle', 'KIT/0002', order_name='O2')
        self.desk.cancel(TWO)
        self.plant.state(
            TWO,
            'N3',
            'O2',
            0,
            0,
            (('O2.0', 'FAILED'), ('O2.1', 'FAILED'), ('instant-1', 'FINISHED')),
        )
        until(
            lambda: not self.board.get('circles') and not self.board.get('wait', 'KIT/0002'),
            'no circle',
        )
        waits = 'SELECT vehicle, name, holder, ended IS NULL FROM waits ORDER BY n'
        kept = [('KIT/0001', 'N3', 'KIT/0002', 1), ('KIT/0002', 'N2', 'KIT/0001', 0)]
        self.rows(waits, kept)

    def test_loads_come_move_and_leave(self) -> None:
        self.desk.register_load('L9')
        self.wait('load', 'L9', place='checking')
        self.desk.correct_load('L9', 'R1', 'C')
        self.wait('load', 'L9', place='station C')
        self.desk.leave_load('L9', 'R2')
        until(lambda: not self.board.get('load', 'L9'), 'the load has left')
        self.said('L9 has left, it was at C')
        history = json.loads(self.board.ask('GET', '/history?load=L9')[2])
        places = [(before, after) for _, before, after in history['moves']]
        self.assertEqual(
            places, [('station C', 'left'), ('checking', 'station C'), (None, 'checking')]
        )
        self.assertEqual(history['place'], 'left')
        self.wait('counts', '', left=1)

    def test_a_desk_that_is_stopped_and_comes_back(self) -> None:
        """It is shown with since when; what was changed meanwhile is seen, and so is a load that
        came and left."""
        before = time.time_ns() // 1_000_000
        self.plant.served.stop(signal.SIGKILL)
        told = self.wait('desk', '', up=False)
        self.assertTrue(before <= int(str(told['since'])) <= time.time() * 1000, told)
        until(
            lambda: 'no program listens there' in str(self.board.get('desk')['fault']),
            'why it does not answer',
        )
        self.plant.replay(
            ('POST', '/loads', {'load': 'L5', 'station': 'B'}),
            ('POST', '/loads', {'load': 'L6'}),
            ('POST', '/loads/L6/leave', {'ref': 'R1'}),
        )
        self.plant.start_desk()
        self.wait('desk', '', up=True, fault=None)
        self.wait('load', 'L5', place='station B')
        self.rows("SELECT place FROM loads WHERE load = 'L6'", [('left',)])
        self.rows('SELECT answers FROM desk_times ORDER BY n', [(1,), (0,), (1,)])

    def rename(self, name: str, other: str) -> None:
        """Gives a file another name, with what SQLite has beside it."""
        for end in ('.db', '.db-wal', '.db-shm'):
            if os.path.exists(self.plant.path(name + end)):
                os.rename(self.plant.path(name + end), self.plant.path(other + end))

    def test_another_layout(self) -> None:
        """A desk with the same nodes, stations and vehicles, of which an edge leads elsewhere, is
        another desk. No command is sent to it. The layout is shown while no desk answers, also by a
        board that is started then."""
        layout: dict[str, Any] = self.wait('layout', '')
        edges = self.desk.layout()
        assert edges is not None
        self.assertEqual(
            layout['edges'], [[one.name, one.start, one.finish] for one in edges.edges.values()]
        )
        self.assertEqual([node for node, _, _ in layout['nodes']], ['N1', 'N2', 'N3', 'N4'])
        self.assertEqual(layout['stations'], [['A', 'N1', 3], ['B', 'N3', 2], ['C', 'N4', 1]])
        self.plant.served.stop()
        self.board.stop()
        self.board = self.plant.board()
        self.assertEqual(self.wait('layout', ''), layout)
        self.rename('warehouse', 'first')
        self.plant.start_desk()
        self.desk.set_layout(LAYOUT.replace('edge,E42,N4,N2', 'edge,E42,N4,N3').encode())
        self.plant.vehicle(ONE, 'N1')
        for load in ('L1', 'L2'):
            self.desk.register_load(load, 'A')
        told = self.wait('desk', '', up=False, other=True)
        until(
            lambda: self.board.get('desk')['fault'] == 'It has another layout than it had.',
            str(told),
        )
        self.assertEqual(self.board.get('layout'), layout)
        self.plant.served.stop()
        self.rename('warehouse', 'second')
        self.rename('first', 'warehouse')
        self.plant.start_desk()
        self.wait('desk', '', up=True)

    def test_a_desk_that_gets_its_layout_later(self) -> None:
        """The board waits for it, and has the commands by it."""
        self.plant.served.stop()
        self.board.stop()
        self.rename('warehouse', 'first')
        self.rename('board', 'first-board')
        self.plant.start_desk()
        self.board = self.plant.board()
        self.wait('desk', '', up=True)
        self.assertEqual(self.board.get('layout'), {})
        self.assertEqual(
            self.board.do('register', load='L1', station='A')['fault'], 'There is no station A.'
        )
        self.desk.set_layout(LAYOUT.encode())
        self.wait('layout', '')
        self.assertTrue(self.board.do('register', load='L1', station='A')['done'])


class Silent(Watching):
    """A vehicle of which no state has come for a second and a half is silent since the last one."""

    words = ('--silent', '1.5')

    def heard(self) -> list[str]:
        """What was said of the vehicle's states, in its order."""
        self.board.refresh()
        return [
            event['text'] for event in self.board.events if 'state of KIT/0001' in event['text']
        ]

    def test_a_vehicle_that_falls_silent(self) -> None:
        said = ['No state of KIT/0001 comes any more', 'A state of KIT/0001 has come again']
        until(lambda: self.heard() == said[:1], said[0])
        last = time.time_ns() // 1_000_000
        self.plant.state(ONE, 'N1')
        until(lambda: self.heard()[1:2] == said[1:], said[1])
        until(lambda: self.heard()[2:] == said[:1], said[0])
        since = until(lambda: self.board.get('vehicle', 'KIT/0001')['silent'], 'it is silent')
        self.assertTrue(last <= since <= time.time() * 1000 - 1500, (last, since))

    def test_a_vehicle_whose_states_come(self) -> None:
        """By the moments at which the board asks, one every second for a minute: a new state has
        come each second, every other, or every third one, where the vehicle is silent before the
        next one comes."""
        begun = 1_700_000_000_000
        for every in (1, 2, 3):
            shown, record = Shown(), Record(self.plant.path(f'moments-{every}.db'))
            self.addCleanup(record.close)
            news = News(shown, record)
            fleet = Fleet(news, 1500)
            silent = []
            for second in range(60):
                news.at = begun + 1000 * second
                row = (
                    ONE,
                    'N1',
                    1,
                    True,
                    False,
                    False,
                    *(None, None, None, None),
                    1 + second // every,
                )
                fleet.take_vehicles({ONE: ExportedVehicle(*row, None, None, None, None)})
                silent.append(shown.all(shown_rows.VEHICLE)['KIT/0001']['silent'])
            wanted = [
                begun + 1000 * second - 2000 if second % every == 2 else None
                for second in range(60)
            ]
            self.assertEqual(silent, wanted, every)


@unittest.skipUnless(has_loopback(), 'no sockets on 127.0.0.1 here')
class Asks(unittest.TestCase):
    def setUp(self) -> None:
        layout = LAYOUT.replace('station,A,N1,3', 'station,A,N1,300').replace(
            'station,B,N3,2', 'station,B,N3,99'
        )
        self.plant = Plant(layout + 'station,D,N2,99\n')
        self.addCleanup(self.plant.close)

    def test_jobs_that_others_add(self) -> None:
        """Of 200 loads 60 get jobs to two stations by another program; each is seen with where it
        leads, and those that are stopped, or are so while the board does not run, are gone."""
        for number in range(200):
            self.plant.desk.register_load(f'L{number:03}', 'A')
        board = self.plant.board()
        until(lambda: board.get('counts').get('loads') == 200, 'the loads')
        jobs = {f'J{number:02}': (f'L{3 * number:03}', 'BD'[number % 2]) for number in range(60)}
        for job, (load, to) in jobs.items():
            self.plant.desk.add_job(job, load, to)

        def told() -> dict[str, tuple[object, object]]:
            return {name: (job['load'], job['target']) for name, job in board.all('job').items()}

        until(lambda: told() == jobs, 'all jobs')
        self.assertEqual({job['origin'] for job in board.all('job').values()}, {'A'})
        self.plant.desk.stop_job('J00')
        del jobs['J00']
        until(lambda: told() == jobs, 'a job is stopped')
        board.stop()
        self.plant.desk.stop_job('J01')
        del jobs['J01']
        board = self.plant.board()
        until(lambda: told() == jobs, 'one was stopped meanwhile')
        stopped = "SELECT job, phase FROM jobs WHERE phase = 'stopped' ORDER BY job"
        until(
            lambda: board.rows(stopped) == [('J00', 'stopped'), ('J01', 'stopped')], 'both are kept'
        )

    def test_how_often(self) -> None:
        """At most 20 requests a second are asked, each on a connection of its own, while orders
        begin: a desk that serves 100 connections lasts for five seconds."""
        self.plant.served.stop()
        served = self.plant.start_desk(connections=100)
        begun = time.monotonic()
        board = self.plant.board()
        self.plant.desk.register_load('L1', 'A')
        served.process.wait(300)
        self.assertGreater(time.monotonic() - begun, 98 / 20)
        self.plant.start_desk()
        until(lambda: board.get('load', 'L1'), 'it goes on')


if __name__ == '__main__':
    unittest.main()
