"""Shows how the desk of the simulated plant ends and is killed, and what it is asked for, with a
shell script for the desk's program."""
import contextlib
import os
import random
import sqlite3
import tempfile
import unittest
from unittest import mock

from nulvrader.desk.reports import read_stock
from simulation.desks import Served
from simulation.plan import Plan
from simulation.plant import Plant
from simulation.reasons import TAKEN_BACK
from simulation.truth import Wrong


class OverAScript(unittest.TestCase):
    """A shell script stands for the desk's program."""

    def setUp(self) -> None:
        folder = tempfile.TemporaryDirectory()
        self.addCleanup(folder.cleanup)
        self.program, self.db = (os.path.join(folder.name, name) for name in ('desk', 'plant.db'))

    def served(self, *lines: str) -> Served:
        with open(self.program, 'w') as file:
            file.write('#!/bin/sh\n' + '\n'.join(lines) + '\n')
        os.chmod(self.program, 0o755)
        return Served(self.program, self.db, 1)


class AProgram(OverAScript):
    def test_one_that_ends_by_itself(self) -> None:
        served = self.served('echo listening on 127.0.0.1:1', 'echo fault: Storage >&2', 'exit 3')
        served.start()
        self.addCleanup(served.stop)
        assert served.process is not None
        served.process.wait(120)
        with self.assertRaisesRegex(
            Wrong, '^the desk ended by itself: status 3, and it said: fault: Storage$'
        ):
            served.supervise()
        self.assertEqual(served.starts, 1)

    def test_one_that_is_killed(self) -> None:
        served = self.served('echo listening on 127.0.0.1:1', 'exec sleep 600')
        served.start()
        self.addCleanup(served.stop)
        served.supervise()
        self.assertEqual(served.starts, 1)
        served.kill_soon(random.Random(1))
        served.settle()
        self.assertEqual(served.starts, 2)


class WhatTheDeskHas(OverAScript):
    """The load L1 is at the station A, and L2 on KIT/0001."""

    REPORT = (
        b'station A at N1: %d of 3, reserved 0\n%schecking: %d\n%svehicle KIT/0001: 1\n '
        b' L2\nleft: 0\n'
    )

    def setUp(self) -> None:
        super().setUp()
        self.plant = Plant(Plan('small', 1), self.served('exit 0'), mock.Mock())
        self.plant.goods.add('L1', 'station A')
        self.plant.goods.add('L2', 'vehicle KIT/0001')

    def compare(self, at_station: bytes, checking: bytes = b'') -> None:
        self.plant.compare_places(
            read_stock(
                self.REPORT % (at_station.count(b'L'), at_station, checking.count(b'L'), checking)
            )
        )

    def test_each_load_once(self) -> None:
        self.compare(b'  L1\n')

    def test_a_load_twice(self) -> None:
        """Though one of its places is the true one, and no load is missing."""
        for lists in (
            (b'  L1\n  L2\n',),
            (b'  L1\n', b'  L2\n'),
            (b'  L1\n', b'  L1\n'),
            (b'  L1\n  L1\n',),
        ):
            with self.subTest(lists), self.assertRaisesRegex(
                Wrong, r'^the desk has L[12] in more than one place$'
            ):
                self.compare(*lists)

    def test_a_load_that_is_nowhere(self) -> None:
        with self.assertRaisesRegex(Wrong, '^the desk has L3, which is nowhere$'):
            self.compare(b'  L1\n  L3\n')

    def test_a_job_that_has_not_ended(self) -> None:
        """Where all have, as the plant saw. One that only stands, or whose time is over, has such
        jobs."""
        with contextlib.closing(sqlite3.connect(self.db)) as base:
            base.execute('CREATE TABLE job (id TEXT, load TEXT, target TEXT, phase TEXT)')
            base.executemany(
                'INSERT INTO job VALUES (?, ?, ?, ?)',
                [('J1', 'L1', 'A', 'stopped'), ('J2', 'L2', 'A', 'waiting')],
            )
            base.commit()
        self.plant.reasons.jobs['J1'] = TAKEN_BACK
        with self.assertRaisesRegex(Wrong, '^all jobs had ended, and J2 is waiting$'):
            self.plant.close()
        self.plant.day.stands = 'nothing moves'
        self.plant.close()
        self.assertEqual((self.plant.day.done, self.plant.day.stopped), (0, {'J1': TAKEN_BACK}))


if __name__ == '__main__':
    unittest.main()
