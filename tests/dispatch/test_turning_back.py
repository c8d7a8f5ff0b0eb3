"""A vehicle with an order that waits behind another that stands turns back; and none waits for ever
at a single track."""
from __future__ import annotations

import unittest
from typing import Any

from nulvrader.dispatch.parking import IDLE
from nulvrader.dispatch.turning_back import DRIVE, JOBS
from simulation.floors import small
from simulation.sketch import Sketch
from tests.support.desks import over_sockets
from tests.support.dispatching import ONE, TWO, OverADesk


@over_sockets
class BehindAnother(OverADesk):
    """KIT/0001 drives from A to the bay of C, and waits at b. KIT/0002 has left that bay and is
    paused at c, on its way to D."""

    def setUp(self) -> None:
        super().setUp()
        self.turn()
        self.desk.add_job('J2', 'L3', 'D')
        self.turn()
        self.told(TWO, 'cb', 0, 'f')
        self.told(TWO, 'c', 2, 'f')
        self.told(TWO, 'c', 2, 'f', paused=True)
        self.desk.start_drive('P1', ONE, 'cb', 2)
        self.told(ONE, 'b', 4)
        self.turn()

    def test_a_drive_of_a_person(self) -> None:
        """It is left alone while it is in nobody's way."""
        for _ in range(6):
            self.after(JOBS / 5)
        self.assertIsNone(self.desk.vehicle(ONE).pending)

    def test_a_drive(self) -> None:
        """One that the dispatcher has asked for is cancelled after a while, and the vehicle led
        into the bay beside it."""
        self.dispatcher.shared.memory['KIT/0001'].asked = 'P1'
        self.assertEqual([line for line in self.after(DRIVE - 2) if 'cancels' in line], [])
        said = [line for line in self.after(3) if 'cancels' in line]
        self.assertRegex(
            said[0],
            r'^KIT/0001: cancels order P1, a drive to cb, and turns back: waits at b\b.*KIT/0002',
        )
        self.assertEqual(self.desk.vehicle(ONE).pending, 'cancelOrder')
        self.assertEqual([line for line in self.turn() if 'cancels' in line], [])
        pending: Any = self.desk.instant_actions(ONE)
        self.told(ONE, 'b', 4, instant=[pending['actions'][0]['actionId']])
        self.told(TWO, 'c', 2, 'f', paused=True)
        self.assertRegex(self.turn()[0], r'^KIT/0001: order P1 has ended at b$')
        self.assertRegex('\n'.join(self.after(IDLE + 1)), r'KIT/0001: drives to bb, by order')
        self.assertEqual(self.held(ONE), ['b', 'bb'])

    def after(self, seconds: float) -> list[str]:
        """What is said in a turn after so many seconds, in which both have told that they stand."""
        self.now += seconds - 1
        self.told(TWO, 'c', 2, 'f', paused=True)
        self.told(ONE, 'b', 4, fresh=self.desk.vehicle(ONE).order is not None)
        return list(self.turn())

    def test_one_that_goes_on(self) -> None:
        """Nothing is cancelled where the one in front goes on in time."""
        self.after(DRIVE - 2)
        self.told(TWO, 'd', 4, 'f')
        self.told(ONE, 'b', 4)
        self.turn(3)
        self.assertIsNone(self.desk.vehicle(ONE).pending)


class InAPlant(unittest.TestCase):
    def test_single_tracks_starve_nobody(self) -> None:
        """On a sketch of the small plant, of which a single track joins the halves, most jobs lead
        over it from one side, and some back. None waits for its vehicle or on its way for long."""
        sketch = Sketch(small(), 5, 40, 3, near=0.0)
        sketch.clock.every(2.0, lambda: sketch.keep_backlog(4))
        figures = sketch.run(1500.0)
        print('single track: ' + figures.line())
        self.assertGreater(figures.done, 40)
        self.assertLess(figures.longest, 240)


if __name__ == '__main__':
    unittest.main()
