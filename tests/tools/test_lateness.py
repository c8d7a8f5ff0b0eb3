"""Shows how late things are seen, as `bench/board` reckons it."""
from __future__ import annotations

import unittest
from unittest import mock

from tests.support.lateness import Lateness


class Late(unittest.TestCase):
    """Changes of one thing at moments that are set."""

    def setUp(self) -> None:
        self.told = Lateness()
        self.at = 0.0
        patched = mock.patch('tests.support.lateness.time.time', lambda: self.at)
        patched.start()
        self.addCleanup(patched.stop)

    def become(self, at: float, value: str | None) -> None:
        self.at = at
        with self.told.becoming('V1', {'node': value}):
            pass

    def test_seen(self) -> None:
        """Each change counts from itself on, once; one that is no change does not."""
        self.become(1.0, 'N1')
        self.become(2.0, 'N1')
        self.told.saw('V1', {'node': 'N1'}, 2.5)
        self.told.saw('V1', {'node': 'N1'}, 9.0)
        self.become(10.0, 'N2')
        self.told.saw('V1', {'node': 'N1'}, 10.2)
        self.told.saw('V1', {'node': 'N2'}, 10.4)
        self.assertEqual([round(one, 3) for one in self.told.late['node']], [1.5, 0.4])

    def test_superseded(self) -> None:
        """What was followed before it was seen counts until what is behind it is seen."""
        self.become(1.0, 'N1')
        self.become(2.0, 'N2')
        self.told.saw('V1', {'node': 'N2'}, 4.0)
        self.assertEqual(self.told.late['node'], [3.0, 2.0])

    def test_there_and_back(self) -> None:
        """What has come and gone between two looks is over with the next look."""
        self.become(1.0, None)
        self.told.saw('V1', {'node': None}, 1.5)
        self.become(2.0, 'N1')
        self.told.look(2.5)
        self.become(3.0, None)
        self.told.look(3.5)
        self.assertEqual(self.told.late['node'], [0.5, 1.5, 0.5])

    def test_never_seen(self) -> None:
        """What is not seen at all is as late as the end, where that is late."""
        self.become(1.0, 'N1')
        self.become(9.5, 'N2')
        self.at = 10.0
        self.told.end(2.0)
        self.assertEqual(self.told.late['node'], [9.0])

    def test_refused(self) -> None:
        """What was refused has not come to be so."""
        self.become(1.0, 'N1')
        with self.assertRaises(ValueError), self.told.becoming('V1', {'node': 'N2'}):
            raise ValueError
        self.told.saw('V1', {'node': 'N1'}, 2.0)
        self.assertEqual(self.told.late['node'], [1.0])
        self.at = 10.0
        self.told.end(2.0)
        self.assertEqual(self.told.late['node'], [1.0])


if __name__ == '__main__':
    unittest.main()
