"""Shows which times the commands `job`, `close` and `open` take, and what they write for the
dispatcher, over the built program."""
from __future__ import annotations

import datetime
import os
import unittest

from tests.support.desks import over_sockets
from tests.support.dispatching import OverADesk
from tests.support.programs import ran

from nulvrader.dispatch import instruct
from nulvrader.common.instructions import Instructions, Urgency, moment_of
from nulvrader.common.instructions_file import read_file

DUE = 1_798_122_600  # 2026-12-24T14:30:00Z


class Times(unittest.TestCase):
    def test_the_nearest_one(self) -> None:
        """A time without a day is at most twelve hours from now."""
        now = datetime.datetime.now().timestamp()
        for hour in range(24):
            found = instruct.due(f'{hour:02d}:17')
            assert found is not None
            told = datetime.datetime.fromtimestamp(found)
            self.assertEqual((told.hour, told.minute, told.second), (hour, 17, 0))
            self.assertLessEqual(abs(found - now), 13 * 3600 + 60)

    def test_with_a_day(self) -> None:
        for text in ('2026-12-24T14:30Z', '2026-12-24T14:30:00+00:00', '2026-12-24 16:30+02:00'):
            self.assertEqual(instruct.due(text), DUE)
        local = moment_of(DUE).astimezone().strftime('%Y-%m-%dT%H:%M')
        self.assertEqual(instruct.due(local), DUE)
        self.assertIsNone(instruct.due('none'))

    def test_what_is_no_time(self) -> None:
        for text in (
            '',
            '24:00',
            '1430',
            '14:60',
            '2026-02-30T08:00',
            '9999999-12-24T08:00',
            'now',
        ):
            with self.subTest(text), self.assertRaisesRegex(Exception, 'is no time such as'):
                instruct.due(text)


@over_sockets
class Commands(OverADesk):
    """`job`, `close` and `open` over the built program."""

    def setUp(self) -> None:
        super().setUp()
        self.path = os.path.join(self.folder.name, 'instructions.csv')

    def ran(self, name: str, *words: str) -> tuple[int, str, str]:
        desk = () if name == 'open' else ('--desk', self.address)
        return ran(name, *words, *desk, '--instructions', self.path)

    def test_a_job(self) -> None:
        """What was said of it before stays, and what was said of jobs that have ended goes."""
        self.desk.add_job('J1', 'L1', 'B')
        self.desk.add_job('J2', 'L2', 'B')
        due = moment_of(DUE).astimezone().strftime('%Y-%m-%d %H:%M %Z')
        self.assertEqual(
            self.ran('job', 'J1', '--due', '2026-12-24T14:30Z'),
            (0, f'J1: due {due}, priority 0\n', ''),
        )
        self.assertEqual(
            self.ran('job', 'J1', '--priority', '2'), (0, f'J1: due {due}, priority 2\n', '')
        )
        self.assertEqual(
            self.ran('job', 'J2', '--priority', '9')[:2], (0, 'J2: not due, priority 9\n')
        )
        both = f'J1: due {due}, priority 2\nJ2: not due, priority 9\n'
        self.assertEqual(self.ran('job'), (0, both, ''))
        self.assertEqual(self.ran('job', 'J2'), (0, 'J2: not due, priority 9\n', ''))
        self.assertEqual(read_file(self.path).jobs, {'J1': Urgency(DUE, 2), 'J2': Urgency(None, 9)})
        self.desk.stop_job('J2')
        self.assertEqual(self.ran('job', 'J1', '--due', 'none')[0], 0)
        self.assertEqual(read_file(self.path).jobs, {'J1': Urgency(None, 2)})
        self.assertEqual(self.ran('job', 'J1', '--priority', '0')[0], 0)
        self.assertEqual(read_file(self.path).jobs, {})

    def test_what_is_closed(self) -> None:
        self.assertEqual(
            self.ran('close', 'b', 'c-d'), (0, 'node b is closed\nedge c-d is closed\n', '')
        )
        self.assertEqual(self.ran('close', 'b')[0], 0)
        self.assertEqual(self.ran('close')[1], 'node b is closed\nedge c-d is closed\n')
        self.assertEqual(self.ran('open', 'c-d'), (0, 'edge c-d is open\n', ''))
        self.assertEqual(self.ran('open')[1], 'node b is closed\n')
        self.assertEqual(
            self.ran('open', 'b', 'c-d'),
            (1, '', 'open: no node or edge c-d is closed\n'),
        )
        self.assertEqual(read_file(self.path), Instructions({}, frozenset('b')))

    def test_what_is_wrong(self) -> None:
        """Nothing is changed, and no file is made."""
        for words, status, told in (
            (('job', 'J9', '--priority', '1'), 1, 'job: the desk has no live job J9\n'),
            (('close', 'zz'), 1, 'close: the layout has no node or edge zz\n'),
            (('close', 'b', 'zz'), 1, 'close: the layout has no node or edge zz\n'),
            (('close', '--edge', 'b'), 1, 'close: the layout has no node or edge b\n'),
            (('job', 'J1', '--priority', '10'), 2, 'invalid choice'),
            (('job', 'J1', '--due', 'soon'), 2, 'is no time such as'),
            (('job', '--due', '14:30'), 2, 'name it'),
            (('job', 'J\x1b1', '--due', '14:30'), 2, 'is no name'),
        ):
            with self.subTest(words):
                found = self.ran(*words)
                self.assertEqual(found[:2], (status, ''))
                self.assertIn(told, found[2])
                self.assertNotIn('\x1b', found[2])
        self.assertFalse(os.path.exists(self.path))

    def test_no_desk(self) -> None:
        here = ('--desk', '127.0.0.1:1', '--instructions', self.path)
        for words in (('job', 'J1', '--priority', '1'), ('close', 'b')):
            status, out, said = ran(*words, *here)
            self.assertEqual((status, out), (3, ''))
            self.assertIn('no program listens there', said)
        self.assertFalse(os.path.exists(self.path))

    def test_no_file(self) -> None:
        """None is named, or it can't be written, or is something else."""
        env = {name: value for name, value in os.environ.items() if name != instruct.PLACE}
        status, _, said = ran('open', 'b', env=env)
        self.assertEqual(status, 2)
        self.assertIn('there is no file: name it by --instructions', said)
        self.path = '/no/folder/instructions.csv'
        self.assertEqual(
            self.ran('close', 'b'), (2, '', 'close: /no/folder: No such file or directory\n')
        )
        self.path = os.path.join(self.folder.name, 'fifo')
        os.mkfifo(self.path)
        self.assertEqual(
            self.ran('close', 'b'),
            (2, '', f'close: {self.path}: it is a FIFO, and not a regular file\n'),
        )

    def test_a_name_of_both_kinds(self) -> None:
        known = {'node': {'x'}, 'edge': {'x'}}
        with self.assertRaisesRegex(instruct.NoSuchName, 'x is a node and an edge: say which'):
            instruct._found(['x'], ('node', 'edge'), known, '')
        self.assertEqual(
            instruct._found(['x'], ('edge',), known, ''), {'node': set(), 'edge': {'x'}}
        )


if __name__ == '__main__':
    unittest.main()
