"""Shows that a short round of `bench/standby` loses nothing, and that it judges answers, copies and
watchdogs as worked out by hand here."""
from __future__ import annotations

import os
import subprocess
import sys
import tempfile
import threading
import unittest
from typing import Any

from machines import cluster, drill, records, volume, watchdog
from machines.desks import Term
from machines.records import Answered
from tests.support.desks import DESK
from tests.support.programs import PATIENCE, ROOT, until

BENCH = os.path.join(ROOT, 'bench')
SECONDS = 900  # until the rounds are over; on a machine that is idle they take one minute


class Judged(unittest.TestCase):
    """m1 has the desk from 10 on, m2 from 20 on."""

    def judged(self, *answers: Any) -> str:
        """What is said of these answers."""
        kept = records.Records()
        for answer in answers:
            kept.note(answer)
        return str(records.Judgement.of(kept, [Term(1, 10.0), Term(2, 20.0)]))

    def test_one_after_the_other(self) -> None:
        told = self.judged(Answered(1, 'POST', True, 11, 12), Answered(2, 'POST', True, 21, 22))
        self.assertEqual(told, 'lost 0, two writers 0, stale 0')

    def test_an_answer_that_was_under_way(self) -> None:
        """What was sent before the next desk answered may be answered later."""
        told = self.judged(Answered(2, 'POST', True, 21, 22), Answered(1, 'GET', False, 21.5, 30))
        self.assertEqual(told, 'lost 0, two writers 0, stale 0')

    def test_two_writers(self) -> None:
        told = self.judged(Answered(2, 'POST', True, 21, 22), Answered(1, 'POST', True, 23, 24))
        self.assertEqual(told, 'lost 0, two writers 1, stale 0')

    def test_a_read_beside_the_next_desk(self) -> None:
        told = self.judged(Answered(2, 'POST', True, 21, 22), Answered(1, 'GET', False, 23, 24))
        self.assertEqual(told, 'lost 0, two writers 0, stale 1')

    def test_it_has_the_desk_again(self) -> None:
        kept = records.Records()
        kept.note(Answered(2, 'POST', True, 21, 22))
        kept.note(Answered(1, 'POST', True, 31, 32))
        terms = [Term(1, 10.0), Term(2, 20.0), Term(1, 30.0)]
        self.assertEqual(records.Judgement.of(kept, terms).writers, 0)

    def test_messages(self) -> None:
        """A number that goes back, and another message of the same number, are told."""
        kept = records.Records()
        for number, body in ((1, b'a'), (1, b'a'), (2, b'b'), (1, b'a'), (2, b'c')):
            kept.note_message(1, 'KIT/0001', 'order', number, body)
        self.assertEqual(len(kept.back), 2)

    def test_orders(self) -> None:
        """An update that goes back, and one that comes again with other nodes, are told; a new
        order begins anew."""
        kept = records.Records()
        rows = (
            ('A', 0, 'N1'),
            ('A', 1, 'N2'),
            ('A', 1, 'N2'),
            ('B', 0, 'N3'),
            ('A', 1, 'N3'),
            ('A', 0, 'N1'),
        )
        for order, update, node in rows:
            message = {'orderId': order, 'orderUpdateId': update, 'nodes': [node], 'edges': []}
            kept.note_order('KIT/0001', message)
        self.assertEqual(len(kept.back), 2)
        self.assertIn('update 0 of A after 1', kept.back[1])


class FromTheExamples(unittest.TestCase):
    def test_the_cluster_is_that_of_the_examples(self) -> None:
        """The drill loads each line of cluster.crm; but the units and the folder of the programs
        are its own."""
        path = os.path.join(ROOT, 'examples', 'standby', 'cluster.crm')
        with open(path, encoding='utf-8') as file:
            wanted = file.read().splitlines()
        found = cluster.configuration().splitlines()
        self.assertEqual(len(found), len(wanted))
        other = [
            (one, two)
            for one, two in zip(wanted, found)
            if one != two and 'systemd:' not in one and '/usr/lib/nulvrader/' not in one
        ]
        self.assertEqual(other, [])
        self.assertNotIn('systemd:', '\n'.join(found))
        self.assertEqual(cluster.settings_of_sbd()['SBD_WATCHDOG_TIMEOUT'], '5')


class Machine:
    """A machine with nothing in it."""

    def __init__(self, folder: str) -> None:
        self.number, self.folder = 1, folder
        self.ended = threading.Event()
        self.is_paused = self.was_reset = self.has_rebooted = False

    def is_up(self) -> bool:
        """Whether nobody has reset it."""
        return not self.ended.is_set() and not self.has_rebooted

    def has_ended(self) -> bool:
        """Whether it has called reboot(2)."""
        return self.has_rebooted

    def end(self) -> None:
        """Resets it."""
        self.has_rebooted = False
        self.ended.set()


class Marks(unittest.TestCase):
    """A copy that differs from another one, in which nothing says so, is told."""

    def setUp(self) -> None:
        folder = tempfile.TemporaryDirectory()
        self.addCleanup(folder.cleanup)
        self.machines: list[Any] = []
        for number in (1, 2):
            machine = Machine(os.path.join(folder.name, str(number)))
            machine.number = number
            os.makedirs(os.path.dirname(self.copy(machine)))
            self.machines.append(machine)
        no_machines: Any = None
        self.volume = volume.Volume(no_machines, {})
        try:
            os.setxattr(folder.name, 'trusted.afr.desk', b'1')
        except OSError as fault:
            self.skipTest(f'files can not be marked here: {fault.strerror}')

    def copy(self, machine: Machine) -> str:
        """The copy of a file in a machine."""
        return os.path.join(machine.folder, 'brick', 'desk', 'file')

    def is_unmarked(self, *contents: bytes, mark: bytes = b'') -> bool:
        """What is told of copies with these contents, and this mark of the second in the first."""
        for machine, content in zip(self.machines, contents):
            with open(self.copy(machine), 'wb') as file:
                file.write(content)
        if mark:
            os.setxattr(self.copy(self.machines[0]), 'trusted.afr.desk-client-1', mark)
        one, other = self.machines
        return bool(self.volume.unmarked(one, other, 'file'))

    def test_marks(self) -> None:
        """The first four bytes of a mark are about the content; the others about names."""
        self.assertFalse(self.is_unmarked(b'one', b'one'))
        self.assertTrue(self.is_unmarked(b'two', b'one'))
        self.assertTrue(self.is_unmarked(b'two', b'one', mark=bytes(7) + b'\1' + bytes(4)))
        self.assertFalse(self.is_unmarked(b'two', b'one', mark=bytes(3) + b'\1' + bytes(8)))


class Watchdogs(unittest.TestCase):
    """A machine that has fed its watchdog, and does so no more, is reset, unless it is paused or
    has said that it ends."""

    def setUp(self) -> None:
        folder = tempfile.TemporaryDirectory()
        self.addCleanup(folder.cleanup)
        os.mkdir(os.path.join(folder.name, 'run'))
        self.machine: Any = Machine(folder.name)
        self.dog = watchdog.Watchdog([self.machine], 0.5)
        self.addCleanup(self.dog.close)
        self.dog.serve(self.machine)
        self.pipe = os.open(os.path.join(folder.name, 'run', watchdog.PIPE), os.O_WRONLY)
        self.addCleanup(os.close, self.pipe)

    def is_fed(self) -> bool:
        """Whether it has begun."""
        return 1 in self.dog.fed

    def test_not_fed(self) -> None:
        os.write(self.pipe, b'x')
        self.assertTrue(self.machine.ended.wait(PATIENCE))
        until(lambda: self.machine.was_reset, 'it is said')

    def test_rebooted(self) -> None:
        """sbd has reset it itself."""
        self.machine.has_rebooted = True
        self.assertTrue(self.machine.ended.wait(PATIENCE))
        until(lambda: self.machine.was_reset, 'it is said')
        self.assertEqual(len(self.dog.resets), 1)

    def test_never_begun_paused_and_ended(self) -> None:
        """None of these is reset, however long it takes."""
        self.assertFalse(self.machine.ended.wait(1))
        self.machine.is_paused = True
        os.write(self.pipe, b'x')
        until(self.is_fed, 'it has begun')
        self.assertFalse(self.machine.ended.wait(1))
        os.write(self.pipe, watchdog.DISARM)
        until(lambda: not self.is_fed(), 'it has ended')
        self.machine.is_paused = False
        self.assertFalse(self.machine.ended.wait(1))


@unittest.skipIf(drill.missing(), str(drill.missing()))
class Rounds(unittest.TestCase):
    def run_drill(self, *words: str) -> 'subprocess.CompletedProcess[str]':
        """Runs it. Where machines or a volume can't be had, the test is skipped."""
        line = [
            sys.executable,
            os.path.join(BENCH, 'standby'),
            *words,
            '--program',
            DESK,
            '--memory',
        ]
        try:
            done = subprocess.run(
                line, capture_output=True, text=True, timeout=SECONDS, check=False
            )
        except subprocess.TimeoutExpired:
            self.skipTest('this machine is too busy for three more')
        if done.returncode == 3:
            self.skipTest('no machines here: ' + done.stderr.strip()[-200:].replace('\n', ' '))
        return done

    def test_cut_and_kill(self) -> None:
        """Nothing is lost, no two desks write, and nothing stale is answered."""
        self.check('2', 'cut', 'kill')

    @unittest.skipIf(drill.missing(with_cluster=True), 'Pacemaker is not installed')
    def test_pacemaker(self) -> None:
        """The same where Pacemaker moves the desk, with a watchdog that resets what hangs."""
        done = self.check('1', 'hang', '--pacemaker')
        self.assertRegex(done.stdout, '(?m)^[1-9][0-9]* machines were reset by their watchdogs$')

    def check(self, *words: str) -> 'subprocess.CompletedProcess[str]':
        """Runs it, and looks at its last line."""
        done = self.run_drill(*words)
        self.assertEqual(done.stdout.splitlines()[-1:], ['lost 0, two writers 0, stale 0'], done)
        self.assertEqual(done.returncode, 0, done)
        return done


if __name__ == '__main__':
    unittest.main()
