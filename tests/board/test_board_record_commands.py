"""Shows what the record says of commands that are refused, and for how long a command is a
cause."""
from __future__ import annotations

import re
import unittest

from tests.support.board_follow import BEGUN
from nulvrader.board.causes import SentCommands
from nulvrader.board.command_log import Command
from nulvrader.board.command_kinds import COMMANDS
from nulvrader.board.commands import Answered, event_of
from nulvrader.board.desk_faults import refusal_of
from nulvrader.board.events import Cause
from nulvrader.board.messages import Line
from nulvrader.desk.client import Refused
from nulvrader.desk.refusals import BY_NAME


class Refusals(unittest.TestCase):
    MEMBERS = {'by': 'KIT/0009', 'what': 'node N9', 'sent': 9, 'allow': 'GET'}
    VALUES = {
        'vehicle': 'KIT/0001',
        'vehicles': 'KIT/0001 KIT/0002',
        'load': 'L7',
        'station': 'C',
        'to': 'C',
        'job': 'J7',
        'node': 'N7',
        'ref': 'R7',
        'order': 'O7',
        'update': '7',
        'due': '2026-12-24T14:30Z',
        'priority': '8',
        'truck': 'T7',
        'place': '6',
        'thing': 'node N7',
        'edges': '3',
        'stops': 'pick J7, drop J7',
        'file': 'station,load\nC,L7\n',
    }

    def test_each_refusal_of_each_command(self) -> None:
        """Its entry says the refusal, and names each thing that the command names."""
        for name, kind in COMMANDS.items():
            fields = [field.name for field in (*kind.fields, *kind.adds)]
            values = {field: self.VALUES[field] for field in fields}
            for refusal in BY_NAME.values():
                sentence = refusal.sentence(self.MEMBERS)
                answer = Refused(refusal.name, 1, 409, self.MEMBERS, sentence, '')
                said = Answered(False, [refusal_of(answer)], [], refusal.name)
                command, cause = Command(1, 'anna', name, values), Cause('person', 'anna', name, 1)
                event = event_of(command, cause, said)
                self.assertEqual(event.kind, 'refused')
                words = event.words()
                self.assertRegex(words, f'{refusal.name}: .*{re.escape(sentence)}')
                for field in fields:
                    if field not in ('file', 'update') and (field != 'ref' or 'file' in fields):
                        self.assertIn(values[field].removeprefix('KIT/'), words, (name, field))

    def test_a_load_without_a_station(self) -> None:
        """It is at the checking place."""
        values = {'load': 'L7', 'ref': 'R7'}
        said = Answered(True, [Line('done.correct', {'load': 'L7'})], [])
        event = event_of(Command(1, '', 'correct', values), Cause('person'), said)
        words = 'Record L7 at the checking place: The place of L7 is corrected.'
        self.assertEqual(event.words(), words)


class Causes(unittest.TestCase):
    def test_for_how_long_a_command_is_a_cause(self) -> None:
        """Half a minute from its answer, and while none has come; one that was refused never."""
        sent = SentCommands()
        sent.note_sending(1, 'anna', 'leave', {'load': 'L1'}, BEGUN)

        def who(at: int) -> str | None:
            return sent.cause(('leave',), lambda values: values['load'] == 'L1', at).who

        self.assertEqual(who(BEGUN + 600_000), 'anna')
        sent.note_outcome(1, True, BEGUN + 1000)
        self.assertEqual(who(BEGUN + 31_000), 'anna')
        self.assertIsNone(who(BEGUN + 31_001))
        sent.note_sending(2, 'bob', 'leave', {'load': 'L1'}, BEGUN)
        sent.note_outcome(2, False, BEGUN)
        self.assertEqual(who(BEGUN + 1000), 'anna')
        other = sent.cause(('leave',), lambda values: values['load'] == 'L2', BEGUN)
        self.assertEqual(other, Cause('client', call='leave'))


if __name__ == '__main__':
    unittest.main()
