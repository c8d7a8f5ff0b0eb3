"""Shows that a vehicle that says ever other things makes a bounded number of entries and rows, that
what needs a person is seen all the same, and that what comes and goes is one alarm."""

from __future__ import annotations

import json
import unittest
from collections.abc import Iterable
from dataclasses import replace
from typing import Any

from tests.support.board_alarms import Alarmed
from tests.support.board_follow import vehicle
from nulvrader.board.alarms import STAYS, Alarms
from nulvrader.board.events import Cause, Event, told
from nulvrader.board.news import News
from nulvrader.board.page_state import Shown
from nulvrader.board.record import EVENT, event_row
from nulvrader.board.vehicle_words import Error, FailedAction, Words
from nulvrader.board.words_keeper import MOST, SPAN, Keeper
from nulvrader.board.shown_rows import DESK, ShownDesk

LOW, FULL = Words(battery=10.0, charging=False), Words(battery=90.0, charging=False)
ALWAYS = (
    4  # rows and entries of the alarms of failed actions and of the battery that are made anyway
)


class Floods(Alarmed):
    def rows(self) -> int:
        """How many entries and rows there are of what the vehicle has said."""
        tables = 'events', 'alarms', 'vehicle_batteries'
        counts = [self.record.rows(f'SELECT count(*) FROM {table}')[0][0] for table in tables]
        return sum(counts)

    def second(self, **words: Any) -> None:
        """The vehicle says something, a second after the last."""
        self.says(Words(**words))
        self.turn(1000)

    def failed(self, number: int) -> tuple[FailedAction, ...]:
        """Sixteen actions that have failed, others for each number."""
        return tuple(FailedAction(f'O{number}.{act}', 'pick', 'no grip') for act in range(16))

    def test_all_that_a_vehicle_may_say(self) -> None:
        """FailedAction actions that come and go, a battery, a mode and errors."""
        before = self.rows()
        for second in range(SPAN // 1000 - 5):
            failed = self.failed(second // 4) if second // 4 % 2 else ()
            charge = 10.0 if second % 2 else 90.0
            self.second(failed=failed, battery=charge, charging=False, mode=f'M{second}')
        self.assertLessEqual(self.rows() - before, MOST + 1 + ALWAYS)
        self.assertGreater(self.rows() - before, MOST)
        many = "SELECT count(*) FROM events WHERE what = 'said.many'"
        self.assertEqual(self.record.rows(many), [(1,)])

    def test_what_one_kind_of_words_makes(self) -> None:
        """Each kind alone is bounded, too."""
        kinds: tuple[tuple[dict[str, Any], dict[str, Any]], ...] = (
            ({'failed': self.failed(1)}, {'failed': ()}),
            ({'battery': 10.0, 'charging': False}, {'battery': 90.0, 'charging': False}),
            ({'battery': 10.0, 'charging': False}, {'battery': 10.0, 'charging': True}),
        )
        for one, other in kinds:
            before = self.rows()
            for second in range(SPAN // 1000 - 5):
                self.second(**(one if second // 4 % 2 else other))
            self.assertLessEqual(self.rows() - before, MOST + 1 + ALWAYS, one)
            self.turn(SPAN)

    def test_an_alarm_beyond_the_bound(self) -> None:
        """It is seen while it is so, and not once it is over; its end is told later."""
        for number in range(2 * MOST):
            self.second(mode=f'M{number}')
        self.second(failed=(FailedAction('O1.0', 'pick', 'no grip'),), battery=10.0, charging=False)
        self.turn()
        words = 'KIT/0001 says that its action O1.0 has failed, at N1: pick: no grip'
        low = 'The battery of KIT/0001 is low, 10 %, at N1, and does not charge'
        self.assertEqual(self.kinds(), {'action': words, 'battery': low})
        self.second(failed=(), battery=90.0)
        self.assertEqual(self.kinds(), {})
        self.second(failed=(FailedAction('O2.0', 'drop', 'full'),))
        self.turn()
        words = 'KIT/0001 says that its action O2.0 has failed, at N1: drop: full'
        self.assertEqual(self.kinds(), {'action': words})
        self.second(failed=())
        self.turn(SPAN)
        self.assertEqual(self.kinds(), {})
        rows = self.record.rows('SELECT kind, ended IS NULL FROM alarms ORDER BY kind')
        self.assertEqual(rows, [('action', 0), ('battery', 0)])
        self.said_after_the_span()

    def said_after_the_span(self) -> None:
        """What the vehicle says is told again."""
        self.second(mode='AUTOMATIC')
        rows = self.record.rows('SELECT what FROM events ORDER BY n DESC LIMIT 1')
        self.assertEqual(rows, [('said.mode',)])

    def test_another_vehicle(self) -> None:
        """It has its own bound."""
        for number in range(2 * MOST):
            self.second(mode=f'M{number}')
        self.keeper.take({'KIT/0002': [Words(mode='MANUAL')]}, ['KIT/0002'], self.news.at)
        rows = self.record.rows('SELECT what, vehicle FROM events ORDER BY n DESC LIMIT 1')
        self.assertEqual(rows, [('said.mode', 'KIT/0002')])

    def test_a_clock_that_is_set_back(self) -> None:
        """The bound is of ten minutes, not until the clock comes there again."""
        for number in range(2 * MOST):
            self.second(mode=f'M{number}')
        self.clock.at -= 10 * SPAN
        self.news.at = self.clock.at
        self.said_after_the_span()


class Alike(Alarmed):
    """Alarms that are about the same thing, or come again and again."""

    def count(self) -> int:
        """How many alarms there were."""
        ((count,),) = self.record.rows('SELECT count(*) FROM alarms')
        return int(count)

    def ends(self) -> int:
        """How many ends were told."""
        question = "SELECT count(*) FROM events WHERE what = 'alarm.over'"
        ((count,),) = self.record.rows(question)
        return int(count)

    def test_many_failed_actions(self) -> None:
        """They are one alarm, of the last one, which changes with them."""
        grip, full = FailedAction('O1.0', 'pick', 'no grip'), FailedAction('O1.1', 'drop', 'full')
        for failed, words in (
            ((grip,), 'O1.0 has failed, at N1: pick: no grip'),
            ((grip, full), 'O1.1 (+1) has failed, at N1: drop: full'),
            ((full,), 'O1.1 has failed, at N1: drop: full'),
        ):
            self.says(Words(failed=failed))
            self.turn()
            self.turn()
            words = f'KIT/0001 says that its action {words}'
            self.assertEqual(self.kinds(), {'action': words})
        self.assertEqual(self.count(), 1)

    def test_a_board_that_is_started_again(self) -> None:
        """It has the alarm of failed actions that it had, once."""
        self.says(Words(failed=(FailedAction('O1.0', 'pick', 'no grip'),)))
        self.turn()
        self.turn()
        kinds = self.kinds()
        self.news = News(Shown(), self.record)
        self.news.shown.put(DESK, '', ShownDesk(up=True, since=1, fault=None, other=False))
        for kind in ('vehicles', 'jobs', 'stock'):
            self.news.at = self.clock.at
            self.news.look(kind)
        self.alarms, self.keeper = Alarms(self.news, 600_000), Keeper(self.news)
        self.turn()
        self.turn()
        self.assertEqual(self.kinds(), kinds)
        self.assertEqual((self.count(), self.ends()), (1, 0))

    def test_what_comes_and_goes(self) -> None:
        """Its first end is told at once. Where it comes again within a minute it is one alarm, and
        is seen until it has not come for a minute."""
        self.says(LOW)
        self.turn()
        self.says(FULL)
        self.turn()
        self.assertEqual((self.kinds(), self.count(), self.ends()), ({}, 1, 1))
        for _ in range(5):
            self.says(LOW)
            self.turn()
            self.says(FULL)
            self.turn()
            self.assertEqual(self.kinds().keys(), {'battery'})
        self.assertEqual((self.count(), self.ends()), (2, 1))
        self.turn(STAYS)
        self.assertEqual((self.kinds(), self.count(), self.ends()), ({}, 2, 2))

    def test_what_stands_again(self) -> None:
        """Once it stood for a minute its end is told at once."""
        for words in (LOW, FULL, LOW):
            self.says(words)
            self.turn()
        self.turn(STAYS)
        self.says(FULL)
        self.turn()
        self.assertEqual((self.kinds(), self.count(), self.ends()), ({}, 2, 2))

    def test_a_vehicle_that_is_ready_and_not(self) -> None:
        """For ten minutes, each two seconds the other: its alarm is told a few times."""
        for second in range(300):
            self.row = vehicle(header=second + 2, ready=bool(second % 2))
            self.fleet.take_vehicles({self.row.key: self.row})
            self.turn(2000)
        self.assertLessEqual(self.count(), 2)

    def test_the_desk(self) -> None:
        """It is told at once that it answers, however often it has not."""
        for is_up in (False, True) * 3:
            fault = None if is_up else 'none'
            told = ShownDesk(up=is_up, since=5, fault=fault, other=False)
            self.news.shown.put(DESK, '', told)
            self.turn()
            self.assertEqual(self.kinds().keys(), set() if is_up else {'desk'})


class Long(Alarmed):
    """Texts that are longer than a person reads."""

    FACE = '\U0001f600'

    def size(self, row: Iterable[Any]) -> int:
        """The bytes of a row."""
        return sum(len(str(value).encode()) for value in row if value is not None)

    def test_what_a_vehicle_says(self) -> None:
        """The longest words that it may say: no entry and no alarm has more than some 2 KB."""
        word, text = self.FACE * 60, self.FACE * 300
        error = Error(word, 'FATAL', text, text, (f'{word} {word}',) * 6)
        errors = tuple(replace(error, type=f'{number}{word[2:]}') for number in range(16))
        failed = (FailedAction(word, word, text),)
        self.says(Words(mode=word, stop=word, errors=errors, failed=failed))
        self.is_so(ready=False)
        self.turn()
        self.turn()
        self.assertEqual(self.kinds().keys(), {'unready', 'action'})
        self.says(Words(errors=()))
        rows = self.record.rows(f'SELECT {", ".join(EVENT)} FROM events')
        self.assertGreater(len(rows), 30)
        for row in (*rows, *self.record.rows('SELECT * FROM alarms')):
            self.assertLess(self.size(row), 2000, row)
            self.assertNotIn('\\u', str(row[-1]))

    def test_what_is_answered(self) -> None:
        """A long answer to a command, in the record and on the page; what is short stays whole."""
        says = [['answer.unknown', {'names': [f'L{number}' for number in range(3000)]}]] * 50
        more = {'answer': 'No load of this name: ' + 'L1, ' * 5000, 'says': says, 'ref': 'R1'}
        cause = Cause('person', 'anna', 'stocktake', 1)
        event = Event('refused', 'command.stocktake', cause, {'station': 'A'}, None, None, more)
        row = dict(zip(EVENT[1:], event_row(self.news.at, event)))
        self.assertLess(self.size(row.values()), 2000)
        entry: Any = told(1, self.news.at, event)
        self.assertEqual(json.loads(row['more']), entry['more'])
        self.assertEqual((entry['more']['ref'], entry['text']), ('R1', row['words']))
        self.assertTrue(entry['more']['answer'].startswith('No load of this name: L1, L1, '))
        self.assertTrue(entry['more']['answer'].endswith('..'))
        self.assertEqual(entry['more']['says'][0][0], 'answer.unknown')

    def test_what_is_short(self) -> None:
        """It stays as it is, in any language, with lists and numbers."""
        more = {'text': 'Tür "offen" \u6c34', 'vehicles': ['KIT/0001', 'KIT/0002'], 'edges': 3}
        event = Event('said', 'said.error', Cause('vehicle'), {}, 'station A', 'Tür', more)
        row = dict(zip(EVENT[1:], event_row(self.news.at, event)))
        self.assertEqual((row['before'], row['after']), ('station A', 'Tür'))
        self.assertEqual(json.loads(row['more']), more)
        self.assertIn('Tür', row['more'])
        self.assertEqual(told(1, 2, event)['more'], more)

    def test_halves_of_characters(self) -> None:
        """A text is cut between characters, and what is none is no fault of the record."""
        for text in ('x' * number + self.FACE * 200 for number in range(4)):
            event = Event('said', 'said.mode', Cause('vehicle'), {}, None, text)
            after = event_row(self.news.at, event)[EVENT.index('after') - 1]
            self.assertTrue(text.startswith(after.removesuffix('..')), after)
            self.assertGreater(len(after.encode()), 390)
        event = Event('said', 'said.mode', Cause('vehicle'), {}, None, '\ud83d', {'x': '\ud83d'})
        self.record.event(self.news.at, event)
        rows = self.record.rows('SELECT after, more FROM events ORDER BY n DESC LIMIT 1')
        self.assertEqual(rows, [('?', '{"x": "?"}')])


if __name__ == '__main__':
    unittest.main()
