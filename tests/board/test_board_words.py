"""Shows that what vehicles say, as gateways tell it, is read strictly, kept, shown in the vehicle's
own words and recorded within bounds, and that hostile datagrams change nothing else."""

from __future__ import annotations

import contextlib
import json
import os
import stat
import unittest
from typing import Any

from tests.support.board_run import Plant
from tests.support.board_words import OverASocket, datagram
from nulvrader.board.events import Cause
from nulvrader.board.news import News, OrderEnd
from nulvrader.board.page_state import Shown
from nulvrader.board.record import Record
from nulvrader.board.vehicle_words import Error, NoWords, Words, read_words
from nulvrader.board.words_keeper import MOST, Keeper
from nulvrader.board.words_socket import Heard, hearing_in
from nulvrader.board.shown_rows import WORDS

BEGUN = 1_700_000_000_000
SCANNER = {
    'errorType': 'scannerDirty',
    'errorLevel': 'FATAL',
    'errorDescription': 'front scanner dirty',
    'errorReferences': [{'referenceKey': 'nodeId', 'referenceValue': 'N1'}],
}
DIRTY = Error('scannerDirty', 'FATAL', 'front scanner dirty', '', ('nodeId N1',))


class Reads(unittest.TestCase):
    def test_what_is_read(self) -> None:
        data = datagram(
            operatingMode='MANUAL',
            safetyState={'eStop': 'REMOTE', 'fieldViolation': True},
            batteryState={'batteryCharge': 12.34, 'charging': False},
            agvPosition={'x': 1.5, 'y': -2, 'mapId': 'hall'},
            connectionState='ONLINE',
            errors=[{'errorType': 'low', 'errorLevel': 'WARNING'}, SCANNER],
            actionStates=[{'actionId': 'O1.0', 'actionStatus': 'FAILED', 'actionType': 'pick'}],
        )
        vehicle, words = read_words(data)
        self.assertEqual(vehicle, 'KIT/0001')
        self.assertEqual((words.mode, words.stop, words.field), ('MANUAL', 'REMOTE', True))
        self.assertEqual((words.battery, words.charging), (12.3, False))
        self.assertEqual((words.position, words.map), ((1.5, -2.0), 'hall'))
        self.assertEqual(words.errors, (DIRTY, Error('low', 'WARNING')))
        reasons = ['emergency stop REMOTE', 'FATAL scannerDirty: front scanner dirty']
        said = [reason.words() for reason in words.reasons()]
        self.assertEqual(said, [*reasons, 'operating mode MANUAL'])

    def test_what_is_not_said_stays(self) -> None:
        before = read_words(datagram(operatingMode='MANUAL', errors=[SCANNER]))[1]
        after = read_words(datagram(connectionState='OFFLINE'))[1].over(before)
        self.assertEqual(
            (after.mode, after.errors, after.connection), ('MANUAL', (DIRTY,), 'OFFLINE')
        )
        after = read_words(datagram(errors=[]))[1].over(after)
        self.assertEqual((after.mode, after.errors), ('MANUAL', ()))

    def test_what_is_no_datagram(self) -> None:
        for data in (
            *(
                b'',
                b'{',
                b'[]',
                b'null',
                b'7',
                b'\xff\xfe',
                b'[' * 10_000,
                b'{"manufacturer":"KIT"}',
            ),
            datagram(serialNumber='a b'),
            datagram(serialNumber={}),
            datagram(manufacturer='x' * 40),
            datagram(errors=['x' * 17_000]),
        ):
            with self.assertRaises(NoWords, msg=data[:40]):
                read_words(data)

    def test_values_of_other_types_and_hostile_texts(self) -> None:
        """Each is left out, or shown without anything that a page or a terminal obeys."""
        nasty = '\x1b[2J\u202e<img src=x onerror=alert(1)>' + 'x' * 5000
        values: tuple[Any, ...] = (
            None,
            7,
            1e308,
            [],
            {},
            [[]],
            True,
            nasty,
            {'eStop': nasty},
            [{'errorType': 7}],
        )
        for value in values:
            for name in (
                *('operatingMode', 'safetyState', 'batteryState', 'agvPosition', 'errors'),
                *('actionStates', 'connectionState'),
            ):
                _, words = read_words(datagram(**{name: value}))
                for text in (words.mode, words.stop, words.connection):
                    self.assertTrue(text is None or (text.isprintable() and len(text) <= 60))
        errors = [{'errorType': nasty, 'errorLevel': nasty, 'errorDescription': nasty[:900]}]
        (error,) = read_words(datagram(errors=errors))[1].errors or ()
        self.assertTrue(error.words().isprintable() and len(error.words()) < 500)
        many = [{'errorType': str(number), 'errorLevel': 'WARNING'} for number in range(100)]
        self.assertEqual(len(read_words(datagram(errors=[*many, SCANNER]))[1].errors or ()), 16)
        self.assertEqual((read_words(datagram(errors=[*many, SCANNER]))[1].errors or ())[0], DIRTY)
        number = datagram(batteryState={'batteryCharge': 0}).replace(b': 0', b': 1e999')
        self.assertIsNone(read_words(number)[1].battery)
        number = datagram(agvPosition={'x': 0, 'y': 0}).replace(b': 0', b': NaN')
        self.assertIsNone(read_words(number)[1].position)


class Keeps(unittest.TestCase):
    def setUp(self) -> None:
        self.record = Record(':memory:')
        self.addCleanup(self.record.close)
        self.news = News(Shown(), self.record)
        self.keeper = Keeper(self.news)
        self.at = BEGUN

    def say(self, later: int = 1000, **members: Any) -> None:
        """The vehicle says this, so many milliseconds later."""
        self.at += later
        words = read_words(datagram(**members))[1]
        self.keeper.take({'KIT/0001': [words]}, ['KIT/0001'], self.at)
        self.news.commit()

    def said(self) -> list[tuple[str, str]]:
        """What the record says since it was last asked."""
        rows = self.record.rows('SELECT what, words FROM events ORDER BY n')
        self.record._put('DELETE FROM events')
        return [(what, words) for what, words in rows]

    def shown(self) -> Any:
        return self.news.shown.get(WORDS, 'KIT/0001')

    def test_each_change(self) -> None:
        """Old and new of each; what stays the same is said once; and since when it is so."""
        self.say(operatingMode='AUTOMATIC', errors=[], batteryState={'batteryCharge': 80})
        self.assertEqual(self.said(), [])
        began = self.at + 1000
        for _ in range(3):
            self.say(safetyState={'eStop': 'MANUAL', 'fieldViolation': True}, errors=[SCANNER])
        self.assertEqual(
            self.said(),
            [
                ('said.stop', 'KIT/0001 says: emergency stop MANUAL, it was NONE'),
                ('said.field.on', 'KIT/0001 says: something is in its protective field'),
                (
                    'said.error',
                    'KIT/0001 says: FATAL scannerDirty: front scanner dirty nodeId N1',
                ),
            ],
        )
        self.assertEqual(self.shown()['since']['stop'], began)
        self.assertEqual(self.shown()['errors'][0]['since'], began)
        self.say(operatingMode='SERVICE', batteryState={'batteryCharge': 19})
        self.say(safetyState={'eStop': 'NONE', 'fieldViolation': False}, errors=[])
        self.say(batteryState={'batteryCharge': 25})
        self.say(batteryState={'batteryCharge': 31}, connectionState='ONLINE')
        self.say(connectionState='CONNECTIONBROKEN')
        self.assertEqual(
            self.said(),
            [
                ('said.mode', 'KIT/0001 says: operating mode SERVICE, it was AUTOMATIC'),
                ('said.battery.low', 'The battery of KIT/0001 is low: 19 %'),
                ('said.stop', 'KIT/0001 says: emergency stop NONE, it was MANUAL'),
                ('said.field.off', 'KIT/0001 says: its protective field is free'),
                (
                    'said.cleared',
                    'KIT/0001 does not say any more: FATAL scannerDirty: front scanner dirty'
                    ' nodeId N1',
                ),
                ('said.battery.enough', 'The battery of KIT/0001 is charged again: 31 %'),
                (
                    'said.connection',
                    'KIT/0001 is connected to the broker: CONNECTIONBROKEN, it was ONLINE',
                ),
            ],
        )
        charges = self.record.rows('SELECT charge FROM vehicle_batteries ORDER BY n')
        self.assertEqual(charges, [(80.0,), (19.0,), (25.0,), (31.0,)])

    def test_a_board_that_is_started_again(self) -> None:
        """It has the last words of before, and does not tell them once more."""
        self.say(operatingMode='MANUAL', errors=[SCANNER], agvPosition={'x': 1, 'y': 2})
        shown, since = self.shown(), self.at
        self.said()
        self.news = News(Shown(), self.record)
        self.keeper = Keeper(self.news)
        self.assertEqual(self.shown(), {**shown, 'position': (1.0, 2.0)})
        self.say(operatingMode='MANUAL', errors=[SCANNER])
        self.assertEqual(self.said(), [])
        self.assertEqual(self.shown()['since']['mode'], since)

    def test_an_action_that_fails(self) -> None:
        """It is told once; those of an order that is cancelled end as failed, and are not told."""
        failed = [{'actionId': 'O1.0', 'actionStatus': 'FAILED', 'resultDescription': 'no grip'}]
        self.say(actionStates=failed)
        self.say(actionStates=failed)
        words = 'KIT/0001 says that its action O1.0 has failed:  no grip'
        self.assertEqual(self.said(), [('said.action', words)])
        self.news.ends_order('O2', OrderEnd('cancelled', Cause('client')))
        self.news.cancelling = {'O3'}
        for order in ('O2', 'O3'):
            self.say(actionStates=[{'actionId': f'{order}.0', 'actionStatus': 'FAILED'}])
        self.assertEqual(self.said(), [])

    def test_a_vehicle_that_says_ever_other_things(self) -> None:
        """Its last words are kept; of the changes so many are told in ten minutes, and that more
        are left out."""
        for number in range(1000):
            error = {'errorType': f'E{number}', 'errorLevel': 'WARNING'}
            self.say(100, errors=[error], operatingMode=f'M{number}')
        said = self.said()
        self.assertEqual(len(said), MOST + 1)
        words = 'KIT/0001 says too much: more is left out for 10 min'
        self.assertEqual(said[-1], ('said.many', words))
        self.assertEqual(self.shown()['mode'], 'M999')
        rows = self.record.rows('SELECT mode, errors FROM vehicle_words')
        self.assertEqual(
            [(mode, json.loads(errors)[0]['type']) for mode, errors in rows], [('M999', 'E999')]
        )
        self.say(600_000, operatingMode='AUTOMATIC', errors=[])
        self.assertEqual(len(self.said()), 2)

    def test_a_vehicle_that_the_desk_has_not(self) -> None:
        self.keeper.take({'KIT/0009': [Words(mode='MANUAL')]}, ['KIT/0001'], self.at)
        self.assertEqual(self.record.rows('SELECT count(*) FROM vehicle_words'), [(0,)])


class Hears(OverASocket):
    """A board that is told on a socket."""

    def test_why_it_is_not_ready(self) -> None:
        """While no desk answers, too."""
        self.plant.served.stop()
        self.wait('desk', '', up=False)
        self.out.sendto(datagram(operatingMode='MANUAL', errors=[SCANNER]), self.path)
        self.wait('said', 'KIT/0001', mode='MANUAL')
        self.said('KIT/0001 says: operating mode MANUAL, it was AUTOMATIC')
        self.rows('SELECT mode FROM vehicle_words', [('MANUAL',)])

    def test_who_may_tell(self) -> None:
        """The user and the group of the board."""
        self.assertEqual(stat.S_IMODE(os.stat(self.path).st_mode), 0o660)


class Bounds(unittest.TestCase):
    def test_what_is_kept_until_it_is_taken(self) -> None:
        """The last eight of a vehicle, of 200 vehicles; none of vehicles that the desk has not."""
        with contextlib.ExitStack() as stack:
            plant = stack.enter_context(contextlib.closing(Plant()))
            heard = Heard(hearing_in(plant.path('w.sock')))
            stack.callback(heard.source.close)
            for number in range(300):
                for mode in range(20):
                    heard._put(f'KIT/{number}', Words(mode=str(mode)))
            taken = heard.take()
            self.assertEqual(len(taken), 200)
            modes = {tuple(words.mode for words in row) for row in taken.values()}
            self.assertEqual(modes, {tuple(str(mode) for mode in range(12, 20))})
            heard.known = frozenset({'KIT/250'})
            for number in range(300):
                heard._put(f'KIT/{number}', Words())
            self.assertEqual(heard.take().keys(), {'KIT/250'})


if __name__ == '__main__':
    unittest.main()
