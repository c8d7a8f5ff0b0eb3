"""Shows that all texts of the page are in one table of messages, in English and German, and that
none is missing and none is left in a script."""

from __future__ import annotations

import ast
import glob
import json
import os
import re
import unittest
from collections.abc import Iterable

from tests.support.board_page import Page
from tests.support.board_run import ONE, TOOLS, TWO, until
from tests.support.programs import ROOT
from nulvrader.board.command_kinds import COMMANDS
from nulvrader.board.desk_faults import advice_of, fault_of, refusal_of
from nulvrader.board.messages import LANGUAGES, has, say, table
from nulvrader.common.counts import TEXTS
from nulvrader.desk.answers import PROXY
from nulvrader.desk.client import Refused
from nulvrader.desk.errors import WHY, NoAnswer
from nulvrader.desk.refusals import BY_NAME

FOLDER = os.path.join(TOOLS, 'nulvrader', 'board')
SAID = re.compile(r"(?<!look\.)\bsay\(\s*(?:\w+ \? )?'([a-z][\w. ]*)'(?: : '([a-z][\w. ]*)')?")
MADE = re.compile(r'say\(`([a-z]\w*)\.\$\{')
MARKED = re.compile(r'data-(?:say|label|title)="([^"]+)"')
# A text of two words or more that begins with a capital letter, as a sentence does.
SENTENCE = re.compile(r"'[A-Z][a-z]+ [^']*'|`[A-Z][a-z]+ [^`]*`")
VEHICLE = '/vehicles/{manufacturer}/{serial}'
# Of each command of the page the call of the desk.
CALLS = {
    'order': ('post', '/orders'),
    'drive': ('post', '/drives'),
    'advance': ('post', f'{VEHICLE}/advance'),
    'cancel': ('post', f'{VEHICLE}/cancel'),
    'pause': ('post', f'{VEHICLE}/pause'),
    'resume': ('post', f'{VEHICLE}/resume'),
    'pause_all': ('post', f'{VEHICLE}/pause'),
    'resume_all': ('post', f'{VEHICLE}/resume'),
    'place': ('post', f'{VEHICLE}/place'),
    'resync': ('post', f'{VEHICLE}/resync'),
    'register': ('post', '/loads'),
    'correct': ('post', '/loads/{load}/correct'),
    'leave': ('post', '/loads/{load}/leave'),
    'job': ('post', '/jobs'),
    'stop': ('delete', '/jobs/{job}'),
    'stocktake': ('post', '/stocktakes/{reference}'),
}


def text_of(path: str) -> str:
    with open(path, encoding='utf-8') as file:
        return file.read()


def scripts() -> dict[str, str]:
    """The scripts of the page, without their comments."""
    paths = glob.glob(os.path.join(FOLDER, 'page', '*.js'))
    found = {os.path.basename(path): text_of(path) for path in paths}
    return {
        name: re.sub(r'/\*.*?\*/|//[^\n]*', '', text, flags=re.S) for name, text in found.items()
    }


def looked(text: str) -> list[str]:
    """The rows that a module of looks says, each as a pattern."""
    found = []
    for node in ast.walk(ast.parse(text)):
        if not (isinstance(node, ast.Call) and isinstance(node.func, ast.Attribute)):
            continue
        place = {'say': 0, 'warn': 1}.get(node.func.attr)
        of = node.func.value
        if place is None or not (isinstance(of, ast.Name) and of.id == 'look'):
            continue
        name = node.args[place]
        parts = name.values if isinstance(name, ast.JoinedStr) else [name]
        front = [
            re.escape(str(one.value)) if isinstance(one, ast.Constant) else r'\w+' for one in parts
        ]
        found.append('look[.]' + ''.join(front) if not isinstance(name, ast.Name) else 'look[.].*')
    return found


class Table(unittest.TestCase):
    def test_each_row(self) -> None:
        """It has both languages, which say the same values in the same ways."""
        for name, row in table().items():
            self.assertEqual(set(row), set(LANGUAGES), name)
            self.assertTrue(all(text or name == 'place.' for text in row.values()), name)
            values = [sorted(re.findall(r'\{[^}]*\}', row[language])) for language in LANGUAGES]
            self.assertEqual(values[0], values[1], name)

    def test_names_that_are_said(self) -> None:
        """Each name that a script, the page or the board says is a row of the table."""
        seen, rows = 0, table()
        pages = glob.glob(os.path.join(FOLDER, 'page', '*.html'))
        texts = {**scripts(), **{os.path.basename(path): text_of(path) for path in pages}}
        for path in glob.glob(os.path.join(FOLDER, '*.py')):
            texts[os.path.basename(path)] = text_of(path)
        for file, text in texts.items():
            found = [name for pair in SAID.findall(text) for name in pair if name]
            found += MARKED.findall(text)
            for name in found:
                seen += 1
                self.assertTrue(name in rows, (file, name))
            for front in MADE.findall(text):
                seen += 1
                self.assertTrue(any(name.startswith(f'{front}.') for name in rows), (file, front))
        self.assertGreater(seen, 150)
        for command in COMMANDS:
            self.assertTrue(f'command.{command}' in rows, command)
            self.assertTrue(f'event.command.{command}' in rows, command)

    def test_what_looks_say(self) -> None:
        """Each sentence of a look is a row, and each row of looks is said."""
        rows = {name for name in table() if name.startswith('look.')}
        paths = ('previews.py', 'order_previews.py', 'stocktakes.py')
        patterns = [one for path in paths for one in looked(text_of(os.path.join(FOLDER, path)))]
        self.assertGreater(len(patterns), 50)
        for pattern in patterns:
            self.assertTrue(any(re.fullmatch(pattern, name) for name in rows), pattern)
        for name in rows - {'look.down', 'look.fault', 'look.fault.file'}:
            self.assertTrue(any(re.fullmatch(pattern, name) for pattern in patterns), name)

    def test_what_to_do_about_one_in_the_way(self) -> None:
        """It is sent away by a command, and the one behind it gets the rest of its way by another,
        each named as its button is."""
        for language in LANGUAGES:
            for row in ('shut.send', 'shut.cancel'):
                words = say(row, {'by': 'KIT/0002', 'vehicle': 'KIT/0001'}, language)
                self.assertIn(f'({say("do.drive", {}, language)})', words)
                self.assertIn('KIT/0002', words)
                self.assertIn('KIT/0001', words)
            self.assertIn(f'({say("do.advance", {}, language)})', say('shut.send', {}, language))

    def test_no_text_is_left_in_a_script(self) -> None:
        seen = 0
        for name, text in scripts().items():
            seen += len(text)
            self.assertEqual(SENTENCE.findall(text), [], name)
        self.assertGreater(seen, 40_000)

    def test_values(self) -> None:
        """A place, a number of things, a name, and a text within a text, in each language."""
        self.assertEqual(
            say('event.load.left', {'load': 'L1', 'before': 'station A'}),
            'L1 has left, it was at A',
        )
        self.assertEqual(
            say('event.load.left', {'load': 'L1', 'before': 'checking'}, 'de'),
            'L1 ist abgegangen, vorher am Prüfplatz',
        )
        values = {'alarm': 'silent', 'vehicle': 'KIT/0001', 'node': 'N1'}
        words = 'Alarm: KIT/0001 sendet keinen Zustand; es war an N1'
        self.assertEqual(say('event.alarm.raised', values, 'de'), words)
        hostile = {'load': '{before|place}', 'before': 'station {load}'}
        self.assertEqual(
            say('event.load.left', hostile), '{before|place} has left, it was at {load}'
        )


def refusals_of(calls: Iterable[tuple[str, str]]) -> set[str]:
    """The refusals of these calls, as docs/openapi.json has them."""
    paths = json.loads(text_of(os.path.join(ROOT, 'docs', 'openapi.json')))['paths']
    told = [json.dumps(paths[path][method]) for method, path in calls]
    return {name for text in told for name in re.findall(r'schemas/Refusal(\w+)', text)}


class OfTheDesk(unittest.TestCase):
    """What the desk refuses and does not answer is said in both languages."""

    def test_each_refusal_of_a_command(self) -> None:
        """Each call of a command of the page, and each refusal of it: what is wrong, and what to
        do, in English as the desk's table has them."""
        found = refusals_of(CALLS.values())
        of_the_desk = {name for name, kind in COMMANDS.items() if kind.tell is None}
        self.assertEqual(set(CALLS), of_the_desk)
        self.assertGreater(len(found), 35)
        for name in found | {'BadCsv', 'CountTwice', 'OnVehicle', 'BadMethod'}:
            known = BY_NAME[name]
            row = table()[f'refusal.{name}']
            self.assertEqual(row['en'].replace('|thing', ''), known.told or known.says, name)
            if known.on_page:
                self.assertEqual(say(f'refusal.{name}.do'), known.on_page)
            self.assertEqual(has(f'refusal.{name}.do'), bool(known.on_page), name)
        for name, sentence, advice in PROXY.values():
            self.assertEqual(
                (say(f'refusal.{name}'), say(f'refusal.{name}.do')), (sentence, advice)
            )

    def test_each_row_of_a_refusal(self) -> None:
        """It is one of the desk or of its proxy."""
        names = {name.split('.')[1] for name in table() if name.startswith('refusal.')}
        self.assertLessEqual(names, {*BY_NAME, *(name for name, *_ in PROXY.values()), 'other'})

    def test_each_reason_of_no_answer(self) -> None:
        for name, why in WHY.items():
            front = '' if name == 'other' else '{address}: '
            wanted = f'{front}{why}'
            row = table()[f'fault.{name}']['en']
            self.assertEqual(row, wanted if wanted.endswith('?') else f'{wanted}.', name)
            fault = NoAnswer.at('127.0.0.1:1', False, name, why='x', seconds='3')
            self.assertIn(str(fault).removeprefix('127.0.0.1:1: '), fault_of(fault).words())

    def test_a_refusal_that_is_not_known(self) -> None:
        """Of another desk, or a hostile one: its name is said, and no text is taken for a row."""
        for name in ('NotKnown', 'other.do', 'Held.do'):
            fault = Refused(name, 99, 409, {'what': '{by}'}, 'It is <so>', '')
            words = refusal_of(fault).words('de')
            self.assertEqual(words, f'Der Leitstand lehnt es ab, {name}: It is <so>')
            self.assertEqual(advice_of(fault).name, 'advice.look')

    def test_another_desk(self) -> None:
        """Each way in which that is known is a row."""
        text = text_of(os.path.join(FOLDER, 'same_desk.py'))
        names = re.findall(r"OtherDesk\('(\w+)'", text)
        rows = {name for name in table() if name.startswith('other.')}
        self.assertEqual({f'other.{name}' for name in names}, rows)

    def test_what_is_wrong_with_a_count(self) -> None:
        """Each text of it is a row, with the same words in English."""
        rows = {name for name in table() if name.startswith('count.')}
        kinds = {'checking', 'jobs', 'loads', 'orders', 'vehicles'}  # how many there are of these
        self.assertEqual(rows, {f'count.{name}' for name in (*TEXTS, 'size', *kinds)})
        for name, text in TEXTS.items():
            wanted = text.replace('at {place}', '{place|spot}').replace(
                '{what}', '{what|name:counted}'
            )
            wanted = wanted.replace('{fields} field{s}', '{fields|many:field}')
            self.assertEqual(table()[f'count.{name}']['en'], wanted)

    def test_no_sentence_is_left_in_a_module(self) -> None:
        """What commands, looks and refusals of the page say is in the table."""
        for name in (
            'commands',
            'command_calls',
            'command_kinds',
            'command_values',
            'previews',
            'order_previews',
            'stocktakes',
            'desk_faults',
            'same_desk',
            'entries',
            'guard',
        ):
            path = os.path.join(FOLDER, f'{name}.py')
            for node in ast.walk(ast.parse(text_of(path))):
                if isinstance(node, ast.Raise) and node.exc is not None:
                    texts = [
                        one.value for one in ast.walk(node.exc) if isinstance(one, ast.Constant)
                    ]
                    said = [one for one in texts if isinstance(one, str) and ' ' in one]
                    self.assertEqual(said, [], path)


class InTheBrowser(Page):
    def open_in(self, languages: str) -> None:
        """Opens the page in a browser of these languages."""
        agent = self.browser.run('return navigator.userAgent')
        said = {'userAgent': agent, 'acceptLanguage': languages}
        self.browser._command('Emulation.setUserAgentOverride', said)
        self.browser.open(f'http://127.0.0.1:{self.board.port}/')

    def test_the_language_of_the_house(self) -> None:
        """The first of the browser's languages that the table has, else English."""
        for languages, tab, lang in (
            ('de-AT,en', 'Fahrzeuge', 'de'),
            ('fr,de', 'Fahrzeuge', 'de'),
            ('en,de', 'Vehicles', 'en'),
            ('fr', 'Vehicles', 'en'),
        ):
            self.open_in(languages)
            self.sees('#tab-vehicles', tab)
            self.assertEqual(self.browser.run('return document.documentElement.lang'), lang)

    def test_a_refusal(self) -> None:
        """What was done and what was refused is said in German, in the dialog and in the record,
        with what to do."""
        self.open_in('de')
        self.sees('.vehicle-card', 'KIT/0001')
        self.browser.click('#tab-stock')
        for answer in (
            ('L7 ist angemeldet.',),
            ('Der Name ist vergeben.', 'Ein Name wird nur einmal'),
        ):
            self.browser.press('Ladung anmelden', '#stock')
            self.browser.write('#field-load', 'L7')
            self.browser.write('#field-station', 'B')
            self.browser.press('Was wird geschehen?', '#command')
            self.sees('#command', 'L7 ist eine neue Ladung und steht an Station B.')
            self.browser.press('Ausführen', '#command')
            self.sees('#command', *answer)
            self.browser.press('Schließen', '#command')
        self.browser.press('Ladung anmelden', '#stock')
        self.browser.press('Was wird geschehen?', '#command')
        self.sees('#command', 'Ladung fehlt.')
        self.browser.press('Schließen', '#command')
        self.browser.click('#tab-events')
        self.sees('#events', 'Ladung L7 anmelden, an B: Exists: Der Name ist vergeben.')
        self.plant.served.stop()
        self.sees('#alarms', 'kein Programm hört dort zu: ist der Leitstand gestartet')

    def test_the_details_of_a_vehicle(self) -> None:
        """How many loads it may carry, its newest state, and the updates of its order that were
        sent and confirmed."""
        card = '.vehicle-card.chosen .facts'
        self.desk.register_vehicle(TWO, 'N2', 2)
        self.browser.click('.vehicle-card:nth-of-type(2) .head')
        self.assertEqual(self.sees(card, 'Carries'), 'Carries up to 2 loads')
        self.plant.state(TWO, 'N2')
        self.sees(card, 'Carries up to 2 loads · Newest state: headerId 1')
        self.desk.start_drive('G1', TWO, 'N3', edges=0)
        self.sees(card, 'Update 0 of its order is sent, none confirmed')
        self.open_in('de')
        self.browser.click('.vehicle-card:nth-of-type(2) .head')
        self.sees(card, 'Update 0 seines Auftrags ist gesendet, keines bestätigt')
        self.plant.state(TWO, 'N2', 'G1')
        self.desk.advance(TWO, 'G1', 1, 1)
        self.sees(card, 'Trägt bis zu 2 Ladungen · Neuester Zustand: headerId 2')
        self.sees(card, 'Update 1 seines Auftrags ist gesendet, 0 bestätigt')
        self.open_in('en')
        self.browser.click('.vehicle-card:nth-of-type(2) .head')
        self.sees(card, 'Update 1 of its order is sent, 0 confirmed')
        self.desk.resync(TWO)
        self.misses(card, 'headerId')

    def test_the_same_sentences(self) -> None:
        """What the page says is what the board says, in German too: of a state, an alarm and an
        entry of the record."""
        self.plant.state(ONE, 'N1', operatingMode='MANUAL')
        until(lambda: self.board.all('alarm'), 'the alarm')
        (alarm,) = self.board.all('alarm').values()
        self.open_in('de')
        self.sees('.vehicle-card .badges', 'Nicht bereit')
        self.sees('#alarms', say(f'alarm.{alarm["kind"]}', alarm['values'], 'de'))
        self.browser.click('#tab-events')
        self.sees('#events', 'KIT/0001 ist nicht mehr bereit', 'durch das Fahrzeug')
        script = (
            'return import(`${location.origin}/messages.js`).then(({ say }) =>'
            ' arguments[0].map(([name, values]) => say(name, values)))'
        )
        values = {
            'count': 1,
            'load': 'L1',
            'before': 'vehicle KIT/0001',
            'after': 'left',
            'edges': 2,
        }
        values |= {'vehicles': ['KIT/0001', 'KIT/0002'], 'action': 'startPause', 'alarm': 'astray'}
        values |= {'loads': 3, 'stations': 1, 'fields': 2, 'capacity': 4}
        values |= {'field': 'node', 'what': 'load'}
        names = [name for name in table() if '|' in table()[name]['de']]
        said = self.browser.run(script, [[name, values] for name in names])
        self.assertEqual(said, [say(name, json.loads(json.dumps(values)), 'de') for name in names])


if __name__ == '__main__':
    unittest.main()
