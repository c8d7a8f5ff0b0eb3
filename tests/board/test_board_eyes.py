"""Shows that in both languages, light and dark, at 1280, on a wall and on a phone, each text of the
page has contrast, all that can be used has a name and a size, and nothing is wider than the
page."""

from __future__ import annotations

import os
import unittest
from typing import Any

from tests.support.board_page import Page
from tests.support.board_run import ONE, TWO, until
from tests.support.browser import Browser
from tests.support.programs import ROOT

# Widths and heights, and whether it is a phone.
SIZES = ((1280, 800, False), (3840, 2160, False), (390, 844, True))
WRONG = 'pale', 'nameless', 'small', 'twice', 'cut'  # what the checks look for
TABS = ('vehicles', 'stock', 'jobs', 'events')
CHECKS = os.path.join(ROOT, 'tests', 'support', 'page_checks.js')


def checks() -> str:
    with open(CHECKS, encoding='utf-8') as file:
        return file.read()


def opened(port: int, size: tuple[int, int, bool], language: str, dark: bool) -> Browser:
    """The page of a board in a browser of this size, language and colours."""
    width, height, mobile = size
    page = Browser(width, height, dark, mobile)
    agent = page.run('return navigator.userAgent')
    said = {'userAgent': agent, 'acceptLanguage': language}
    page._command('Emulation.setUserAgentOverride', said)
    page.open(f'http://127.0.0.1:{port}/')
    return page


class Eyes(Page):
    def setUp(self) -> None:
        """There are alarms, a vehicle that waits for another one, jobs, and full stations."""
        super().setUp()
        self.plant.vehicle(TWO, 'N2')
        self.desk.register_load('L3', 'C')
        self.desk.add_job('J1', 'L1', 'B')
        self.desk.add_job('J2', 'L2', 'B')
        self.desk.start_order('O1', ONE, job='J1', edges=0)
        self.plant.state(ONE, 'N1', 'O1', 0, 0, (('O1.0', 'FINISHED'),))
        self.plant.state(TWO, 'N2', operatingMode='MANUAL')
        self.sees('#alarms', 'KIT/0002 is not ready', 'No place is free at C')

    def check(self, page: Browser, where: tuple[Any, ...]) -> None:
        """Nothing is found wrong with what is seen."""
        found: dict[str, Any] = page.run(checks())
        wide = found.pop('wide')
        self.assertLessEqual(wide, 0, where)
        self.assertEqual(found, {name: [] for name in WRONG}, where)

    def look_at(self, page: Browser, where: tuple[Any, ...]) -> None:
        """Each list, a card that is open, a command, its look and its answer, and the figures of a
        day."""
        until(lambda: 'KIT/0001' in page.text('.vehicle-card'), 'the page')
        for tab in TABS:
            page.click(f'#tab-{tab}')
            self.check(page, (*where, tab))
        page.click('#tab-stock')
        page.click('#stock .actions button')
        self.check(page, (*where, 'a command'))
        page.write('#field-load', 'L1')
        page.click('#command .main')
        until(lambda: page.text('#command .says'), 'the look')
        self.check(page, (*where, 'a look'))
        page.click('#command .main')
        until(lambda: page.text('#command .answer'), 'the answer')
        self.check(page, (*where, 'an answer'))
        page.open(f'http://127.0.0.1:{self.board.port}/figures.html')
        until(lambda: 'KIT/0001' in page.text('main'), 'the figures')
        self.check(page, (*where, 'figures'))

    def check_all(self, language: str, dark: bool) -> None:
        for size in SIZES:
            with self.subTest(size):
                page = opened(self.board.port, size, language, dark)
                try:
                    self.look_at(page, (size, language, dark))
                finally:
                    page.close()

    def test_in_english(self) -> None:
        self.check_all('en', dark=False)

    def test_in_german_and_dark(self) -> None:
        self.check_all('de', dark=True)

    def test_the_checks(self) -> None:
        """They find a text without contrast, a button without a name, a small one, and an id that
        stands twice."""
        script = """
            const add = (name, style, id) => {
              const one = document.body.appendChild(document.createElement(name));
              for (const [key, value] of Object.entries(style)) one.style[key] = value;
              one.id = id;
              return one;
            };
            add('p', { color: '#999', background: '#aaa' }, 'p').textContent = 'pale';
            add('button', { width: '9px', height: '9px', padding: '0' }, 'clock');
        """
        self.browser.run(script)
        found = self.browser.run(checks())
        self.assertEqual([words.rsplit(' ', 1)[0] for words in found['pale']], ['P: pale'])
        self.assertEqual((len(found['nameless']), len(found['small'])), (1, 1))
        self.assertEqual(found['twice'], ['clock'])


class ByKeyboard(Page):
    def test_an_alarm_is_taken_on(self) -> None:
        """From the head of the page on: the sound, the alarm, and who takes it on."""
        self.plant.state(ONE, 'N1', operatingMode='MANUAL')
        self.sees('#alarms', 'KIT/0001 is not ready')
        self.browser.run('document.querySelector(".sound").focus()')
        self.browser.keys('TAB', 'ENTER')
        until(
            lambda: self.browser.value('.vehicle-card .head', 'aria-expanded') == 'true',
            'the alarm shows its vehicle',
        )
        self.browser.run('document.querySelector("#alarms .what").focus()')
        self.browser.keys('TAB')
        self.has_focus('className', 'take')
        self.browser.keys('ENTER')
        self.has_focus('id', 'my-name')
        self.browser.keys('e', 'v', 'a')
        self.browser.run('document.querySelector("#alarms .take").focus()')
        self.browser.keys('ENTER')
        self.sees('#alarms', 'seen by eva')

    def test_a_refusal(self) -> None:
        """A command is typed, looked at, refused and closed without a mouse."""
        self.browser.run('document.querySelector("#tab-stock").focus()')
        self.browser.click('#tab-stock')
        self.browser.run('document.querySelector("#stock .actions button").focus()')
        self.browser.keys('ENTER')
        self.has_focus('id', 'field-load')
        self.browser.keys('L', '1', 'ENTER')
        self.sees('#command', 'There is a load L1 already.')
        self.browser.keys('ENTER')
        self.sees('#command .answer', 'The name is taken.')
        self.browser.keys('ENTER')
        until(
            lambda: not self.browser.run('return document.getElementById("command").open'),
            'it is closed',
        )


if __name__ == '__main__':
    unittest.main()
