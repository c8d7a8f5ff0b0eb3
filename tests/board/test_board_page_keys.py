"""Shows, in a real browser, that all of the page is used by the keyboard, nothing is wider than the
screen, and its words stand out from what lies behind them."""
from __future__ import annotations

import os
import re
import tempfile
import unittest

from tests.support.board_run import until
from tests.support.browser import Browser
from tests.support.board_page import Page


class EyesAndHands(Page):
    def test_by_keyboard(self) -> None:
        """Tabs by arrows, a card by Enter, a command that is closed by Escape, and the focus is
        where it was."""
        self.browser.run('document.getElementById("tab-vehicles").focus()')
        for tab in ('tab-stock', 'tab-jobs', 'tab-events', 'tab-vehicles'):
            self.browser.keys('RIGHT')
            self.has_focus('id', tab)
            self.assertEqual(self.browser.value('#' + tab, 'aria-selected'), 'true')
        self.browser.keys('TAB')
        self.has_focus('id', 'find-vehicle')
        self.browser.keys('TAB', 'TAB')  # over the order of the list
        self.has_focus('dataset.command', 'pause_all')
        self.browser.keys('TAB', 'TAB', 'ENTER')
        until(
            lambda: self.browser.value('.vehicle-card .head', 'aria-expanded') == 'true',
            'the card is open',
        )
        self.sees('.vehicle-card .actions', 'Start an order')
        self.browser.keys('TAB', 'ENTER')
        until(
            lambda: self.browser.run('return document.getElementById("command").open'),
            'the command is open',
        )
        self.sees('#command', 'Start an order')
        self.browser.keys('ESCAPE')
        until(
            lambda: not self.browser.run('return document.getElementById("command").open'),
            'it is closed',
        )
        self.has_focus('dataset.command', 'order')

    def test_sizes_and_colours(self) -> None:
        """On a screen of 1280 by 800 and on a phone nothing is wider than the page; words have
        contrast in both."""
        for width, height, mobile in ((1280, 800, False), (390, 844, True)):
            for dark in (False, True):
                page = Browser(width, height, dark, mobile)
                try:
                    page.open(f'http://127.0.0.1:{self.board.port}/')
                    until(lambda: 'KIT/0001' in page.text('.vehicle-card'), 'the page')
                    wide = page.run(
                        'return document.documentElement.scrollWidth - window.innerWidth'
                    )
                    self.assertLessEqual(wide, 0, (width, dark))
                    for css in (
                        '.vehicle-card .title',
                        '.vehicle-card .where',
                        '.badge',
                        '#desk .words',
                        'dt',
                        '.clock',
                    ):
                        self.assertGreaterEqual(self.contrast(page, css), 4.5, (css, width, dark))
                    data = page.picture(
                        os.path.join(tempfile.gettempdir(), f'board-{width}-{dark}.png')
                    )
                    self.assertEqual(data[:8], b'\x89PNG\r\n\x1a\n')
                finally:
                    page.close()

    @staticmethod
    def contrast(page: Browser, css: str) -> float:
        """How much the colour of a text stands out from what lies behind it, by WCAG 2: 1 to 21."""
        script = """
            let one = document.querySelector(arguments[0]);
            const ink = getComputedStyle(one).color;
            while (/, 0\\)|transparent/.test(getComputedStyle(one).backgroundColor))
                one = one.parentElement;
            return [ink, getComputedStyle(one).backgroundColor];
        """

        def light(colour: str) -> float:
            parts = [int(part) / 255 for part in re.findall(r'\d+', colour)[:3]]
            red, green, blue = (
                part / 12.92 if part <= 0.03928 else ((part + 0.055) / 1.055) ** 2.4
                for part in parts
            )
            return float(0.2126 * red + 0.7152 * green + 0.0722 * blue)

        low, high = sorted(light(colour) for colour in page.run(script, css))
        return (high + 0.05) / (low + 0.05)


if __name__ == '__main__':
    unittest.main()
