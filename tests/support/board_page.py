"""A desk, a board, and its page in a browser."""

from __future__ import annotations

import unittest

from tests.support import browser
from tests.support.board_run import Watching, until
from tests.support.browser import Browser

LACKING = browser.missing()


@unittest.skipIf(LACKING is not None, LACKING or '')
class Page(Watching):
    """A desk with two loads and a vehicle at N1, a board, and its page in a browser."""

    words: tuple[str, ...] = ('--silent', '600', '--timeout', '600')
    browser: Browser

    def setUp(self) -> None:
        super().setUp()
        self.browser = Browser()
        self.addCleanup(self.browser.close)
        self.browser.open(f'http://127.0.0.1:{self.board.port}/')
        self.addCleanup(self.check_the_console)
        self.sees('.vehicle-card', 'KIT/0001')
        self.sees('#tab-stock', '2')

    def check_the_console(self) -> None:
        """No line of it is an error, but for questions that a board which is stopped does not
        answer."""
        self.assertEqual([line for line in self.browser.console() if line.startswith('SEVERE')], [])

    def sees(self, css: str, *words: str) -> str:
        """Waits until what is seen has these words."""
        last = ''

        def told() -> bool:
            nonlocal last
            last = self.browser.text(css).replace('\u00a0', ' ')
            return all(word in last for word in words)

        try:
            until(told, f'{css} shows {", ".join(words)}')
        except AssertionError as fault:
            raise AssertionError(f'{fault}, and it shows: {last}') from None
        return last

    def misses(self, css: str, word: str) -> None:
        """Waits until a word isn't seen any more."""
        until(lambda: word not in self.browser.text(css), f'{css} without {word}')

    def on_the_map(self, kind: str, name: str, *words: str) -> None:
        """Waits until the title of a thing on the map has these words."""
        script = (
            'return [...document.querySelectorAll(`#plan .${arguments[0]} > title`)].map((one) =>'
            ' one.textContent).find((title) => title.startsWith(arguments[1])) ?? ""'
        )
        until(
            lambda: all(word in self.browser.run(script, kind, name) for word in words),
            f'{name}: {words}',
        )

    def has_focus(self, member: str, value: str) -> None:
        """Waits until what has the focus has this value."""
        until(
            lambda: self.browser.run(f'return document.activeElement.{member}') == value,
            f'{member} {value}',
        )

    def classes(self, css: str) -> set[str]:
        return set((self.browser.value(css, 'class') or '').split())
