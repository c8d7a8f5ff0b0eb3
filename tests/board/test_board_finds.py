"""Shows that what is looked for on the page of the board is found, by mouse and by keyboard."""

from __future__ import annotations

import unittest

from tests.support.board_run import until
from tests.support.board_page import Page


class Finds(Page):
    def test_what_is_found_by_its_name(self) -> None:
        """Enter picks what has the name that was typed; its station is seen, so the map stays. A
        cross puts it away."""
        box = self.browser.value('#plan', 'viewBox')
        self.browser.keys('/')
        self.browser.write('#search', 'l2')
        until(
            lambda: self.browser.value('.chips button', 'aria-pressed') == 'false',
            'all are searched',
        )
        self.browser.keys('ENTER')
        self.sees('.detail', 'L2', 'At A, since')
        until(lambda: 'picked' in self.classes('#plan .station.picked'), 'the station is marked')
        self.browser.write('#search', 'b')
        self.browser.keys('ENTER')
        self.sees('#stock', 'Loads at B 0')
        self.browser.write('#search', 'l1')
        self.browser.keys('ENTER')
        self.sees('.detail', 'L1')
        self.browser.press('×', '.detail')
        until(lambda: not self.browser.text('.detail'), 'it is put away')
        self.assertEqual(self.browser.value('#plan', 'viewBox'), box)

    def test_the_order_of_names(self) -> None:
        """Numbers in names are compared by their values: L10 comes after L9, though not as a
        text."""
        names = ['1', 'L', 'L01', 'L1', 'L2', 'L2-9', 'L2-10', 'L10', 'M1']
        script = (
            'return import(`${location.origin}/words.js`).then(({ ordered }) =>'
            ' ordered(arguments[0]))'
        )
        self.assertEqual(self.browser.run(script, names[::-1]), names)
        for load in ('L10', 'L9'):
            self.desk.register_load(load)
        self.browser.click('#tab-stock')
        titles = '#stock .rows:last-of-type .title'
        until(lambda: self.browser.text(titles) == 'L1 | L2 | L9 | L10', 'the loads in their order')

    def test_a_vehicle_at_a_station(self) -> None:
        """It does not cover the name of the station, neither near nor from afar."""
        script = '''
            const [hull, name] = ['.vehicle .hull', '.station .called'].map((css) =>
                document.querySelector(`#plan ${css}`).getBoundingClientRect());
            return Math.max(hull.left - name.right, name.left - hull.right,
                            hull.top - name.bottom, name.top - hull.bottom);
        '''
        self.on_the_map('vehicle', 'KIT/0001', 'at N1')
        for _ in range(6):
            self.assertGreaterEqual(self.browser.run(script), -1)
            self.browser.click('#farther')

    def test_a_correction_by_keyboard(self) -> None:
        """A load is found, and its place is corrected; then the focus is where it was, though all
        there is new."""
        self.browser.keys('/', 'l', '2', 'ENTER')
        self.sees('.detail', 'L2', 'At A')
        button = (
            'const it = document.querySelector(".detail [data-command=correct]"); it?.focus();'
            ' return it !== null;'
        )
        until(lambda: bool(self.browser.run(button)), 'a command for it')
        self.browser.keys('ENTER')
        self.has_focus('id', 'field-station')
        self.browser.keys('B', 'ENTER')
        self.sees('#command .says', 'L2 stands at station B')
        self.browser.keys('ENTER')
        self.sees('#command .answer', 'The place of L2 is corrected.')
        self.sees('.detail', 'At B')
        self.browser.keys('ESCAPE')
        self.has_focus('dataset.command', 'correct')


if __name__ == '__main__':
    unittest.main()
