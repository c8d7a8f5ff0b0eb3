"""Shows, in a browser, that labels on the map of the page do not lie on one another, however many
vehicles there are, that alarms have their places, and that nodes are where a floor plan has
them."""
from __future__ import annotations

import unittest
from typing import Any

from tests.support import browser
from tests.support.board_page import Page
from tests.support.board_run import Board, Plant, until
from tests.support.browser import Browser
from nulvrader.common.names import VehicleKey

LACKING = browser.missing()
NODES, VEHICLES = 60, 30
HALL = '<svg xmlns="http://www.w3.org/2000/svg"><rect width="9" height="9"/></svg>'
# What is seen: the boxes of the labels of vehicles, of dots and of how many they are, of the names
# of nodes and of the words of stations, the sizes of letters, and how many vehicles stand in labels
# of others and as dots.
SEEN = """
    const boxes = (css) => [...document.querySelectorAll(css)]
      .filter((one) => one.getClientRects().length).map((one) => {
        const { left, top, right, bottom } = one.getBoundingClientRect();
        return [left, top, right, bottom];
      });
    const labels = boxes('#plan .vehicle .hull');
    return {
      labels, round: boxes('#plan .dot circle, #plan .more:not(.none) rect'),
      names: boxes('#plan .node .name'), stations: boxes('#plan .station text'),
      far: document.getElementById('plan').classList.contains('far'),
      around: boxes('#plan, .foot'),
      letters: boxes('#plan .vehicle .called').map(([, top, , bottom]) => bottom - top),
      dots: document.querySelectorAll('#plan .dot').length,
      more: [...document.querySelectorAll('#plan .more:not(.none) text')]
        .map((one) => Number(one.textContent)),
    };
"""


def ring() -> str:
    """A ring of nodes, with a station at every third."""
    rows = ['kind,id,from,to', *(f'node,N{at:02d},,' for at in range(NODES))]
    rows += [f'edge,E{at:02d},N{at:02d},N{(at + 1) % NODES:02d}' for at in range(NODES)]
    rows += [f'station,S{at:02d},N{at:02d},4' for at in range(0, NODES, 3)]
    return ''.join(row + '\n' for row in rows)


def meet(one: list[float], other: list[float], gap: float = 0.5) -> bool:
    """Whether two boxes have more in common than a line."""
    return (
        one[0] + gap < other[2]
        and other[0] + gap < one[2]
        and one[1] + gap < other[3]
        and other[1] + gap < one[3]
    )


@unittest.skipIf(LACKING is not None, LACKING or '')
class Labels(unittest.TestCase):
    def setUp(self) -> None:
        self.plant = Plant(ring())
        self.addCleanup(self.plant.close)
        for number in range(VEHICLES):
            self.plant.vehicle(VehicleKey('KIT', f'{number:04d}'), f'N{2 * number:02d}')
        self.board = self.plant.board('--silent', '600', '--timeout', '600')
        until(lambda: len(self.board.all('vehicle')) == VEHICLES, 'the vehicles')

    def opened(self, width: int, height: int, mobile: bool) -> Browser:
        page = Browser(width, height, False, mobile)
        self.addCleanup(page.close)
        page.open(f'http://127.0.0.1:{self.board.port}/')
        titles = 'return document.querySelectorAll("#plan .vehicle").length'
        until(lambda: page.run(titles) == VEHICLES, 'the map')
        return page

    def check(self, page: Browser) -> dict[str, Any]:
        """No label lies on another one or on words, each can be read, and no vehicle is missing."""
        seen: dict[str, Any] = page.run(SEEN)
        labels = seen['labels']
        for at, label in enumerate(labels):
            self.assertFalse([one for one in labels[:at] if meet(label, one)])
            self.assertFalse([one for one in seen['names'] if meet(label, one)])
            self.assertFalse([one for one in seen['stations'] if meet(label, one)])
        for name in seen['names']:
            self.assertFalse([one for one in seen['round'] if meet(name, one, 3)])
        for at, name in enumerate(seen['names'] if seen['far'] else ()):
            others = [*seen['names'][:at], *seen['stations']]
            self.assertFalse([one for one in others if meet(name, one)])
            self.assertGreater(name[3] - name[1], 9)
        self.assertFalse(meet(*seen['around']), 'the legend lies on the map')
        self.assertGreater(min(seen['letters']), 12)
        self.assertEqual(len(labels) + seen['dots'], VEHICLES)
        self.assertEqual(sum(seen['more']), seen['dots'])
        return seen

    def test_each_size(self) -> None:
        """On a screen, a wall and a phone, from afar and from near. Nodes have names where there is
        room for them."""
        for size, least in (
            ((1280, 800, False), 6),
            ((3840, 2160, False), 6),
            ((390, 844, True), 3),
        ):
            with self.subTest(size):
                page = self.opened(*size)
                self.assertGreaterEqual(len(self.check(page)['names']), least)
                for button in ('closer',) * 5 + ('whole', 'farther', 'farther'):
                    self.check(page)
                    page.run('document.getElementById(arguments[0]).click()', button)
                self.check(page)

    def test_many_alarms_of_a_kind(self) -> None:
        """The first are seen, so that they hide no other one; a click shows all."""
        for number in range(9):
            key = VehicleKey('KIT', f'{number:04d}')
            self.plant.state(key, f'N{2 * number:02d}', operatingMode='MANUAL')
        page = self.opened(1280, 800, False)
        until(lambda: '5 more of this kind' in page.text('#alarms .fold'), 'they are folded')
        self.assertEqual(page.text('#alarms .what').count('is not ready'), 4)
        until(lambda: page.run('return document.title').split()[1] == '9', 'the title says so')
        page.click('#alarms .fold')
        until(lambda: page.text('#alarms .what').count('is not ready') == 9, 'all are seen')
        page.click('#alarms .fold')
        until(lambda: page.text('#alarms .what').count('is not ready') == 4, 'the first are seen')

    def test_one_is_opened(self) -> None:
        """A click on how many stand in a label shows them apart."""
        page = self.opened(390, 844, True)
        before = self.check(page)
        self.assertGreater(before['dots'], 0)
        page.click('#plan .more:not(.none)')
        until(lambda: page.run(SEEN)['dots'] < before['dots'], 'they stand apart')
        self.check(page)


class Places(Page):
    """Nodes where a floor plan has them, over a picture of the hall."""

    def start(self, rows: str) -> Board:
        """A board with a plan of these rows, and its page."""
        for name, text in (('hall.svg', HALL), ('positions.csv', rows)):
            with open(self.plant.path(name), 'w') as file:
                file.write('kind,id,x,y,width,height\n' * name.endswith('csv') + text)
        self.browser.open('about:blank')  # it asks the board no more
        self.board.stop()
        words = (*self.words, '--positions', self.plant.path('positions.csv'))
        self.board = self.plant.board(*words)
        self.browser.open(f'http://127.0.0.1:{self.board.port}/')
        self.sees('.vehicle-card', 'KIT/0001')
        return self.board

    def boxes(self, css: str) -> list[list[float]]:
        script = """
            return [...document.querySelectorAll(arguments[0])].map((one) => {
              const { left, top, right, bottom } = one.getBoundingClientRect();
              return [left, top, right, bottom];
            });
        """
        found: list[list[float]] = self.browser.run(script, css)
        return found

    def test_true_to_scale(self) -> None:
        """N2 is 10 m right of N1, N4 5 m above N2; the hall is 40 m wide, and the ruler right."""
        rows = (
            'node,N1,0,0\nnode,N2,10,0\nnode,N3,20,0\nnode,N4,10,5\npicture,hall.svg,-5,-5,40,20\n'
        )
        self.start(rows)
        until(lambda: len(self.boxes('#plan .node circle')) == 4, 'the nodes')
        circles = self.boxes('#plan .node circle')
        one, two, three, four = [((a + c) / 2, (b + d) / 2) for a, b, c, d in circles]
        metre = (two[0] - one[0]) / 10
        self.assertAlmostEqual((three[0] - two[0]) / metre, 10, places=1)
        self.assertAlmostEqual((two[1] - four[1]) / metre, 5, places=1)
        ((left, top, right, bottom),) = self.boxes('#plan .hall')
        self.assertAlmostEqual((right - left) / metre, 40, places=1)
        self.assertAlmostEqual((one[0] - left) / metre, 5, places=1)
        self.assertAlmostEqual((bottom - one[1]) / metre, 5, places=1)
        ((begin, _, end, _),) = self.boxes('#ruler i')
        length = float(self.browser.text('#ruler').split()[0])
        self.assertAlmostEqual((end - begin) / metre, length, delta=0.2)
        status, head, data = self.board.ask('GET', '/picture')
        self.assertEqual(
            (status, head['Content-Type'], data), (200, 'image/svg+xml', HALL.encode())
        )
        self.assertIn("default-src 'self'", head['Content-Security-Policy'])

    def test_what_the_plan_lacks(self) -> None:
        """The page says so, and the map is there all the same."""
        self.start('node,N1,0,0\nnode,N2,10,0\n')
        self.sees('#alarms', 'positions.csv has no place for N3, N4', 'drawn without it')
        self.on_the_map('node', 'Node N4')
        self.assertEqual(self.board.ask('GET', '/picture')[0], 404)


class Alarmed(Page):
    def blinks(self) -> str:
        """By which animation the vehicle blinks."""
        script = (
            'return getComputedStyle(document.querySelector("#plan .vehicle .hull")).animationName'
        )
        return str(self.browser.run(script))

    def test_the_place_blinks(self) -> None:
        """As long as nobody has taken the alarm on, and not for those who want no motion."""
        self.assertEqual(self.blinks(), 'none')
        self.plant.state(VehicleKey('KIT', '0001'), 'N1', operatingMode='MANUAL')
        self.sees('#alarms', 'KIT/0001 is not ready')
        until(lambda: self.blinks() == 'alarm', 'it blinks')
        still = {'features': [{'name': 'prefers-reduced-motion', 'value': 'reduce'}]}
        self.browser._command('Emulation.setEmulatedMedia', still)
        self.assertEqual(self.blinks(), 'none')
        self.browser._command('Emulation.setEmulatedMedia', {'features': []})
        self.assertEqual(self.blinks(), 'alarm')
        self.browser.click('#alarms .take')
        self.browser.write('#my-name', 'eva')
        self.browser.click('#alarms .take')
        self.sees('#alarms', 'seen by eva')
        until(lambda: self.blinks() == 'none', 'somebody looks after it')


if __name__ == '__main__':
    unittest.main()
