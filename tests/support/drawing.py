"""`tools/map` run over files and desks, and what its pictures show."""
from __future__ import annotations

import os
import re
import subprocess
import sys
import xml.etree.ElementTree as ElementTree
from typing import Any

from tests.support.calls import state
from tests.support.desks import AT
from tests.support.programs import ROOT, TOOLS
from tests.support.script_calls import FIRST_EDGE, accepted, load, vehicle

MAP = os.path.join(TOOLS, 'map')
PLAIN = os.path.join(ROOT, 'bench', 'plain_desk.py')
SVG = '{http://www.w3.org/2000/svg}'

# Two vehicles: KIT/0001 has picked L1 up at N1 and may go to N2, KIT/0002 stands on N3; L3 is at C
# and L4 at the checking place.
LINES = FIRST_EDGE + [
    accepted(state(2, 'O1', statuses=[('O1.0', 'FINISHED')])),
    vehicle('0002', 'N3'),
    load('L3', 'C'),
    load('L4'),
]
HELD = {'0001': (['N1', 'N2'], ['E12']), '0002': (['N3'], [])}


def drawn(*words: str) -> Any:
    done = subprocess.run([sys.executable, MAP, *words], capture_output=True, timeout=600)
    if (done.returncode, done.stderr) != (0, b''):
        raise AssertionError(done.stderr.decode())
    return done.stdout


def refused(*words: str) -> Any:
    """The line with which the map says why there is no picture."""
    done = subprocess.run(
        [sys.executable, MAP, *words], capture_output=True, text=True, timeout=600
    )
    if (
        (done.returncode, done.stdout) != (1, '')
        or done.stderr.count('\n') != 1
        or not done.stderr.startswith('map: ')
    ):
        raise AssertionError(f'{done.returncode}, {done.stdout}{done.stderr}')
    return done.stderr[len('map: ') : -1]


def plain(db: str, data: bytes) -> Any:
    """Has a plain desk serve these requests on a file."""
    done = subprocess.run(
        [sys.executable, PLAIN, db, AT], input=data, capture_output=True, timeout=600
    )
    if (done.returncode, done.stderr) != (0, b''):
        raise AssertionError(done.stderr.decode())
    return done.stdout


def check_the_picture_of_the_page(test: Any, db: str) -> None:
    """The file is drawn as docs/map.svg is: the same of everything, and places that are no pixel
    apart."""

    def apart(one: Any, other: Any) -> Any:
        """How far apart the numbers of two texts are that else are the same."""
        number = r'-?\d+\.\d'
        test.assertEqual(re.sub(number, '0', one), re.sub(number, '0', other))
        return max(
            [
                abs(float(a) - float(b))
                for a, b in zip(re.findall(number, one), re.findall(number, other))
            ],
            default=0,
        )

    made = ElementTree.fromstring(drawn('--db', db))
    kept = ElementTree.parse(os.path.join(ROOT, 'docs', 'map.svg')).getroot()
    for one, other in zip(made.iter(), kept.iter(), strict=True):
        test.assertEqual(
            (one.tag, one.text, set(one.attrib)), (other.tag, other.text, set(other.attrib))
        )
        for name in one.attrib:
            test.assertLess(apart(one.get(name), other.get(name)), 1, (one.tag, name))


class Picture:
    """What an SVG shows: of each node its place and its colour, of each edge its colour and its
    line, and the texts of each label."""

    def __init__(self, data: Any) -> None:
        root = ElementTree.fromstring(data)
        self.nodes: dict[Any, Any] = {}
        self.edges: dict[Any, Any] = {}
        self.labels: list[Any] = []
        self.vehicles: dict[Any, Any] = {}
        self.foot = [text.text for text in root.iter(SVG + 'text') if text.get('class') == 'foot']
        for group in root.iter(SVG + 'g'):
            if group.get('class') == 'node':
                circle: Any = group.find(SVG + 'circle')
                self.nodes[group.get('data-node')] = (
                    (float(circle.get('cx')), float(circle.get('cy'))),
                    circle.get('fill'),
                    group.findtext(SVG + 'text'),
                )
            elif group.get('class') == 'edge':
                line: Any = group.find(SVG + 'line')
                ends = [float(line.get(name)) for name in ('x1', 'y1', 'x2', 'y2')]
                self.edges[group.get('data-edge')] = (ends[:2], ends[2:]), line.get('stroke')
            else:
                self.label(group)

    def label(self, group: Any) -> None:
        first = group.find(SVG + 'rect')
        box = [float(first.get(name)) for name in ('x', 'y', 'width', 'height')]
        self.labels.append((box, [text.text for text in group.iter(SVG + 'text')]))
        fill = None
        for part in group:
            if part.tag == SVG + 'rect':
                fill = part.get('fill')
            elif part.get('class') == 'vehicle':
                self.vehicles[part.get('data-vehicle')] = fill

    def nearest(self, box: Any) -> Any:
        """The node that a label is nearest to."""
        left, top, width, height = box

        def away(node: str) -> Any:
            (x, y), _, _ = self.nodes[node]
            return max(left - x, 0, x - left - width) ** 2 + max(top - y, 0, y - top - height) ** 2

        return min(self.nodes, key=away)


def length(one: Any, other: Any) -> Any:
    return ((one[0] - other[0]) ** 2 + (one[1] - other[1]) ** 2) ** 0.5
