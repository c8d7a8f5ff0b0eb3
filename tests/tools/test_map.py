"""Shows that `tools/map` draws what the file of a desk has, and docs/map.svg as the commands of
README.md make it."""
from __future__ import annotations

import csv
import os
import re
import shlex
import tempfile
import unittest
from typing import Any

from tests.support.desks import AT, Serving, over_sockets, requests_of, run
from tests.support.drawing import (
    HELD,
    LINES,
    Picture,
    check_the_picture_of_the_page,
    drawn,
    length,
    refused,
)
from tests.support.openapi import Asked
from tests.support.programs import ROOT, matched
from tests.support.script_calls import bytes_of


class Map(unittest.TestCase):
    def setUp(self) -> None:
        self.folder = tempfile.TemporaryDirectory()
        self.db = os.path.join(self.folder.name, 'map.db')

    def tearDown(self) -> None:
        self.folder.cleanup()

    def test_a_small_file(self) -> None:
        status, out, said = run(
            'replay', '--db', self.db, '--at', AT, stdin=b''.join(map(bytes_of, LINES))
        )
        self.assertEqual((status, said), (0, b''))
        self.assertEqual(out.count(b'HTTP/1.1 200 OK'), len(LINES))
        picture = Picture(drawn('--db', self.db))
        self.assertEqual(set(picture.nodes), {'N1', 'N2', 'N3'})
        self.assertEqual(
            {name: said for name, (_, _, said) in picture.nodes.items()},
            {name: name for name in picture.nodes},
        )
        self.assertEqual(set(picture.edges), {'E12', 'E21', 'E23', 'E32'})
        self.check_colours(picture)
        self.check_places(picture)
        labels = {picture.nearest(box): words for box, words in picture.labels}
        self.assertEqual(
            labels,
            {
                'N1': ['station A: 0 of 1', 'KIT/0001', 'L1'],
                'N3': ['station B: 0 of 1', 'station C: 1 of 2', 'L3', 'KIT/0002'],
            },
        )
        self.assertEqual(picture.foot, ['checking place: L4'])

    def check_colours(self, picture: Any) -> None:
        """What a vehicle holds has its colour, and nothing else has the colour of one."""
        self.assertEqual(set(picture.vehicles), {'KIT/' + serial for serial in HELD})
        self.assertEqual(len(set(picture.vehicles.values())), len(HELD))
        for serial, (nodes, edges) in HELD.items():
            colour = picture.vehicles['KIT/' + serial]
            self.assertEqual(
                [name for name, (_, fill, _) in sorted(picture.nodes.items()) if fill == colour],
                nodes,
            )
            self.assertEqual(
                [name for name, (_, stroke) in sorted(picture.edges.items()) if stroke == colour],
                edges,
            )
        self.assertEqual(len({stroke for _, stroke in picture.edges.values()}), 2)

    def check_places(self, picture: Any) -> Any:
        """The three nodes stand in a row, and each edge leads from its start to its end."""
        place = {name: where for name, (where, _, _) in picture.nodes.items()}
        self.assertAlmostEqual(
            length(place['N1'], place['N2']), length(place['N2'], place['N3']), delta=10
        )
        self.assertAlmostEqual(
            length(place['N1'], place['N3']), length(place['N1'], place['N2']) * 2, delta=20
        )
        for name, ((begin, end), _) in picture.edges.items():
            start, finish = 'N' + name[1], 'N' + name[2]
            self.assertEqual(min(place, key=lambda node: float(length(place[node], begin))), start)
            self.assertEqual(min(place, key=lambda node: float(length(place[node], end))), finish)

    @over_sockets
    def test_a_running_desk(self) -> None:
        """A running desk and its file, once it is stopped, are drawn alike."""
        with Serving(self.db) as desk:
            for request, body, status, _ in LINES:
                method, target = request.split(' ')
                self.assertEqual(Asked(desk, method, target, body).status, status)
            running = drawn('--desk', f'127.0.0.1:{desk.port}')
        self.assertEqual(running, drawn('--db', self.db))

    @over_sockets
    def test_the_file_of_a_running_desk(self) -> None:
        run('replay', '--db', self.db, '--at', AT, stdin=b''.join(map(bytes_of, LINES)))
        with Serving(self.db):
            self.assertRegex(refused('--db', self.db), ': .*locked: ask the desk that has it open')
        self.assertEqual(len(Picture(drawn('--db', self.db)).vehicles), 2)

    def test_the_picture_of_the_page(self) -> None:
        """README's two lines make docs/map.svg."""
        with open(os.path.join(ROOT, 'README.md')) as file:
            text = file.read()
        serve, draw = matched(
            (
                r'^(\./desk replay .* < examples/map\.http) > /dev/null\n(tools/map .* >'
                r' docs/map\.svg)$'
            ),
            text,
            re.M,
        ).groups()
        words, source = serve.split(' < ')
        words = [self.db if word == 'map.db' else word for word in shlex.split(words)]
        with open(os.path.join(ROOT, source), 'rb') as file:
            data = file.read()
        status, out, said = run(*words[1:], stdin=data)
        self.assertEqual(
            (status, said, out.count(b'HTTP/1.1 200 OK')), (0, b'', len(requests_of(data)))
        )
        self.assertEqual(draw.split()[:3], ['tools/map', '--db', 'map.db'])
        check_the_picture_of_the_page(self, self.db)

    def test_parts_that_nothing_joins(self) -> None:
        """They are drawn beside one another, and so is a layout of one node, or of none."""
        rows = 'kind,id,from,to\nnode,N1,,\nnode,N2,,\nnode,N3,,\nedge,E12,N1,N2\n'
        run('replay', '--db', self.db, '--at', AT, stdin=bytes_of(('PUT /layout', rows, 200, '{}')))
        picture = Picture(drawn('--db', self.db))
        self.assertEqual(
            sorted(picture.nodes),
            [row[1] for row in csv.reader(rows.splitlines()) if row[0] == 'node'],
        )
        places = [where for where, _, _ in picture.nodes.values()]
        self.assertGreater(
            min(length(one, other) for one in places for other in places if one != other), 60
        )
        empty = os.path.join(self.folder.name, 'empty.db')
        run('replay', '--db', empty, '--at', AT)
        self.assertEqual(Picture(drawn('--db', empty)).nodes, {})


if __name__ == '__main__':
    unittest.main()
