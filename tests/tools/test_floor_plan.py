"""Shows that a floor plan is read, that each fault of one is named with its line, and that
`tools/map` draws by it, true to scale and over a picture of the hall."""
from __future__ import annotations

import base64
import os
import tempfile
import unittest
import xml.etree.ElementTree as ElementTree

from tests.support.desks import AT, run
from tests.support.drawing import LINES, SVG, Picture, drawn, length, refused
from tests.support.script_calls import bytes_of

from nulvrader.common.layouts import Edge, of_parts
from nulvrader.drawing.floor_plan import MOST_OF_A_PICTURE, BadPlan, read_plan
from nulvrader.drawing.positions import LENGTH

HEAD = 'kind,id,x,y,width,height\n'
NODES = 'node,N1,0,0\nnode,N2,3,4,,\nnode,N3,30,4\n'  # 5 and 27 metres apart
HALL = '<svg xmlns="http://www.w3.org/2000/svg"><rect width="9" height="9"/></svg>'
PNG = b'\x89PNG\r\n\x1a\n' + bytes(20)


class Files(unittest.TestCase):
    """A folder with a plan, and a picture of the hall beside it."""

    def setUp(self) -> None:
        folder = tempfile.TemporaryDirectory()
        self.addCleanup(folder.cleanup)
        self.folder = folder.name
        self.plan = self.path('positions.csv')
        self.write('hall.svg', HALL.encode())

    def path(self, name: str) -> str:
        return os.path.join(self.folder, name)

    def write(self, name: str, data: bytes) -> str:
        """Writes a file of the folder. Its path."""
        with open(self.path(name), 'wb') as file:
            file.write(data)
        return self.path(name)

    def fault(self, text: str) -> str:
        """Why a plan of this text is not taken, without the name of its file."""
        self.write('positions.csv', text.encode())
        with self.assertRaises(BadPlan) as caught:
            read_plan(self.plan)
        return str(caught.exception).removeprefix(self.plan)


class Reads(Files):
    def test_what_is_read(self) -> None:
        """Blanks around numbers, a byte order mark, other line ends and empty lines do no harm."""
        rows = 'picture,hall.svg,-1.5,-2,40,20\r\n\r\nnode,N1, -2.25 ,004.5\r\n'
        self.write('positions.csv', ('\ufeff' + HEAD + rows).encode())
        plan = read_plan(self.plan)
        self.assertEqual(plan.nodes, {'N1': (-2.25, 4.5)})
        assert plan.picture is not None
        self.assertEqual(plan.picture.box, (-1.5, -2.0, 40.0, 20.0))
        self.assertEqual((plan.picture.kind, plan.picture.data), ('image/svg+xml', HALL.encode()))

    def test_each_fault(self) -> None:
        for rows, wanted in (
            ('rack,N1,0,0\n', ", line 2: 'rack' is neither node nor picture"),
            ('\nnode,N1,0\n', ', line 3: a node has 4 fields, as node,N1,2.5,-4'),
            ('node,N1,0,0,7\n', ', line 2: a node has 4 fields, as node,N1,2.5,-4'),
            ('node,N 1,0,0\n', ", line 2: 'N 1' is no name of a node"),
            ('node,N1,0,0\nnode,N1,1,0\n', ', line 3: node N1 has a place already'),
            ('picture,hall.svg,0,0,4\n', ', line 2: a picture has 6 fields, as ' + HEAD[:-1]),
            ('picture,hall.svg,0,0,0,4\n', ', line 2: width and height of a picture are more '),
            ('picture,hall.svg,0,0,4,-4\n', ', line 2: width and height of a picture are more '),
            ('picture,hall.svg,0,0,4,4\n' * 2, ', line 3: there is a picture already'),
        ):
            with self.subTest(rows):
                self.assertTrue(self.fault(HEAD + rows).startswith(wanted), self.fault(HEAD + rows))
        for number in ('', 'nan', 'inf', '1e3', '0x1', '1,', '1_0', '٣', '1234567', '.5'):
            with self.subTest(number):
                self.assertRegex(self.fault(f'{HEAD}node,N1,"{number}",0\n'), 'no number of metres')
        for text in ('', 'node,N1,0,0\n', 'kind,id,x,y\nnode,N1,0,0\n'):
            self.assertEqual(self.fault(text), ': the first line has to be ' + HEAD[:-1])

    def test_pictures(self) -> None:
        """What is no picture, no file, or too large is refused; kinds are told by their bytes."""
        told = []
        for data in (PNG, b'\xff\xd8\xff\xe0' + bytes(9), b'<?xml version="1.0"?>\n<svg/>'):
            self.write('positions.csv', f'{HEAD}picture,x,0,0,4,4\n'.encode())
            self.write('x', data)
            picture = read_plan(self.plan).picture
            told.append(picture.kind if picture else '')
        self.assertEqual(told, ['image/png', 'image/jpeg', 'image/svg+xml'])
        for data in (b'', b'GIF89a', b'<html><svg/></html>', b'\x00' * 100):
            self.write('x', data)
            self.assertRegex(self.fault(f'{HEAD}picture,x,0,0,4,4\n'), 'no picture in PNG, JPEG')
        self.write('x', PNG + bytes(MOST_OF_A_PICTURE))
        os.mkfifo(self.path('fifo'))
        for name in ('x', 'fifo', 'nothing', '.'):
            self.write('positions.csv', f'{HEAD}picture,{name},0,0,4,4\n'.encode())
            with self.subTest(name), self.assertRaises(OSError):
                read_plan(self.plan)

    def test_the_unit(self) -> None:
        """Half of the edges are as long as in other drawings, and a short one is not too short."""
        nodes = ''.join(f'node,N{at},{10 * at},0\n' for at in range(12))
        edges = [Edge(f'E{at}', f'N{at}', f'N{at + 1}') for at in range(11)]
        names = [f'N{at}' for at in range(12)]
        self.write('positions.csv', (HEAD + nodes).encode())
        self.assertEqual(read_plan(self.plan).unit(of_parts(names, edges, [])), LENGTH / 10)
        moved = nodes.replace('N0,0,', 'N0,9.9,').replace('N11,110,', 'N11,100.1,')
        self.write('positions.csv', (HEAD + moved).encode())
        self.assertEqual(round(read_plan(self.plan).unit(of_parts(names, edges, []))), 360)
        same = ''.join(f'node,{name},1,1\n' for name in names)
        self.write('positions.csv', (HEAD + same).encode())
        self.assertEqual(read_plan(self.plan).unit(of_parts(names, edges, [])), LENGTH)


class Draws(Files):
    def setUp(self) -> None:
        super().setUp()
        self.db = self.path('map.db')
        run('replay', '--db', self.db, '--at', AT, stdin=b''.join(map(bytes_of, LINES)))

    def picture(self, rows: str) -> bytes:
        self.write('positions.csv', (HEAD + rows).encode())
        data: bytes = drawn('--db', self.db, '--positions', self.plan)
        return data

    def test_true_to_scale(self) -> None:
        """Nodes are as far apart as the file has them, and what lies above is drawn above."""
        picture = Picture(self.picture(NODES))
        place = {name: where for name, (where, _, _) in picture.nodes.items()}
        metre = length(place['N1'], place['N2']) / 5
        self.assertAlmostEqual(length(place['N2'], place['N3']) / metre, 27, places=2)
        self.assertAlmostEqual(place['N2'][0] - place['N1'][0], 3 * metre, places=2)
        self.assertAlmostEqual(place['N1'][1] - place['N2'][1], 4 * metre, places=2)

    def test_the_hall(self) -> None:
        """The picture lies where the file has it, and the whole of it is seen."""
        data = self.picture(NODES + 'picture,hall.svg,-100,-50,200,100\n')
        at = {name: where for name, (where, _, _) in Picture(data).nodes.items()}
        metre = length(at['N1'], at['N2']) / 5
        root = ElementTree.fromstring(data)
        (image,) = root.iter(SVG + 'image')
        link = image.get('href') or ''
        self.assertEqual(base64.b64decode(link.partition('base64,')[2]), HALL.encode())
        x, y, width, height = (
            float(image.get(name) or 0) for name in ('x', 'y', 'width', 'height')
        )
        self.assertAlmostEqual((at['N1'][0] - x) / metre, 100, places=1)
        self.assertAlmostEqual((y + height - at['N1'][1]) / metre, 50, places=1)
        left, top, across, down = map(float, (root.get('viewBox') or '').split())
        self.assertTrue(left <= x and x + width <= left + across)
        self.assertTrue(top <= y and y + height <= top + down)

    def test_what_is_missing(self) -> None:
        self.write('positions.csv', (HEAD + 'node,N1,0,0\n').encode())
        told = refused('--db', self.db, '--positions', self.plan)
        self.assertEqual(told, f'{self.plan}: there is no place for N2, N3')
        told = refused('--db', self.db, '--positions', self.path('none.csv'))
        self.assertIn('No such file', told)


if __name__ == '__main__':
    unittest.main()
