"""Shows that `tools/check-layout` names each fault of a layout file once, with its line, and the
stations between which no walk leads, and that a desk sets or refuses each file as it says."""
import json
import os
import random
import tempfile
import unittest
from typing import Any

from tests.support import calls
from nulvrader.common.layouts import LayoutFile
from nulvrader.common.tables import Fault
from tests.support.programs import ran
from tests.support.desks import AT, run
from tests.support.script_calls import LAYOUT, answers_of

FILES = int(os.environ.get('FILES', '300'))

HEAD = 'kind,id,from,to\n'
N1, N2 = 'node,N1,,\n', 'node,N2,,\n'
TWO = HEAD + N1 + N2
FIRST = 'the first line has to be kind,id,from,to, and is '
NO_NAME = ', and no name: 1 to 32 of A-Z a-z 0-9 _ . : -'


def lines(row: Any, count: int) -> str:
    """So many rows, each with its number."""
    return ''.join(row % number + '\n' for number in range(count))


# Files with one fault each: its line, or none where it is of the whole file, the refusal, and the
# rule.
FAULTS = {
    '': (1, 'BadCsv', FIRST + 'missing'),
    '\n': (1, 'BadCsv', FIRST + 'missing'),
    N1 + N2: (1, 'BadCsv', FIRST + 'node,N1,,'),
    'Kind,id,from,to\n' + N1: (1, 'BadCsv', FIRST + 'Kind,id,from,to'),
    'kind;id;from;to\n': (1, 'BadCsv', FIRST + 'kind;id;from;to'),
    '\ufeff\ufeff' + TWO: (1, 'BadCsv', FIRST + '\\ufeffkind,id,from,to'),
    TWO + 'node,N3,\n': (4, 'BadCsv', '3 fields, and not the four of kind,id,from,to'),
    TWO + 'node\n': (4, 'BadCsv', '1 field, and not the four of kind,id,from,to'),
    TWO + 'node,N3,,,\n': (4, 'BadCsv', '5 fields, and not the four of kind,id,from,to'),
    TWO + 'zone,Z1,,\n': (4, 'BadCsv', "the kind is 'zone', and not node, edge or station"),
    TWO + ' node,N3,,\n': (4, 'BadCsv', "the kind is ' node', and not node, edge or station"),
    TWO + 'node,,,\n': (4, 'BadCsv', "the name of the node is ''" + NO_NAME),
    TWO + 'node, N3,,\n': (4, 'BadCsv', "the name of the node is ' N3'" + NO_NAME),
    TWO + f'node,{"N" * 33},,\n': (4, 'BadCsv', f"the name of the node is '{'N' * 33}'" + NO_NAME),
    TWO + 'node,Stra\u00dfe,,\n': (4, 'BadCsv', "the name of the node is 'Stra\\xdfe'" + NO_NAME),
    TWO + 'node,"N\n3",,\n': (4, 'BadCsv', "the name of the node is 'N\\n3'" + NO_NAME),
    TWO + 'node,N3,N1,\n': (4, 'BadCsv', 'node N3 has something after its name'),
    TWO + 'node,N3,,1\n': (4, 'BadCsv', 'node N3 has something after its name'),
    TWO + 'edge,E 1,N1,N2\n': (4, 'BadCsv', "the name of the edge is 'E 1'" + NO_NAME),
    TWO + 'edge,E1,,N2\n': (4, 'BadCsv', "the start of the edge is ''" + NO_NAME),
    TWO + 'edge,E1,N1,N/2\n': (4, 'BadCsv', "the end of the edge is 'N/2'" + NO_NAME),
    TWO + 'station,A*,N1,1\n': (4, 'BadCsv', "the name of the station is 'A*'" + NO_NAME),
    TWO + 'station,A,,1\n': (4, 'BadCsv', "the node of the station is ''" + NO_NAME),
    TWO + 'station,A,N1,\n': (4, 'BadCsv', "station A has room for '', and not for 1 to 999"),
    TWO
    + 'station,A,N1,1000\n': (4, 'BadCsv', "station A has room for '1000', and not for 1 to 999"),
    TWO + 'station,A,N1,+1\n': (4, 'BadCsv', "station A has room for '+1', and not for 1 to 999"),
    TWO + 'station,A,N1,1 \n': (4, 'BadCsv', "station A has room for '1 ', and not for 1 to 999"),
    HEAD: (None, 'LayoutBad', 'there is no node'),
    TWO + N1: (4, 'LayoutBad', 'node N1 stands in line 2 already'),
    TWO + 'edge,E1,N1,N2\nedge,E1,N2,N1\n': (5, 'LayoutBad', 'edge E1 stands in line 4 already'),
    TWO
    + 'station,A,N1,1\n\nstation,A,N2,1\n': (6, 'LayoutBad', 'station A stands in line 4 already'),
    TWO + 'edge,E1,N3,N2\n': (4, 'LayoutBad', 'edge E1 leads from N3, which is no node'),
    TWO + 'edge,E1,N1,N3\n': (4, 'LayoutBad', 'edge E1 leads to N3, which is no node'),
    TWO + 'edge,E1,N1,N1\n': (4, 'LayoutBad', 'edge E1 leads from N1 to itself'),
    TWO + 'station,A,N3,1\n': (4, 'LayoutBad', 'station A is at N3, which is no node'),
    TWO + 'station,A,N1,0\n': (4, 'LayoutBad', 'station A has room for no load'),
    TWO + 'station,A,N1,000\n': (4, 'LayoutBad', 'station A has room for no load'),
    HEAD + lines('node,N%d,,', 501): (None, 'Limit', 'there are 501 nodes, and at most 500 may be'),
    TWO
    + lines('edge,%d,N1,N2', 1501): (
        None,
        'Limit',
        'there are 1501 edges, and at most 1500 may be',
    ),
    TWO
    + lines('station,%d,N1,1', 501): (
        None,
        'Limit',
        'there are 501 stations, and at most 500 may be',
    ),
    TWO
    + '\n'
    * (65537 - len(TWO)): (None, 'TooLarge', 'the file has 65537 bytes, and a body at most 65536'),
}


def largest(size: int) -> str:
    """The most nodes, edges and stations that there may be, all with names of so many bytes: a
    ring, with two edges more from each node."""
    name = f'%s%0{size - 1}d'
    nodes = [name % ('n', number) for number in range(500)]
    rows = [f'node,{node},,' for node in nodes]
    for step in range(3):
        for number, node in enumerate(nodes):
            end = nodes[(number + step + 1) % 500]
            rows.append(f'edge,{name % ("e", 500 * step + number)},{node},{end}')
    rows += [f'station,{name % ("s", number)},{node},999' for number, node in enumerate(nodes)]
    return HEAD + '\n'.join(rows)


# Files that a desk takes, none with stations between which no walk leads.
TAKEN = [
    LAYOUT,
    '\ufeff' + LAYOUT.replace('\n', '\r\n'),
    LAYOUT.replace('\n', '\r'),
    LAYOUT.rstrip('\n'),
    '\n\n' + LAYOUT.replace('\n', '\n\n'),
    LAYOUT.replace('node,', '"node",').replace(',,', ',"",""').replace(',1\n', ',001\n'),
    HEAD + 'station,A,N1,1\nedge,E1,N1,N2\nedge,E2,N2,N1\n' + N1 + N2,
    HEAD + 'node,A,,\nnode,B,,\nedge,A,A,B\nedge,B,A,B\nstation,A,A,999\n',
    HEAD + N1,
    TWO + '\n' * (65536 - len(TWO)),
    largest(7),
]

# What comes into a file at random.
BYTES = [b'', b'"', b'""', b',', b'\n', b'\r', b'\r\n', b' ', b'0', b'N', b'1', b'\xff', b'\0']


def name_of(body: Any) -> Any:
    """The name of a refusal, or none."""
    return None if body in ('{}', b'{}') else json.loads(body)['name']


class CheckLayout(unittest.TestCase):
    def test_each_fault(self) -> None:
        for text, (line, refusal, rule) in FAULTS.items():
            with self.subTest(text[:80]):
                layout = LayoutFile(text.encode())
                self.assertEqual(layout.faults, [Fault(line, refusal, rule)])
                self.assertEqual(layout.answer(), refusal)

    def test_files_that_are_taken(self) -> None:
        for text in TAKEN:
            with self.subTest(text[:80]):
                layout = LayoutFile(text.encode())
                self.assertEqual(
                    (layout.faults, layout.answer(), layout.lacking_walks()), ([], None, [])
                )
        self.assertEqual(LayoutFile(largest(7).encode()).size, 65015)
        self.assertEqual(LayoutFile(largest(8).encode()).answer(), 'TooLarge')

    def test_several_faults(self) -> None:
        """In the order of the lines, with those of the whole file first; the answer is the first
        that a desk looks for. A row of a name that is taken, or that has another fault, still says
        that there is such a node.
        """
        text = HEAD + 'node,N1,x,\nedge,E1,N1,N2\nedge,E2,N1,N 2\nstation,A,N1,0\n' + N1
        layout = LayoutFile(text.encode())
        self.assertEqual([fault.line for fault in layout.faults], [2, 3, 4, 5, 6])
        self.assertEqual(layout.answer(), 'BadCsv')
        many = LayoutFile((TWO + 'edge,E,N1,N3\n' * 1501).encode())
        self.assertEqual((many.faults[0].refusal, many.answer()), ('Limit', 'Limit'))

    def test_bytes_that_are_no_text(self) -> None:
        layout = LayoutFile(TWO.encode() + b'node,N\xff,,\n')
        self.assertEqual(
            layout.faults, [Fault(4, 'BadCsv', "the name of the node is 'N\\xff'" + NO_NAME)]
        )

    def test_stations_that_no_walk_reaches(self) -> None:
        text = TWO + (
            'node,N3,,\nedge,E1,N1,N2\nstation,A,N1,1\nstation,B,N2,1\nstation,B2,N2,1\n'
            'station,C,N3,1\n'
        )
        layout = LayoutFile(text.encode())
        self.assertEqual(layout.faults, [])
        self.assertEqual(
            layout.lacking_walks(),
            [
                (6, 'station A: no walk leads from it to C'),
                (6, 'station A: no walk leads to it from B, B2, C'),
                (7, 'station B: no walk leads from it to A, C'),
                (7, 'station B: no walk leads to it from C'),
                (8, 'station B2: no walk leads from it to A, C'),
                (8, 'station B2: no walk leads to it from C'),
                (9, 'station C: no walk leads from it to A, B, B2'),
                (9, 'station C: no walk leads to it from A, B, B2'),
            ],
        )
        alone = TWO + ''.join(f'station,A{n},N1,1\n' for n in range(8)) + 'station,B,N2,1\n'
        self.assertIn(
            (12, 'station B: no walk leads from it to A0, A1, A2, A3, A4 and 3 more'),
            LayoutFile(alone.encode()).lacking_walks(),
        )

    def test_what_it_prints(self) -> None:
        one_way = TWO + 'edge,E1,N1,N2\nstation,A,N1,1\nstation,B,N2,1\n'
        walks = (
            'line 5: station A: no walk leads to it from B\nline 6: station B: no walk leads from'
            ' it to A\n'
        )
        with tempfile.TemporaryDirectory() as folder:
            name = os.path.join(folder, 'layout.csv')
            for text, status, wanted in (
                (
                    LAYOUT,
                    0,
                    (
                        f'3 nodes, 4 edges, 3 stations, {len(LAYOUT)} bytes of 65536: a desk'
                        ' accepts it\n'
                    ),
                ),
                (
                    one_way,
                    0,
                    walks + '2 nodes, 1 edge, 2 stations, 80 bytes of 65536: a desk accepts it\n',
                ),
                (
                    TWO + N1,
                    1,
                    (
                        'line 4: LayoutBad: node N1 stands in line 2 already\n3 nodes, 0 edges, 0'
                        ' stations, 46 bytes of 65536: a desk answers LayoutBad\n'
                    ),
                ),
                (None, 2, ''),
            ):
                if text is None:
                    os.remove(name)
                else:
                    with open(name, 'w', newline='') as file:
                        file.write(text)
                ends, out, said = ran('check-layout', name)
                self.assertEqual((ends, out), (status, wanted))
                self.assertEqual(said[:14], 'check-layout: ' if status == 2 else '')


class OverADesk(unittest.TestCase):
    """What a desk answers to the files, each in memory."""

    def answers(self, *files: Any) -> list[Any]:
        """The answers to these bodies, in one stream."""
        stdin = b''.join(calls.layout(data).to_bytes() for data in files)
        status, out, said = run('replay', '--db', 'memory', '--at', AT, stdin=stdin)
        self.assertEqual((status, said), (0, b''))
        return [name_of(body) for _, body in answers_of(out)]

    def test_files_that_are_taken(self) -> None:
        for text in TAKEN:
            self.assertEqual(self.answers(text.encode()), [None], text[:80])

    def test_files_that_are_refused(self) -> None:
        for text, (_, refusal, _) in [*FAULTS.items(), (largest(8), (None, 'TooLarge', ''))]:
            self.assertEqual(self.answers(text.encode()), [refusal], text[:80])

    def test_files_at_random(self) -> None:
        """The layout of the examples with a few bytes changed. What is refused changes nothing, so
        such files go through one stream; what is taken goes alone."""
        chance = random.Random(1)
        refused: list[Any] = []
        taken: list[Any] = []
        for _ in range(FILES):
            data = bytearray(chance.choice(TAKEN[:8]).encode())
            for _ in range(chance.choice((1, 1, 1, 2, 3))):
                at = chance.randrange(len(data))
                data[at : at + chance.randrange(3)] = chance.choice(BYTES)
            wanted = LayoutFile(bytes(data)).answer()
            (taken if wanted is None else refused).append((bytes(data), wanted))
        self.assertGreater(len({wanted for _, wanted in refused}), 1)
        self.assertGreater(len(taken), 10)
        answers = self.answers(*[data for data, _ in refused])
        for (data, wanted), answer in zip(refused, answers, strict=True):
            self.assertEqual(answer, wanted, data)
        for data, _ in taken[:30]:
            self.assertEqual(self.answers(data), [None], data)


if __name__ == '__main__':
    unittest.main()
