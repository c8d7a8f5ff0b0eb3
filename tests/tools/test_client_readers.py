"""Shows what the client reads of reports, layouts, messages and refusals."""
from __future__ import annotations

import os
import re
import unittest

from nulvrader.common import layouts, names
from nulvrader.desk import exports, refusals, reports
from tests.support import programs
from tests.support.programs import matched
from tests.support.script_calls import LAYOUT


class Readers(unittest.TestCase):
    def test_ways(self) -> None:
        """Of two ways of the same length that of the least name at the first node where they
        part."""
        rows = 'kind,id,from,to\n' + ''.join(f'node,{node},,\n' for node in 'ABCDE')
        rows += 'edge,x,A,B\nedge,a,A,C\nedge,y,B,D\nedge,z,C,D\nedge,b,C,D\n'
        layout = layouts.read_layout(rows.encode())
        self.assertEqual((layout.route('A', 'D'), layout.hops('A', 'D')), (['a', 'b'], 2))
        self.assertEqual(
            (layout.route('D', 'A'), layout.hops('D', 'A'), layout.hops('A', 'N9')),
            (None, None, None),
        )
        self.assertEqual((layout.route('E', 'E'), layout.hops('E', 'E')), ([], 0))
        with self.assertRaises(layouts.BadLayout) as caught:
            layouts.read_layout(b'kind,id,from,to\nnode,N1,,\nedge,E,N1,N2\n')
        self.assertEqual(
            str(caught.exception), 'line 3: LayoutBad: edge E leads to N2, which is no node'
        )

    def test_the_file_of_a_layout(self) -> None:
        self.assertEqual(layouts.read_layout(LAYOUT.encode()).csv().decode(), LAYOUT)

    def test_a_bad_report(self) -> None:
        for read, text in (
            (reports.read_stock, b'station A: 1\n'),
            (reports.read_holds, b'zone N1 KIT/0001\n'),
            (exports.read_loads, b'load,at\n'),
            (exports.read_jobs, b'job,load\n'),
            (exports.read_vehicles, b'manufacturer\n'),
            (exports.read_layout, b''),
        ):
            with self.assertRaises(reports.BadReport):
                read(text)

    def test_names(self) -> None:
        self.assertEqual(str(names.VehicleKey.parse('KIT/0001')), 'KIT/0001')
        for text in ('KIT', 'KIT/', '/1', 'KIT/0001/2', 'K T/1', 'K/' + 33 * 'x'):
            with self.assertRaises(names.BadName, msg=text):
                names.VehicleKey.parse(text)
        made = {names.new_reference() for _ in range(50)}
        self.assertEqual((len(made), all(map(names.is_name, made))), (50, True))


class Refusals(unittest.TestCase):
    def test_they_are_those_of_the_page(self) -> None:
        """Numbers, names, statuses and sentences are those of the table of docs/HTTP.md."""
        with open(os.path.join(programs.ROOT, 'docs', 'HTTP.md')) as file:
            text = file.read()
        rows = [
            line.strip('| ').split(' | ') for line in text.splitlines() if line.startswith('| ')
        ]
        table = [row for row in rows if len(row) == 4 and row[0].isdigit()]
        self.assertEqual(
            table, [[str(one.number), one.name, str(one.status), one.says] for one in refusals.ALL]
        )
        self.assertGreater(len(table), 50)

    def test_what_to_do(self) -> None:
        """docs/OPERATE.md has of each refusal what to do, in the same words; those of one item have
        the same."""
        with open(os.path.join(programs.ROOT, 'docs', 'OPERATE.md')) as file:
            page = matched(r'^## Refusals.*?^### ', file.read(), re.S | re.M)[0]
        found = {}
        for item in re.findall(
            r'^- (\*\*\w+\*\* \(.*?)(?=^$|^- )', re.sub('\n  ', ' ', page), re.S | re.M
        ):
            names, _, advice = item.partition(': ')
            for name, number in re.findall(r'\*\*(\w+)\*\* \((\d+)\)', names):
                found[name] = int(number), advice.strip()
        self.assertEqual(found, {one.name: (one.number, one.advice) for one in refusals.ALL})


if __name__ == '__main__':
    unittest.main()
