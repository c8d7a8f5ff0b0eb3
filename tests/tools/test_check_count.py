"""Shows that `tools/check-count` names each fault of a stocktake file with its line and what to
write, says what would move, and that a desk answers each file as it says."""
import json
import os
import random
import tempfile
import unittest
from typing import Any

from tests.support import programs
from nulvrader.board.stocktakes import line_of
from nulvrader.common.counts import TEXTS, CountFile
from tests.support.programs import ran, within
from tests.support.desks import AT, Serving, over_sockets, run
from tests.support.calls import state
from tests.support.script_calls import LAYOUT, bytes_of, job, load, ok, order, vehicle

check_count = programs.module('check-count')
HEAD = 'station,load\n'
NO_NAME = ', and no name: 1 to 32 of A-Z a-z 0-9 _ . : -'
FIRST = 'the first line has to be station,load, and is '

# Files with one fault each, by themselves: its line, the refusal, and the rule with what to write.
FAULTS = {
    b'': (1, 'BadCsv', FIRST + 'missing'),
    b'Station,Load\nA,L1\n': (1, 'BadCsv', FIRST + 'Station,Load'),
    b'station;load\n': (
        1,
        'BadCsv',
        FIRST + 'station;load: write commas for the semicolons, here and in each row',
    ),
    b'station\tload\n': (
        1,
        'BadCsv',
        FIRST + 'station\\tload: write commas for the tabs, here and in each row',
    ),
    'station,load\nA,\n'.encode('utf-16'): (
        1,
        'BadCsv',
        'the file is UTF-16: save it as CSV in UTF-8',
    ),
    HEAD.encode()
    + b'A;L1\n': (2, 'BadCsv', '1 field, and not the two of station,load: write A,L1'),
    HEAD.encode()
    + b'A\n': (
        2,
        'BadCsv',
        '1 field, and not the two of station,load: write A,, where no load was found there',
    ),
    HEAD.encode()
    + b'A,L1,1\n': (
        2,
        'BadCsv',
        '3 fields, and not the two of station,load: write one load a row, and nothing behind it',
    ),
    HEAD.encode()
    + b'A,L1,,\n': (2, 'BadCsv', '4 fields, and not the two of station,load: write A,L1'),
    HEAD.encode()
    + b'A, L1\n': (2, 'BadCsv', "the load is ' L1'" + NO_NAME + ': write L1 without blanks'),
    HEAD.encode()
    + b'A ,L1\n': (2, 'BadCsv', "the station is 'A '" + NO_NAME + ': write A without blanks'),
    HEAD.encode() + b',L1\n': (2, 'BadCsv', "the station is ''" + NO_NAME),
    HEAD.encode()
    + b'A,"L1\nB,L2\n': (
        2,
        'BadCsv',
        "the load is 'L1\\nB,L2\\n'"
        + NO_NAME
        + ': is there a quote in this line that nothing closes?',
    ),
    HEAD.encode()
    + b'A,L1\r\n\r\nB,L2\rC,L1\n': (
        5,
        'CountTwice',
        'load L1 stands in line 2 already, at station A: strike out one of the two',
    ),
    HEAD.encode()
    + b'A,\n'
    * 21842: (
        None,
        'TooLarge',
        (
            'the file has 65539 bytes, and a body at most 65536: count some of the stations by'
            ' another file'
        ),
    ),
}

# L1 at A in the job J1 to B, L2 and L3 at C, L4 at the checking place, L5 on KIT/0001, L6 has left.
RECORDS = [
    ok('PUT /layout', LAYOUT),
    vehicle('0001', 'N3'),
    ok(*state(1, node='N3')),
    load('L5', 'C'),
    job('J5', 'L5', 'A'),
    order('O5', 'J5', 0),
    ok(*state(2, 'O5', node='N3', statuses=[('O5.0', 'FINISHED')])),
    ok('POST /vehicles/KIT/0001/place', {'ref': 'R1', 'node': 'N3'}),
    load('L1', 'A'),
    load('L2', 'C'),
    load('L3', 'C'),
    load('L4'),
    load('L6'),
    ok('POST /loads/L6/leave', {'ref': 'R2'}),
    job('J1', 'L1', 'B'),
]

# Rows over these records: what a desk answers, the lines of faults, and what else is told.
OVER: dict[str, tuple[str | None, list[str], list[str]]] = {
    'A,L1\n': (None, [], []),
    'C,L2\nC,L3\nB,\n': (None, [], []),
    'C,L3\nC,L4\n': (
        None,
        [],
        [
            'line 3: load L4 would move from checking to station C',
            'load L2 would move from station C to checking',
        ],
    ),
    'C,L2\nC,L3\nC,L6\nB,L9\n': (
        None,
        [],
        [
            'line 4: load L6 has left by the records, so the name is used up: is it another load?',
            (
                'line 5: there is no load L9: `tools/ask register-load L9 --station B` once this is'
                ' taken'
            ),
        ],
    ),
    'Z,L2\n': ('NoStation', ['line 2: NoStation: there is no station Z: the desk has A, B, C'], []),
    'A,L1\nA,\nC,L5\n': (
        'OnVehicle',
        [
            'line 4: OnVehicle: load L5 is recorded on vehicle KIT/0001: once it has no live job, '
            '`tools/ask correct L5 --station C`'
        ],
        [],
    ),
    'C,\nA,\n': (
        'InJob',
        [
            'line 3: InJob: load L1 was not found at station A, and would move, but has the live'
            ' job J1: `tools/ask stop-job J1` while it waits'
        ],
        [],
    ),
    'C,L2\nC,L1\n': (
        'InJob',
        [
            'line 3: InJob: load L1 is recorded at station A, and would move, but has the live job'
            ' J1: `tools/ask stop-job J1` while it waits'
        ],
        [],
    ),
    'B,L2\n': (
        'Full',
        [
            'line 2: Full: station B has room for 1; found there: 1; live jobs to it: 1: '
            'stop one of these jobs, or carry a load elsewhere and write it there'
        ],
        [],
    ),
    'C,L2\nC,L3\nC,L4\n': (
        'Full',
        [
            'line 2: Full: station C has room for 2; found there: 3; live jobs to it: 0: '
            'carry a load elsewhere and write it there'
        ],
        [],
    ),
}


class Alone(unittest.TestCase):
    """Files by themselves."""

    def test_each_fault(self) -> None:
        for data, fault in FAULTS.items():
            with self.subTest(data[:60]):
                count = CountFile(data)
                line, refusal, rule = fault
                told = f'line {line}: {refusal}: {rule}' if line else f'{refusal}: {rule}'
                self.assertEqual(str(count.faults[0]), told)
                self.assertEqual((count.faults[0].line, count.answer()), (line, refusal))

    def test_line_ends(self) -> None:
        """LF, CR LF and CR are taken, and the numbers of lines are those of an editor."""
        for end in ('\n', '\r\n', '\r'):
            count = CountFile('\ufeffstation,load{0}{0}A,L1{0}B,'.format(end).encode())
            self.assertEqual(count.faults, [])
            self.assertEqual(
                [(row.line, row.station, row.load) for row in count.rows],
                [(3, 'A', 'L1'), (4, 'B', None)],
            )

    def test_what_it_prints(self) -> None:
        with tempfile.TemporaryDirectory() as folder:
            path = os.path.join(folder, 'count.csv')
            for text, status, wanted in (
                (
                    HEAD + 'A,L1\nB,\n',
                    0,
                    '2 stations, 1 load, 21 bytes of 65536: a desk accepts it\n',
                ),
                (
                    HEAD + 'A;L1\n',
                    1,
                    (
                        'line 2: BadCsv: 1 field, and not the two of station,load: write A,L1\n'
                        '0 stations, 0 loads, 18 bytes of 65536: a desk answers BadCsv\n'
                    ),
                ),
            ):
                with open(path, 'w') as file:
                    file.write(text)
                self.assertEqual(ran('check-count', path), (status, wanted, ''))
            for words, status, wanted in (
                ([path + '.none'], 2, 'No such file'),
                ([path, '--db', path + '.db'], 3, 'count.csv.db: there is no such file'),
                ([path, '--db', path], 3, 'count.csv: it has no tables of a desk'),
                ([path, '--desk', '127.0.0.1:1'], 3, 'no program listens there'),
            ):
                ends, out, said = within(check_count, *words)
                self.assertEqual((ends, out), (status, ''))
                self.assertIn(wanted, said)


class OverRecords(unittest.TestCase):
    """What the records of a desk say to a file, and what the desk answers to it."""

    def setUp(self) -> None:
        folder = tempfile.TemporaryDirectory()
        self.addCleanup(folder.cleanup)
        self.db, self.path = os.path.join(folder.name, 'desk.db'), os.path.join(
            folder.name, 'count.csv'
        )
        status, out, said = run(
            'replay', '--db', self.db, '--at', AT, stdin=b''.join(map(bytes_of, RECORDS))
        )
        self.assertEqual((status, said, out.count(b'HTTP/1.1 200 OK')), (0, b'', len(RECORDS)))

    def told(self, rows: Any, *words: str) -> tuple[Any, Any]:
        with open(self.path, 'w') as file:
            file.write(HEAD + rows)
        ends, out, said = within(check_count, self.path, *words)
        self.assertEqual(said, '')
        return ends, out.splitlines()

    def check(self, *words: str) -> None:
        for rows, (answer, faults, more) in OVER.items():
            with self.subTest(rows):
                ends, lines = self.told(rows, *words)
                self.assertEqual((ends, lines[:-1]), (1 if answer else 0, faults or more))
                self.assertTrue(
                    lines[-1].endswith(
                        f'a desk answers {answer}' if answer else 'a desk accepts it'
                    )
                )

    def test_of_a_file(self) -> None:
        self.check('--db', self.db)

    @over_sockets
    def test_of_a_desk(self) -> None:
        """Asked of a running desk, it tells the same; and what it says of a file that is refused
        the desk answers."""
        with Serving(self.db) as desk:
            self.check('--desk', f'127.0.0.1:{desk.port}')
            for number, (rows, (answer, _, _)) in enumerate(OVER.items()):
                if answer is not None:
                    status, body = desk.ask(
                        'POST', f'/stocktakes/S{number}', (HEAD + rows).encode()
                    )
                    self.assertEqual(
                        (status != 200, json.loads(body)['name']), (True, answer), rows
                    )

    def test_what_a_page_is_told(self) -> None:
        """A fault in words for who has no command line: without a program, and without the name of
        the refusal."""
        records = check_count.of_file(self.db)
        for rows, wanted in (
            (
                'C,L5\n',
                'Line 2: load L5 is recorded on vehicle KIT/0001: once it has no live job, correct'
                ' its place.',
            ),
            (
                'A,\n',
                'Line 2: load L1 was not found at station A, and would move, but has the live job'
                ' J1: stop it while it waits.',
            ),
            ('A;L1\n', 'Line 2: 1 field, and not the two of station,load: write A,L1.'),
        ):
            count = CountFile((HEAD + rows).encode())
            count.check(records)
            self.assertEqual([line_of(fault).words() for fault in count.faults], [wanted])
        seen: set[str] = set()
        for data in [*FAULTS, *((HEAD + rows).encode() for rows in OVER)]:
            count = CountFile(data)
            count.check(records)
            for fault in count.faults:
                line = line_of(fault)
                self.assertNotRegex(line.words(), '`|tools/|: [A-Z][a-z]+[A-Z]\\w*:')
                says: Any = line.values['says']
                seen |= {name for name, _ in says}
        self.assertEqual(seen, {f'count.{name}' for name in (*TEXTS, 'size')})

    def test_moves(self) -> None:
        """As many moves and unknown names as a desk tells."""
        for number, (rows, (answer, _, more)) in enumerate(OVER.items()):
            if answer is None:
                asked = bytes_of((f'POST /stocktakes/S{number}', HEAD + rows, 200, ''))
                stdin = b''.join(map(bytes_of, RECORDS)) + asked
                told = json.loads(
                    run('replay', '--db', 'memory', '--at', AT, stdin=stdin)[1].rsplit(
                        b'\r\n\r\n', 1
                    )[1]
                )
                moves = sum(' would move ' in line for line in more)
                self.assertEqual(
                    (told['moved'], len(told['unknown'])), (moves, len(more) - moves), rows
                )

    def test_files_at_random(self) -> None:
        """What the check says of random rows is what a desk answers, each over the same records."""
        chance, files = random.Random(1), []
        for _ in range(150):
            lines = [
                f'{chance.choice("AABCCZ")},'
                f'{chance.choice(["", "L1", "L2", "L3", "L4", "L5", "L6", "L9", "L 1"])}\n'
                for _ in range(chance.randrange(1, 5))
            ]
            files.append(''.join(lines))
        refused = set()
        records = check_count.of_file(self.db)
        stdin, wanted = b''.join(map(bytes_of, RECORDS)), []
        for number, rows in enumerate(files):
            count = CountFile((HEAD + rows).encode())
            count.check(records)
            if count.answer() is not None:
                stdin += bytes_of((f'POST /stocktakes/S{number}', HEAD + rows, 0, ''))
                wanted.append((rows, count.answer()))
                refused.add(count.answer())
            else:
                one = b''.join(map(bytes_of, RECORDS)) + bytes_of(
                    ('POST /stocktakes/S', HEAD + rows, 200, '')
                )
                if number < 60:
                    self.assertIn(
                        b'"moved":', run('replay', '--db', 'memory', '--at', AT, stdin=one)[1], rows
                    )
        answers = run('replay', '--db', 'memory', '--at', AT, stdin=stdin)[1].split(b'HTTP/1.1 ')[
            1 + len(RECORDS) :
        ]
        for (rows, name), answer in zip(wanted, answers, strict=True):
            self.assertEqual(json.loads(answer.rsplit(b'\r\n\r\n', 1)[1])['name'], name, rows)
        self.assertGreater(refused, {'BadCsv', 'NoStation', 'CountTwice', 'InJob'})


if __name__ == '__main__':
    unittest.main()
