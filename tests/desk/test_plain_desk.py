"""Shows that the program answers the same bytes as `bench/plain_desk.py`, which is the model of
the rules in `tests/model` over another SQLite, and that the streams by which `bench/each_call`
times the two have each call of the table.

Both answer the scripts, the examples of docs/openapi.json, random lawful traffic as
`bench/soak` makes it, and loads and jobs at small stations."""
import os
import random
import re
import shutil
import subprocess
import sys
import tempfile
import unittest
from typing import Any

from tests.support import calls
from tests.support import records
from tests.support.calls import request
from tests.model.desk import Model
from tests.support.programs import ROOT, module
from tests.support.streets import Streets
from tests.support.openapi import SETUPS, body_of, operations, requests_before
from tests.support.desks import AT, requests_of, run
from tests.support.script_calls import answers_of, bytes_of
from tests.support.scripts import SCRIPTS
from tests.support.traffic import Traffic

PLAIN = os.path.join(ROOT, 'bench', 'plain_desk.py')
REQUESTS = int(os.environ.get('REQUESTS', '1500'))


def as_bytes(method: str, path: str, body: Any) -> Any:
    return request(f'{method} {path}', body)


class BesideAPlainDesk(unittest.TestCase):
    def check(self, stdin: bytes, db: str = 'memory', plain: str = ':memory:') -> Any:
        """One stream through both; the answers, which are the same."""
        status, out, said = run('replay', '--db', db, '--at', AT, stdin=stdin, limit=300)
        self.assertEqual((status, said), (0, b''))
        other = subprocess.run(
            [sys.executable, PLAIN, plain, AT], input=stdin, capture_output=True, timeout=600
        )
        self.assertEqual((other.returncode, other.stderr), (0, b''))
        ours, theirs = out.split(b'HTTP/1.1 '), other.stdout.split(b'HTTP/1.1 ')
        for number, (one, two) in enumerate(zip(ours, theirs)):
            self.assertEqual(one, two, f'answer {number}')
        self.assertEqual(len(ours), len(theirs))
        return ours[1:]

    def test_scripts(self) -> None:
        for title, lines in SCRIPTS.items():
            with self.subTest(title):
                self.assertEqual(len(self.check(b''.join(map(bytes_of, lines)))), len(lines))

    def test_examples_of_the_description(self) -> None:
        """What is refused or only asked goes behind its setup in one stream; each other example has
        a stream of its own."""
        for before in SETUPS:
            front = [
                as_bytes(one['method'], one['path'], one.get('body'))
                for one in requests_before(before)
            ]
            quiet, streams = [], []
            for method, _, operation, _ in operations():
                body = body_of(operation)
                for name, said in operation['x-examples'].items():
                    if said['before'] == before:
                        line = as_bytes(
                            method,
                            said['path'],
                            body[2][name]['value'] if body else ('' if method == 'POST' else None),
                        )
                        if method == 'GET' or said['status'] != 200:
                            quiet.append(line)
                        else:
                            streams.append([line])
            for lines in [quiet, *streams]:
                with self.subTest(before):
                    self.assertEqual(
                        len(self.check(b''.join(front + lines))), len(front) + len(lines)
                    )

    def traffic(self, seed: int, vehicles: int, count: int) -> tuple[list[Any], Any]:
        """Random requests, and the model after them."""
        model = Model()
        traffic = Traffic(model, Streets(6, 5), random.Random(seed))
        asked = [*traffic.begin(vehicles), *(traffic.next() for _ in range(count))]
        return [call.to_bytes() for call, _ in asked], model

    def test_random_traffic(self) -> None:
        for seed, vehicles in ((1, 1), (2, 3), (3, 9)):
            data, model = self.traffic(seed, vehicles, REQUESTS // 3)
            self.assertEqual(len(self.check(b''.join(data))), len(data))
            self.assertIn('done', {row[-1] for row in model.rows()['job']})
            self.assertEqual(records.broken(model.rows()), [])

    def test_random_loads_at_small_stations(self) -> None:
        """Loads are put at small stations and taken away again, and jobs to them are added and
        taken back, so that each station is now full and now not: the program keeps the room that it
        counted, the other desk counts each time.
        """
        chance = random.Random(5)
        rows = ['kind,id,from,to', 'node,N1,,', *(f'station,S{n},N1,{n}' for n in range(1, 6))]
        asked = [calls.layout('\n'.join(rows) + '\n'), *(calls.load(f'L{n}') for n in range(16))]
        for n in range(REQUESTS):
            load, to = f'L{chance.randrange(16)}', f'S{chance.randint(1, 6)}'
            asked.append(
                (
                    calls.correct(load, f'R{n}', to),
                    calls.job(f'J{n}', load, to),
                    calls.stop_job(f'J{n - 31}'),
                    calls.load(f'M{n}', to),
                    calls.leave(f'M{n - 37}', f'R{n}'),
                    calls.correct(load, f'R{n}'),
                )[n % 6]
            )
        asked.append(calls.STOCK_REPORT)
        lines = [call.to_bytes() for call in asked]
        answers = self.check(b''.join(lines))
        self.assertGreater(sum(b'"Full"' in answer for answer in answers), REQUESTS // 20)
        self.assertGreater(sum(answer.startswith(b'200') for answer in answers), REQUESTS // 5)

    def test_each_goes_on_with_the_file_of_the_other(self) -> None:
        """Both keep the same tables, so that half of the traffic may be served by one and half by
        the other."""
        data, model = self.traffic(4, 4, 300)
        half = len(data) // 2
        with tempfile.TemporaryDirectory() as folder:
            ours, theirs = os.path.join(folder, 'ours.db'), os.path.join(folder, 'theirs.db')
            self.check(b''.join(data[:half]), ours, theirs)
            self.check(b''.join(data[half:]), theirs, ours)
            for db in (ours, theirs):
                found = records.rows_of(db)
                for table, rows in model.rows().items():
                    self.assertEqual(set(found[table]), set(rows), table)


class KindsOfCalls(unittest.TestCase):
    def test_each_call_is_timed_and_none_is_refused(self) -> None:
        """But for those whose name says that they are. So the figures are of the calls, and of all
        of them."""
        left = {
            (method, path): re.sub('{[^}]*}', '[^/]+', path) for method, path, _, _ in operations()
        }
        for name, (front, stream) in module('each_call', 'bench').kinds(0.01).items():
            with self.subTest(name):
                status, out, said = run(
                    'replay', '--db', 'memory', '--at', AT, stdin=front + b''.join(stream)
                )
                self.assertEqual((status, said), (0, b''))
                told = [status for status, _ in answers_of(out)]
                begun, timed = len(requests_of(front)), requests_of(b''.join(stream))
                self.assertEqual(len(told), begun + len(timed))
                self.assertEqual(set(told[:begun]) | {200}, {200})
                self.assertEqual(set(told[begun:]), {409 if name.endswith('refused') else 200})
                if not name.endswith('refused'):
                    for call, path in list(left.items()):
                        if any(
                            method == call[0] and re.fullmatch(path, target)
                            for method, target, _ in timed
                        ):
                            del left[call]
        self.assertEqual(list(left), [])


class ThingsKnown(unittest.TestCase):
    def test_each_can_be_taken_out(self) -> None:
        """By `bench/known`: each text that it replaces stands once in its file. And it counts calls
        that are not refused."""
        known = module('known', 'bench')
        for thing, (kind, edits) in known.THINGS.items():
            with self.subTest(thing), tempfile.TemporaryDirectory() as copy:
                for crate in ('agv_store_known', 'agv_store_floor'):
                    shutil.copytree(
                        os.path.join(ROOT, 'crates', crate, 'src'),
                        os.path.join(copy, 'crates', crate, 'src'),
                    )
                known.edit(copy, edits)
                begin, requests = known.call(kind)
                status, out, _ = run(
                    'replay', '--db', 'memory', '--at', AT, stdin=begin + b''.join(requests)
                )
                self.assertEqual((status, {code for code, _ in answers_of(out)}), (0, {200}))


if __name__ == '__main__':
    unittest.main()
