"""Shows that `bench/soak` finds nothing wrong in a short run over the program, and finds what is
wrong with a stand-in; the variable SOAK sets its seconds."""
from __future__ import annotations

import os
import re
import subprocess
import sys
import tempfile
import unittest
from typing import Any

from tests.support.desks import DESK, over_sockets
from tests.support.programs import ROOT, TOOLS, matched, module
from tests.support.records import FOLDER

SOAK = os.path.join(ROOT, 'bench', 'soak')
SECONDS = os.environ.get('SOAK', '5')
STAND_IN = '''#!/usr/bin/env -S PYTHONPATH=%s:%s %s -B
import socket, sys
from tests.model.desk import Model
words = sys.argv[1:]
model = Model(words[words.index('--db') + 1])
%s
if words[0] == 'report':
    sys.stdout.write(model.answer('GET', '/report/' + words[3])[1])
    sys.exit()
listener = socket.create_server(('127.0.0.1', 0))
print('listening on 127.0.0.1:%%d' %% listener.getsockname()[1], flush=True)
while True:
    connection, _ = listener.accept()
    connection.setsockopt(socket.IPPROTO_TCP, socket.TCP_NODELAY, 1)
    model.serve(connection.makefile('rb'), connection.makefile('wb'))
'''
LEAKS = '''
import time
kept, served, begin = [], model.served, time.monotonic()
def leaking(*request):
    while len(kept) < 20 * (time.monotonic() - begin):
        kept.append(b'x' * 1_000_000)
    return served(*request)
model.served = leaking
'''
MISREPORTS = '''
right = model.answer
def misreporting(method, target, body=b''):
    status, told, *more = right(method, target, body)
    return status, told.replace('left: ', 'left: 1') if words[0] == 'report' else told, *more
model.answer = misreporting
'''
soak = module('soak', 'bench')


def run(*words: Any, limit: Any = 600) -> Any:
    env = dict(os.environ, **({'TMPDIR': FOLDER} if FOLDER else {}))
    return subprocess.run(
        [sys.executable, SOAK, *words], capture_output=True, text=True, timeout=limit, env=env
    )


@over_sockets
class Soak(unittest.TestCase):
    def test_a_short_run(self) -> None:
        words = ['--vehicles', '12', '--seconds', SECONDS, '--least', '300', '--seed', '7']
        done = run('--program', DESK, *words, limit=float(SECONDS) + 600)
        self.assertEqual((done.returncode, done.stderr), (0, ''), done.stdout)
        self.check(done.stdout, 300)

    def check(self, text: str, least: int) -> None:
        """What a run says that has found nothing wrong."""
        said = re.search(
            r'^end: (\d+) requests in (\d+) s, (\d+) a second, each answered as the model says, and'
            r' the file .* has its '
            r'rows and the program reports them; with (\d+\.\d) requests to a state this is the'
            r' traffic of (\d+) vehicles '
            r'that send a state a second, or of (\d+) that send two$',
            text,
            re.M,
        )
        self.assertIsNotNone(said, text)
        assert said
        number, _, rate, share, slow, quick = map(float, said.groups())
        self.assertGreaterEqual(number, least)
        self.assertLessEqual(abs(rate / share - slow), 1 + slow * 0.06)
        self.assertLessEqual(abs(slow / 2 - quick), 1)
        self.assertRegex(text, r'(?m)^memory: \d+ kB .*: flat$')


@over_sockets
class OverAStandIn(Soak):
    def setUp(self) -> None:
        self.folder = tempfile.TemporaryDirectory(dir=FOLDER)

    def tearDown(self) -> None:
        self.folder.cleanup()

    def over(self, fault: str, vehicles: Any, seconds: Any) -> Any:
        program = os.path.join(self.folder.name, 'desk')
        with open(program, 'w') as file:
            file.write(STAND_IN % (ROOT, TOOLS, sys.executable, fault))
        os.chmod(program, 0o755)
        return run(
            '--program',
            program,
            '--vehicles',
            vehicles,
            '--seconds',
            seconds,
            '--least',
            '100',
            '--seed',
            '3',
        )

    def test_a_short_run(self) -> None:
        done = self.over('', '9', '1')
        self.assertEqual((done.returncode, done.stderr), (0, ''), done.stdout)
        self.check(done.stdout, 100)

    def test_memory_that_grows(self) -> None:
        done = self.over(LEAKS, '3', '1.5')
        self.assertEqual((done.returncode, done.stderr), (1, ''), done.stdout)
        early, late, more, allowed = map(
            int,
            matched(
                r'^memory: (\d+) kB after a tenth of the run and (\d+) kB at its end, (\d+) kB more'
                r' where (\d+) may be: '
                r'it grows$',
                done.stdout,
                re.M,
            ).groups(),
        )
        self.assertEqual(late - early, more)
        self.assertGreater(more, allowed)

    def test_a_report_of_the_file_that_is_wrong(self) -> None:
        done = self.over(MISREPORTS, '2', '0.5')
        self.assertEqual(done.returncode, 1)
        self.assertRegex(
            done.stderr,
            r"^the file is not as the model: report stock: 'left: 1\d+', and not 'left: \d+'\n$",
        )


class Words(unittest.TestCase):
    def test_more_vehicles_than_a_desk_has(self) -> None:
        for number in ('0', '101'):
            done = run('--vehicles', number)
            self.assertEqual((done.returncode, done.stdout), (2, ''))
            self.assertEqual(
                done.stderr.splitlines()[-1],
                'soak: error: --vehicles: a desk has 1 to 100 of them',
                done.stderr,
            )

    def test_help(self) -> None:
        said = ' '.join(run('--help').stdout.split())
        self.assertIn('1 to 100, the most that a desk has', said)
        self.assertIn(
            "many hundreds of vehicles' worth of traffic at the usual one or two states a second",
            said,
        )


class Growth(unittest.TestCase):
    def test_what_may_come(self) -> None:
        """Some megabytes besides; the pages that the file has more, as far as they are kept; half a
        kB for a load."""
        for early, late, wanted in (
            ((9000, 400, 10), (9500, 400, 10), (500, 4096)),
            ((9000, 400, 10), (9500, 3400, 10), (500, 4096 + 3000)),
            ((9000, 400, 10), (30000, 90000, 10), (21000, 4096 + 8192 - 400)),
            ((20000, 9000, 10), (30000, 90000, 10), (10000, 4096)),
            ((20000, 9000, 10), (30000, 90000, 1010), (10000, 4096 + 500)),
            ((9000, 4000, 10), (8000, 400, 10), (-1000, 4096)),
        ):
            figures = soak.Figures(*early), soak.Figures(*late)
            self.assertEqual(soak.grown(*figures), wanted)


if __name__ == '__main__':
    unittest.main()
