"""Shows that a call which lacks memory is answered by the refusal for want of memory, which
ends the stream, and that a stocktake that was answered is kept, and one that was not has moved
nothing."""
import os
import resource
import subprocess
import tempfile
import unittest
from typing import Any

from tests.support import calls
from tests.support.calls import request
from tests.support.fault_files import ALL
from tests.support.faults import MEMORY, asks
from tests.support.records import FOLDER
from tests.support.answers import answers_of
from tests.support.desks import AT, DESK, over_sockets, run

LOADS = 20_000
REPORT, EXPORT = calls.STOCK_REPORT.to_bytes(), calls.LOADS_EXPORT.to_bytes()
ASKED = b''.join(
    [
        request('GET /loads/L00001'),
        *map(calls.Call.to_bytes, calls.REPORTS),
        request('GET /loads/L00002'),
    ]
)

# Ten stations, at which these loads stand by turns: each stocktake moves them all, from the
# checking place or from station to station.
STATIONS, COUNTED, TURNS = 10, 6_000, (1, 2, 3)
MOVED = 200, b'{"moved":%d,"unknown":[]}' % COUNTED
LIMITS = range(14, 32) if not ALL else [quarters / 4 for quarters in range(4 * 8, 4 * 40)]  # in MiB
LAYOUT = 'kind,id,from,to\nnode,N1,,\n' + ''.join(
    f'station,S{at},N1,999\n' for at in range(STATIONS)
)


def station_of(number: int, turn: Any) -> Any:
    return (number + turn) % STATIONS


def stocktake(turn: Any) -> Any:
    rows = ''.join(f'S{station_of(number, turn)},L{number:05d}\n' for number in range(COUNTED))
    return request(f'POST /stocktakes/R{turn}', 'station,load\n' + rows)


def export(turn: Any) -> bytes:
    """The export after so many stocktakes."""
    lines = ['load,place,at']
    for number in range(COUNTED):
        place = f'station,S{station_of(number, turn)}' if turn else 'checking,'
        lines.append(f'L{number:05d},{place}')
    return '\n'.join([*lines, '']).encode()


def report(turn: Any) -> bytes:
    """The stock report after so many stocktakes."""
    loads: dict[Any, list[str]] = {at: [] for at in (*range(STATIONS), 'checking')}
    told = ''
    for number in range(COUNTED):
        loads[station_of(number, turn) if turn else 'checking'].append(f'  L{number:05d}\n')
    for at, here in loads.items():
        head = (
            f'station S{at} at N1: {len(here)} of 999, reserved 0\n'
            if at != 'checking'
            else f'checking: {len(here)}\n'
        )
        told += head + ''.join(here)
    return (told + 'left: 0\n').encode()


def limit(mebibytes: Any) -> Any:
    """What gives the program no more than so many MiB of addresses, as `ulimit -v` does."""
    size = int(mebibytes * (1 << 20))
    return lambda: resource.setrlimit(resource.RLIMIT_AS, (size, size))


class LittleMemory(unittest.TestCase):
    def setUp(self) -> None:
        self.folder = tempfile.TemporaryDirectory(dir=FOLDER)
        self.db = os.path.join(self.folder.name, 'many.db')

    def tearDown(self) -> None:
        self.folder.cleanup()

    def whole(self, out: Any) -> list[tuple[Any, Any]]:
        """The answers of an output, which has nothing else."""
        found, left = answers_of(out)
        self.assertEqual(left, b'')
        return [(answer.status, answer.body) for answer in found]

    def asked(self, stdin: bytes) -> Any:
        """What the program writes with all the memory that it wants."""
        status, out, said = run('replay', '--db', self.db, '--at', AT, stdin=stdin)
        self.assertEqual((status, said), (0, b''))
        return out

    def front(self, mebibytes: Any, stdin: bytes) -> tuple[Any, bool, bool]:
        """What the program writes in so little memory before it lacks some, and whether it was
        opened, and whether it has served all."""
        done = subprocess.run(
            [DESK, 'replay', '--db', self.db, '--at', AT],
            input=stdin,
            capture_output=True,
            timeout=600,
            preexec_fn=limit(mebibytes),
        )
        status, out, said = done.returncode, done.stdout, done.stderr
        if status == 0:
            self.assertEqual(said, b'')
            return out, True, True
        self.assertEqual((status, said), (1, b'fault: Memory\n'), mebibytes)
        if not out:
            return out, False, False
        self.assertTrue(out.endswith(MEMORY), (mebibytes, out[-300:]))
        return out[: -len(MEMORY)], True, False

    def test_reports_in_less_and_less_memory(self) -> None:
        self.asked(
            b''.join(
                request('POST /loads', f'{{"load":"L{number:05d}"}}') for number in range(LOADS)
            )
        )
        whole = self.asked(ASKED)
        self.assertEqual(
            [status for status, _ in self.whole(whole)], [200] * (2 + len(calls.REPORTS))
        )
        met = set()
        for mebibytes in range(8, 40):
            out, opened, served = self.front(mebibytes, ASKED)
            self.assertTrue(out == whole if served else whole.startswith(out))
            met.add('served' if served else 'refused' if opened else 'not opened')
        self.assertEqual(met, {'not opened', 'refused', 'served'})
        self.assertEqual(self.asked(ASKED), whole)

    def counted(self) -> Any:
        """The files of a desk with all loads at the checking place, each time they are asked
        for."""
        self.asked(
            request('PUT /layout', LAYOUT)
            + b''.join(
                request('POST /loads', f'{{"load":"L{number:05d}"}}') for number in range(COUNTED)
            )
        )
        self.check_turn(0)
        files = {}
        for end in ('', '-wal'):
            with open(self.db + end, 'rb') as file:
                files[end] = file.read()

        def put() -> None:
            for end, data in files.items():
                with open(self.db + end, 'wb') as file:
                    file.write(data)

        return put

    def check_turn(self, turn: Any, *of: Any) -> None:
        """The loads are where this stocktake found them."""
        self.assertTrue(self.whole(self.asked(EXPORT)) == [(200, export(turn))], (turn, *of))

    def test_stocktakes_in_less_and_less_memory(self) -> None:
        """In one stream: as many stocktakes as were answered are kept."""
        put = self.counted()
        met: dict[Any, Any] = {}
        stdin, wanted = REPORT.join(map(stocktake, TURNS)), [MOVED]
        for turn in TURNS[:-1]:
            wanted += [(200, report(turn)), MOVED]
        for mebibytes in LIMITS:
            put()
            out, opened, served = self.front(mebibytes, stdin)
            found = self.whole(out)
            self.assertTrue(
                found == wanted[: len(found)],
                (mebibytes, [(status, body[:100]) for status, body in found]),
            )
            self.assertEqual(served, len(found) == len(wanted), mebibytes)
            turn = len(found[::2])
            self.check_turn(turn, mebibytes)
            what = turn if opened else 'not opened'
            met[what] = met.get(what, 0) + 1
        if ALL:
            print(f'limits of memory, by how many of {len(TURNS)} stocktakes were answered: {met}')
        self.assertTrue({'not opened', 0, TURNS[-1]} <= set(met), met)
        self.assertTrue(set(TURNS[:-1]) & set(met), f'no limit ends between two stocktakes: {met}')

    def by_connections(self, port: int, met: Any, mebibytes: Any) -> Any:
        """Each stocktake, and a report behind it, over a connection of its own. It gives the last
        stocktake that was answered."""
        last, refused = 0, False
        for turn in TURNS:
            for what, asked, told in (
                ('stocktake', stocktake(turn), MOVED),
                ('report', REPORT, None),
            ):
                out = asks(port, asked)
                if out in (b'', MEMORY):
                    refused, key = True, what + ' refused'
                else:
                    last = turn if what == 'stocktake' else last
                    self.assertTrue(
                        self.whole(out) == [told or (200, report(last))],
                        (mebibytes, turn, what, out[:300]),
                    )
                    key = what + (' after a refusal' if refused else '')
                met[key] = met.get(key, 0) + 1
        return last

    @over_sockets
    def test_connections_in_less_and_less_memory(self) -> None:
        """The desk goes on after a refusal, which ends its connection alone."""
        put = self.counted()
        met: dict[Any, Any] = {}
        for mebibytes in LIMITS[::2]:
            put()
            words = [DESK, 'serve', '--db', self.db, '--port', '0', '--connections', '1000']
            with subprocess.Popen(
                words, stdout=subprocess.PIPE, stderr=subprocess.PIPE, preexec_fn=limit(mebibytes)
            ) as process:
                try:
                    assert process.stdout and process.stderr
                    line = process.stdout.readline()
                    if not line:
                        self.assertEqual(process.stderr.read(), b'fault: Memory\n', mebibytes)
                        continue
                    last = self.by_connections(int(line.rsplit(b':', 1)[1]), met, mebibytes)
                    self.assertIsNone(process.poll(), mebibytes)
                finally:
                    process.kill()
            self.check_turn(last, mebibytes)
        if ALL:
            print(f'connections in little memory: {met}')
        self.assertTrue(
            set(met) >= {'stocktake', 'stocktake refused', 'report', 'report after a refusal'}, met
        )


if __name__ == '__main__':
    unittest.main()
