"""Times streams of requests through the built program, and counts the instructions of one request.
Python's standard library alone; valgrind for the counts.

    DESK=crates/agv_app/out/agv_app python3 bench/streams.py
"""
import http.client
import json
import os
import re
import subprocess
import sys
import tempfile
import time

HERE = os.path.dirname(os.path.abspath(__file__))
sys.path[:0] = [os.path.join(HERE, '..', folder) for folder in ('', 'tools', 'examples')]

from loads import AT, DESK, calls, load  # noqa: E402

PLAIN = os.path.join(HERE, 'plain_desk.py')
LAYOUT = (
    'kind,id,from,to\nnode,N1,,\nnode,N2,,\nnode,N3,,\nedge,E12,N1,N2\nedge,E21,N2,N1\n'
    'edge,E23,N2,N3\nedge,E32,N3,N2\nstation,A,N1,999\nstation,B,N3,999\n'
)


def state(number: int) -> bytes:
    """Returns the request with a vehicle's state of this `headerId`."""
    return calls.state(number).to_bytes()


START = calls.layout(LAYOUT).to_bytes() + calls.vehicle('0001', 'N1').to_bytes()


def mixed(count: int) -> bytes:
    """Returns so many requests, a registration and a state in turn."""
    return b''.join(load(i) + state(i + 1) for i in range(count // 2))


def best(words: list[str], stdin: bytes, fresh: str, turns: int = 3) -> tuple[float, bytes]:
    """Returns the least seconds of some runs, and the output of the last."""
    spent, out = [], b''
    for _ in range(turns):
        for end in ('', '-wal', '-shm'):
            if os.path.exists(fresh + end):
                os.remove(fresh + end)
        begun = time.perf_counter()
        done = subprocess.run(words, input=stdin, capture_output=True)
        spent.append(time.perf_counter() - begun)
        if done.returncode:
            sys.exit(done.stderr.decode())
        out = done.stdout
    return min(spent), out


def instructions(stdin: bytes, db: str) -> int:
    """Returns how many instructions the desk takes for these requests, as valgrind counts them."""
    done = subprocess.run(
        [
            'valgrind',
            '--tool=callgrind',
            '--callgrind-out-file=/dev/null',
            DESK,
            'replay',
            '--db',
            db,
            '--at',
            AT,
        ],
        input=stdin,
        capture_output=True,
    )
    found = re.search(rb'Collected : (\d+)', done.stderr)
    assert found
    return int(found[1])


def counted(name: str, before: bytes, requests: list[bytes], folder: str) -> None:
    """Prints the instructions of one request, in memory and in a file: what a hundred more of them
    take, by a hundred."""
    for db in ('memory', os.path.join(folder, 'counted.db')):
        figures = []
        for count in (100, 200):
            if db != 'memory':
                for end in ('', '-wal', '-shm'):
                    if os.path.exists(db + end):
                        os.remove(db + end)
            figures.append(instructions(before + b''.join(requests[:count]), db))
        print(
            (
                f'{name!s:<24} {"memory" if db == "memory" else "file"!s:<7} '
                f'{(figures[1] - figures[0]) // 100:9d} instructions'
            ),
            flush=True,
        )


def sockets(words: list[str], count: int) -> float:
    """Returns the seconds in which a desk answers so many registrations over one connection, the
    client's own time among them."""
    desk = subprocess.Popen(words, stdout=subprocess.PIPE)
    assert desk.stdout
    port = int(desk.stdout.readline().split(b':')[1])
    connection = http.client.HTTPConnection('127.0.0.1', port)
    begun = time.perf_counter()
    for number in range(count):
        connection.request('POST', '/loads', json.dumps({'load': f'L{number:07d}'}))
        connection.getresponse().read()
    spent = time.perf_counter() - begun
    connection.close()
    desk.wait()
    desk.stdout.close()
    return spent


with tempfile.TemporaryDirectory() as folder:
    file = os.path.join(folder, 'desk.db')
    plain = os.path.join(folder, 'plain.db')
    for count, where in ((20_000, 'memory'), (2_000, 'file')):
        stdin = mixed(count)
        ours, out = best(
            [DESK, 'replay', '--db', 'memory' if where == 'memory' else file, '--at', AT],
            START + stdin,
            file,
        )
        theirs, plain_out = best(
            [sys.executable, PLAIN, ':memory:' if where == 'memory' else plain, AT],
            START + stdin,
            plain,
        )
        if out.count(b'200 OK') - 2 != count or plain_out != out:
            sys.exit('not all requests were answered 200, and alike')
        print(
            (
                f'{count:6d} mixed requests, {where!s:<6}  desk {ours:7.3f} s, plain desk'
                f' {theirs:7.3f} s'
            ),
            flush=True,
        )
    ours = sockets(
        [
            DESK,
            'serve',
            '--db',
            os.path.join(folder, 'served.db'),
            '--port',
            '0',
            '--connections',
            '1',
        ],
        2_000,
    )
    theirs = sockets(
        [sys.executable, PLAIN, os.path.join(folder, 'plain_served.db'), AT, '0'], 2_000
    )
    print(
        (
            f'{2_000:6d} registrations over one connection, file: desk {2_000 / ours:.0f} requests'
            f' a second, plain desk {2_000 / theirs:.0f}'
        ),
        flush=True,
    )
    counted('registration', START, [load(i) for i in range(200)], folder)
    counted('state', START, [state(i + 1) for i in range(200)], folder)
    begun = calls.load('L1', 'A'), calls.job('J1', 'L1', 'B'), calls.order('O1', 'J1', 1)
    orders = START + state(1) + b''.join(call.to_bytes() for call in begun)
    counted('order message', orders, [calls.get_order().to_bytes()] * 200, folder)
    counted('question for a load', orders, [calls.get_load('L1').to_bytes()] * 200, folder)
    counted('stock report, one load', orders, [calls.STOCK_REPORT.to_bytes()] * 200, folder)
