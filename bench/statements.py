"""Measures each kind of call over `serve` on a file with 1,000, 100,000 and 999,000 loads at the
checking place and as many jobs that have ended: the wall time from the last byte of the request
written to the answer read, the median of some rounds, and the instructions of the program for it,
by `replay` on the file. Beside, in the same run and on copies of the same files, the statements
that the desk carries out for the call (bench/statements.txt; the layout, the room at stations, open
trips and the rows of vehicles are kept in memory, so that some calls have none) by the SQLite of C
(bench/plain_calls.c; WAL, synchronous=FULL, each text prepared once). Besides the time and the
memory of an opening, and the time in which C reads all rows of the tables. The layout and the
vehicle are set once, and reports are in bench/many_loads.py. Python's standard library, gcc with
SQLite's header and library, and valgrind.

    DESK=crates/agv_app/out/agv_app python3 bench/statements.py [SIZE..]
"""
import glob
import os
import re
import shutil
import socket
import statistics
import subprocess
import sys
import tempfile
import time

HERE = os.path.dirname(os.path.abspath(__file__))
sys.path[:0] = [os.path.join(HERE, '..', folder) for folder in ('', 'tools', 'examples')]

import rounds  # noqa: E402

DESK = os.path.abspath(os.environ.get('DESK', os.path.join(HERE, '..', 'build', 'desk')))
TURNS = int(os.environ.get('TURNS', '40'))
TABLES = (
    *('meta', 'node', 'edge', 'station', 'vehicle', 'trip', 'leg'),
    *('load', 'job', 'hold', 'used', 'capacity', 'journey', 'act'),
)


def remove(name: str) -> None:
    for end in ('', '-wal', '-shm'):
        if os.path.exists(name + end):
            os.remove(name + end)


def copied(source: str, name: str) -> str:
    """Copies a file, in the place of any other, and returns the copy's path."""
    remove(name)
    shutil.copy(source, name)
    return name


class ServedFile:
    """A desk that serves one connection."""

    def __init__(self, name: str) -> None:
        begun = time.perf_counter()
        self.desk = subprocess.Popen(
            [DESK, 'serve', '--db', name, '--port', '0', '--connections', '1'],
            stdout=subprocess.PIPE,
        )
        assert self.desk.stdout
        self.out = self.desk.stdout
        line = self.out.readline()
        self.opened = time.perf_counter() - begun
        with open(f'/proc/{self.desk.pid}/status') as status:
            memory = re.search(r'VmHWM:\s+(\d+)', status.read())
        assert memory
        self.memory = int(memory[1])
        self.line = socket.create_connection(('127.0.0.1', int(line.rsplit(b':', 1)[1])))
        self.line.setsockopt(socket.IPPROTO_TCP, socket.TCP_NODELAY, 1)

    def ask(self, what: str, bytes_: bytes) -> float:
        begun = time.perf_counter()
        self.line.sendall(bytes_)
        answer = self.line.recv(131_072)
        spent = time.perf_counter() - begun
        if not answer.startswith((b'HTTP/1.1 200', b'HTTP/1.1 204')):
            raise SystemExit(f'{what}: {answer!r}')
        return spent

    def close(self) -> None:
        self.line.close()
        self.desk.wait()
        self.out.close()


def times(name: str) -> tuple[dict[str, float], float, int]:
    """Returns the median seconds of each kind of call, and the opening."""
    desk, calls = ServedFile(name), rounds.Rounds()
    found: dict[str, list[float]] = {}
    for turn in range(TURNS + 5):
        for what, bytes_ in calls.round():
            spent = desk.ask(what, bytes_)
            if turn >= 5:
                found.setdefault(what, []).append(spent)
    desk.close()
    return (
        {what: statistics.median(spent) for what, spent in found.items()},
        desk.opened,
        desk.memory,
    )


def totals(folder: str, mark: str) -> dict[int, int]:
    """Returns the instructions between two dumps of callgrind, by the number of the second."""
    found = {}
    for path in glob.glob(os.path.join(folder, mark + '.*')):
        total = re.search(r'^(?:totals|summary):\s*(\d+)', open(path).read(), re.M)
        if total and path.rsplit('.', 1)[1].isdigit():
            found[int(path.rsplit('.', 1)[1])] = int(total.group(1))
    return found


def instructions(name: str, folder: str) -> dict[str, float]:
    """Returns the instructions of each kind of call, the mean of a round's, behind four rounds:
    from the moment at which the desk looks which call it is to that of the next one, each sent when
    the one before it was answered."""
    out = os.path.join(folder, 'desk.callgrind')
    calls = rounds.Rounds()
    asked: list[tuple[str, bytes]] = []
    for _ in range(5):
        first = len(asked)
        asked += calls.round()
    last = len(asked)
    asked += calls.round()
    desk = subprocess.Popen(
        [
            'valgrind',
            '-q',
            '--tool=callgrind',
            '--dump-before=agv_face::call::call_in*',
            '--callgrind-out-file=' + out,
            DESK,
            'replay',
            '--db',
            name,
            '--at',
            rounds.AT,
        ],
        stdin=subprocess.PIPE,
        stdout=subprocess.PIPE,
    )
    assert desk.stdin and desk.stdout
    for what, bytes_ in asked:
        desk.stdin.write(bytes_)
        desk.stdin.flush()
        answer = os.read(desk.stdout.fileno(), 131_072)
        if not answer.startswith((b'HTTP/1.1 200', b'HTTP/1.1 204')):
            raise SystemExit(f'{what}: {answer!r}')
    desk.stdin.close()
    desk.wait()
    desk.stdout.close()
    found = totals(folder, 'desk.callgrind')
    counts: dict[str, list[int]] = {}
    for number in range(first, last):
        counts.setdefault(asked[number][0], []).append(found[number + 2])
    for path in glob.glob(out + '*'):
        os.remove(path)
    return {what: float(statistics.mean(some)) for what, some in counts.items()}


def plain_times(
    plain: str,
    name: str,
    statements: str = os.path.join(HERE, 'statements.txt'),
    turns: int = TURNS,
) -> dict[str, float]:
    done = subprocess.run(
        [plain, name, statements, str(turns)], capture_output=True, check=True, text=True
    )
    return {
        what: float(spent)
        for what, spent in (line.rsplit(None, 1) for line in done.stdout.splitlines())
    }


def plain_instructions(plain: str, name: str, folder: str) -> dict[str, int]:
    out = os.path.join(folder, 'plain.callgrind')
    done = subprocess.run(
        [
            'valgrind',
            '-q',
            '--tool=callgrind',
            '--callgrind-out-file=' + out,
            plain,
            name,
            os.path.join(HERE, 'statements.txt'),
            '2',
        ],
        capture_output=True,
        check=True,
        text=True,
    )
    kinds = [line.rsplit(None, 1)[0] for line in done.stdout.splitlines()]
    found = {}
    for path in glob.glob(out + '*'):
        text = open(path).read()
        what = re.search(r'^desc: Trigger: Client Request: (.*)$', text, re.M)
        total = re.search(r'^(?:totals|summary):\s*(\d+)', text, re.M)
        if what and total and what[1] in kinds:
            found[what[1]] = int(total[1])
        os.remove(path)
    return found


def with_statements() -> set[str | None]:
    """Returns the kinds of call that have a statement."""
    found: set[str | None] = set()
    what: str | None = None
    with open(os.path.join(HERE, 'statements.txt')) as lines:
        for line in lines:
            if line.startswith('= '):
                what = line[2:].strip()
            elif line.strip():
                found.add(what)
    return found


def compiled(folder: str) -> str:
    """Returns the program that carries the statements out by SQLite alone."""
    plain = os.path.join(folder, 'plain')
    source = os.path.join(HERE, 'plain_calls.c')
    subprocess.run(['gcc', '-O2', '-o', plain, source, '-lsqlite3'], check=True)
    return plain


def begun(folder: str) -> str:
    """Returns a file of a desk in which a round may begin."""
    start = os.path.join(folder, 'start.db')
    subprocess.run(
        [DESK, 'replay', '--db', start, '--at', rounds.AT],
        input=b''.join(rounds.START),
        stdout=subprocess.DEVNULL,
        check=True,
    )
    return start


def reading(folder: str) -> str:
    """Returns the statements that read all rows of a desk's file."""
    path = os.path.join(folder, 'tables.txt')
    with open(path, 'w') as file:
        file.write('= opening\n' + ''.join(f'SELECT * FROM {name}\n' for name in TABLES))
    return path


def print_size(size: int, start: str, plain: str, tables: str) -> None:
    """What the calls take on a file with so many loads."""
    rounds.fill(start, size)
    folder = os.path.dirname(start)
    run = os.path.join(folder, 'run.db')
    ours, opened, memory = times(copied(start, run))
    theirs = plain_times(plain, copied(start, run))
    read = plain_times(plain, copied(start, run), tables, 1)['opening']
    counts = instructions(copied(start, run), folder)
    plain_counts = plain_instructions(plain, copied(start, run), folder)
    print(
        f'{size} loads and ended jobs: opened in {opened:.2f} s, {memory // 1024} MB;'
        f' SQLite reads the rows in {read:.2f} s'
    )
    heads = ('desk, us', 'SQLite, us'), ('desk, instr.', 'SQLite')
    print(f'{"":<34}', *(f'{head:>10}' for head in heads[0]), f'{"times":>6}', end=' ')
    print(*(f'{head:>12}' for head in heads[1]))
    stated = with_statements()
    for what in ours:
        ratio = f'{ours[what] / theirs[what]:.2f}' if what in stated else '-'
        print(
            f'{what:<34} {ours[what] * 1e6:10.0f} {theirs[what] * 1e6:10.0f} {ratio:>6}'
            f' {counts[what]:12.0f} {plain_counts.get(what, 0):12d}',
            flush=True,
        )
    remove(run)


def main() -> None:
    sizes = [int(word) for word in sys.argv[1:]] or [1_000, 100_000, 999_000]
    with tempfile.TemporaryDirectory() as folder:
        plain, start, tables = compiled(folder), begun(folder), reading(folder)
        for size in sizes:
            print_size(size, start, plain, tables)


if __name__ == '__main__':
    main()
