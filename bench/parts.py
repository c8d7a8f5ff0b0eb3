"""The instructions of a request from its first byte read to the last byte of its answer written,
and those of its parts, on a file: of a registration, a state, and an order with its look-ups of the
way. Each figure is a twentieth of what 20 more of them take, after 20; what a part calls counts as
its own. The parts are functions that the compiler leaves apart; what is left is the reading of the
stream, the request in it, the begin of the transaction, and the writing. Python's standard library
and valgrind.

    DESK=crates/agv_app/out/agv_app python3 bench/parts.py
"""
import os
import re
import subprocess
import sys
import tempfile
from typing import Any

HERE = os.path.dirname(os.path.abspath(__file__))
sys.path[:0] = [os.path.join(HERE, '..', folder) for folder in ('', 'tools', 'examples')]

import rounds  # noqa: E402
from tests.support import calls  # noqa: E402

DESK = os.path.abspath(os.environ.get('DESK', os.path.join(HERE, '..', 'build', 'desk')))
PARTS = [
    ('which call it is', r'agv_face::call::call_in'),
    ('decided, with its questions', r'agv_desk::decide_call::decide_each'),
    ('its rows are written', r'sqlite::transaction::Transaction::execute'),
    ('committed', r'sqlite::connection::Connection::commit'),
    ('the bytes of its answer', r'agv_face_http::\S*\bput_answer'),
]
COUNT = 20


def counted(stdin: bytes, folder: str) -> Any:
    """Returns the instructions in all, and those of each part."""
    db, out = os.path.join(folder, 'parts.db'), os.path.join(folder, 'parts.out')
    for end in ('', '-wal', '-shm'):
        if os.path.exists(db + end):
            os.remove(db + end)
    subprocess.run(
        [
            'valgrind',
            '-q',
            '--tool=callgrind',
            '--callgrind-out-file=' + out,
            DESK,
            'replay',
            '--db',
            db,
            '--at',
            rounds.AT,
        ],
        input=stdin,
        stdout=subprocess.DEVNULL,
        check=True,
    )
    text = subprocess.run(
        ['callgrind_annotate', '--inclusive=yes', '--threshold=100', out],
        capture_output=True,
        text=True,
        check=True,
    ).stdout
    rows = [
        (int(row[0].replace(',', '')), row[1])
        for row in re.findall(r'^\s*([\d,]+) \([^)]*\)\s+(.*)$', text, re.M)
    ]
    whole = max(count for count, _ in rows)
    return [whole] + [
        sum(count for count, name in rows if re.search(part + r'(?![\w])', name))
        for _, part in PARTS
    ]


def orders(count: int) -> tuple[Any, Any]:
    """Jobs for so many vehicles, and the order of each: what comes before, and the orders."""
    nodes = [f'N{i:03d}' for i in range(2 * count + 2)]
    layout = (
        'kind,id,from,to\n'
        + ''.join(f'node,{name},,\n' for name in nodes)
        + ''.join(f'edge,E{i:03d},{nodes[2 * i]},{nodes[2 * i + 1]}\n' for i in range(count))
        + ''.join(
            f'station,A{i:03d},{nodes[2 * i]},1\nstation,B{i:03d},{nodes[2 * i + 1]},1\n'
            for i in range(count)
        )
    )
    before, orders_ = [calls.layout(layout)], []
    for i in range(count):
        serial, job = f'{i:04d}', f'J{i:03d}'
        before += [
            calls.vehicle(serial, nodes[2 * i]),
            calls.state(1, node=nodes[2 * i], serial=serial),
            calls.load(f'L{i:03d}', f'A{i:03d}'),
            calls.job(job, f'L{i:03d}', f'B{i:03d}'),
        ]
        orders_.append(calls.order(f'O{i:03d}', job, 1, serial))
    return [call.to_bytes() for call in before], [call.to_bytes() for call in orders_]


def main() -> None:
    loads = [calls.load(f'L{i:07d}').to_bytes() for i in range(2 * COUNT)]
    states = [calls.state(i + 2).to_bytes() for i in range(2 * COUNT)]
    with tempfile.TemporaryDirectory() as folder:
        for name, before, requests in (
            ('a registration', rounds.START, loads),
            ('a state', rounds.START, states),
            ('an order', *orders(2 * COUNT)),
        ):
            few = counted(b''.join(before + requests[:COUNT]), folder)
            more = counted(b''.join(before + requests), folder)
            whole, *parts = [(b - a) // COUNT for a, b in zip(few, more)]
            print(f'{name!s:<30} {whole:10d}')
            for (part, _), count in zip(PARTS, parts):
                print(f'  {part!s:<28} {count:10d}')
            print(f'  {"their sum"!s:<28} {sum(parts):10d}', flush=True)


main()
