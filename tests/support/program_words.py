"""Lines that the program refuses, and what its help says."""
from __future__ import annotations

import sqlite3
import sys
from typing import Any


def refused_value(value: Any, of: Any, why: str = '') -> str:
    return f"error: invalid value '{value}' for '{of}'{why}"


LACKING = 'error: the following required arguments were not provided:'
MEMORY = ('replay', '--db', 'memory')

# Lines that are refused, each with how the text begins.
REFUSED: list[tuple[tuple[Any, ...], str]] = [
    ((), "error: 'desk' requires a subcommand but one was not provided"),
    (('start',), "error: unrecognized subcommand 'start'"),
    (('serve',), LACKING + '\n  --db <FILE>\n  --port <P>\n  --connections <N>\n'),
    (('report', '--db', 'a.db'), LACKING + '\n  <REPORT>\n'),
    (MEMORY, LACKING + '\n  --at <MILLIS>\n'),
    (MEMORY + ('--at',), "error: a value is required for '--at <MILLIS>' but none was supplied"),
    (
        MEMORY + ('--at', '1', '--at', '2'),
        "error: the argument '--at <MILLIS>' cannot be used multiple times",
    ),
    (MEMORY + ('--at', '-1'), "error: unexpected argument '-1' found"),
    (MEMORY + ('--at=-1',), refused_value('-1', '--at <MILLIS>')),
    (MEMORY + ('--at', ''), refused_value('', '--at <MILLIS>')),
    (MEMORY + ('--at', 'x'), refused_value('x', '--at <MILLIS>')),
    (
        MEMORY + ('--at', '4102444800000'),
        refused_value(
            '4102444800000', '--at <MILLIS>', ': 4102444800000 is not in 0..=4102444799999'
        ),
    ),
    (
        ('serve', '--db', 'a.db', '--port', '65536', '--connections', '1'),
        refused_value('65536', '--port <P>', ': 65536 is not in 0..=65535'),
    ),
    (
        ('serve', '--db', 'a.db', '--port', '0', '--connections', '4294967296'),
        refused_value('4294967296', '--connections <N>', ': 4294967296 is not in 0..=4294967295'),
    ),
    (
        ('report', '--db', 'a.db', 'all'),
        refused_value('all', '<REPORT>', '\n  [possible values: stock, holds]\n'),
    ),
    (('report', '--db', 'a.db', 'stock', 'holds'), "error: unexpected argument 'holds' found"),
    (('x',) * 20_000, "error: unrecognized subcommand 'x'"),
    (('x' * 100_000,), f"error: unrecognized subcommand '{'x' * 100_000}'"),
    ((b'\xff',), 'error: an argument is not UTF-8\n'),
    (MEMORY + ('--at', b'\xff'), 'error: an argument is not UTF-8\n'),
    (
        ('--help',),
        (
            'Nulvrader 0.1.0, the control desk of one warehouse: its vehicles, loads and'
            ' orders\n\nUsage: desk <COMMAND>\n\nCommands:\n  replay  '
        ),
    ),
    (
        ('replay', '--help'),
        'Reads requests from standard input and writes the answers to standard output\n\nUsage: ',
    ),
    (
        ('report', '--help'),
        'Prints a report of the records: where the loads are, or what the vehicles hold\n\nUsage: ',
    ),
    (
        ('migrate', '--help'),
        'Migrates a file of the first schema (one load a vehicle) to the second\n\nUsage: ',
    ),
    (('migrate',), LACKING + '\n  --db <FILE>\n'),
    (
        ('serve', '--help'),
        'Answers requests over the network, to programs on this machine (127.0.0.1)\n\nUsage: ',
    ),
]

# The example at the end of the help of the command, and of each subcommand.
FILE_OPTION = {'--db <FILE>': 'The file that keeps the records'}
OPTIONS = {
    'replay': {
        '--db <FILE|memory>': (
            'The file that keeps the records; `memory` keeps them for this run only'
        ),
        '--at <MILLIS>': (
            'The moment of all requests, in milliseconds since the start of 1970 (UTC)'
        ),
    },
    'serve': {
        **FILE_OPTION,
        '--port <P>': 'The port on this machine, 0 to 65535; 0 picks a free one and prints it',
        '--connections <N>': (
            'How many connections are served, one after another, before the program ends'
        ),
    },
    'report': {
        **FILE_OPTION,
        '<REPORT>': (
            '`stock`: each load and its place; `holds`: the nodes and edges that each vehicle holds'
            ' [possible values: stock, holds]'
        ),
    },
    'migrate': FILE_OPTION,
}
EXAMPLES = {
    '': 'desk replay --db memory --at 1700000000000 < requests.txt',
    'replay': 'desk replay --db memory --at 1700000000000 < requests.txt',
    'serve': 'desk serve --db desk.db --port 8080 --connections 100',
    'report': 'desk report --db desk.db stock',
    'migrate': "sqlite3 desk.db '.backup before.db'; desk migrate --db desk.db",
}

# What stands for the command `sqlite3`, which not every machine has.
SQLITE = f'''#!{sys.executable}
import sqlite3, sys
command, copy = sys.argv[2].split()
assert command == '.backup'
sqlite3.connect(sys.argv[1]).backup(sqlite3.connect(copy))
'''


def write_first(db: str) -> None:
    """Makes a file of the first schema by another SQLite: KIT/0001 stands at N1 with an order of
    two edges for L1, from A to B."""
    from tests.support.first_schema import BEGUN, FIRST  # which takes from this file itself

    base = sqlite3.connect(db)
    base.executescript(FIRST + BEGUN)
    base.close()
