"""A desk that the tests of docs/OPERATE.md work with, and the texts of the pages."""
from __future__ import annotations

import json
import os
import re
import tempfile
import unittest
from typing import Any

from tests.support.desks import AT, run
from tests.support.programs import ROOT, matched
from tests.support.script_calls import bytes_of
from tests.support.siding import siding

TOOLS = os.path.join(ROOT, 'tools')
PICKED = [('O1.0', 'FINISHED')]

SIDING = siding(3, 3, 3)


def text_of(*path: str) -> Any:
    with open(os.path.join(ROOT, *path)) as file:
        return file.read()


def section(page: Any, title: Any) -> Any:
    """The text under a heading, up to the next one of its rank or a higher one."""
    marks, rest = matched(fr'^(#+) {re.escape(title)}\n(.*)', text_of(page), re.S | re.M).groups()
    return re.split(fr'^#{{1,{len(marks)}}} ', rest, flags=re.M)[0]


def texts_of_the_help() -> Any:
    """Of the program and each subcommand the name and the text, as docs/HTTP.md has them."""
    return re.findall(r'^\| `(\w+)` \| (.*) \|$', section('docs/HTTP.md', 'The command line'), re.M)


PAGE = text_of('docs', 'OPERATE.md')

# Of a call: how it is answered that is asked again where it was done, and what shows that it was.
AGAIN = {
    call: (answer, shown)
    for call, answer, shown in re.findall(
        r'^\| `([^`]+)` \| (.*?) \| (.*?) \|$',
        section('docs/OPERATE.md', 'The answer was lost'),
        re.M,
    )
}


class Program(unittest.TestCase):
    def setUp(self) -> None:
        self.folder = tempfile.TemporaryDirectory()
        self.db = os.path.join(self.folder.name, 'warehouse.db')

    def tearDown(self) -> None:
        self.folder.cleanup()

    def path(self, *names: str) -> Any:
        return os.path.join(self.folder.name, *names)

    def write(self, lines: Any, db: str | None = None) -> None:
        """Has a file served these requests, each answered by 200."""
        status, out, said = run(
            'replay', '--db', db or self.db, '--at', AT, stdin=b''.join(map(bytes_of, lines))
        )
        self.assertEqual((status, said), (0, b''))
        self.assertEqual(out.count(b'HTTP/1.1 200 OK'), len(lines), out.decode())

    def ask(self, desk: Any, request: Any, body: Any = None) -> tuple[Any, Any]:
        """One request: its status, and its body, as JSON where it is."""
        method, target = request.split(' ')
        data = body if isinstance(body, (str, type(None))) else json.dumps(body)
        status, told = desk.ask(method, target, data.encode() if data is not None else b'')
        return status, json.loads(told) if told[:1] == b'{' else told.decode()

    def done(self, desk: Any, *lines: Any) -> None:
        for request, body, *_ in lines:
            status, told = self.ask(desk, request, body)
            self.assertEqual(
                (status, told == {'accepted': False}), (200, False), (request, body, told)
            )

    def refused(self, desk: Any, line: Any, name: str, **more: Any) -> None:
        told = self.ask(desk, *line[:2])[1]
        self.assertEqual({key: told[key] for key in ('name', *more)}, {'name': name, **more}, line)

    def seen(self, desk: Any) -> list[Any]:
        """All that can be asked of the desk."""
        paths = [
            '/report/stock',
            '/report/holds',
            '/export/loads',
            '/vehicles/KIT/0001',
            '/uagv/v2/KIT/0001/order',
        ]
        return [self.ask(desk, 'GET ' + path) for path in paths]
