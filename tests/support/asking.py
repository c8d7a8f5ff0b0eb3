"""A folder with a desk that `tools/ask` is told of."""
from __future__ import annotations

import json
import os
import tempfile
import unittest
from typing import Any

from tests.support import programs
from tests.support.desks import Serving
from tests.support.programs import within
from tests.support.siding import siding
from tests.support.states import told

ask = programs.module('ask')

# Three nodes in a row, and a siding N4 at N2; two stations with room for three loads each, and one
# for two.
PLANT = siding(3, 3, 2)


class Asking(unittest.TestCase):
    """A folder with a desk that `ask` is told of by its variable."""

    def setUp(self) -> None:
        folder = tempfile.TemporaryDirectory()
        self.addCleanup(folder.cleanup)
        self.folder, self.db = folder.name, os.path.join(folder.name, 'warehouse.db')
        self.env: dict[str, str] = {}
        self.serving: Any = None

    def serve(self) -> None:
        self.serving = Serving(self.db)
        self.addCleanup(self.serving.__exit__)
        self.env['NULVRADER_DESK'] = f'127.0.0.1:{self.serving.port}'

    def stop(self) -> None:
        self.serving.__exit__()

    def file(self, name: str, text: str) -> Any:
        path = os.path.join(self.folder, name)
        with open(path, 'w') as file:
            file.write(text)
        return path

    def ask(self, line: str, *more: Any, stdin: str = '', status: int = 0) -> Any:
        """What a command prints; on standard error where it does not end with 0."""
        ends, out, said = within(ask, *line.split(), *more, stdin=stdin, env=self.env)
        self.assertEqual(ends, status, out + said)
        self.assertEqual(bool(said), status != 0, said)
        return said if status else out

    def json(self, line: str) -> Any:
        return json.loads(self.ask('--json ' + line))

    def state(
        self,
        number: int,
        serial: str = '0001',
        order: str = '',
        update: int = 0,
        node: str = 'N1',
        sequence: int = 0,
        done: Any = (),
    ) -> Any:
        """Posts a state, in which these actions of the order are finished."""
        statuses = [
            (one if one.startswith('instant') else f'{order}.{one}', 'FINISHED') for one in done
        ]
        message = told(number, order, update, node, sequence, statuses, serial)
        return self.ask(f'post-state KIT/{serial} -', stdin=json.dumps(message))
