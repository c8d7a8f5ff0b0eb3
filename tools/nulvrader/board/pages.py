"""What is answered: the page itself, what is newer than a page has, and commands."""
from __future__ import annotations

import functools
import json
import os
import re
import sqlite3
import urllib.parse
from dataclasses import dataclass
from typing import Any

from ..common.text import shown
from ..drawing.floor_plan import FloorPlan
from . import entries, figures
from .answers import JSON, Reply, refused, told
from .api.routes import Api
from .api.streams import Stream
from .poller import Asker, now
from .command_values import NoCommand
from .commands import Commands, NotSent
from .guard import Guard
from .messages import Line
from .record import Record
from .request import Head
from .page_state import Shown
from .workers import Busy, Workers

FOLDER = os.path.join(os.path.dirname(__file__), 'page')
TOKEN, DO = '/api/token', '/do'  # paths for programs that give commands
CSV = 'text/csv; charset=utf-8'
TYPES = {
    '.html': 'text/html; charset=utf-8',
    '.css': 'text/css; charset=utf-8',
    '.js': 'text/javascript; charset=utf-8',
    '.json': JSON,
    '.svg': 'image/svg+xml',
}
MOVES = 50  # of a load, that a page is told
USER = 64  # characters of the name of a user
LOOKS, COMMANDS, HISTORIES, SEARCHES = 2, 8, 1, 2  # threads


@dataclass(frozen=True)
class Board:
    """What the requests are answered from. `commands` is None where nothing may be changed;
    `user_header` is the header in which a proxy says who asks, None where there is no proxy."""

    shown: Shown
    record: Record
    asker: Asker
    guard: Guard
    commands: Commands | None
    user_header: str | None
    api: Api
    plan: FloorPlan | None = None


class Pages:
    """Answers requests. Looks and commands are done by threads beside, so that nobody waits for
    those of others."""

    def __init__(self, board: Board):
        self.board = board
        self.look_workers, self.command_workers = Workers(LOOKS), Workers(COMMANDS)
        # What readers ask for may last, and keeps no look waiting.
        self.histories, self.searches = Workers(HISTORIES), Workers(SEARCHES)
        names = sorted(name for name in os.listdir(FOLDER) if os.path.splitext(name)[1] in TYPES)
        self.files = {f'/{name}': self._file(name) for name in names}
        page = self.files.pop('/index.html')
        if board.plan is not None and board.plan.picture is not None:
            picture = board.plan.picture
            self.files['/picture'] = Reply(200, picture.kind, picture.data)
        tokens = {True: board.guard.token.encode(), False: b''}
        self.fronts = {
            may: Reply(200, page.kind, page.data.replace(b'{{token}}', token))
            for may, token in tokens.items()
        }

    @staticmethod
    def _file(name: str) -> Reply:
        with open(os.path.join(FOLDER, name), 'rb') as file:
            return Reply(200, TYPES[os.path.splitext(name)[1]], file.read())

    def refusal(self, head: Head) -> Reply | None:
        """Returns the answer that refuses a request by its head alone, or None where its body may
        be read: a foreign page, or a user who may give no commands, has no body read at all."""
        guard = self.board.guard
        if fault := guard.host_fault(head.headers):
            return refused(421, fault)
        if fault := guard.site_fault(head.headers):
            return refused(403, fault)
        if head.method != 'POST':
            return None
        if wrong := guard.command_fault(head.headers):
            return refused(403, wrong)
        if self.board.commands is None:
            return refused(403, Line('page.reads'))
        if not self._may_command(head):
            return refused(403, Line('page.nobody'))
        return None

    async def answer(self, head: Head, body: bytes) -> Reply | Stream:
        """Returns what a request is answered, which was not refused."""
        path, _, query = head.target.partition('?')
        try:
            if path == TOKEN and head.method != 'POST':
                return self._token(head)
            if self.board.api.has(path):
                return await self.board.api.answer(head)
            if head.method == 'POST':
                return await self._command(path, head, body)
            asked = dict(urllib.parse.parse_qsl(query))
            if path == '/':
                return self.fronts[self._may_command(head)]
            if path == '/history':
                history = functools.partial(self._history, asked.get('load', ''))
                return await self.histories.run(history)
            if path == '/day':
                return await self.searches.run(functools.partial(self._day, asked))
            if path in ('/record', '/record.csv'):
                return await self.searches.run(functools.partial(self._entries, path, asked))
            return self._page(path, asked)
        except Busy:
            return refused(503, Line('page.busy'))

    def _token(self, head: Head) -> Reply:
        """Returns the token that a program needs for its commands, where it may give any."""
        if not self._may_command(head):
            return refused(403, Line('page.nobody'))
        return told({'token': self.board.guard.token})

    def _page(self, path: str, asked: dict[str, str]) -> Reply:
        if path == '/data':
            return self._data(asked)
        if path == '/commands':
            return told(self.board.commands.listed() if self.board.commands else [])
        return self.files.get(path) or refused(404, f'There is nothing at {path[:80]}.')

    def _data(self, asked: dict[str, str]) -> Reply:
        board, since = self.board, asked.get('since', '')
        version = int(since) if re.fullmatch('[0-9]{1,15}', since) else 0
        newer = board.shown.newer(asked.get('run', ''), version)
        asking = json.dumps(board.asker.asking)
        return Reply(200, JSON, b'{"now":%d,"asking":%s,%s}' % (now(), asking.encode(), newer))

    def _history(self, load: str) -> Reply:
        question = (
            'SELECT at, from_place, to_place FROM load_moves WHERE load = ? ORDER BY n DESC LIMIT ?'
        )
        moves = self.board.record.rows(question, (load, MOVES))
        rows = self.board.record.rows('SELECT place, since FROM loads WHERE load = ?', (load,))
        place, since = rows[0] if rows else (None, None)
        return told({'moves': moves, 'place': place, 'since': since})

    def _entries(self, path: str, asked: dict[str, str]) -> Reply:
        """Returns the entries that are asked for: a page of them, or a file."""
        try:
            if path == '/record':
                return told(entries.page_of(self.board.record.path, asked))
            return Reply(200, CSV, entries.csv_of(self.board.record.path, asked))
        except entries.BadQuestion as wrong:
            return refused(400, wrong.line)
        except sqlite3.Error as fault:
            return refused(503, Line('record.unread', {'fault': str(fault)}))

    def _day(self, asked: dict[str, str]) -> Reply:
        """Returns the figures of a day."""
        try:
            return told(figures.figures_of(self.board.record.path, asked))
        except (figures.BadDay, entries.BadQuestion) as wrong:
            return refused(400, wrong.line)
        except sqlite3.Error as fault:
            return refused(503, Line('record.unread', {'fault': str(fault)}))

    async def _command(self, path: str, head: Head, body: bytes) -> Reply:
        commands = self.board.commands
        said = object_of(body)
        if commands is None or path not in ('/may', '/look', '/do', '/take'):
            return refused(404, f'There is nothing at {path[:80]}.')
        if said is None:
            return refused(400, 'A command is a JSON object.')
        try:
            if path == '/may':
                return told({'instructs': commands.instructions is not None})
            if path == '/look':
                return told(await self.look_workers.run(functools.partial(commands.look, said)))
            do = commands.take if path == '/take' else commands.do
            done = functools.partial(do, said, self._user(head))
            return told(await self.command_workers.run(done))
        except NoCommand as wrong:
            return refused(200, wrong.line)  # no error: the page has asked, and is told
        except NotSent as fault:
            return refused(503, fault.line)

    def _may_command(self, head: Head) -> bool:
        """Whether who asks may give commands. A proxy names only those."""
        if self.board.commands is None:
            return False
        return self.board.user_header is None or bool(self._user(head))

    def _user(self, head: Head) -> str:
        """Returns who asks, as the proxy says."""
        header = self.board.user_header
        said = head.headers.get(header.lower(), '') if header else ''
        return shown(said.encode('latin-1').decode('utf-8', 'backslashreplace'), USER)


def object_of(body: bytes) -> dict[str, Any] | None:
    """Returns the object of JSON that a body is, or None."""
    try:
        said = json.loads(body)
    except (ValueError, RecursionError):
        return None
    return said if isinstance(said, dict) else None
