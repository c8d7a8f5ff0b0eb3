"""The model as a whole: the table of calls, each of them one transaction, and the bytes of an
answer."""
from __future__ import annotations

import json
import re
import sqlite3
from collections.abc import Callable
from typing import Any, BinaryIO

from tests.model import answers, layouts, loads, orders, states
from tests.model.bodies import NAME, Refused, check
from tests.model.tables import TableRows, Tables

from nulvrader.desk.refusals import BY_NAME

AT = 1700000000000  # the moment of a model that is told none
REASONS = {
    200: 'OK',
    204: 'No Content',
    400: 'Bad Request',
    404: 'Not Found',
    405: 'Method Not Allowed',
    409: 'Conflict',
    411: 'Length Required',
    413: 'Payload Too Large',
    422: 'Unprocessable Entity',
    501: 'Not Implemented',
}
TYPES = {'json': 'application/json', 'plain': 'text/plain', 'csv': 'text/csv'}
ROWS: tuple[tuple[str, str, Callable[..., Any], str], ...] = (
    ('PUT', '/layout', layouts.set_layout, 'json'),
    ('POST', '/vehicles', orders.register_vehicle, 'json'),
    ('POST', '/loads', loads.register_load, 'json'),
    ('POST', '/loads/{}/correct', loads.correct_load, 'json'),
    ('POST', '/loads/{}/leave', loads.leave_load, 'json'),
    ('POST', '/jobs', loads.add_job, 'json'),
    ('DELETE', '/jobs/{}', loads.stop_job, 'json'),
    ('POST', '/orders', orders.start_order, 'json'),
    ('POST', '/drives', orders.start_drive, 'json'),
    ('POST', '/vehicles/{}/{}/advance', orders.advance, 'json'),
    ('POST', '/vehicles/{}/{}/cancel', orders.instant('cancelOrder'), 'json'),
    ('POST', '/vehicles/{}/{}/pause', orders.instant('startPause'), 'json'),
    ('POST', '/vehicles/{}/{}/resume', orders.instant('stopPause'), 'json'),
    ('POST', '/vehicles/{}/{}/place', orders.place_vehicle, 'json'),
    ('POST', '/vehicles/{}/{}/resync', orders.resync, 'json'),
    ('POST', '/uagv/v2/{}/{}/state', states.state, 'json'),
    ('GET', '/uagv/v2/{}/{}/order', answers.get_order, 'json'),
    ('GET', '/uagv/v2/{}/{}/instantActions', answers.get_instant, 'json'),
    ('POST', '/stocktakes/{}', loads.take_stock, 'json'),
    ('GET', '/loads/{}', answers.get_load, 'json'),
    ('GET', '/jobs/{}/phase', answers.get_job, 'json'),
    ('GET', '/vehicles/{}/{}', answers.get_vehicle, 'json'),
    ('GET', '/report/stock', answers.stock_report, 'plain'),
    ('GET', '/report/holds', answers.hold_report, 'plain'),
    ('GET', '/export/loads', answers.export_loads, 'csv'),
    ('GET', '/export/jobs', answers.export_jobs, 'csv'),
    ('GET', '/export/vehicles', answers.export_vehicles, 'csv'),
    ('GET', '/export/layout', answers.export_layout, 'csv'),
)
CALLS = [
    (method, re.compile(path.replace('{}', '([^/]*)')), call, kind)
    for method, path, call, kind in ROWS
]


class Model(Tables):
    """A warehouse in memory, or in a file: then with a log (WAL) that is synced at each commit, as
    the desk has it."""

    def __init__(self, path: str = ':memory:', now: int = AT) -> None:
        base = sqlite3.connect(path, isolation_level=None)
        base.row_factory = sqlite3.Row
        base.execute('PRAGMA journal_mode=WAL')
        base.execute('PRAGMA synchronous=FULL')
        super().__init__(base, now)

    @classmethod
    def of_rows(cls, rows: TableRows) -> Model:
        """A model that has these rows, by table."""
        found = cls()
        found.take_rows(rows)
        return found

    def answer(
        self, method: str, target: str, body: bytes = b''
    ) -> tuple[int, Any, str, str | None]:
        """The status of the answer to a request, what it tells, as JSON, text or None, its type,
        and the method that the path has where another was asked."""
        allow = None
        self.base.execute('BEGIN')
        try:
            for verb, pattern, call, kind in CALLS:
                found = pattern.fullmatch(target.split('?')[0])
                if found and all(NAME.fullmatch(name) for name in found.groups()):
                    allow = verb if verb != method else None
                    check(allow, 'BadMethod')
                    told = call(self, *found.groups(), body)
                    self.base.execute('COMMIT')
                    return 204 if told is None else 200, told, kind, None
            raise Refused('NoPath')
        except Refused as refused:
            self.base.execute('ROLLBACK')
            known = BY_NAME[refused.name]
            return (
                known.status,
                dict(refused.more, name=refused.name, refusal=known.number),
                'json',
                allow,
            )

    def served(self, method: str, target: str, body: bytes = b'') -> bytes:
        """The bytes of the answer."""
        status, told, kind, allow = self.answer(method, target, body)
        data = b'' if told is None else told.encode() if isinstance(told, str) else compact(told)
        head = f'HTTP/1.1 {status} {REASONS[status]}\r\n'
        if status != 204:
            head += f'Content-Length: {len(data)}\r\nContent-Type: {TYPES[kind]}\r\n'
        head += f'Allow: {allow}\r\n' if allow else ''
        return f'{head}\r\n'.encode() + data

    def serve(self, source: BinaryIO, out: BinaryIO) -> None:
        """Serves the requests of a stream, which are well formed, to its end."""
        while first := source.readline():
            method, target, _ = first.decode().split(' ')
            length = 0
            while (line := source.readline()) not in (b'\r\n', b''):
                name, value = line.decode().split(':', 1)
                if name.lower() == 'content-length':
                    length = int(value)
            out.write(self.served(method, target, source.read(length)))
            out.flush()


def compact(told: Any) -> bytes:
    return json.dumps(told, sort_keys=True, separators=(',', ':')).encode()
