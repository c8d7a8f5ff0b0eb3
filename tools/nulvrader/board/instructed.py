"""What people say to the dispatcher: shown as its file has it, and changed there by commands."""
from __future__ import annotations

import time
from collections.abc import Mapping
from dataclasses import replace

from ..common.instructions import Instructions, NoInstructions, Urgency, due_time
from ..common.instructions_file import changing, read_file
from ..desk.client import Desk
from .journal import FaultLog
from .messages import Line
from .page_state import Shown
from .shown_rows import CLOSED, JOB, URGENCY, ShownKind, RowT, ShownClosed, ShownUrgency

EVERY = 1.0  # seconds from one look at the file to the next


class NotSaid(Exception):
    """The file was not changed. `line` is the sentence that says why."""

    def __init__(self, name: str, **values: object) -> None:
        self.line = Line(name, values)
        super().__init__(self.line.words())


class Instructed:
    """The instructions of a file, put where pages are told of them."""

    def __init__(self, shown: Shown, path: str) -> None:
        self.shown, self.path = shown, path
        self.due = 0.0
        self.faults = FaultLog('what people say to the dispatcher can not be read')

    def turn(self) -> None:
        """Looks at the file, where that is due. What is wrong is a line of the log, once, and shows
        nothing."""
        if time.monotonic() < self.due:
            return
        self.due = time.monotonic() + EVERY
        try:
            found, fault = read_file(self.path), None
        except NoInstructions as wrong:
            found, fault = Instructions(), str(wrong)
        self.faults.tell(fault)
        live = self.shown.all(JOB)
        self._show(
            URGENCY, {job: shown_urgency(one) for job, one in found.jobs.items() if job in live}
        )
        closed = {f'node {name}' for name in found.nodes} | {f'edge {name}' for name in found.edges}
        self._show(CLOSED, {name: ShownClosed(closed=True) for name in closed})

    def _show(self, kind: ShownKind[RowT], rows: Mapping[str, RowT]) -> None:
        """Shows these rows of a kind, and no others."""
        for name in self.shown.all(kind).keys() - rows.keys():
            self.shown.put(kind, name, None)
        for name, row in rows.items():
            self.shown.put(kind, name, row)


def shown_urgency(one: Urgency) -> ShownUrgency:
    """Returns how urgent a job is, as the page has it."""
    return {'due': one.due, 'priority': one.priority, 'truck': one.truck, 'place': one.place}


def urgency_of(said: Mapping[str, str]) -> Urgency:
    """Returns how urgent a job is, by the values of a command; what is empty is none."""
    due = due_time(said['due']) if said.get('due') else None
    place = int(said.get('place') or 0)
    return Urgency(due, int(said.get('priority') or 0), said.get('truck') or None, place)


def urge(path: str, desk: Desk, said: Mapping[str, str]) -> list[Line]:
    """Says how urgent a live job is."""
    one = urgency_of(said)
    if (one.truck is None) != (one.place == 0):
        raise NotSaid('wrong.truck')
    with changing(path) as (before, write):
        live = desk.jobs()
        if said['job'] not in live:
            raise NotSaid('wrong.job', job=said['job'])
        write(before.with_job(said['job'], one, live))
    return [Line('done.urgency', {'job': said['job']})]


def close(path: str, desk: Desk, said: Mapping[str, str]) -> list[Line]:
    """Closes a node or an edge."""
    return _change(path, said['thing'], True)


def reopen(path: str, desk: Desk, said: Mapping[str, str]) -> list[Line]:
    """Opens a node or an edge again."""
    return _change(path, said['thing'], False)


def _change(path: str, thing: str, is_closed: bool) -> list[Line]:
    kind, _, name = thing.partition(' ')
    with changing(path) as (before, write):
        names = before.nodes if kind == 'node' else before.edges
        names = names | {name} if is_closed else names - {name}
        write(replace(before, nodes=names) if kind == 'node' else replace(before, edges=names))
    return [Line('done.close' if is_closed else 'done.open', {'thing': thing})]
