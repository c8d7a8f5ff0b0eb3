"""What the record has of one job, load or vehicle, and the alarms."""
from __future__ import annotations

import json
from typing import Any

from ..record import text_of
from .events import event_of
from .reading import Reading, Row

EVENTS = 200  # of one thing, the newest
MOVES = 1000  # of a load, the newest

# The steps of a job: the member, the column of its moment, and how the event is named.
STEPS = (
    ('registered', 'added', 'job.added'),
    ('given', 'began', 'job.given'),
    ('picked', 'picked', 'load.picked'),
    ('dropped', 'dropped', 'load.dropped'),
)
CARRIED = ('given', 'picked', 'dropped')  # what is done with a vehicle and an order
SAID = ('at', 'mode', 'stop', 'battery', 'x', 'y', 'map', 'connection')
BY = ('cause', 'who', 'call')


def present(row: Row) -> dict[str, Any]:
    """Returns the members that are known."""
    return {name: value for name, value in row.items() if value is not None}


def events_of(reading: Reading, column: str, name: str) -> list[Row]:
    """Returns the newest events about a thing, the oldest of them first."""
    question = f'SELECT * FROM events WHERE {column} = ? ORDER BY n DESC LIMIT {EVENTS}'
    return [event_of(row) for row in reversed(reading.rows(question, (name,)))]


def job(reading: Reading, names: list[str]) -> dict[str, Any] | None:
    """Returns a job with its steps and how it has ended; None where the record has none."""
    row = reading.row('SELECT * FROM jobs WHERE job = ?', names)
    if row is None:
        return None
    events = events_of(reading, 'job', names[0])
    told = {'job': row['job'], 'load': row['load'], 'from': row['origin'], 'to': row['target']}
    told |= {'phase': row['phase'], 'order': row['order_name'], 'vehicle': row['vehicle']}
    for member, column, what in STEPS:
        if row[column] is not None:
            told[member] = step(row, member, row[column], what, events)
    if row['ended'] is not None:
        told['ended'] = end(row)
    return {**present(told), 'events': events}


def step(row: Row, member: str, at: str, what: str, events: list[Row]) -> dict[str, Any]:
    """Returns a step of a job: when, with what, and by whom."""
    found = [event for event in events if event.get('what') == what]
    by = {name: found[-1].get(name) for name in BY} if found else {}
    with_what = {'vehicle': row['vehicle'], 'order': row['order_name']}
    return present({'at': at, **(with_what if member in CARRIED else {}), **by})


def end(row: Row) -> dict[str, Any]:
    """Returns how a job has ended: `outcome` says how, `cause` and `who` by whom, and `action`
    which action of a vehicle has failed."""
    names = ('outcome', 'cause', 'who', 'action')
    with_what = {'vehicle': row['vehicle'], 'order': row['order_name']}
    return present({'at': row['ended'], **{name: row[name] for name in names}, **with_what})


def load(reading: Reading, names: list[str]) -> dict[str, Any] | None:
    """Returns where a load is, and its ways; None where the record has none."""
    row = reading.row('SELECT load, place, since FROM loads WHERE load = ?', names)
    if row is None:
        return None
    question = (
        'SELECT at, from_place, to_place FROM load_moves WHERE load = ? ORDER BY n DESC LIMIT ?'
    )
    moves = reading.rows(question, (*names, MOVES))
    live = "SELECT job FROM jobs WHERE load = ? AND phase IN ('waiting', 'riding')"
    found = reading.row(live, names)
    ways = [
        present({'at': move['at'], 'from': move['from_place'], 'to': move['to_place']})
        for move in reversed(moves)
    ]
    told = present({**row, 'job': None if found is None else found['job']})
    return {**told, 'moves': ways, 'events': events_of(reading, 'load', names[0])}


def vehicle(reading: Reading, names: list[str]) -> dict[str, Any] | None:
    """Returns how a vehicle is; None where the record has none."""
    name = '/'.join(names)
    row = reading.row('SELECT * FROM vehicles WHERE vehicle = ?', (name,))
    if row is None:
        return None
    told = {column: value for column, value in row.items() if column != 'order_name'}
    told |= {flag: bool(row[flag]) for flag in ('ready', 'paused', 'astray')}
    told['order'] = row['order_name']
    loads = reading.rows(
        'SELECT load FROM loads WHERE place = ? ORDER BY load', (f'vehicle {name}',)
    )
    waits = (
        'SELECT kind, name, holder, began AS since FROM waits WHERE vehicle = ? AND ended IS NULL'
    )
    told['waits'] = reading.row(f'{waits} ORDER BY n DESC', (name,))
    holds = 'SELECT kind, name, since FROM holds WHERE vehicle = ? ORDER BY kind, name'
    return {
        **present(told),
        'says': says(reading, name),
        'loads': [one['load'] for one in loads],
        'holds': reading.rows(holds, (name,)),
        'events': events_of(reading, 'vehicle', name),
    }


def says(reading: Reading, name: str) -> dict[str, Any]:
    """Returns what a vehicle says of itself, as far as a gateway has told it."""
    row = reading.row('SELECT * FROM vehicle_words WHERE vehicle = ?', (name,))
    if row is None:
        return {}
    told = {member: row[member] for member in SAID}
    told |= {flag: None if row[flag] is None else bool(row[flag]) for flag in ('field', 'charging')}
    told |= {member: json.loads(row[member]) for member in ('errors', 'failed')}
    told['since'] = {name: text_of(at) for name, at in json.loads(row['since']).items()}
    return present(told)


def alarms(reading: Reading, _: list[str]) -> dict[str, Any]:
    """Returns the alarms that stand, the oldest first."""
    rows = reading.rows('SELECT * FROM alarms WHERE ended IS NULL ORDER BY n')
    return {'alarms': [event_of(row) for row in rows]}
