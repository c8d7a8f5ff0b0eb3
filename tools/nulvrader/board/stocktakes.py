"""What a stocktake will do, looked at before as `tools/check-count` does: the faults of the file
with their lines, and which loads will move."""
from __future__ import annotations

from collections.abc import Mapping

from ..common.counts import CountFile, Records
from ..common.names import new_reference
from ..common.tables import Fault, Text
from .messages import Line
from .previews import Look
from .scene import Scene
from .shown_rows import JOB, LOAD, STATION

MOST = 20  # lines of one kind that are told


def stocktake(scene: Scene, values: Mapping[str, str]) -> Look:
    look = Look({**values, 'ref': values.get('ref') or new_reference()})
    file, records = CountFile(values['file'].encode()), records_of(scene)
    file.check(records)
    moves = file.moves(records)
    look.say('count', stations=len(file.stations()), loads=len(file.found()))
    if file.faults:
        look.say('count.refused')
        for fault in file.faults[:MOST]:
            look.warns.append(line_of(fault))
        look.warn(len(file.faults) > MOST, 'more', count=len(file.faults) - MOST)
        return look
    look.say('count.moved', loads=len(moves))
    for move in moves[:MOST]:
        look.say('count.move', load=move.load, before=move.before, after=move.after)
    if len(moves) > MOST:
        look.say('more', count=len(moves) - MOST)
    unknown = [str(row.load) for row in file.unknown(records)]
    if unknown:
        look.say('count.unknown', names=unknown[:MOST])
    return look


def line_of(fault: Fault) -> Line:
    """Returns what is wrong with the file, and what to do without the command line."""
    parts = [part for part in (fault.rule, fault.remedy) if part]
    says = [
        Line(f'count.{part.name}', part.values).told() for part in parts if isinstance(part, Text)
    ]
    values = {'words': ': '.join(parts), 'says': says}
    if fault.line is None:
        return Line('look.fault.file', values)
    return Line('look.fault', {'line': fault.line, **values})


def records_of(scene: Scene) -> Records:
    """Returns what the board knows of what the desk has."""
    return Records(
        capacities={station.name: station.capacity for station in scene.layout.stations.values()},
        places={load: row['place'] for load, row in scene.shown.all(LOAD).items()},
        jobs={job['load']: name for name, job in scene.shown.all(JOB).items()},
        reserved={station: row['reserved'] for station, row in scene.shown.all(STATION).items()},
    )
