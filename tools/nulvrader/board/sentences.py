"""What changes, as the page and the record are told: rows, and parts of sentences."""
from __future__ import annotations

from collections.abc import Sequence

from ..desk.client import ExportedVehicle
from .live_jobs import LiveJob
from .messages import Line
from .progress import Way
from .shown_rows import Rest, ShownAct, ShownJob, ShownVehicle, ShownWait, ShownWay, VehicleColumns
from .waits import Wait


def job(told: LiveJob) -> ShownJob:
    """Returns a job as the page has it."""
    return {
        'load': told.load,
        'origin': told.origin,
        'target': told.target,
        'phase': told.phase,
        'order': told.order,
        'vehicle': told.vehicle,
        'added': told.added,
        'began': told.began,
    }


def stops(told: Way) -> list[Line]:
    """Returns what is picked and dropped on a way, or where a drive leads."""
    acts = [
        Line(f'stop.{act.kind}', {'load': act.load, 'station': act.station}) for act in told.acts
    ]
    return acts or [Line('stop.drive', {'node': told.nodes[-1]})]


def vehicle(row: ExportedVehicle) -> VehicleColumns:
    """Returns how a vehicle is, by the columns of `vehicles`."""
    return {
        'node': row.node,
        'order_name': row.order,
        'seen': row.seen,
        'base': row.released,
        'edges': row.edges,
        'sent': row.sent,
        'confirmed': row.confirmed,
        'pending': row.pending,
        'ready': int(row.ready),
        'paused': int(row.paused),
        'astray': int(row.astray),
        'capacity': row.capacity,
    }


def shown_vehicle(
    values: VehicleColumns,
    *,
    loads: Sequence[str],
    rest: Rest | None,
    silent: int | None,
    header: int | None,
    unready: int | None,
) -> ShownVehicle:
    """Returns how a vehicle is, as the page has it."""
    return {
        'node': values['node'],
        'order_name': values['order_name'],
        'seen': values['seen'],
        'base': values['base'],
        'edges': values['edges'],
        'sent': values['sent'],
        'confirmed': values['confirmed'],
        'pending': values['pending'],
        'ready': values['ready'],
        'paused': values['paused'],
        'astray': values['astray'],
        'capacity': values['capacity'],
        'loads': loads,
        'rest': rest,
        'silent': silent,
        'header': header,
        'unready': unready,
    }


def way(told: Way) -> ShownWay:
    """Returns the way of an order as the page draws it."""
    acts: list[ShownAct] = [
        {'kind': act.kind, 'load': act.load, 'station': act.station, 'at': act.at}
        for act in told.acts
    ]
    return {
        'order': told.order,
        'first': told.first,
        'nodes': told.nodes,
        'edges': told.edges,
        'acts': acts,
    }


def wait(told: Wait, at: int) -> ShownWait:
    """Returns which thing a vehicle waits for, and who holds it."""
    return {
        'kind': told.thing[0],
        'name': told.thing[1],
        'by': told.by,
        'stands': told.stands,
        'since': at,
    }
