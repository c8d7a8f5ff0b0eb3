"""The commands of `tools/ask` that change nothing, of one call or of several."""
from __future__ import annotations

import argparse
import dataclasses
import functools
from collections.abc import Callable, Iterable

from ..desk import arguments, exports, questions, refusals, reports
from ..desk.client import Desk, Job, JobPhase, Vehicle
from .subcommands import (
    LOAD,
    VEHICLE,
    Subcommand,
    Output,
    UsageError,
    subcommand,
    name_argument,
    table,
    argument,
)
from ..common.names import natural, quoted

QUESTIONS: list[Subcommand] = []
reads = functools.partial(subcommand, QUESTIONS)
BY_VEHICLE = argument('--vehicle', type=arguments.vehicle, metavar='VEHICLE', help='as KIT/0001')

TableRows = list[dict[str, object]]


def table_output(heads: str, rows: TableRows, none: str) -> Output:
    """Returns a table whose heads are members of the rows, or the line `none` where there are no
    rows."""
    names = heads.split()
    text = table(
        [name.replace('_', ' ') for name in names], [[row[name] for name in names] for row in rows]
    )
    return Output(text if rows else none, rows)


def listed(names: Iterable[str]) -> tuple[str, ...]:
    """Returns names in the order in which people look for them: `L2` before `L10`."""
    return tuple(sorted(names, key=natural))


def ordered(name: str, rows: TableRows) -> TableRows:
    """Returns rows in the order of the names that they have in the member `name`."""
    return sorted(rows, key=lambda row: natural(str(row[name])))


def check_known(what: str, name: object, known: Iterable[object]) -> None:
    """Raises `UsageError` where a station or a vehicle is named that the desk doesn't have."""
    names = listed(str(one) for one in known)
    if name is not None and str(name) not in names:
        some = ', '.join(names[:10]) + ', ..' * (len(names) > 10)
        raise UsageError(f'there is no {what} {name}: the desk has {some or "none"}')


@reads('PAL-1', LOAD)
def load(desk: Desk, args: argparse.Namespace) -> Output:
    """Where a load is, and its live job."""
    found = desk.load(args.load)
    return Output(
        f'load {found.name}: {found.place}, job {found.job or "-"}',
        dataclasses.asdict(found),
    )


@reads('KIT/0001', VEHICLE)
def vehicle(desk: Desk, args: argparse.Namespace) -> Output:
    """What the desk knows of a vehicle."""
    row = vehicle_row(desk.vehicle(args.vehicle))
    lines = [
        [name, 'no' if value is False else value]
        for name, value in row.items()
        if name != 'vehicle'
    ]
    return Output(table(['vehicle', str(row['vehicle'])], lines), row)


def vehicle_row(row: Vehicle) -> dict[str, object]:
    """Returns a vehicle as a row of a table."""
    found = dataclasses.asdict(row)
    del found['key']
    return {'vehicle': str(row.key), **found}


@reads('')
def vehicles(desk: Desk, args: argparse.Namespace) -> Output:
    """All vehicles, with their orders."""
    rows = ordered('vehicle', [vehicle_row(row) for row in desk.vehicles().values()])
    heads = 'vehicle node order seen released edges sent confirmed capacity ready paused pending'
    return table_output(f'{heads} astray', rows, 'there are no vehicles')


@reads(
    '--station A',
    name_argument('--station', 'station'),
    BY_VEHICLE,
    argument('--checking', action='store_true', help='those at the checking place'),
)
def loads(desk: Desk, args: argparse.Namespace) -> Output:
    """The loads that have not left, all or at one place."""
    asked = [f'station {args.station}'] if args.station else []
    asked += [f'vehicle {args.vehicle}'] if args.vehicle else []
    asked += ['checking'] if args.checking else []
    if len(asked) > 1:
        raise UsageError('give one of --station, --vehicle and --checking')
    place = asked[0] if asked else None
    stock = questions.stock(desk)
    check_known('station', args.station, list(stock.stations))
    check_known('vehicle', args.vehicle, list(stock.vehicles))
    rows: TableRows = [
        {'load': name, 'place': at} for name, at in stock.places().items() if place in (None, at)
    ]
    return table_output(
        'load place', ordered('load', rows), 'there are no loads' + (' there' if place else '')
    )


@reads('')
def stations(desk: Desk, args: argparse.Namespace) -> Output:
    """All stations, with their loads and the places that are free."""
    rows: TableRows = [
        {
            'station': one.name,
            'node': one.node,
            'loads': listed(one.loads),
            'reserved': one.reserved,
            'capacity': one.capacity,
            'free': max(0, one.capacity - len(one.loads) - one.reserved),
        }
        for one in questions.stock(desk).stations.values()
    ]
    heads = 'station node capacity reserved free loads'
    return table_output(heads, ordered('station', rows), 'there is no layout')


def job_row(job: Job | JobPhase) -> dict[str, object]:
    """Returns a job as a row of a table."""
    return {
        'job': job.name,
        'load': job.load,
        'from': job.origin,
        'to': job.target,
        'phase': job.phase,
        'vehicle': None if job.vehicle is None else str(job.vehicle),
        'order': job.order,
    }


@reads('')
def jobs(desk: Desk, args: argparse.Namespace) -> Output:
    """The live jobs, and which order has each that rides."""
    rows = [job_row(one) for one in desk.jobs().values()]
    return table_output(
        'job load from to phase vehicle order', ordered('job', rows), 'there are no live jobs'
    )


@reads('J1', name_argument('job', 'job'))
def job(desk: Desk, args: argparse.Namespace) -> Output:
    """A job, ended or not, and which order has it while it rides."""
    row = job_row(desk.job(args.job))
    lines = [[name, value] for name, value in row.items() if name != 'job']
    return Output(table(['job', str(row['job'])], lines), row)


@reads('')
def layout(desk: Desk, args: argparse.Namespace) -> Output:
    """Prints the layout, as a file for another desk."""
    found = desk.layout()
    if found is None:
        raise UsageError('the desk has no layout yet')
    text = found.csv().decode()
    return Output(text.rstrip('\n'), text)


def stops_of(order: questions.OrderRow) -> tuple[str, ...]:
    """Returns the stops of an order as texts; those of a drive are the node to which it leads."""
    stops = tuple(f'{act.kind}:{act.load}@{act.station}' for act in order.acts)
    return stops or (f'drive@{order.end}',)


@reads('', cost='1, and 1 for each order')
def orders(desk: Desk, args: argparse.Namespace) -> Output:
    """The open orders, how far they are, and their stops."""
    rows: TableRows = [
        {
            'order': one.order,
            'vehicle': str(one.vehicle),
            'node': one.node,
            'sent': one.sent,
            'confirmed': one.confirmed,
            'released_to': one.released_to,
            'edges_left': one.edges_left,
            'stops': stops_of(one),
        }
        for one in questions.orders(desk)
    ]
    heads = 'order vehicle node sent confirmed released_to edges_left stops'
    return table_output(heads, ordered('order', rows), 'there are no open orders')


@reads('--vehicle KIT/0001', BY_VEHICLE)
def held(desk: Desk, args: argparse.Namespace) -> Output:
    """The nodes and edges that are held."""
    holds = questions.held(desk)
    # each vehicle holds the node where it stands
    check_known('vehicle', args.vehicle, set(holds.nodes.values()))
    rows: TableRows = [
        {'thing': 'node ' + name, 'vehicle': str(holds.nodes[name])} for name in listed(holds.nodes)
    ]
    rows += [
        {'thing': 'edge ' + name, 'vehicle': str(holds.edges[name])} for name in listed(holds.edges)
    ]
    rows = [row for row in rows if args.vehicle is None or row['vehicle'] == str(args.vehicle)]
    return table_output('thing vehicle', rows, 'nothing is held')


@reads('', cost='2, and 1 for each order')
def who_waits(desk: Desk, args: argparse.Namespace) -> Output:
    """The vehicles whose next edge is held by another one."""
    rows: TableRows = [
        {
            'vehicle': str(one.vehicle),
            'order': one.order,
            'at': one.at,
            'waits_for': one.what,
            'held_by': str(one.by),
            'in_circle': one.in_circle,
        }
        for one in questions.who_waits(desk)
    ]
    heads = 'vehicle order at waits_for held_by in_circle'
    found = table_output(heads, ordered('vehicle', rows), 'no vehicle waits for another one')
    if any(row['in_circle'] for row in rows):
        more = (
            '\n\nTo free those in a circle, cancel one and move it out of the way'
            ' (docs/OPERATE.md).'
        )
        return Output(found.text + more, found.value)
    return found


def report(text: bytes, read: Callable[[bytes], object]) -> Output:
    """Returns a report as it is printed, once `read` has found nothing wrong in it."""
    read(text)
    return Output(text.decode().rstrip('\n'), text.decode())


@reads('')
def stock_report(desk: Desk, args: argparse.Namespace) -> Output:
    """Prints the stock report."""
    return report(desk.stock_report(), reports.read_stock)


@reads('')
def hold_report(desk: Desk, args: argparse.Namespace) -> Output:
    """Prints the hold report."""
    return report(desk.hold_report(), reports.read_holds)


@reads('')
def loads_export(desk: Desk, args: argparse.Namespace) -> Output:
    """Prints the export of all loads, those that left too, as CSV."""
    return report(desk.loads_export(), exports.read_loads)


@reads('Held', argument('name', metavar='NAME', help='or its number'), cost='none')
def refusal(desk: Desk, args: argparse.Namespace) -> Output:
    """What a refusal says, and what to do."""
    found = [
        one for one in refusals.ALL if args.name.lower() in (one.name.lower(), str(one.number))
    ]
    if not found:
        raise UsageError(
            f'{quoted(args.name)} is neither the name nor the number of a refusal (docs/HTTP.md)'
        )
    one = found[0]
    value = {'advice': one.advice, **dataclasses.asdict(one)}
    return Output(f'{one.name} ({one.number}): {one.says}. {one.advice}', value)
