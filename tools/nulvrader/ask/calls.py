"""The commands of `tools/ask` that are one call of a desk each, and `advance`, which finds the
order by itself."""
from __future__ import annotations

import argparse
import dataclasses
import functools
import json
import sys
from collections.abc import Callable
from typing import Any

from ..desk import arguments, bodies, exports, reports
from ..desk.answers import refused
from ..desk.client import Answer, Desk, Stop
from .subcommands import (
    LOAD,
    REFERENCE,
    VEHICLE,
    Subcommand,
    Output,
    UsageError,
    subcommand,
    name_argument,
    number,
    reference,
    argument,
)
from ..common.counts import CountFile
from ..common.layouts import LayoutFile
from ..desk.members import read_object
from ..desk.messages import read_order
from ..common.names import LARGEST, new_reference
from ..common.tables import TableFile

CALLS: list[Subcommand] = []
changes = functools.partial(subcommand, CALLS, changes=True)
reads = functools.partial(subcommand, CALLS)
STATION = name_argument('--station', 'station', help='else it is at the checking place')
NODE = name_argument('--node', 'node', required=True)
FILE = argument('file', metavar='FILE', help='a file, or - for standard input')
FILE_SIZE = 1_000_000  # the most bytes of a file that are read
# The functions that read the answers that are text, by path.
READERS: dict[str, Callable[[bytes], object]] = {
    '/report/stock': reports.read_stock,
    '/report/holds': reports.read_holds,
    '/export/loads': exports.read_loads,
    '/export/jobs': exports.read_jobs,
    '/export/vehicles': exports.read_vehicles,
    '/export/layout': exports.read_layout,
}


class AddStop(argparse.Action):
    """Notes the stops of an order in the order of their options."""

    def __call__(
        self,
        parser: argparse.ArgumentParser,
        args: argparse.Namespace,
        value: Any,
        option: str | None = None,
    ) -> None:
        """Notes a stop: the option says whether it is a pick or a drop."""
        stops = getattr(args, 'stops', None) or []
        args.stops = [*stops, Stop(str(option).lstrip('-'), value)]


def data_of(path: str) -> bytes:
    """Returns the bytes of a file, or of standard input where the path is `-`. Raises `UsageError`
    where the file has far more than any body."""
    try:
        if path == '-':
            data = sys.stdin.buffer.read(FILE_SIZE + 1)
        else:
            with open(path, 'rb') as file:
                data = file.read(FILE_SIZE + 1)
    except OSError as fault:
        raise UsageError(f'{path}: {fault.strerror}') from None
    if len(data) > FILE_SIZE:
        raise UsageError(f'{path}: it has more than {FILE_SIZE:,} bytes')
    return data


def check_file(file: TableFile, path: str) -> None:
    """Raises `UsageError` with each fault of a file that a desk would refuse."""
    if file.faults:
        raise UsageError(f'{path} is not sent:\n' + '\n'.join(map(str, file.faults)))


def where(station: str | None) -> str:
    """Returns where a load is, as the end of a sentence."""
    return f'at station {station}' if station else 'at the checking place'


@changes('layout.csv', FILE)
def set_layout(desk: Desk, args: argparse.Namespace) -> Output:
    """Sets the layout, which can't be changed later."""
    data = data_of(args.file)
    file = LayoutFile(data)
    check_file(file, args.file)
    desk.set_layout(data)
    counts = {f'{kind}s': count for kind, count in file.counts.items()}
    parts = ', '.join(f'{count} {kind}' for kind, count in counts.items())
    return Output(f'the layout is set: {parts}', counts)


@changes(
    'KIT/0001 --node N1 --capacity 2',
    VEHICLE,
    NODE,
    argument(
        '--capacity',
        type=number,
        metavar='N',
        help='how many loads it carries at once, 1 to 4 (default: 1)',
    ),
)
def register_vehicle(desk: Desk, args: argparse.Namespace) -> Output:
    """Registers a vehicle at a node."""
    desk.register_vehicle(args.vehicle, args.node, args.capacity)
    return Output(f'vehicle {args.vehicle} is registered at node {args.node}', {})


@changes('PAL-1 --station A', LOAD, STATION)
def register_load(desk: Desk, args: argparse.Namespace) -> Output:
    """Registers a load."""
    desk.register_load(args.load, args.station)
    return Output(f'load {args.load} is registered {where(args.station)}', {})


@changes('PAL-1 --station B', LOAD, STATION, REFERENCE)
def correct(desk: Desk, args: argparse.Namespace) -> Output:
    """Says where a load stands."""
    desk.correct_load(args.load, reference(args), args.station)
    text = f'load {args.load} is {where(args.station)} (reference {args.ref})'
    return Output(text, {'ref': args.ref})


@changes('PAL-1', LOAD, REFERENCE)
def leave(desk: Desk, args: argparse.Namespace) -> Output:
    """Says that a load has left the warehouse."""
    desk.leave_load(args.load, reference(args))
    return Output(f'load {args.load} has left (reference {args.ref})', {'ref': args.ref})


@changes(
    'J1 --load PAL-1 --to B',
    name_argument('job', 'job'),
    name_argument('--load', 'load', required=True),
    name_argument('--to', 'station', required=True),
)
def add_job(desk: Desk, args: argparse.Namespace) -> Output:
    """Adds a job that takes a load to a station."""
    desk.add_job(args.job, args.load, args.to)
    return Output(f'job {args.job} takes load {args.load} to station {args.to}', {})


@changes('J1', name_argument('job', 'job'))
def stop_job(desk: Desk, args: argparse.Namespace) -> Output:
    """Stops a job that waits."""
    desk.stop_job(args.job)
    return Output(f'job {args.job} is stopped', {})


@changes(
    'O1 --vehicle KIT/0001 --pick J1 --pick J2 --drop J1 --drop J2 --edges 3',
    name_argument('order', 'order'),
    argument(
        '--vehicle', type=arguments.vehicle, metavar='VEHICLE', required=True, help='as KIT/0001'
    ),
    name_argument('--job', 'job', help='the one job of the order'),
    name_argument(
        '--pick',
        'job',
        action=AddStop,
        dest='stops',
        help='a stop that picks up the load of this job',
    ),
    name_argument('--drop', 'job', action=AddStop, dest='stops', help='a stop that puts it down'),
    argument(
        '--edges', type=number, metavar='N', required=True, help='how many edges are released'
    ),
)
def order(desk: Desk, args: argparse.Namespace) -> Output:
    """Gives a vehicle an order of one job, or of several by their stops."""
    if bool(args.stops) == bool(args.job):
        raise UsageError('give the order either --job, or --pick and --drop for each job')
    named = args.order, args.vehicle
    if args.stops:
        update = desk.start_order_of_stops(*named, stops=args.stops, edges=args.edges)
    else:
        update = desk.start_order(*named, job=args.job, edges=args.edges)
    text = f'vehicle {args.vehicle} has the order {args.order}; edges released: {args.edges}'
    return Output(text, {'orderUpdateId': update})


@changes(
    'KIT/0001 --to N7',
    VEHICLE,
    name_argument('--to', 'node', required=True, help='the node where it is to go'),
    argument(
        '--edges',
        type=number,
        metavar='N',
        default=1,
        help='how many edges are released (default: 1)',
    ),
    name_argument(
        '--order',
        'order',
        help="the order's name, used only once (default: a new one that begins with the day)",
    ),
)
def drive(desk: Desk, args: argparse.Namespace) -> Output:
    """Sends a vehicle to a node without a job; the loads on it stay there."""
    args.order = args.order or new_reference()
    update = desk.start_drive(args.order, args.vehicle, args.to, args.edges)
    text = f'vehicle {args.vehicle} drives to node {args.to} (order {args.order})'
    return Output(
        f'{text}; edges released: {args.edges}', {'order': args.order, 'orderUpdateId': update}
    )


@changes(
    'KIT/0001 --edges 2',
    VEHICLE,
    argument(
        '--edges',
        type=number,
        metavar='N',
        default=1,
        help='how many edges more are released (default: 1)',
    ),
    argument('--all', action='store_true', help='all that are left'),
    cost='2, and 3 with --all',
)
def advance(desk: Desk, args: argparse.Namespace) -> Output:
    """Releases more edges of the order that a vehicle has."""
    with desk.kept():
        row = desk.vehicle(args.vehicle)
        if row.order is None or row.sent is None:
            raise refused(Answer(409, b'{"name":"NoOrder","refusal":25}'))
        if row.sent == LARGEST:
            raise refused(Answer(409, b'{"name":"Spent","refusal":48}'))
        edges = args.edges
        if args.all:
            message = desk.order_message(args.vehicle)
            edges = (
                sum(1 for edge in read_order(message).edges if not edge.released) if message else 0
            )
        update = desk.advance(args.vehicle, row.order, row.sent + 1, edges)
    text = f'vehicle {args.vehicle} may go on with its order {row.order}'
    return Output(
        f'{text}; edges more: {edges} (update {update})',
        {'order': row.order, 'orderUpdateId': update},
    )


def instant(args: argparse.Namespace, what: str, action: str) -> Output:
    """Returns what is printed of an instant action that was sent."""
    text = f'vehicle {args.vehicle} is told to {what} ({action})'
    return Output(f'{text}; `ask vehicle` shows whether it is pending', {'actionId': action})


@changes('KIT/0001', VEHICLE)
def cancel(desk: Desk, args: argparse.Namespace) -> Output:
    """Cancels the order of a vehicle."""
    return instant(args, 'cancel its order', desk.cancel(args.vehicle))


@changes('KIT/0001', VEHICLE)
def pause(desk: Desk, args: argparse.Namespace) -> Output:
    """Tells a vehicle to pause."""
    return instant(args, 'pause', desk.pause(args.vehicle))


@changes('KIT/0001', VEHICLE)
def resume(desk: Desk, args: argparse.Namespace) -> Output:
    """Tells a vehicle to go on."""
    return instant(args, 'go on', desk.resume(args.vehicle))


@changes('KIT/0001 --node N2', VEHICLE, NODE, REFERENCE)
def place(desk: Desk, args: argparse.Namespace) -> Output:
    """Says where a vehicle stands; clear the order on it first, since it gets no message."""
    desk.place(args.vehicle, reference(args), args.node)
    text = f'vehicle {args.vehicle} is at node {args.node} (reference {args.ref})'
    return Output(text, {'ref': args.ref})


@changes('KIT/0001', VEHICLE)
def resync(desk: Desk, args: argparse.Namespace) -> Output:
    """Forgets the last headerId of a vehicle, after its restart."""
    desk.resync(args.vehicle)
    return Output(f"the next state of vehicle {args.vehicle} is taken, whatever its headerId", {})


@changes('KIT/0001 state.json', VEHICLE, FILE)
def post_state(desk: Desk, args: argparse.Namespace) -> Output:
    """Posts a state of a vehicle, as its gateway does."""
    try:
        message = json.loads(data_of(args.file))
    except (ValueError, RecursionError) as fault:
        raise UsageError(f'{args.file}: no JSON: {fault}') from None
    accepted = desk.post_state(args.vehicle, message)
    what = 'accepted' if accepted else 'old, and changes nothing'
    return Output(f'the state is {what}', {'accepted': accepted})


@changes('count.csv', FILE, REFERENCE)
def stocktake(desk: Desk, args: argparse.Namespace) -> Output:
    """Sends a count of stations; `tools/check-count` shows first what would move."""
    data = data_of(args.file)
    check_file(CountFile(data), args.file)
    found = desk.stocktake(reference(args), data)
    text = f'loads moved: {found.moved} (reference {args.ref})'
    if found.unknown:
        text += f'\nof no load, or of one that has left: {" ".join(found.unknown)}'
    return Output(text, {'ref': args.ref, **dataclasses.asdict(found)})


def message(found: dict[str, Any] | None) -> Output:
    """Returns what is printed of a message, or where there is none."""
    return Output('there is none' if found is None else json.dumps(found, indent=1), found)


@reads('KIT/0001', VEHICLE)
def order_message(desk: Desk, args: argparse.Namespace) -> Output:
    """Shows the last order message of a vehicle."""
    return message(desk.order_message(args.vehicle))


@reads('KIT/0001', VEHICLE)
def instant_actions(desk: Desk, args: argparse.Namespace) -> Output:
    """Shows the pending instantActions message of a vehicle."""
    return message(desk.instant_actions(args.vehicle))


@changes(
    'POST /loads \'{"load":"PAL-1","station":"A"}\'',
    argument('method', metavar='METHOD'),
    argument('path', metavar='PATH'),
    argument('body', metavar='BODY', nargs='?', help='the body, or @FILE'),
)
def call(desk: Desk, args: argparse.Namespace) -> Output:
    """Sends a request as it is written, once its body is checked."""
    method = args.method.upper()
    body = (
        data_of(args.body[1:])
        if args.body and args.body.startswith('@')
        else (args.body or '').encode()
    )
    answer = desk.ask(method, args.path, body or None)
    if answer.status not in (200, 204):
        raise refused(answer)
    text = answer.body.decode('latin-1').rstrip('\n')
    read = READERS.get(args.path.partition('?')[0])
    if read is not None:
        read(answer.body)
        return Output(text, answer.body.decode())
    return Output(text, '' if answer.status == 204 else read_object(answer.body, method != 'GET'))


class CheckedDesk(Desk):
    """A desk that is sent only what docs/openapi.json describes. Any other request raises
    `UsageError`."""

    description: bodies.Description | None = None

    def ask(self, method: str, target: str, body: bytes | None = None) -> Answer:
        """Checks a request, and sends it."""
        known = self.description
        if known is not None:
            operation = known.operation(method, target)
            if operation is None:
                raise UsageError(known.unknown(method, target))
            faults = (
                known.faults(operation, body or b'')
                if operation.media == 'application/json'
                else []
            )
            if faults:
                raise UsageError(f'{method} {target} is not sent:\n' + '\n'.join(faults))
        return super().ask(method, target, body)
