"""The rules of each row by itself, of the layout and of the vehicles."""
import collections

from .checks import SEATS, Breaches, rule, value_text, vehicle_text
from ..common.names import is_name
from .rows import Rows
from .tables import (
    MANY,
    MOST,
    ActRow,
    EdgeRow,
    JobRow,
    JourneyRow,
    LegRow,
    LoadRow,
    NodeRow,
    StationRow,
    UsedRow,
    VehicleRow,
    key_of,
)

NUMBER = 4294967295  # the greatest number
MOMENT = 4102444799999  # the last millisecond of 2099
STATUSES = ('WAITING', 'INITIALIZING', 'RUNNING', 'PAUSED', 'FINISHED', 'FAILED')
PENDING = (None, 'startPause', 'stopPause', 'cancelOrder')


@rule('schema')
def has_schema(rows: Rows) -> Breaches:
    """`meta` has one row, 1 and the number of the schema, which is 2."""
    if rows.meta != [(1, 2)]:
        yield 'meta', f'its rows are {", ".join(str(tuple(row)) for row in rows.meta) or "none"}'


@rule('no old trips')
def has_no_trips(rows: Rows) -> Breaches:
    """`trip` is empty: only the first schema has open orders there."""
    for trip in rows.trip:
        yield trip, 'it belongs to the first schema'


@rule('one row a key')
def has_keys_once(rows: Rows) -> Breaches:
    """No two rows of a table have the same key; no vehicle has two journeys, and no job two picks
    or two drops."""
    found = collections.Counter(map(str, rows.all()))
    found.update('journeys of ' + vehicle_text(key_of(row)) for row in rows.journey)
    found.update(f'acts that {act.kind} {act.job}' for act in rows.act)
    for name, count in found.items():
        if count > 1:
            yield name, f'there are {count} of it'


@rule('names')
def has_names(rows: Rows) -> Breaches:
    """Nodes, edges, stations, vehicles, loads, jobs, orders and references have names of 1 to 32
    bytes of `A-Z a-z 0-9 _ . : -`, and so has the order that a vehicle has reported."""
    named: list[NodeRow | EdgeRow | StationRow | LoadRow | JobRow | UsedRow]
    named = [*rows.node, *rows.edge, *rows.station, *rows.load, *rows.job, *rows.used]
    for row in named:
        if not is_name(row.id):
            yield row, f'{row.id!r} is no name'
    for vehicle in rows.vehicle:
        for name in (vehicle.manufacturer, vehicle.serial, vehicle.reported):
            if name is not None and not is_name(name):
                yield vehicle, f'{name!r} is no name'


@rule('words')
def has_words(rows: Rows) -> Breaches:
    """Kinds, phases, statuses, pending actions and truth values are those of docs/TABLES.md."""
    for vehicle in rows.vehicle:
        yield from _wrong(vehicle, 'pending', vehicle.pending, PENDING)
        yield from _wrong(vehicle, 'ready', vehicle.ready, (0, 1))
        yield from _wrong(vehicle, 'paused', vehicle.paused, (0, 1))
    for load in rows.load:
        yield from _wrong(load, 'kind', load.kind, ('station', 'vehicle', 'checking', 'left'))
    for job in rows.job:
        yield from _wrong(job, 'phase', job.phase, ('waiting', 'riding', 'done', 'stopped'))
    for act in rows.act:
        yield from _wrong(act, 'kind', act.kind, ('pick', 'drop'))
        yield from _wrong(act, 'status', act.status, STATUSES)
    for hold in rows.hold:
        yield from _wrong(hold, 'kind', hold.kind, ('node', 'edge'))
    for used in rows.used:
        yield from _wrong(used, 'kind', used.kind, ('order', 'ref'))


def _wrong(row: object, column: str, value: object, words: tuple[object, ...]) -> Breaches:
    """Yields a breach where the value of a column is none of these words."""
    if value not in words:
        known = ', '.join(map(value_text, words))
        yield row, f'{column} is {value_text(value)}, and not one of {known}'


@rule('numbers')
def has_numbers(rows: Rows) -> Breaches:
    """Numbers lie from 0 to 4294967295, moments from 0 to 4102444799999."""
    for vehicle in rows.vehicle:
        for column in ('last_header', 'order_header', 'instant_header', 'order_at', 'instant_at'):
            value = getattr(vehicle, column)
            if value is not None and not 0 <= value <= (
                MOMENT if column.endswith('_at') else NUMBER
            ):
                yield vehicle, f'{column} is {value}'
    numbered: list[JourneyRow | ActRow | LegRow] = [*rows.journey, *rows.act, *rows.leg]
    for row in numbered:
        for column, value in zip(row._fields, row):
            if isinstance(value, int) and not 0 <= value <= NUMBER:
                yield row, f'{column} is {value}'


@rule('limits')
def counts_are_within_limits(rows: Rows) -> Breaches:
    """There are at most 500 nodes, 1,500 edges, 500 stations, 100 vehicles, and 1,000,000 loads,
    jobs, orders and references each, ended ones included."""
    used = collections.Counter(row.kind for row in rows.used)
    for name, count, most in (
        ('nodes', len(rows.node), MOST['node']),
        ('edges', len(rows.edge), MOST['edge']),
        ('stations', len(rows.station), MOST['station']),
        ('vehicles', len(rows.vehicle), MOST['vehicle']),
        ('loads', len(rows.load), MANY),
        ('jobs', len(rows.job), MANY),
        ('orders', used['order'], MANY),
        ('references', used['ref'], MANY),
    ):
        if count > most:
            yield name, f'there are {count}, and at most {most} may be'


# ---- the layout


def unknown_nodes(rows: Rows, row: EdgeRow | StationRow | VehicleRow, *nodes: str) -> Breaches:
    """Yields a breach for each of these nodes of a row that the layout doesn't have."""
    for node in nodes:
        if node not in rows.nodes:
            yield row, 'there is no node ' + value_text(node)


@rule('edges')
def edges_join_nodes(rows: Rows) -> Breaches:
    """An edge leads from a node of the layout to another one."""
    for edge in rows.edge:
        yield from unknown_nodes(rows, edge, edge.start, edge.finish)
        if edge.start == edge.finish:
            yield edge, f'it leads from {edge.start} to the same node'


@rule('stations')
def stations_are_at_nodes(rows: Rows) -> Breaches:
    """A station is at a node of the layout, and its capacity is 1 to 999 loads."""
    for station in rows.station:
        yield from unknown_nodes(rows, station, station.node)
        if not 1 <= station.capacity <= 999:
            yield station, f'its capacity is {station.capacity}'


# ---- the vehicles


@rule('where a vehicle stands')
def vehicles_are_at_nodes(rows: Rows) -> Breaches:
    """A vehicle stands at a node of the layout."""
    for vehicle in rows.vehicle:
        yield from unknown_nodes(rows, vehicle, vehicle.node)


@rule('rest of a vehicle')
def rests_go_on(rows: Rows) -> Breaches:
    """A vehicle's rest is an edge that begins where it stands, and the node where that edge ends;
    or it has none."""
    for vehicle in rows.vehicle:
        rest = vehicle.rest_edge, vehicle.rest_node
        edge = rows.edges.get(vehicle.rest_edge or '')
        if rest != (None, None) and (
            edge is None or (edge.start, edge.finish) != (vehicle.node, vehicle.rest_node)
        ):
            node, rest_edge, rest_node = map(value_text, (vehicle.node, *rest))
            text = f'its rest is the edge {rest_edge} to the node {rest_node}'
            yield vehicle, f'it stands at {node}, and {text}'


@rule('moments of messages')
def moments_have_messages(rows: Rows) -> Breaches:
    """The moment of a vehicle's last message is 0 if none was sent."""
    for vehicle in rows.vehicle:
        for topic, count, at in (
            ('order', vehicle.order_header, vehicle.order_at),
            ('instantActions', vehicle.instant_header, vehicle.instant_at),
        ):
            if count == 0 and at != 0:
                text = f'the moment of the last one is {at}'
                yield vehicle, f'no {topic} message was sent to it, and {text}'


@rule('pending actions')
def pending_actions_were_sent(rows: Rows) -> Breaches:
    """An instant action is pending only if an instantActions message was sent."""
    for vehicle in rows.vehicle:
        if vehicle.pending is not None and vehicle.instant_header == 0:
            text = 'no instantActions message was sent to it'
            yield vehicle, f'{vehicle.pending} is pending, and {text}'


@rule('capacity of a vehicle')
def vehicles_have_a_capacity(rows: Rows) -> Breaches:
    """Each vehicle has a row in `capacity`, and nothing else has; it carries 1 to 4 loads."""
    for vehicle in rows.vehicle:
        if key_of(vehicle) not in rows.capacities:
            yield vehicle, 'it has no row in `capacity`'
    for row in rows.capacity:
        if key_of(row) not in rows.vehicles:
            yield row, 'there is no such vehicle'
        if not 1 <= row.capacity <= SEATS:
            yield row, f'it is {row.capacity}'
