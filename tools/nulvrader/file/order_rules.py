"""The rules of the open orders, and of the nodes and edges that vehicles hold."""
import collections

from .checks import SEATS, Breaches, rule, value_text, vehicle_text
from .rows import Rows
from .tables import ActRow, LegRow, key_of

OVER = ('FINISHED', 'FAILED')


@rule('vehicle of an order')
def orders_have_a_vehicle(rows: Rows) -> Breaches:
    """An open order has a vehicle, to which an order message was sent."""
    for order in rows.open_orders.values():
        vehicle = rows.vehicles.get(key_of(order.journey))
        if vehicle is None:
            yield order.journey, f'there is no {vehicle_text(key_of(order.journey))}'
        elif vehicle.order_header == 0:
            yield f'{order.journey}, {vehicle}', 'no order message was sent to the vehicle'


@rule('name of an order')
def orders_are_used_names(rows: Rows) -> Breaches:
    """The name of an open order is among the used names."""
    used = {row.id for row in rows.used if row.kind == 'order'}
    for journey in rows.journey:
        if journey.order_id not in used:
            yield journey, f'there is no row used order {journey.order_id}'


@rule('parts of an order')
def parts_have_an_order(rows: Rows) -> Breaches:
    """Edges and acts belong to open orders, and are counted from 0 on, without a gap."""
    open_orders = {row.order_id for row in rows.journey}
    parts: list[LegRow | ActRow] = [*rows.leg, *rows.act]
    for part in parts:
        if part.order_id not in open_orders:
            yield part, f'no order {part.order_id} is open'
    for order in rows.open_orders.values():
        for of, numbers in (
            ('leg', [leg.k for leg in order.legs]),
            ('act', [act.n for act in order.acts]),
        ):
            if numbers != list(range(len(numbers))):
                text = f'their numbers are {", ".join(map(str, numbers))}'
                yield f'{order.journey}, its rows in `{of}`', text


@rule('way of an order')
def ways_are_walks(rows: Rows) -> Breaches:
    """The edges of an open order, at most 200, lead from its start on, each from where the one
    before it ends."""
    for order in rows.open_orders.values():
        if order.journey.start not in rows.nodes:
            yield order.journey, f'it starts at {value_text(order.journey.start)}, which is no node'
        if len(order.legs) > 200:
            yield order.journey, f'its way has {len(order.legs)} edges'
        for at, leg in zip(order.nodes, order.legs):
            if leg.edge not in rows.edges:
                yield leg, 'there is no edge ' + value_text(leg.edge)
            elif at is not None and rows.edges[leg.edge].start != at:
                yield leg, f'its edge {leg.edge} does not begin at {value_text(at)}'


@rule('jobs of an order')
def orders_pick_and_drop(rows: Rows) -> Breaches:
    """An open order is for at most as many jobs as its vehicle carries loads, and picks each of
    them once and, later, drops it once. An order for no job is a drive."""
    for key, order in rows.open_orders.items():
        stops: dict[str, list[str]] = collections.defaultdict(list)
        for act in order.acts:
            stops[act.job].append(act.kind)
        for job, kinds in stops.items():
            if kinds != ['pick', 'drop']:
                yield f'{order.journey}, job {job}', 'its acts for the job are: ' + ', '.join(kinds)
        if len(stops) > rows.capacities.get(key, SEATS):
            yield order.journey, f'it is for {len(stops)} jobs'


@rule('places of acts')
def acts_are_at_stations(rows: Rows) -> Breaches:
    """Each act of an open order is at the node of its station, which is the origin of its job for a
    pick and the target for a drop; the acts follow the way, and the last one, if there is one, is
    at its end."""
    for order in rows.open_orders.values():
        for act in order.acts:
            station = _station_of(rows, act)
            if station is None:
                yield act, f'there is no job {value_text(act.job)} with such a station'
            elif order.node(act.place_at) != rows.stations[station].node:
                place = f'place {act.place_at} of the way'
                yield act, f'it is at {place}, and the station {station} is not there'
        places = [act.place_at for act in order.acts]
        if places != sorted(places) or places[-1:] not in ([], [len(order.legs)]):
            at = ', '.join(map(str, places))
            text = f'its acts are at the places {at} of a way of {len(order.legs)} edges'
            yield order.journey, text


def _station_of(rows: Rows, act: ActRow) -> str | None:
    """Returns the station of an act, the origin or the target of its job, if the layout has it."""
    job = rows.jobs.get(act.job)
    station = None if job is None else job.origin if act.kind == 'pick' else job.target
    return station if station in rows.stations else None


@rule('released track')
def bases_are_in_order(rows: Rows) -> Breaches:
    """What is released of an order's way ends within it, at `base`, and no earlier than where the
    vehicle has got to. The last message begins at `first`: 0 where no update was sent, else before
    `base`. Each of the `sent` updates has released an edge or more."""
    for order in rows.open_orders.values():
        _, _, _, _, first, base, sent, _, seen = order.journey
        if not base <= len(order.legs):
            yield order.journey, f'base is {base}, and its way has {len(order.legs)} edges'
        for name, value in (('first', first), ('seen', seen), ('sent', sent)):
            if value > base:
                yield order.journey, f'{name} is {value}, and base {base}'
        if sent == 0 and first != 0 or sent > 0 and first == base:
            yield order.journey, f'first is {first} where sent is {sent} and base {base}'


@rule('confirmed updates')
def updates_are_confirmed(rows: Rows) -> Breaches:
    """The last confirmed update is the last one or, if the vehicle hasn't gone further than
    `first`, the one before; if none is confirmed, only the order itself was sent, and nothing of it
    was done."""
    for order in rows.open_orders.values():
        _, _, _, _, first, _, sent, confirmed, seen = order.journey
        if confirmed is None and (sent, first, seen) != (0, 0, 0):
            text = f'sent is {sent}, first {first}, seen {seen}'
            yield order.journey, f'nothing is confirmed, and {text}'
        if confirmed is None and any(act.status != 'WAITING' for act in order.acts):
            yield order.journey, 'nothing is confirmed, and not all of its acts are WAITING'
        if (
            confirmed is not None
            and confirmed != sent
            and not (confirmed + 1 == sent and seen <= first)
        ):
            text = f'confirmed is {confirmed}, sent {sent}, seen {seen}, first {first}'
            yield order.journey, text


@rule('finished acts')
def acts_are_finished_in_turn(rows: Rows) -> Breaches:
    """An act is finished only if its place was reached, and a drop only if its pick is finished."""
    for order in rows.open_orders.values():
        finished = [act for act in order.acts if act.status == 'FINISHED']
        picked = {act.job for act in finished if act.kind == 'pick'}
        for act in finished:
            if act.place_at > order.journey.seen:
                text = f'it is finished at place {act.place_at}, and seen is {order.journey.seen}'
                yield act, text
            if act.kind == 'drop' and act.job not in picked:
                yield act, f'it is finished, and the pick of {act.job} is not'


@rule('ended orders')
def ended_orders_are_gone(rows: Rows) -> Breaches:
    """An order whose vehicle is at the end of the way, with all acts finished or failed, is not
    open."""
    for order in rows.open_orders.values():
        at_end = order.journey.seen == len(order.legs)
        if at_end and all(act.status in OVER for act in order.acts):
            yield order.journey, 'it has ended'


@rule('vehicle on its way')
def vehicles_are_on_their_way(rows: Rows) -> Breaches:
    """A vehicle with an open order stands at the node that the order has seen last, and has no
    rest."""
    for key, order in rows.open_orders.items():
        vehicle = rows.vehicles.get(key)
        if vehicle is not None and order.node(order.journey.seen) != vehicle.node:
            seen = value_text(order.node(order.journey.seen))
            text = f'it stands at {value_text(vehicle.node)}, and the order has seen {seen} last'
            yield f'{vehicle}, {order.journey}', text
        if vehicle is not None and vehicle.rest_node is not None:
            yield f'{vehicle}, {order.journey}', 'it has a rest'


# ---- the nodes and edges that are held


@rule('one holder')
def nothing_is_held_twice(rows: Rows) -> Breaches:
    """No node or edge is held by two vehicles: where each stands, its rest, and what is released to
    it."""
    for (kind, name), keys in rows.held.items():
        if len(keys) > 1:
            yield f'{kind} {name}', f'it is held by {", ".join(map(vehicle_text, keys))}'


@rule('holds')
def holds_are_what_is_held(rows: Rows) -> Breaches:
    """`hold` has exactly the nodes and edges that are held, each with its vehicle."""
    for row in rows.hold:
        if key_of(row) not in rows.held.get((row.kind, row.id), ()):
            yield row, f'{vehicle_text(key_of(row))} does not hold it'
    told = {(row.kind, row.id) for row in rows.hold}
    for (kind, name), keys in rows.held.items():
        if (kind, name) not in told:
            yield f'{kind} {name}', f'{vehicle_text(keys[0])} holds it, and it has no row in `hold`'
