"""What an order, a drive, or the release of more of it, will do: its way, what is released of it,
and who is on it."""
from __future__ import annotations

import time
from collections.abc import Mapping, Sequence
from dataclasses import dataclass

from ..common.layouts import Layout
from .messages import Line
from .previews import Look, vehicle_here
from .scene import Scene
from .shown_rows import ShownVehicle

Walk = list[tuple[str, str]]  # edges, each with the node that it leads to


FREE, ALL = 'free', 'all'  # in place of a number of edges: as far as the way is free, and all of it
WAYS = (FREE, ALL)
STOPS = 50  # that are looked at; a vehicle carries four loads
LONGEST = 200  # edges of an order
HELD = 10  # things of a way that are told as held by others


class BadStops(ValueError):
    """A text that tells no stops. `line` is the sentence of it, and `str()` the same in English."""

    def __init__(self, name: str, **values: object):
        self.line = Line(name, values)
        super().__init__(self.line.words())


@dataclass(frozen=True)
class Planned:
    """A stop of an order: `pick` or `drop`, and of which job."""

    action: str
    job: str


def stops_of(text: str) -> list[Planned]:
    """Returns the stops that are written `pick J1, pick J2, drop J1, drop J2`, or of one job,
    `J1`."""
    found = []
    for part in text.split(','):
        words = part.split()
        if len(words) == 1:
            found += [Planned('pick', words[0]), Planned('drop', words[0])]
        elif len(words) == 2 and words[0] in ('pick', 'drop'):
            found.append(Planned(words[0], words[1]))
        else:
            raise BadStops('wrong.stop', text=f'{part.strip()!a}')
    if len(found) > STOPS:
        raise BadStops('wrong.stops', count=len(found))
    return found


def start_order(scene: Scene, said: Mapping[str, str]) -> Look:
    look, name = Look(dict(said)), said['vehicle']
    vehicle = vehicle_here(scene, look, name)
    stops = stops_of(said['stops'])
    look.say('order', vehicle=name, order=said['order'])
    walk: Walk | None = []
    at = vehicle['node'] if vehicle else ''
    start = at
    for stop in stops:
        job = scene.job(stop.job)
        station = (job['origin'] if stop.action == 'pick' else job['target']) if job else None
        if job is not None and station:
            look.say(f'order.{stop.action}', load=job['load'], station=station)
        else:
            look.say(f'order.{stop.action}.unknown', job=stop.job)
        look.warn(job is None, 'no.job', job=stop.job)
        look.warn(job is not None and job['phase'] == 'riding', 'rides', job=stop.job)
        node = scene.layout.stations[station].node if station in scene.layout.stations else None
        part = walk_of(scene.layout, at, node) if node and walk is not None else None
        is_cut = node is not None and walk is not None and part is None
        look.warn(is_cut, 'no.way', start=at, end=node)
        walk = walk + part if walk is not None and part is not None else None
        at = node or at
    edges = released(scene, look, name, walk or [], start)
    if walk is not None:
        _say_begin(look, walk, edges)
        _check_free(scene, look, name, walk[:edges], start)
    if vehicle:
        _check_can_begin(look, name, vehicle)
        capacity = vehicle['capacity']
        carried = len({stop.job for stop in stops}) + len(vehicle['loads'])
        look.warn(carried > capacity, 'carries', vehicle=name, count=capacity)
    return look


def start_drive(scene: Scene, said: Mapping[str, str]) -> Look:
    look, name, end = Look(dict(said)), said['vehicle'], said['node']
    vehicle = vehicle_here(scene, look, name)
    look.say('drive', vehicle=name, order=said['order'], node=end)
    start: str = vehicle['node'] if vehicle else ''
    walk = walk_of(scene.layout, start, end) if vehicle else None
    edges = released(scene, look, name, walk or [], start)
    if walk:
        _say_whole_way(scene, look, name, walk, start)
        _say_begin(look, walk, edges)
        _check_free(scene, look, name, walk[:edges], start)
    if vehicle:
        if vehicle['loads']:
            look.say('drive.loads', loads=list(vehicle['loads']))
        look.warn(start == end, 'drive.there', vehicle=name, node=end)
        look.warn(walk is None, 'no.way', start=start, end=end)
        _check_can_begin(look, name, vehicle)
        look.warn(vehicle['pending'] == 'cancelOrder', 'cancelling')
    return look


def advance(scene: Scene, said: Mapping[str, str]) -> Look:
    look, name = Look(dict(said)), said['vehicle']
    vehicle, way = scene.vehicle(name), scene.way(name)
    if vehicle is None or way is None or vehicle['order_name'] is None:
        look.say('no.more', vehicle=name)
        look.warn(True, 'no.order')
        look.values['edges'] = said['edges'] if said['edges'] not in WAYS else '0'
        return look
    # A vehicle with an order has both numbers.
    update, base = (vehicle['sent'] or 0) + 1, (vehicle['base'] or 0) - way['first']
    look.values |= {'order': vehicle['order_name'], 'update': str(update)}
    walk = list(zip(way['edges'][base:], way['nodes'][base + 1 :]))
    edges = released(scene, look, name, walk, None)
    look.warn(edges == 0, 'none.free')
    look.say('advance', vehicle=name, order=vehicle['order_name'], update=update)
    _say_way(look, walk, edges)
    look.warn(edges > len(walk), 'edges.left', count=len(walk))
    look.warn(vehicle['confirmed'] != vehicle['sent'], 'unconfirmed')
    look.warn(not vehicle['ready'], 'unready', vehicle=name)
    look.warn(vehicle['pending'] == 'cancelOrder', 'cancelling')
    _check_free(scene, look, name, walk[:edges], None)
    return look


def released(scene: Scene, look: Look, name: str, walk: Walk, start: str | None) -> int:
    """Returns how many edges of a way are released: as many as are said, all, or those before the
    first one that another vehicle holds, or whose end it holds. The look has the number from then
    on."""
    said = look.values['edges']
    if said == ALL:
        number = len(walk)
    elif said == FREE:
        held = [scene.holder('node', start) not in (None, name)] if start else [False]
        held += [
            any(
                scene.holder(*thing) not in (None, name)
                for thing in (('edge', edge), ('node', node))
            )
            for edge, node in walk
        ]
        number = 0 if held[0] else (held.index(True) if True in held else len(held)) - 1
    else:
        number = int(said)
    look.values['edges'] = str(number)
    return number


def walk_of(layout: Layout, start: str, end: str) -> Walk | None:
    """Returns the way from one node to another as the desk takes it; None where there is none."""
    route = layout.route(start, end)
    return None if route is None else [(edge, layout.edges[edge].finish) for edge in route]


def _say_way(look: Look, walk: Sequence[tuple[str, str]], edges: int) -> None:
    """Says what is released of a way."""
    part = walk[:edges]
    if part:
        nodes, left = ' '.join(node for _, node in part), len(walk) - len(part)
        look.say('released', edges=len(part), nodes=nodes, left=left)
    else:
        look.say('released.none', count=len(walk))


def _say_begin(look: Look, walk: Walk, edges: int) -> None:
    """Says what is released of the way of a new order or drive. Warns where more edges are to be
    released than the way has, and where the way is too long for an order."""
    _say_way(look, walk, edges)
    look.warn(edges > len(walk), 'order.edges', count=len(walk))
    look.warn(len(walk) > LONGEST, 'order.long', count=len(walk))


def _check_can_begin(look: Look, name: str, vehicle: ShownVehicle) -> None:
    """Warns where the desk would refuse this vehicle any order: it is not ready, has an order, or
    is astray."""
    order = vehicle['order_name']
    look.warn(not vehicle['ready'], 'unready', vehicle=name)
    look.warn(order is not None, 'has.order', vehicle=name, order=order)
    look.warn(bool(vehicle['astray']), 'astray', vehicle=name)


def _say_whole_way(scene: Scene, look: Look, name: str, walk: Walk, start: str) -> None:
    """Says over which nodes a way leads, and what of it other vehicles hold."""
    if len(walk) <= LONGEST:
        nodes = ' '.join([start, *(node for _, node in walk)])
        look.say('drive.way', edges=len(walk), nodes=nodes)
    things = [('node', start)]
    for edge, node in walk:
        things += [('edge', edge), ('node', node)]
    held = [(scene.holder(*thing), *thing) for thing in dict.fromkeys(things)]
    held = [row for row in held if row[0] not in (None, name)]
    for by, kind, thing in held[:HELD]:
        look.say('drive.held', by=by, kind=kind, thing=thing)
    if len(held) > HELD:
        look.say('more', count=len(held) - HELD)


def _check_free(
    scene: Scene, look: Look, name: str, walk: Sequence[tuple[str, str]], start: str | None
) -> None:
    things = [('node', start)] if start else []
    for edge, node in walk:
        things += [('edge', edge), ('node', node)]
    for kind, thing in things:
        by = scene.holder(kind, thing)
        if by is not None and by != name:
            look.warn(True, 'holds', by=by, kind=kind, thing=thing)
            return


def new_name(front: str) -> str:
    """Returns a name for an order or a job that was not used before, with the day in front:
    `1128-O-142501`."""
    return time.strftime('%m%d-', time.gmtime()) + front + time.strftime('-%H%M%S', time.gmtime())
