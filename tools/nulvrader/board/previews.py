"""What each command will do, in sentences, and what the desk will probably say against it. A look
changes nothing."""
from __future__ import annotations

from collections.abc import Mapping
from dataclasses import dataclass, field

from ..common.names import natural, new_reference
from .scene import Scene
from .messages import Line
from .shown_rows import CLOSED, VEHICLE, ShownLoad, ShownVehicle

Values = dict[str, str]


@dataclass
class Look:
    """What a command will do. `values` are what it is carried out with: what was said, and what the
    look has added."""

    values: Values
    says: list[Line] = field(default_factory=list)
    warns: list[Line] = field(default_factory=list)

    def say(self, name: str, **values: object) -> None:
        """Adds a sentence, of the row `look.` and this name."""
        self.says.append(Line(f'look.{name}', values))

    def warn(self, against: bool, name: str, **values: object) -> None:
        """Adds a warning where something is against it."""
        line = Line(f'look.{name}', values)
        if against and line not in self.warns:
            self.warns.append(line)


def register_load(scene: Scene, said: Mapping[str, str]) -> Look:
    """Returns what it is to register a load. Warns where there is one of its name, or its station
    is full."""
    look, load, station = Look(dict(said)), said['load'], said.get('station', '')
    look.say('register', load=load, place=place_of(station))
    look.warn(scene.load(load) is not None, 'exists', load=load)
    _check_room(scene, look, station)
    return look


def correct_load(scene: Scene, said: Mapping[str, str]) -> Look:
    """Returns what a correction of a load's place will do. Warns where the desk has no such load,
    it is there already or has a live job, or the station is full."""
    look, load, station = Look(_with_reference(said)), said['load'], said.get('station', '')
    known = _load_here(scene, look, load)
    before = known['place'] if known else ''
    look.say('correct', load=load, place=place_of(station), before=before)
    look.say('correct.still')
    there = known is not None and known['place'] == (
        f'station {station}' if station else 'checking'
    )
    look.warn(there, 'there', load=load)
    _check_no_job(scene, look, load)
    if not there:
        _check_room(scene, look, station)
    return look


def leave_load(scene: Scene, said: Mapping[str, str]) -> Look:
    """Returns what it is to record that a load has left. Warns where the desk has no such load, or
    it is aboard a vehicle or has a live job."""
    look, load = Look(_with_reference(said)), said['load']
    known = _load_here(scene, look, load)
    look.say('leave', load=load)
    is_aboard = known is not None and known['place'].startswith('vehicle ')
    look.warn(is_aboard, 'aboard', load=load)
    _check_no_job(scene, look, load)
    return look


def add_job(scene: Scene, said: Mapping[str, str]) -> Look:
    """Returns what a new job will do: from where its load is brought, and to where. Warns where the
    load is at no station, stands at the target or has a live job, where no way leads there, or
    where the target is full."""
    look, job, load, to = Look(dict(said)), said['job'], said['load'], said['to']
    known = _load_here(scene, look, load)
    place = known['place'] if known else ''
    origin = place.removeprefix('station ') if place.startswith('station ') else None
    if origin:
        look.say('job', job=job, load=load, origin=origin, to=to)
    else:
        look.say('job.somewhere', job=job, load=load, to=to)
    look.say('job.waits', to=to)
    is_elsewhere = known is not None and origin is None
    look.warn(is_elsewhere, 'elsewhere', load=load, place=place)
    look.warn(origin == to, 'stands', load=load, to=to)
    if origin and to in scene.layout.stations:
        start, end = scene.layout.stations[origin].node, scene.layout.stations[to].node
        look.warn(scene.layout.hops(start, end) is None, 'no.way', start=origin, end=to)
    _check_no_job(scene, look, load)
    _check_room(scene, look, to)
    return look


def stop_job(scene: Scene, said: Mapping[str, str]) -> Look:
    """Returns what a stop of a job will do. Warns where there is no such job, or it rides on a
    vehicle."""
    look, job = Look(dict(said)), said['job']
    known = scene.job(job)
    if known is None:
        look.say('stop.if', job=job)
        look.warn(True, 'no.job', job=job)
        return look
    look.say('stop', job=job, load=known['load'])
    if known['target']:
        look.say('stop.place', to=known['target'])
    look.warn(known['phase'] == 'riding', 'rides.on', vehicle=known['vehicle'])
    return look


def cancel(scene: Scene, said: Mapping[str, str]) -> Look:
    """Returns what a cancel of a vehicle's order will do: which order it ends and of which loads
    the jobs. Warns where the vehicle has no order, or has an action pending, as the desk would
    refuse the cancel then. It only reads the scene: the person confirms before anything is
    sent."""
    look, name = Look(dict(said)), said['vehicle']
    vehicle, way = vehicle_here(scene, look, name), scene.way(name)
    order = vehicle['order_name'] if vehicle else None
    look.say('cancel', vehicle=name, order=f' {order}' if order else '')
    if way and way['acts']:
        loads = sorted({act['load'] for act in way['acts']}, key=natural)
        look.say('cancel.jobs', loads=loads)
    look.say('cancel.place')
    look.warn(vehicle is not None and order is None, 'no.order')
    _check_not_pending(look, vehicle)
    return look


def pause(scene: Scene, said: Mapping[str, str]) -> Look:
    """Returns what it is to tell a vehicle to pause."""
    return _instant(scene, said, 'pause', True)


def resume(scene: Scene, said: Mapping[str, str]) -> Look:
    """Returns what it is to tell a vehicle to resume."""
    return _instant(scene, said, 'resume', False)


def pause_all(scene: Scene, said: Mapping[str, str]) -> Look:
    """Returns what it is to tell all vehicles to pause that have not."""
    return _instant_all(scene, said, 'pause', False)


def resume_all(scene: Scene, said: Mapping[str, str]) -> Look:
    """Returns what it is to tell all vehicles to resume that have paused."""
    return _instant_all(scene, said, 'resume', True)


def _instant_all(scene: Scene, said: Mapping[str, str], what: str, paused: bool) -> Look:
    """Returns what all vehicles are told that are so, and which of them can't be told now."""
    vehicles = scene.shown.all(VEHICLE)
    names = [
        name for name in sorted(vehicles, key=natural) if bool(vehicles[name]['paused']) == paused
    ]
    pending = [name for name in names if vehicles[name]['pending']]
    told = [name for name in names if name not in pending]
    look = Look({**said, 'vehicles': said.get('vehicles') or ' '.join(told)})
    look.say(f'{what}.all', vehicles=told or '-')
    rest = len(vehicles) - len(names)
    if rest:
        look.say(f'{what}.rest', count=rest)
    look.warn(bool(pending), 'pending.all', vehicles=pending)
    look.warn(not told, 'nobody')
    return look


def _instant(scene: Scene, said: Mapping[str, str], what: str, paused: bool) -> Look:
    """Returns what a vehicle is told to do, and a warning where it has paused, or has not."""
    look, name = Look(dict(said)), said['vehicle']
    vehicle = vehicle_here(scene, look, name)
    look.say(what, vehicle=name)
    look.warn(vehicle is not None and bool(vehicle['paused']) == paused, f'{what}.already')
    _check_not_pending(look, vehicle)
    return look


def place(scene: Scene, said: Mapping[str, str]) -> Look:
    """Returns what it is to record where a vehicle stands: its order ends. Warns to look first, and
    where another vehicle holds the node."""
    look, name, node = Look(_with_reference(said)), said['vehicle'], said['node']
    vehicle = vehicle_here(scene, look, name)
    look.say('place', vehicle=name, node=node)
    if vehicle and vehicle['order_name']:
        look.say('place.order', order=vehicle['order_name'])
    look.warn(True, 'place.sure')
    by = scene.holder('node', node)
    look.warn(by is not None and by != name, 'holds', by=by, kind='node', thing=node)
    return look


def resync(scene: Scene, said: Mapping[str, str]) -> Look:
    """Returns what it is to have the desk accept any next state of a vehicle."""
    look, name = Look(dict(said)), said['vehicle']
    vehicle_here(scene, look, name)
    look.say('resync', vehicle=name)
    look.say('resync.for')
    return look


def place_of(station: str) -> str:
    """Returns a station as a place; without a name it is the checking place."""
    return f'station {station}' if station else 'checking'


def vehicle_here(scene: Scene, look: Look, name: str) -> ShownVehicle | None:
    """Returns a vehicle of the desk; where there is none of that name, None and a warning."""
    vehicle = scene.vehicle(name)
    look.warn(vehicle is None, 'no.vehicle', vehicle=name)
    return vehicle


def _with_reference(said: Mapping[str, str]) -> Values:
    """Returns the values with a reference, a new one where none was given. The command is sent with
    the same one when it is tried again, so the desk carries it out once."""
    return {**said, 'ref': said.get('ref') or new_reference()}


def _check_room(scene: Scene, look: Look, station: str) -> None:
    """Adds a warning to the look where a station is full."""
    if station and station in scene.layout.stations:
        look.warn(scene.room(station) == 0, 'full', **scene.room_of(station))


def _load_here(scene: Scene, look: Look, load: str) -> ShownLoad | None:
    """Returns a load that is in the warehouse; where none of that name is, None and a warning."""
    known = scene.load(load)
    look.warn(known is None, 'no.load', load=load)
    return known


def _check_no_job(scene: Scene, look: Look, load: str) -> None:
    """Adds a warning to the look where the load has a live job, for which the desk would refuse the
    command."""
    job = scene.job_of(load)
    look.warn(job is not None, 'in.job', load=load, job=job)


def _check_not_pending(look: Look, vehicle: ShownVehicle | None) -> None:
    """Adds a warning to the look where the vehicle has an action pending, as the desk would
    refuse another one."""
    pending = str(vehicle['pending']) if vehicle and vehicle['pending'] else None
    look.warn(pending is not None, 'pending', action=pending)


def urge(scene: Scene, said: Mapping[str, str]) -> Look:
    """Returns what it is to say how urgent a job is."""
    look, job = Look(dict(said)), said['job']
    look.say('urgency', job=job)
    look.say('urgency.none')
    known = scene.job(job)
    look.warn(known is None, 'nojob', job=job)
    look.warn(known is not None and known['phase'] != 'waiting', 'urgency.late', job=job)
    return look


def close(scene: Scene, said: Mapping[str, str]) -> Look:
    """Returns what it is to close a node or an edge."""
    look = Look(dict(said))
    look.say('close', thing=said['thing'])
    look.warn(scene.shown.get(CLOSED, said['thing']) is not None, 'close.is')
    return look


def reopen(scene: Scene, said: Mapping[str, str]) -> Look:
    """Returns what it is to open a node or an edge."""
    look = Look(dict(said))
    look.say('open', thing=said['thing'])
    look.warn(scene.shown.get(CLOSED, said['thing']) is None, 'open.is')
    return look
