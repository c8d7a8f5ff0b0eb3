"""How each command of the page is carried out: a function for each makes a call of the desk, and
returns what is said of it. It raises what its call does: `Refused`, `NoAnswer` or `BadValue`."""
from __future__ import annotations

from collections.abc import Callable, Mapping

from ..common.names import VehicleKey, checked
from ..desk.client import Desk, NoAnswer, Refused, Stop
from . import order_previews
from .desk_faults import refusal_of
from .messages import Line

Values = Mapping[str, str]
Done = list[Line]


class NotAll(NoAnswer):
    """No answer has come to a command that tells several vehicles. `vehicles` were told before, and
    `fault` is why the next one was not."""

    def __init__(self, vehicles: list[str], fault: NoAnswer):
        super().__init__(str(fault), bool(vehicles) or fault.may_be_done)
        self.vehicles, self.fault = vehicles, fault


def key_of(said: Values) -> VehicleKey:
    """Returns the key of the vehicle that a command names."""
    return VehicleKey.parse(said['vehicle'])


def done(name: str, **values: object) -> Done:
    """Returns what is said of a command that was carried out."""
    return [Line(f'done.{name}', values)]


def nothing(desk: Desk, said: Values) -> Done:
    """Asks the desk for nothing, of a command that is for the dispatcher."""
    return []


def register(desk: Desk, said: Values) -> Done:
    """Registers a load at a station, or else at the checking place."""
    desk.register_load(said['load'], said.get('station') or None)
    return done('register', load=said['load'])


def correct(desk: Desk, said: Values) -> Done:
    """Records a load at a station, or else at the checking place."""
    desk.correct_load(said['load'], said['ref'], said.get('station') or None)
    return done('correct', load=said['load'])


def leave(desk: Desk, said: Values) -> Done:
    """Records that a load has left."""
    desk.leave_load(said['load'], said['ref'])
    return done('leave', load=said['load'])


def add_job(desk: Desk, said: Values) -> Done:
    """Adds a job that brings a load to a station."""
    desk.add_job(said['job'], said['load'], said['to'])
    return done('job', job=said['job'])


def stop_job(desk: Desk, said: Values) -> Done:
    """Stops a job that waits."""
    desk.stop_job(said['job'])
    return done('stop', job=said['job'])


def start_order(desk: Desk, said: Values) -> Done:
    """Gives a vehicle an order of stops, each a pick or a drop of a job's load."""
    stops = [
        Stop(stop.action, checked(stop.job, 'job'))
        for stop in order_previews.stops_of(said['stops'])
    ]
    desk.start_order_of_stops(said['order'], key_of(said), stops=stops, edges=int(said['edges']))
    return done('order', vehicle=said['vehicle'], order=said['order'])


def start_drive(desk: Desk, said: Values) -> Done:
    """Gives a vehicle an order without stops, to a node."""
    desk.start_drive(said['order'], key_of(said), said['node'], int(said['edges']))
    return done('drive', vehicle=said['vehicle'], node=said['node'], order=said['order'])


def advance(desk: Desk, said: Values) -> Done:
    """Releases further edges of a vehicle's order."""
    update = desk.advance(key_of(said), said['order'], int(said['update']), int(said['edges']))
    return done('advance', update=update, order=said['order'])


def cancel(desk: Desk, said: Values) -> Done:
    """Cancels the order of a vehicle."""
    return done('cancel', vehicle=said['vehicle'], action=desk.cancel(key_of(said)))


def pause(desk: Desk, said: Values) -> Done:
    """Tells a vehicle to pause."""
    return done('pause', vehicle=said['vehicle'], action=desk.pause(key_of(said)))


def resume(desk: Desk, said: Values) -> Done:
    """Tells a vehicle that pauses to go on."""
    return done('resume', vehicle=said['vehicle'], action=desk.resume(key_of(said)))


def to_all(tell: Callable[[Desk, VehicleKey], str]) -> Callable[[Desk, Values], Done]:
    """Tells all vehicles, one after the other. One that can't be told keeps none of the others
    waiting; where the desk does not answer the rest is not told."""

    def do(desk: Desk, said: Values) -> Done:
        told: list[str] = []
        refused: list[Line] = []
        for vehicle in said['vehicles'].split():
            try:
                tell(desk, VehicleKey.parse(vehicle))
                told.append(vehicle)
            except Refused as refusal:
                why = refusal_of(refusal)
                values = {'vehicle': vehicle, 'why': why.words(), 'says': [why.told()]}
                refused.append(Line('done.all.one', values))
            except NoAnswer as fault:
                raise NotAll(told, fault) from fault
        lines = done('all', vehicles=told) if told else done('all.none')
        if refused:
            words = [line.words() for line in refused]
            says = [line.told() for line in refused]
            lines += done('all.refused', vehicles=words, says=says)
        return lines

    return do


def place(desk: Desk, said: Values) -> Done:
    """Records at which node a vehicle stands, which ends its order."""
    desk.place(key_of(said), said['ref'], said['node'])
    return done('place', vehicle=said['vehicle'], node=said['node'])


def resync(desk: Desk, said: Values) -> Done:
    """Has the desk take a vehicle's next state whatever its headerId."""
    desk.resync(key_of(said))
    return done('resync', vehicle=said['vehicle'])


def stocktake(desk: Desk, said: Values) -> Done:
    """Sends the desk a count of stations, a file of CSV."""
    told = desk.stocktake(said['ref'], said['file'].encode())
    lines = done('stocktake', loads=told.moved)
    return lines + (done('stocktake.unknown', names=list(told.unknown)) if told.unknown else [])
