"""The rules of loads and jobs."""
import collections

from .checks import Breaches, place_text, rule, value_text, vehicle_text
from .rows import Rows
from .tables import LIVE, Key


@rule('places of loads')
def loads_have_places(rows: Rows) -> Breaches:
    """A load is at a station of the layout, on a vehicle, at the checking place, or has left;
    `station` is NULL except in the first case, and `manufacturer` and `serial` except in the
    second."""
    for load in rows.load:
        vehicle = (load.manufacturer or '', load.serial or '')
        if (load.station is not None) != (load.kind == 'station'):
            yield load, f'its kind is {load.kind}, and its station {value_text(load.station)}'
        elif load.station is not None and load.station not in rows.stations:
            yield load, 'there is no station ' + value_text(load.station)
        if {load.manufacturer is None, load.serial is None} != {load.kind != 'vehicle'}:
            kind, *key = map(value_text, (load.kind, load.manufacturer, load.serial))
            yield load, f'its kind is {kind}, and its vehicle {"/".join(key)}'
        elif load.kind == 'vehicle' and vehicle not in rows.vehicles:
            yield load, 'there is no ' + vehicle_text(vehicle)


@rule('load and stations of a job')
def jobs_name_what_is_known(rows: Rows) -> Breaches:
    """The load and both stations of a job are known."""
    for job in rows.job:
        if job.load not in rows.loads:
            yield job, 'there is no load ' + value_text(job.load)
        for station in (job.origin, job.target):
            if station not in rows.stations:
                yield job, 'there is no station ' + value_text(station)


@rule('room at a station')
def stations_have_room(rows: Rows) -> Breaches:
    """The loads at a station and the live jobs to it are together at most its capacity."""
    here = collections.Counter(load.station for load in rows.load)
    coming = collections.Counter(job.target for job in rows.job if job.phase in LIVE)
    for station in rows.station:
        loads, jobs = here[station.id], coming[station.id]
        if loads + jobs > station.capacity:
            text = f'loads at it: {loads}; live jobs to it: {jobs}'
            yield station, f'{text}; its capacity: {station.capacity}'


@rule('capacity of a vehicle')
def vehicles_keep_capacity(rows: Rows) -> Breaches:
    """The loads on a vehicle that its order is not to drop, and the jobs that its order is still to
    drop, are together at most its capacity."""
    aboard: dict[Key, list[str]] = collections.defaultdict(list)
    for load in rows.load:
        if load.kind == 'vehicle':
            aboard[load.manufacturer or '', load.serial or ''].append(load.id)
    for key, capacity in rows.capacities.items():
        acts = rows.open_orders[key].acts if key in rows.open_orders else []
        left = [act.job for act in acts if act.kind == 'drop' and act.status != 'FINISHED']
        carried = {rows.jobs[job].load for job in left if job in rows.jobs}
        others = [load for load in aboard[key] if load not in carried]
        if len(others) + len(left) > capacity:
            loads, jobs = (', '.join(names) or 'none' for names in (others, left))
            text = f'other loads on it: {loads}; jobs to drop: {jobs}; its capacity: {capacity}'
            yield vehicle_text(key), text


@rule('one live job a load')
def loads_have_one_live_job(rows: Rows) -> Breaches:
    """A load has at most one job that waits or rides."""
    live: dict[str, list[str]] = collections.defaultdict(list)
    for job in rows.job:
        if job.phase in LIVE:
            live[job.load].append(job.id)
    for load, jobs in live.items():
        if len(jobs) > 1:
            yield 'load ' + load, 'its live jobs are ' + ', '.join(jobs)


@rule('riding jobs')
def jobs_ride_in_orders(rows: Rows) -> Breaches:
    """A job rides exactly if an open order is still to drop it."""
    for job in rows.job:
        if (job.phase == 'riding') != (job.id in rows.to_drop):
            drop = rows.to_drop.get(job.id)
            order = 'no open order' if drop is None else f'the order {drop.order_id}'
            yield job, f'it is {job.phase}, and {order} is to drop it'


@rule('done jobs')
def dropped_jobs_are_done(rows: Rows) -> Breaches:
    """A job whose drop in an open order is finished is done."""
    for order in rows.open_orders.values():
        for act in order.acts:
            job = rows.jobs.get(act.job)
            if (
                job is not None
                and (act.kind, act.status) == ('drop', 'FINISHED')
                and job.phase != 'done'
            ):
                yield f'{job}, {act}', f'the drop is finished, and the job is {job.phase}'


@rule('one order a job')
def jobs_are_in_one_order(rows: Rows) -> Breaches:
    """A job is in at most one open order."""
    orders: dict[str, set[str]] = collections.defaultdict(set)
    for act in rows.act:
        orders[act.job].add(act.order_id)
    for job, names in orders.items():
        if len(names) > 1:
            yield 'job ' + job, 'it stands in the orders ' + ', '.join(sorted(names))


@rule('loads of waiting jobs')
def waiting_loads_are_at_the_origin(rows: Rows) -> Breaches:
    """The load of a job that waits is at the job's origin."""
    for job in rows.job:
        load = rows.loads.get(job.load)
        if job.phase == 'waiting' and load is not None and load.station != job.origin:
            text = f'the job waits at {job.origin}, and the load is {place_text(load)}'
            yield f'{job}, {load}', text


@rule('loads under way')
def carried_loads_are_aboard(rows: Rows) -> Breaches:
    """The load of a live job of an open order is at the job's origin until its pick is finished,
    and then on the vehicle."""
    for key, order in rows.open_orders.items():
        for act in order.acts:
            job = rows.jobs.get(act.job)
            load = rows.loads.get(job.load) if job is not None else None
            if act.kind != 'pick' or job is None or load is None or job.phase not in LIVE:
                continue
            wanted = vehicle_text(key) if act.status == 'FINISHED' else 'station ' + job.origin
            if place_text(load) != wanted:
                text = f'the pick is {act.status}, and the load is {place_text(load)}'
                yield f'{load}, {act}', text
