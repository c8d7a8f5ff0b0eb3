"""The calls about loads, jobs and stocktakes."""
from __future__ import annotations

from tests.model.bodies import NAME, Told, check, name_or_none, names, read_body, table
from tests.model.tables import Tables

REFERENCES = "used WHERE kind = 'ref'"


def register_load(desk: Tables, body: bytes) -> Told:
    told = read_body(body)
    (load,) = names(told, 'load')
    station = name_or_none(told, 'station')
    check(desk.one('SELECT 1 FROM load WHERE id = ?', load), 'Exists')
    if station:
        check(station not in desk.layout.stations, 'NoStation')
        check(desk.room(station) <= 0, 'Full')
    desk.check_limit('load')
    desk.put(
        'INSERT INTO load VALUES (?, ?, ?, NULL, NULL)',
        load,
        'station' if station else 'checking',
        station,
    )
    return {}


def correct_load(desk: Tables, load: str, body: bytes) -> Told:
    told = read_body(body)
    (ref,) = names(told, 'ref')
    station = name_or_none(told, 'station')
    check(desk.is_used('ref', ref), 'RefUsed')
    row = desk.load(load)
    check(station and station not in desk.layout.stations, 'NoStation')
    check(row['kind'] == 'left', 'Elsewhere')
    check(desk.live_job(load), 'InJob')
    check(row['station'] == station if station else row['kind'] == 'checking', 'SameStation')
    check(station and desk.room(station) <= 0, 'Full')
    desk.check_limit(REFERENCES)
    desk.put_load(load, 'station' if station else 'checking', station)
    desk.use('ref', ref)
    return {}


def leave_load(desk: Tables, load: str, body: bytes) -> Told:
    (ref,) = names(read_body(body), 'ref')
    check(desk.is_used('ref', ref), 'RefUsed')
    row = desk.load(load)
    check(row['kind'] == 'left', 'Elsewhere')
    check(desk.live_job(load), 'InJob')
    desk.check_limit(REFERENCES)
    desk.put_load(load, 'left')
    desk.use('ref', ref)
    return {}


def add_job(desk: Tables, body: bytes) -> Told:
    job, load, to = names(read_body(body), 'job', 'load', 'to')
    check(desk.one('SELECT 1 FROM job WHERE id = ?', job), 'Exists')
    row = desk.load(load)
    check(to not in desk.layout.stations, 'NoStation')
    check(row['kind'] != 'station', 'Elsewhere')
    check(desk.live_job(load), 'InJob')
    check(row['station'] == to, 'SameStation')
    check(desk.room(to) <= 0, 'Full')
    desk.check_limit('job')
    desk.put("INSERT INTO job VALUES (?, ?, ?, ?, 'waiting')", job, load, row['station'], to)
    return {}


def stop_job(desk: Tables, job: str, _: bytes) -> Told:
    row = desk.one('SELECT phase FROM job WHERE id = ?', job)
    check(row is None, 'NoJob')
    check(row['phase'] != 'waiting', 'JobState')
    desk.put("UPDATE job SET phase = 'stopped' WHERE id = ?", job)
    return {}


def take_stock(desk: Tables, ref: str, body: bytes) -> Told:
    rows = table(body, ['station', 'load'])
    check(
        not all(
            NAME.fullmatch(station) and (load == '' or NAME.fullmatch(load))
            for station, load in rows
        ),
        'BadCsv',
    )
    check(desk.is_used('ref', ref), 'RefUsed')
    check(any(station not in desk.layout.stations for station, _ in rows), 'NoStation')
    stations, said = {station for station, _ in rows}, [
        (load, station) for station, load in rows if load
    ]
    check(len(dict(said)) != len(said), 'CountTwice')
    known = {load: desk.one('SELECT * FROM load WHERE id = ?', load) for load, _ in said}
    here = {
        load: station for load, station in said if known[load] and known[load]['kind'] != 'left'
    }
    check(any(known[load]['kind'] == 'vehicle' for load in here), 'OnVehicle')
    moves = {load: station for load, station in here.items() if known[load]['station'] != station}
    for station in stations:
        found = desk.base.execute('SELECT id FROM load WHERE station = ?', (station,))
        moves.update({row['id']: None for row in found if row['id'] not in here})
    check(any(desk.live_job(load) for load in moves), 'InJob')
    for station in stations:
        check(
            sum(at == station for at in here.values()) + desk.coming(station)
            > desk.layout.stations[station][1],
            'Full',
        )
    desk.check_limit(REFERENCES)
    for load, station in moves.items():
        desk.put_load(load, 'station' if station else 'checking', station)
    desk.use('ref', ref)
    return {'moved': len(moves), 'unknown': [load for load, _ in said if load not in here]}
