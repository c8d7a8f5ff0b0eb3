"""What somebody may write into a desk's file that has few rows, each with the rule that it
breaks."""
from __future__ import annotations

# The same over the rows of `FILLED` with those of `DRIVEN`.
DRIVE_BREAKS = [
    ("DELETE FROM act", 'riding jobs', 'job J2'),
    ("DELETE FROM leg WHERE order_id = 'G1' AND k = 1", 'ended orders', 'journey G1'),
    ("DELETE FROM leg WHERE order_id = 'G1'", 'released track', 'journey G1'),
    (
        (
            "DELETE FROM leg WHERE order_id = 'G1'; UPDATE journey SET start = 'N5', base = 0, seen"
            " = 0 WHERE order_id = 'G1'"
        ),
        'ended orders',
        'journey G1',
    ),
    (
        (
            "UPDATE journey SET base = 2, seen = 2 WHERE order_id = 'G1'; UPDATE vehicle SET node ="
            " 'N4' WHERE serial = '0003'; DELETE FROM hold WHERE id = 'N5'"
        ),
        'ended orders',
        'journey G1',
    ),
    (
        "INSERT INTO act VALUES ('G1', 0, 'J5', 'pick', 1, 'WAITING')",
        'jobs of an order',
        'journey G1, job J5',
    ),
    (
        (
            "INSERT INTO act VALUES ('G1', 0, 'J5', 'pick', 1, 'WAITING'),"
            " ('G1', 1, 'J5', 'drop', 2, 'WAITING')"
        ),
        'places of acts',
        'act G1, 0',
    ),
    ("UPDATE act SET order_id = 'G1'", 'places of acts', 'act G1, 0'),
    ("UPDATE act SET order_id = 'G1' WHERE n = 1", 'jobs of an order', 'journey G1, job J2'),
    ("UPDATE job SET phase = 'riding' WHERE id = 'J5'", 'riding jobs', 'job J5'),
    ("DELETE FROM used WHERE id = 'G1'", 'name of an order', 'journey G1'),
    (
        "UPDATE journey SET confirmed = NULL WHERE order_id = 'G1'",
        'confirmed updates',
        'journey G1',
    ),
    ("UPDATE journey SET base = 3 WHERE order_id = 'G1'", 'released track', 'journey G1'),
    ("UPDATE journey SET base = 2 WHERE order_id = 'G1'", 'one holder', 'node N4'),
    (
        "UPDATE vehicle SET node = 'N6' WHERE serial = '0003'",
        'vehicle on its way',
        'vehicle KIT/0003, journey G1',
    ),
    ("DELETE FROM hold WHERE id = 'N5'", 'holds', 'node N5'),
    ("UPDATE leg SET edge = 'E45' WHERE order_id = 'G1' AND k = 1", 'way of an order', 'leg G1, 1'),
    ("DELETE FROM journey WHERE order_id = 'G1'", 'parts of an order', 'leg G1, 0'),
    (
        "UPDATE vehicle SET order_header = 0, order_at = 0 WHERE serial = '0003'",
        'vehicle of an order',
        'journey G1, vehicle KIT/0003',
    ),
]

# Of each rule a statement that breaks it, and what is told of it: of other rules no more than can't
# be broken without it.
ALONE = [
    ('schema', "UPDATE meta SET schema = 3", {('schema', 'meta')}),
    (
        'no old trips',
        (
            "INSERT INTO trip VALUES ('O2', 'KIT', '0001', 'J2', 'N3', 0, 1, 0, 0, 0, 0, 2,"
            " 'FINISHED', 'WAITING')"
        ),
        {('no old trips', 'trip O2')},
    ),
    ('names', "INSERT INTO node VALUES ('a b')", {('names', 'node a b')}),
    (
        'words',
        "UPDATE vehicle SET ready = 2 WHERE serial = '0003'",
        {('words', 'vehicle KIT/0003')},
    ),
    (
        'numbers',
        "UPDATE vehicle SET last_header = -1 WHERE serial = '0003'",
        {('numbers', 'vehicle KIT/0003')},
    ),
    (
        'limits',
        (
            "WITH more (n) AS (VALUES (1) UNION ALL SELECT n + 1 FROM more WHERE n < 493) INSERT"
            " INTO node SELECT 'M' || n FROM more"
        ),
        {('limits', 'nodes')},
    ),
    ('edges', "INSERT INTO edge VALUES ('E9', 'N1', 'N1')", {('edges', 'edge E9')}),
    ('stations', "INSERT INTO station VALUES ('E', 'N9', 1)", {('stations', 'station E')}),
    (
        'where a vehicle stands',
        (
            "UPDATE vehicle SET node = 'N9' WHERE serial = '0003'; UPDATE hold SET id = 'N9' WHERE"
            " id = 'N6'"
        ),
        {('where a vehicle stands', 'vehicle KIT/0003')},
    ),
    (
        'rest of a vehicle',
        (
            "UPDATE vehicle SET rest_edge = 'E87' WHERE serial = '0002'; UPDATE hold SET id = 'E87'"
            " WHERE id = 'E78'"
        ),
        {('rest of a vehicle', 'vehicle KIT/0002')},
    ),
    (
        'moments of messages',
        "UPDATE vehicle SET order_at = 1 WHERE serial = '0003'",
        {('moments of messages', 'vehicle KIT/0003')},
    ),
    (
        'pending actions',
        "UPDATE vehicle SET pending = 'startPause' WHERE serial = '0001'",
        {('pending actions', 'vehicle KIT/0001')},
    ),
    (
        'capacity of a vehicle',
        "INSERT INTO capacity VALUES ('KIT', '0009', 1)",
        {('capacity of a vehicle', 'capacity KIT/0009')},
    ),
    (
        'vehicle of an order',
        "UPDATE vehicle SET order_header = 0, order_at = 0 WHERE serial = '0001'",
        {('vehicle of an order', 'journey O2, vehicle KIT/0001')},
    ),
    ('name of an order', "DELETE FROM used WHERE id = 'O2'", {('name of an order', 'journey O2')}),
    (
        'parts of an order',
        "INSERT INTO leg VALUES ('O1', 0, 'E12')",
        {('parts of an order', 'leg O1, 0')},
    ),
    (
        'way of an order',
        "UPDATE edge SET start = 'N6' WHERE id = 'E45'",
        {('way of an order', 'leg O2, 1')},
    ),
    (
        'jobs of an order',
        (
            "UPDATE act SET n = n + 10; UPDATE act SET n = n - 9; INSERT INTO act VALUES ('O2', 0,"
            " 'J4', 'pick', 0, 'FAILED')"
        ),
        {('jobs of an order', 'journey O2, job J4'), ('jobs of an order', 'journey O2')},
    ),
    (
        'places of acts',
        "UPDATE job SET target = 'D' WHERE id = 'J2'",
        {('places of acts', 'act O2, 1')},
    ),
    ('released track', "UPDATE journey SET first = 1", {('released track', 'journey O2')}),
    (
        'confirmed updates',
        "UPDATE journey SET confirmed = 1",
        {('confirmed updates', 'journey O2')},
    ),
    (
        'finished acts',
        (
            "UPDATE act SET status = 'FINISHED'; UPDATE job SET phase = 'done' WHERE id = 'J2';"
            " UPDATE load SET kind = 'station', station = 'C', manufacturer = NULL, serial = NULL"
            " WHERE id = 'L1'"
        ),
        {('finished acts', 'act O2, 1')},
    ),
    (
        'ended orders',
        (
            "UPDATE journey SET base = 2, seen = 2; UPDATE act SET status = 'FAILED' WHERE n = 1;"
            " UPDATE vehicle SET node = 'N5' WHERE serial = '0001'; DELETE FROM hold WHERE serial ="
            " '0001'; INSERT INTO hold VALUES ('node', 'N5', 'KIT', '0001')"
        ),
        {('ended orders', 'journey O2')},
    ),
    (
        'vehicle on its way',
        "UPDATE vehicle SET node = 'N4' WHERE serial = '0001'",
        {('vehicle on its way', 'vehicle KIT/0001, journey O2')},
    ),
    (
        'one holder',
        "UPDATE vehicle SET node = 'N4' WHERE serial = '0003'; DELETE FROM hold WHERE id = 'N6'",
        {('one holder', 'node N4')},
    ),
    ('holds', "DELETE FROM hold WHERE id = 'N4'", {('holds', 'node N4')}),
    (
        'places of loads',
        "UPDATE load SET station = 'A' WHERE id = 'L3'",
        {('places of loads', 'load L3')},
    ),
    (
        'load and stations of a job',
        "UPDATE job SET load = 'L9' WHERE id = 'J1'",
        {('load and stations of a job', 'job J1')},
    ),
    (
        'room at a station',
        "UPDATE station SET capacity = 1 WHERE id = 'B'",
        {('room at a station', 'station B')},
    ),
    (
        'capacity of a vehicle',
        "UPDATE load SET kind = 'vehicle', manufacturer = 'KIT', serial = '0001' WHERE id = 'L3'",
        {('capacity of a vehicle', 'vehicle KIT/0001')},
    ),
    (
        'one live job a load',
        "UPDATE job SET load = 'L5', origin = 'A', phase = 'waiting' WHERE id = 'J4'",
        {('one live job a load', 'load L5')},
    ),
    ('riding jobs', "UPDATE job SET phase = 'riding' WHERE id = 'J5'", {('riding jobs', 'job J5')}),
    # the order has a second job, which is still to be dropped
    (
        'done jobs',
        (
            "UPDATE capacity SET capacity = 2 WHERE serial = '0001'; UPDATE journey SET base = 2,"
            " seen = 2; DELETE FROM act; INSERT INTO act VALUES ('O2', 0, 'J2', 'pick', 0,"
            " 'FINISHED'), ('O2', 1, 'J4', 'pick', 0, 'FINISHED'), ('O2', 2, 'J2', 'drop', 2,"
            " 'FINISHED'), ('O2', 3, 'J4', 'drop', 2, 'WAITING'); UPDATE job SET phase = 'riding'"
            " WHERE id = 'J4'; UPDATE job SET phase = 'stopped' WHERE id = 'J2'; UPDATE vehicle SET"
            " node = 'N5' WHERE serial = '0001'; UPDATE load SET kind = 'station', station = 'C',"
            " manufacturer = NULL, serial = NULL WHERE id = 'L1'; UPDATE load SET kind = 'vehicle',"
            " station = NULL, manufacturer = 'KIT', serial = '0001' WHERE id = 'L6'; DELETE FROM"
            " hold WHERE serial = '0001'; INSERT INTO hold VALUES ('node', 'N5', 'KIT', '0001')"
        ),
        {('done jobs', 'job J2, act O2, 2')},
    ),
    # another order has the drop
    (
        'one order a job',
        (
            "INSERT INTO journey VALUES ('O9', 'KIT', '0003', 'N6', 0, 0, 0, NULL, 0); INSERT INTO"
            " used VALUES ('order', 'O9'); UPDATE vehicle SET order_header = 1 WHERE serial ="
            " '0003'; INSERT INTO leg VALUES ('O9', 0, 'E65'); UPDATE act SET order_id = 'O9', n ="
            " 0, place_at = 1 WHERE n = 1"
        ),
        {
            ('one order a job', 'job J2'),
            ('jobs of an order', 'journey O2, job J2'),
            ('jobs of an order', 'journey O9, job J2'),
            ('places of acts', 'journey O2'),
        },
    ),
    (
        'loads of waiting jobs',
        "UPDATE load SET station = 'D' WHERE id = 'L5'",
        {('loads of waiting jobs', 'job J5, load L5')},
    ),
    (
        'loads under way',
        "UPDATE load SET serial = '0002' WHERE id = 'L1'",
        {('loads under way', 'load L1, act O2, 0')},
    ),
]
