"""Files of the first schema, and what they are moved to."""
from typing import Any


# The first schema, as its desk has made it.
FIRST = '''
CREATE TABLE meta (id INT PRIMARY KEY, schema INTEGER NOT NULL) STRICT;
CREATE TABLE node (id TEXT PRIMARY KEY) STRICT;
CREATE TABLE edge (id TEXT PRIMARY KEY, start TEXT NOT NULL, finish TEXT NOT NULL) STRICT;
CREATE TABLE station (id TEXT PRIMARY KEY, node TEXT NOT NULL, capacity INTEGER NOT NULL) STRICT;
CREATE TABLE vehicle (manufacturer TEXT, serial TEXT, node TEXT NOT NULL, rest_edge TEXT,
  rest_node TEXT, last_header INTEGER, reported TEXT,
  ready INTEGER NOT NULL, paused INTEGER NOT NULL, order_header INTEGER NOT NULL,
  order_at INTEGER NOT NULL, instant_header INTEGER NOT NULL,
  instant_at INTEGER NOT NULL, pending TEXT, PRIMARY KEY (manufacturer, serial)) STRICT;
CREATE TABLE trip (order_id TEXT PRIMARY KEY, manufacturer TEXT NOT NULL, serial TEXT NOT NULL,
  job TEXT NOT NULL, start TEXT NOT NULL,
  first INTEGER NOT NULL, base INTEGER NOT NULL, sent INTEGER NOT NULL, confirmed INTEGER,
  seen INTEGER NOT NULL, pick_at INTEGER NOT NULL,
  drop_at INTEGER NOT NULL, pick_status TEXT NOT NULL, drop_status TEXT NOT NULL,
  UNIQUE (manufacturer, serial), UNIQUE (job)) STRICT;
CREATE TABLE leg (order_id TEXT, k INTEGER, edge TEXT NOT NULL, PRIMARY KEY (order_id, k)) STRICT;
CREATE TABLE load (id TEXT PRIMARY KEY, kind TEXT NOT NULL, station TEXT, manufacturer TEXT,
  serial TEXT) STRICT;
CREATE TABLE job (id TEXT PRIMARY KEY, load TEXT NOT NULL, origin TEXT NOT NULL,
  target TEXT NOT NULL, phase TEXT NOT NULL) STRICT;
CREATE TABLE hold (kind TEXT, id TEXT, manufacturer TEXT NOT NULL, serial TEXT NOT NULL,
  PRIMARY KEY (kind, id)) STRICT;
CREATE TABLE used (kind TEXT, id TEXT, PRIMARY KEY (kind, id)) STRICT;
CREATE INDEX load_station ON load (station);
CREATE INDEX load_vehicle ON load (manufacturer, serial);
CREATE INDEX job_load ON job (load, phase);
CREATE INDEX job_target ON job (target, phase);
INSERT INTO meta VALUES (1, 1);
'''
LAYOUT = '''
INSERT INTO node VALUES ('N1'), ('N2'), ('N3');
INSERT INTO edge VALUES ('E12', 'N1', 'N2'), ('E21', 'N2', 'N1'), ('E23', 'N2', 'N3'), ('E32',
  'N3', 'N2');
INSERT INTO station VALUES ('A', 'N1', 1), ('B', 'N3', 1), ('C', 'N3', 2);
INSERT INTO load VALUES ('L1', 'station', 'A', NULL, NULL);
'''
# An order is begun, and one of its two edges released.
BEGUN = (
    LAYOUT
    + '''
INSERT INTO vehicle VALUES ('KIT', '0001', 'N1', NULL, NULL, 1, NULL, 1, 0, 1, 1700000000000, 0,
  0, NULL);
INSERT INTO trip VALUES ('O1', 'KIT', '0001', 'J1', 'N1', 0, 1, 0, NULL, 0, 0, 2, 'WAITING',
  'WAITING');
INSERT INTO leg VALUES ('O1', 0, 'E12'), ('O1', 1, 'E23');
INSERT INTO job VALUES ('J1', 'L1', 'A', 'B', 'riding');
INSERT INTO hold VALUES ('node', 'N1', 'KIT', '0001'), ('edge', 'E12', 'KIT', '0001'), ('node',
  'N2', 'KIT', '0001');
INSERT INTO used VALUES ('order', 'O1');
'''
)
# The order was cancelled before its first edge was passed: the vehicle is astray.
CANCELLED = (
    LAYOUT
    + '''
INSERT INTO vehicle VALUES ('KIT', '0001', 'N1', 'E12', 'N2', 2, 'O1', 1, 0, 1, 1700000000000, 1,
  1700000000000, NULL);
INSERT INTO job VALUES ('J1', 'L1', 'A', 'B', 'stopped');
INSERT INTO hold VALUES ('node', 'N1', 'KIT', '0001'), ('edge', 'E12', 'KIT', '0001'), ('node',
  'N2', 'KIT', '0001');
INSERT INTO used VALUES ('order', 'O1');
'''
)
BEGUN_MOVED = {
    'capacity': [('KIT', '0001', 1)],
    'journey': [('O1', 'KIT', '0001', 'N1', 0, 1, 0, None, 0)],
    'act': [('O1', 0, 'J1', 'pick', 0, 'WAITING'), ('O1', 1, 'J1', 'drop', 2, 'WAITING')],
}
# The log beside a file: its header, and before each page the header of a frame.
HEADER, FRAME = 32, 24
MESSAGE = (
    '{"edges":[{"actions":[],"edgeId":"E12","endNodeId":"N2","released":true,"sequenceId":1,'
    '"startNodeId":"N1"},'
    '{"actions":[],"edgeId":"E23","endNodeId":"N3","released":false,"sequenceId":3,'
    '"startNodeId":"N2"}],"headerId":1,"manufacturer":"KIT",'
    '"nodes":[{"actions":[{"actionId":"O1.0","actionParameters":[{"key":"stationType",'
    '"value":"station"},{"key":"stationName","value":"A"},'
    '{"key":"loadType","value":"load"},{"key":"loadId","value":"L1"}],"actionType":"pick",'
    '"blockingType":"HARD"}],"nodeId":"N1",'
    '"released":true,"sequenceId":0},{"actions":[],"nodeId":"N2","released":true,'
    '"sequenceId":2},{"actions":[{"actionId":"O1.1",'
    '"actionParameters":[{"key":"stationType","value":"station"},{"key":"stationName",'
    '"value":"B"},{"key":"loadType","value":"load"},'
    '{"key":"loadId","value":"L1"}],"actionType":"drop","blockingType":"HARD"}],"nodeId":"N3",'
    '"released":false,"sequenceId":4}],'
    '"orderId":"O1","orderUpdateId":0,"serialNumber":"0001",'
    '"timestamp":"2023-11-14T22:13:20.00Z","version":"2.0.0"}'
)


def committed(log: Any) -> Any:
    """The front of a log that has its frames, which are those with the salts of its header; nothing
    where it has none."""
    end, size = HEADER, FRAME + int.from_bytes(log[8:12], 'big')
    while len(log) >= end + size and log[end + 8 : end + 16] == log[16:24]:
        end += size
    return log[:end] if end > HEADER else b''
