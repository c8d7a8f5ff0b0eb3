"""The tables of `board.db`: how they are made, how a file of an earlier version is moved, and which
rows are removed once they are old."""
from __future__ import annotations

from typing import TypedDict

VERSION = 3
SCHEMA = """
CREATE TABLE IF NOT EXISTS meta (name TEXT NOT NULL PRIMARY KEY, value TEXT NOT NULL) STRICT;
CREATE TABLE IF NOT EXISTS stations (station TEXT NOT NULL PRIMARY KEY, node TEXT NOT NULL,
  capacity INT NOT NULL,
  taken INT NOT NULL, reserved INT NOT NULL) STRICT;
CREATE TABLE IF NOT EXISTS loads (load TEXT NOT NULL PRIMARY KEY, place TEXT NOT NULL,
  since TEXT) STRICT;
CREATE TABLE IF NOT EXISTS vehicles (vehicle TEXT NOT NULL PRIMARY KEY, node TEXT NOT NULL,
  order_name TEXT, seen INT,
  base INT, edges INT, sent INT, confirmed INT, pending TEXT, ready INT NOT NULL,
  paused INT NOT NULL, astray INT NOT
  NULL, capacity INT NOT NULL, heard TEXT, since TEXT NOT NULL) STRICT;
CREATE TABLE IF NOT EXISTS holds (kind TEXT NOT NULL, name TEXT NOT NULL, vehicle TEXT NOT NULL,
  since TEXT NOT NULL,
  PRIMARY KEY (kind, name)) STRICT;
CREATE TABLE IF NOT EXISTS jobs (job TEXT NOT NULL PRIMARY KEY, load TEXT NOT NULL, origin TEXT,
  target TEXT, phase TEXT
  NOT NULL, order_name TEXT, vehicle TEXT, added TEXT, began TEXT, ended TEXT, picked TEXT,
  dropped TEXT, outcome TEXT, cause TEXT, who TEXT, action TEXT) STRICT;
CREATE TABLE IF NOT EXISTS load_moves (n INTEGER PRIMARY KEY, at TEXT NOT NULL,
  load TEXT NOT NULL, from_place TEXT,
  to_place TEXT NOT NULL) STRICT;
CREATE TABLE IF NOT EXISTS vehicle_states (n INTEGER PRIMARY KEY, at TEXT NOT NULL,
  vehicle TEXT NOT NULL, node TEXT NOT
  NULL, order_name TEXT, seen INT, base INT, edges INT, sent INT, confirmed INT, pending TEXT,
  ready INT NOT NULL,
  paused INT NOT NULL, astray INT NOT NULL) STRICT;
CREATE TABLE IF NOT EXISTS hold_changes (n INTEGER PRIMARY KEY, at TEXT NOT NULL,
  kind TEXT NOT NULL, name TEXT NOT
  NULL, vehicle TEXT) STRICT;
CREATE TABLE IF NOT EXISTS waits (n INTEGER PRIMARY KEY, vehicle TEXT NOT NULL,
  kind TEXT NOT NULL, name TEXT NOT NULL,
  holder TEXT NOT NULL, began TEXT NOT NULL, ended TEXT) STRICT;
CREATE TABLE IF NOT EXISTS desk_times (n INTEGER PRIMARY KEY, at TEXT NOT NULL,
  answers INT NOT NULL, fault TEXT)
  STRICT;
CREATE TABLE IF NOT EXISTS commands (n INTEGER PRIMARY KEY, at TEXT NOT NULL, who TEXT NOT NULL,
  command TEXT NOT NULL,
  said TEXT NOT NULL, done INT, answer TEXT) STRICT;
CREATE TABLE IF NOT EXISTS events (n INTEGER PRIMARY KEY AUTOINCREMENT, at TEXT NOT NULL,
  kind TEXT NOT NULL, what TEXT NOT NULL, words TEXT NOT NULL, cause TEXT NOT NULL, who TEXT,
  call TEXT, command INT, vehicle TEXT, load TEXT, job TEXT, order_name TEXT, station TEXT,
  node TEXT, before TEXT, after TEXT, more TEXT) STRICT;
CREATE TABLE IF NOT EXISTS vehicle_words (vehicle TEXT NOT NULL PRIMARY KEY, at TEXT NOT NULL,
  mode TEXT, stop TEXT, field INT, battery REAL, charging INT, x REAL, y REAL, map TEXT,
  connection TEXT, errors TEXT NOT NULL, failed TEXT NOT NULL, since TEXT NOT NULL) STRICT;
CREATE TABLE IF NOT EXISTS vehicle_batteries (n INTEGER PRIMARY KEY, at TEXT NOT NULL,
  vehicle TEXT NOT NULL, charge REAL, charging INT) STRICT;
CREATE TABLE IF NOT EXISTS vehicle_uses (n INTEGER PRIMARY KEY, at TEXT NOT NULL,
  vehicle TEXT NOT NULL, state TEXT NOT NULL) STRICT;
CREATE TABLE IF NOT EXISTS alarms (n INTEGER PRIMARY KEY AUTOINCREMENT, key TEXT NOT NULL,
  kind TEXT NOT NULL, level TEXT NOT NULL, vehicle TEXT, load TEXT, job TEXT, station TEXT,
  words TEXT NOT NULL, todo TEXT NOT NULL, more TEXT NOT NULL, began TEXT NOT NULL, ended TEXT,
  taken_by TEXT, taken_at TEXT) STRICT;
CREATE TABLE IF NOT EXISTS drawing (node TEXT NOT NULL PRIMARY KEY, x REAL NOT NULL,
  y REAL NOT NULL) STRICT;
CREATE INDEX IF NOT EXISTS load_moves_load ON load_moves (load, at);
CREATE INDEX IF NOT EXISTS load_moves_at ON load_moves (at);
CREATE INDEX IF NOT EXISTS vehicle_states_vehicle ON vehicle_states (vehicle, at);
CREATE INDEX IF NOT EXISTS vehicle_states_at ON vehicle_states (at);
CREATE INDEX IF NOT EXISTS hold_changes_at ON hold_changes (at);
CREATE INDEX IF NOT EXISTS events_at ON events (at);
CREATE INDEX IF NOT EXISTS events_vehicle ON events (vehicle, n);
CREATE INDEX IF NOT EXISTS events_load ON events (load, n);
CREATE INDEX IF NOT EXISTS events_job ON events (job, n);
CREATE INDEX IF NOT EXISTS vehicle_batteries_vehicle ON vehicle_batteries (vehicle, at);
CREATE INDEX IF NOT EXISTS vehicle_batteries_at ON vehicle_batteries (at);
CREATE INDEX IF NOT EXISTS vehicle_uses_vehicle ON vehicle_uses (vehicle, at);
CREATE INDEX IF NOT EXISTS vehicle_uses_at ON vehicle_uses (at);
CREATE INDEX IF NOT EXISTS alarms_ended ON alarms (ended);
CREATE INDEX IF NOT EXISTS waits_began ON waits (began);
CREATE INDEX IF NOT EXISTS waits_vehicle ON waits (vehicle, ended);
CREATE INDEX IF NOT EXISTS jobs_ended ON jobs (ended);
CREATE INDEX IF NOT EXISTS jobs_added ON jobs (added);
CREATE INDEX IF NOT EXISTS jobs_load ON jobs (load);
CREATE INDEX IF NOT EXISTS loads_place ON loads (place);
"""
# By version what moves a file of the one before: to 2, as a command stood once it was answered;
# to 3, as an entry had no cause, and a job no outcome.
MOVES = {
    '2': """
ALTER TABLE commands RENAME TO commands_1;
CREATE TABLE commands (n INTEGER PRIMARY KEY, at TEXT NOT NULL, who TEXT NOT NULL,
  command TEXT NOT NULL, said TEXT NOT
  NULL, done INT, answer TEXT) STRICT;
INSERT INTO commands SELECT n, at, who, command, said, done, answer FROM commands_1;
DROP TABLE commands_1;
UPDATE meta SET value = '2' WHERE name = 'version'""",
    '3': """
ALTER TABLE events RENAME TO events_2;
DROP INDEX IF EXISTS events_at;
CREATE TABLE events (n INTEGER PRIMARY KEY AUTOINCREMENT, at TEXT NOT NULL,
  kind TEXT NOT NULL, what TEXT NOT NULL, words TEXT NOT NULL, cause TEXT NOT NULL, who TEXT,
  call TEXT, command INT, vehicle TEXT, load TEXT, job TEXT, order_name TEXT, station TEXT,
  node TEXT, before TEXT, after TEXT, more TEXT) STRICT;
INSERT INTO events (n, at, kind, what, words, cause, vehicle, load)
  SELECT n, at, kind, 'earlier', words, 'unknown', vehicle, load FROM events_2;
DROP TABLE events_2;
ALTER TABLE jobs ADD COLUMN picked TEXT;
ALTER TABLE jobs ADD COLUMN dropped TEXT;
ALTER TABLE jobs ADD COLUMN outcome TEXT;
ALTER TABLE jobs ADD COLUMN cause TEXT;
ALTER TABLE jobs ADD COLUMN who TEXT;
ALTER TABLE jobs ADD COLUMN action TEXT;
UPDATE meta SET value = '3' WHERE name = 'version'""",
}
# What is removed once it is older than so many days: of each table which rows.
OLD = {
    'load_moves': 'at < :before',
    'vehicle_states': 'at < :before',
    'hold_changes': 'at < :before',
    'waits': 'began < :before AND ended < :before',
    'desk_times': 'at < :before',
    'commands': 'at < :before',
    'events': 'at < :before',
    'vehicle_batteries': 'at < :before',
    'vehicle_uses': 'at < :before',
    'alarms': 'ended < :before',
    'jobs': 'ended < :before',
}
# The most rows that are kept, of each table whose rows are numbered.
MOST = {
    'load_moves': 10_000_000,
    'vehicle_states': 10_000_000,
    'hold_changes': 10_000_000,
    'waits': 10_000_000,
    'desk_times': 1_000_000,
    'commands': 1_000_000,
    'events': 3_000_000,  # of some 2 KB at most
    'vehicle_batteries': 1_000_000,
    'vehicle_uses': 10_000_000,
    'alarms': 1_000_000,
}
PORTION = 2_000  # rows of a table that are removed at once, so that nobody waits for it


class WordsColumns(TypedDict):
    """What a vehicle says of itself, by the columns of `vehicle_words`; 1 stands for yes, and what
    is a list or an object is JSON."""

    mode: str | None
    stop: str | None
    field: int | None
    battery: float | None
    charging: int | None
    map: str | None
    connection: str | None
    x: float | None
    y: float | None
    errors: str
    failed: str
    since: str
