"""Stocktake files: the stations that were counted and the loads that were found, read from the file
that `POST /stocktakes/{ref}` takes, with each fault and its line, and what a desk makes of it."""
from __future__ import annotations

from collections.abc import Mapping
from dataclasses import dataclass, field
from typing import NamedTuple

from .names import NAME_RULE, is_name, natural
from .tables import TableFile, Text, quoted, records_of, said
from .text import shown

HEADER = [b'station', b'load']
# What is wrong with a file, and what to do, by a name.
TEXTS = {
    'blanks': 'write {text} without blanks',
    'carry': 'carry a load elsewhere and write it there',
    'carry.or.stop': 'stop one of these jobs, or carry a load elsewhere and write it there',
    'correct': 'once it has no live job, correct its place',
    'empty': 'write {text}, where no load was found there',
    'fields': '{fields} field{s}, and not the two of station,load',
    'full': (
        'station {station} has room for {capacity}; found there: {here}; live jobs to it: {coming}'
    ),
    'header': 'the first line has to be station,load, and is {fields}',
    'less': 'count some of the stations by another file',
    'missed': 'load {load} was not found at {place}, and would move, but has the live job {job}',
    'moves': 'load {load} is recorded at {place}, and would move, but has the live job {job}',
    'name': f'the {{what}} is {{text}}, and no name: {NAME_RULE}',
    'one': 'write one load a row, and nothing behind it',
    'quote': 'is there a quote in this line that nothing closes?',
    'row': 'write {text}',
    'semicolons': 'write commas for the semicolons, here and in each row',
    'station': 'there is no station {station}: the desk has {known}',
    'stop': 'stop it while it waits',
    'strike': 'strike out one of the two',
    'tabs': 'write commas for the tabs, here and in each row',
    'twice': 'load {load} stands in line {line} already, at station {station}',
    'utf16': 'the file is UTF-16',
    'utf8': 'save it as CSV in UTF-8',
    'vehicle': 'load {load} is recorded on vehicle {vehicle}',
}
# The refusals of a stocktake, in the order in which a desk looks for them.
REFUSALS = ('TooLarge', 'BadCsv', 'NoStation', 'CountTwice', 'OnVehicle', 'InJob', 'Full')


def text(name: str, /, **values: object) -> Text:
    """Returns a text of the table above."""
    return Text.of(name, TEXTS[name], **values)


class Row(NamedTuple):
    """A row: its line, the station that was counted, and the load that was found there, if any."""

    line: int
    station: str
    load: str | None


@dataclass(frozen=True)
class Records:
    """What the desk has: by its name the capacity of each station, the place of each load as `GET
    /loads/{load}` has it, by the load of each live job the job, and how many live jobs go to each
    station."""

    capacities: Mapping[str, int]
    places: Mapping[str, str]
    jobs: Mapping[str, str] = field(default_factory=dict)
    reserved: Mapping[str, int] = field(default_factory=dict)


@dataclass(frozen=True)
class Move:
    """A load that a stocktake would move, from one place to another one; without a line where it
    was not found."""

    line: int | None
    load: str
    before: str
    after: str


class CountFile(TableFile):
    """A stocktake file."""

    def __init__(self, data: bytes) -> None:
        super().__init__(data, REFUSALS, text('less'))
        self.rows: list[Row] = []
        records = records_of(data)
        for line, fields in records[1:] if self.has_header(data, records) else records:
            self.read(line, fields)
        self.check_twice()

    def has_header(self, data: bytes, records: list[tuple[int, list[bytes]]]) -> bool:
        """Whether the first record is no row, be it the header or something else in its place."""
        line, fields = records[0] if records else (1, [])
        if fields == HEADER:
            return True
        rule, remedy = text('header', fields=said(fields)), ''
        if data.startswith((b'\xff\xfe', b'\xfe\xff')):
            rule, remedy = text('utf16'), text('utf8')
        elif len(fields) == 1 and b';' in fields[0]:
            remedy = text('semicolons')
        elif len(fields) == 1 and b'\t' in fields[0]:
            remedy = text('tabs')
        self.fault(line, 'BadCsv', rule, remedy)
        is_header = fields[:1] and fields[0].lower() == HEADER[0]
        return bool(
            is_header or len(fields) != len(HEADER) or not is_name(fields[0].decode('latin-1'))
        )

    def read(self, line: int, fields: list[bytes]) -> None:
        """Reads a record that should be a row."""
        if len(fields) != len(HEADER):
            count = len(fields)
            rule = text('fields', fields=count, s='' if count == 1 else 's')
            self.fault(line, 'BadCsv', rule, two_fields(fields))
            return
        station, load = (one.decode('latin-1') for one in fields)
        for what, name, one in (('station', station, fields[0]), ('load', load, fields[1])):
            if not is_name(name) and not (what == 'load' and name == ''):
                rule, remedy = text('name', what=what, text=quoted(one)), ''
                if is_name(name.strip()):
                    remedy = text('blanks', text=name.strip())
                elif b'\n' in one or b'\r' in one:
                    remedy = text('quote')
                self.fault(line, 'BadCsv', rule, remedy)
                return
        self.rows.append(Row(line, station, load or None))

    def check_twice(self) -> None:
        """Notes each load that stands on more than one row."""
        first: dict[str, Row] = {}
        for row in self.rows:
            if row.load is not None:
                before = first.setdefault(row.load, row)
                if before is not row:
                    at = {'line': before.line, 'station': before.station}
                    rule = text('twice', load=row.load, **at)
                    self.fault(row.line, 'CountTwice', rule, text('strike'))

    def stations(self) -> dict[str, int]:
        """Returns the counted stations, each with the line on which it stands first."""
        found: dict[str, int] = {}
        for row in self.rows:
            found.setdefault(row.station, row.line)
        return found

    def found(self) -> dict[str, Row]:
        """Returns the row on which each load stands first, by the load's name."""
        return {row.load: row for row in reversed(self.rows) if row.load is not None}

    def moves(self, records: Records) -> list[Move]:
        """Returns what the stocktake would move: to the station where it was found a load that is
        recorded elsewhere, and to the checking place a load that is recorded at a counted station
        and was not found."""
        found, counted = self.found(), self.stations()
        moves = []
        for load, row in sorted(found.items(), key=lambda pair: pair[1].line):
            place, here = records.places.get(load, 'left'), f'station {row.station}'
            if place != here and (place == 'checking' or place.startswith('station ')):
                moves.append(Move(row.line, load, place, here))
        for load, place in sorted(records.places.items(), key=lambda pair: natural(pair[0])):
            if (
                place.partition(' ')[0] == 'station'
                and place.partition(' ')[2] in counted
                and load not in found
            ):
                moves.append(Move(None, load, place, 'checking'))
        return moves

    def unknown(self, records: Records) -> list[Row]:
        """Returns the rows of loads that the desk doesn't have, or that have left by its
        records."""
        return [
            row for row in self.rows if row.load and records.places.get(row.load, 'left') == 'left'
        ]

    def check(self, records: Records) -> None:
        """Adds the faults that the file has by the records of a desk."""
        for station, line in self.stations().items():
            if station not in records.capacities:
                known = ', '.join(sorted(records.capacities, key=natural)[:10])
                more = ', ..' if len(records.capacities) > 10 else ''
                rule = text('station', station=station, known=known + more)
                self.fault(line, 'NoStation', rule)
        for load, row in self.found().items():
            place = records.places.get(load, '')
            if place.startswith('vehicle '):
                once = 'once it has no live job, '
                command = f'{once}`tools/ask correct {load} --station {row.station}`'
                rule = text('vehicle', load=load, vehicle=place.partition(' ')[2])
                self.fault(row.line, 'OnVehicle', rule, text('correct'), command)
        for move in self.moves(records):
            if move.load in records.jobs:
                self.check_job(move, records.jobs[move.load])
        self.check_room(records)
        self.faults.sort(key=lambda fault: fault.line or 0)

    def check_job(self, move: Move, job: str) -> None:
        """Notes that a load in a live job would move."""
        line = move.line or self.stations()[move.before.partition(' ')[2]]
        values = {'load': move.load, 'place': move.before, 'job': job}
        rule = text('missed' if move.line is None else 'moves', **values)
        command = f'`tools/ask stop-job {job}` while it waits'
        self.fault(line, 'InJob', rule, text('stop'), command)

    def check_room(self, records: Records) -> None:
        """Notes each counted station without room for the loads that were found and the live jobs
        to it."""
        for station, line in self.stations().items():
            loads = [
                row.load
                for row in self.rows
                if row.station == station and row.load in records.places
            ]
            here = sum(1 for load in loads if records.places[str(load)] != 'left')
            coming, capacity = records.reserved.get(station, 0), records.capacities.get(station)
            if capacity is not None and here + coming > capacity:
                counts = {'capacity': capacity, 'here': here, 'coming': coming}
                rule = text('full', station=station, **counts)
                remedy = text('carry.or.stop' if here <= capacity else 'carry')
                self.fault(line, 'Full', rule, remedy)


def two_fields(fields: list[bytes]) -> str:
    """Returns what to write for a record that has not two fields."""
    if len(fields) == 1:
        mark = next((mark for mark in (b';', b'\t') if fields[0].count(mark) == 1), None)
        if mark is not None:
            return text('row', text=shown(fields[0].replace(mark, b',')))
        if is_name(fields[0].decode('latin-1')):
            return text('empty', text=f'{fields[0].decode()},')
        return ''
    if any(fields[2:]):
        return text('one')
    return text('row', text=shown(b','.join(fields[:2])))
