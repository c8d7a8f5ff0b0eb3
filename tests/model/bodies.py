"""What the body of a request says, or by which refusal it is answered."""
from __future__ import annotations

import csv
import datetime
import io
import json
import re
from typing import Any, NoReturn

# What a call tells, and a stop of an order: a kind and a job.
Told = dict[str, Any]
Stop = tuple[str, str]

NAME = re.compile('[A-Za-z0-9_.:-]{1,32}')
FINAL, ACTIVE = ('FINISHED', 'FAILED'), ('INITIALIZING', 'RUNNING', 'PAUSED')
STATUSES = ('WAITING', *ACTIVE, *FINAL)


class Refused(Exception):
    """A refusal by its name, with what it says besides."""

    def __init__(self, name: str, **more: Any) -> None:
        super().__init__(name)
        self.name, self.more = name, more


def check(fails: object, name: str, **more: Any) -> None:
    """Refuses what fails."""
    if fails:
        raise Refused(name, **more)


def is_name(value: object) -> bool:
    return isinstance(value, str) and NAME.fullmatch(value) is not None


def whole(text: str) -> int:
    number = int(text)
    check(not -(2**63) <= number < 2**64 or text == '-0', 'Fraction')
    return number


def fraction(text: str) -> NoReturn:
    check(float(text) in (float('inf'), float('-inf')), 'BadJson')
    raise Refused('Fraction')


def no_json(_: str) -> NoReturn:
    raise Refused('BadJson')


def depth_of(told: object) -> int:
    """How many arrays and objects stand in one another."""
    deepest, left = 0, [(told, 1)]
    while left:
        value, depth = left.pop()
        if isinstance(value, (dict, list)):
            deepest = max(deepest, depth)
            left += [
                (one, depth + 1) for one in (value.values() if isinstance(value, dict) else value)
            ]
    return deepest


def read_body(body: bytes) -> Any:
    """The value of a body that is JSON."""
    try:
        told = json.loads(
            body.decode(), parse_int=whole, parse_float=fraction, parse_constant=no_json
        )
    except (ValueError, RecursionError):
        raise Refused('BadJson') from None
    check(body.count(b'[') + body.count(b'{') > 127 and depth_of(told) > 127, 'BadJson')
    return told


def names(told: Any, *wanted: str) -> list[str]:
    """The members of an object that are names."""
    check(not isinstance(told, dict), 'BadBody')
    found = [told.get(name) for name in wanted]
    check(not all(map(is_name, found)), 'BadBody')
    return found


def name_or_none(told: Any, wanted: str) -> str | None:
    return names(told, wanted)[0] if told.get(wanted) is not None else None


def number(told: Any, wanted: str) -> int:
    value: int = told.get(wanted)
    check(type(value) is not int or not 0 <= value <= 4294967295, 'BadBody')
    return value


def texts(told: Any, *wanted: str) -> None:
    check(
        not isinstance(told, dict) or not all(isinstance(told.get(name), str) for name in wanted),
        'BadBody',
    )


def table(body: bytes, header: list[str]) -> list[list[str]]:
    """The rows of a CSV file with this header."""
    try:
        rows = [
            row
            for row in csv.reader(io.StringIO(body.decode('utf-8-sig'), newline=''), strict=True)
            if row
        ]
    except (ValueError, csv.Error):
        raise Refused('BadCsv') from None
    check(not rows or rows[0] != header or any(len(row) != len(header) for row in rows), 'BadCsv')
    return rows[1:]


def stops_of(told: Any) -> list[Stop]:
    """The stops of an order, each a kind and a job; one job stands for its pick and its drop."""
    stops = told.get('stops')
    check((stops is None) == (told.get('job') is None), 'BadBody')
    if stops is None:
        (job,) = names(told, 'job')
        return [('pick', job), ('drop', job)]
    check(not isinstance(stops, list), 'BadBody')
    said = []
    for stop in stops:
        (job,) = names(stop, 'job')
        check(stop.get('action') not in ('pick', 'drop'), 'BadBody')
        said.append((stop['action'], job))
    return said


def read_state(body: bytes) -> dict[str, Any]:
    """A state message, as docs/PROFILE.md has it."""
    told: dict[str, Any] = read_body(body)
    check(not isinstance(told, dict), 'BadBody')
    nodes, edges = told.get('nodeStates'), told.get('edgeStates')
    for values, member in ((nodes, 'nodePosition'), (edges, 'trajectory')):
        for value in values if isinstance(values, list) else ():
            check(isinstance(value, dict) and value.get(member) is not None, 'Position')
    check(told.get('agvPosition') is not None or told.get('velocity') is not None, 'Position')
    for name in ('headerId', 'orderUpdateId', 'lastNodeSequenceId'):
        number(told, name)
    texts(
        told,
        'timestamp',
        'version',
        'manufacturer',
        'serialNumber',
        'orderId',
        'lastNodeId',
        'operatingMode',
    )
    acts, errors = told.get('actionStates'), told.get('errors')
    if not (isinstance(nodes, list) and isinstance(acts, list) and isinstance(errors, list)):
        raise Refused('BadBody')
    for node in nodes:
        check(not isinstance(node, dict), 'BadBody')
        number(node, 'sequenceId')
    for act in acts:
        texts(act, 'actionId', 'actionStatus')
        check(act['actionStatus'] not in STATUSES, 'BadBody')
    for error in errors:
        texts(error, 'errorLevel')
    texts(told.get('safetyState'), 'eStop')
    check(told.get('paused') is not None and not isinstance(told['paused'], bool), 'BadBody')
    check(not told['version'].startswith('2.'), 'Version')
    check(not is_moment(told['timestamp']), 'BadTimestamp')
    return told


def is_moment(text: str) -> bool:
    """Whether it is a moment from 1970 to 2099."""
    try:
        moment = datetime.datetime.fromisoformat(text.replace('Z', '+00:00'))
    except ValueError:
        return False
    return (
        moment.tzinfo is not None and 1970 <= moment.astimezone(datetime.timezone.utc).year <= 2099
    )
