"""The refusals of a desk: the number, name and status of each, what is wrong, and what to do. The
table of docs/HTTP.md and the lists of docs/OPERATE.md have the same texts."""
from __future__ import annotations

from collections.abc import Mapping
from dataclasses import dataclass


@dataclass(frozen=True)
class Refusal:
    """A refusal. `says` is what is wrong; `told` is the same with members of the answer in braces,
    if it has any beside name and number. `remedy` is what to do, and `command` what a program of
    the command line can do; one of the two may be empty."""

    number: int
    name: str
    status: int
    says: str
    remedy: str
    command: str = ''
    told: str = ''

    def sentence(self, members: Mapping[str, object]) -> str:
        """Returns what is wrong as a sentence without a full stop, with the members of the answer
        in it."""
        try:
            return (self.told or self.says).format_map({**members})
        except KeyError:
            return self.says

    @property
    def advice(self) -> str:
        """What to do, for a person at the command line."""
        return ' '.join(part for part in (self.remedy, self.command) if part)

    @property
    def on_page(self) -> str:
        """What to do, for a person at a page: without programs, and without marks of code."""
        return self.remedy.replace('`', '')


BAD_REQUEST = 'The client is wrong: docs/HTTP.md says what a request is.'
UNKNOWN = 'There is nothing of that name. Upper and lower case differ.'
USED = (
    'A name is used only once. If the same call was sent before and its answer was lost, it was'
    ' done; else take another name.'
)
CSV_LINES = (
    '',
    '`tools/check-layout` and `tools/check-count` name the line and the rule of each error in a'
    ' file.',
)
NOT_RELEASED = (
    "The vehicle reports a node that isn't released to it, or isn't on its way. Stop the vehicle:"
    " others may have that track. Clear the order on it, and `place` it."
)
OUT_OF_TURN = (
    'The vehicle reports something twice, or in an impossible order (docs/PROFILE.md). If it goes'
    ' on so, its order can\'t end by itself: clear it on the vehicle, `place` the vehicle, and'
    ' correct its loads.'
)
STATE_FORM = (
    'A state has whole numbers, no positions, and the members of docs/PROFILE.md.',
    '`tools/gateway` sees to the numbers and positions.',
)

# A line for each refusal: its number, name and status, and what is wrong.
TABLE = '''
1 BadHead 400 The head of the request can't be read
2 NoLength 411 A PUT or POST without Content-Length
3 TooLarge 413 A body of more than 65,536 bytes
4 Coding 501 A body with a transfer coding
5 NoPath 404 No such path
6 BadMethod 405 The path has only the method `allow`
7 BadJson 400 The body is no JSON text
8 Fraction 422 A number with a fraction or an exponent, or beyond 64 bits
9 Position 422 A state with a position, a velocity or a trajectory
10 BadBody 400 A member is missing or of the wrong kind
11 BadCsv 400 The body isn't the CSV table that the call takes
12 Version 422 A message of another major version than 2
13 BadTimestamp 422 A timestamp that can't be read, or is not from 1970 to 2099
14 WrongVehicle 422 A message of another vehicle than the path names
20 NoVehicle 404 No vehicle of that key
21 NoNode 404 No node of that name
22 NoStation 404 No station of that name
23 NoLoad 404 No load of that name
24 NoJob 404 No job of that name
25 NoOrder 409 The vehicle has no such open order
30 Exists 409 The name is taken
31 LayoutSet 409 The layout is set already
32 LayoutBad 409 The rows are not a valid layout
33 Held 409 The vehicle `by` holds the node or edge `what`
34 Full 409 The station has no room
35 InJob 409 The load has a live job
36 Elsewhere 409 The load is elsewhere
37 SameStation 409 The load is at that station already
38 Busy 409 The vehicle has an open order
39 Astray 409 The vehicle stands between two nodes
40 Loaded 409 The loads on the vehicle and the order's jobs are more than its capacity
41 NotReady 409 The vehicle isn't ready
42 InstantPending 409 An instant action is pending
43 NotConfirmed 409 The vehicle hasn't confirmed the last update
44 WrongUpdate 409 The update isn't the one after `sent`, the last
45 Beyond 409 The order ends before that
46 NoWalk 409 No walk leads there
47 TooLong 409 The route has more than 200 edges
48 Spent 409 The topic's numbers are used up
49 RefUsed 409 The reference is used
50 JobState 409 The job's phase doesn't allow it
51 Limit 409 A limit of the desk is reached
52 OrderKnown 409 The vehicle reports an order of this name
53 BadStops 409 No stops, or a job without exactly one pick and, after it, one drop
60 OtherOrder 409 The state is of another order
61 UpdateNotSent 409 An update that was never sent
62 UpdateBackwards 409 An update before the confirmed one
63 NotOurNode 409 A node that isn't the route's
64 Backwards 409 A node before the one last seen
65 BeyondBase 409 A node past the released part
66 ActionTwice 409 An action that is listed twice
67 ActionBackwards 409 A status that can't follow the last one
68 ActionEarly 409 An action that is finished before its node
69 DropFirst 409 A drop that is finished before its pick
70 CancelEarly 409 A cancel that is finished while an action runs
71 NotThere 409 The vehicle isn't where the desk has it
80 CountTwice 409 A load that is counted twice
81 OnVehicle 409 A counted load that is on a vehicle
90 Memory 503 Out of memory
91 Storage 503 A fault of the store
'''
# What to do, by name: a text, or two, of which the second is for the command line alone.
ADVICE: dict[str, str | tuple[str, str]] = {
    'BadHead': BAD_REQUEST,
    'NoLength': 'PUT and POST need `Content-Length`; without a body it is `Content-Length: 0`.',
    'TooLarge': 'Split a stocktake into several; give a layout shorter names.',
    'Coding': BAD_REQUEST,
    'NoPath': (
        'docs/HTTP.md has the paths. A name in a path is 1 to 32 of A-Z a-z 0-9 _ . : -, and'
        ' percent codes are not decoded.'
    ),
    'BadMethod': BAD_REQUEST,
    'BadJson': BAD_REQUEST,
    'Fraction': STATE_FORM,
    'Position': STATE_FORM,
    'BadBody': ('', '`tools/ask call` checks a body and names the member.'),
    'BadCsv': CSV_LINES,
    'Version': STATE_FORM,
    'BadTimestamp': STATE_FORM,
    'WrongVehicle': (
        'The `manufacturer` and `serialNumber` of a state are those of its path, or of its topic.'
    ),
    'NoVehicle': UNKNOWN,
    'NoNode': UNKNOWN,
    'NoStation': UNKNOWN,
    'NoLoad': UNKNOWN,
    'NoJob': UNKNOWN,
    'NoOrder': 'The order has ended, or another one is open.',
    'Exists': USED,
    'LayoutSet': "The layout can't be changed. Another one needs a new file.",
    'LayoutBad': CSV_LINES,
    'Held': (
        'Wait until the states of that vehicle have freed it, or release fewer edges.',
        '`tools/ask who-waits` shows vehicles that wait for one another; docs/OPERATE.md says how'
        ' to free them.',
    ),
    'Full': (
        'The loads at the station and the live jobs to it fill it. Take another station, or stop a'
        ' job to it.',
        'The stock report shows both: `1 of 2, reserved 1`.',
    ),
    'InJob': ("Stop the load's job, or wait.", '`tools/ask load` names it.'),
    'Elsewhere': (
        'The load has left; or, for a job, it stands at no station: `correct` its place first.'
    ),
    'SameStation': 'There is nothing to do.',
    'Busy': 'Wait until the order ends, or cancel it.',
    'Astray': (
        'Its order was cancelled on the way, so it may have gone on to the next node. Look where it'
        ' stands, and `place` it.'
    ),
    'Loaded': (
        "Give the order fewer jobs. If a load that is recorded on the vehicle isn't really on it,"
        " `correct` that load."
    ),
    'NotReady': (
        "The vehicle's last accepted state has another `operatingMode` than AUTOMATIC or"
        " SEMIAUTOMATIC, another `eStop` than NONE, or a FATAL error; or none was accepted yet."
        " Solve that at the vehicle; its next state makes it ready."
    ),
    'InstantPending': (
        'No state has reported the end of the instant action yet. Wait for one; if none will come,'
        ' as after a restart of the vehicle, clear the order on it and `place` it.'
    ),
    'NotConfirmed': (
        'Wait for a state that names it. If none comes, check whether the gateway runs, and whether'
        ' the vehicle has rejected the message, as its `errors` say: then clear the order on it and'
        ' `place` it.'
    ),
    'WrongUpdate': (
        'Send the number after the last one.',
        '`tools/ask advance` finds it by itself.',
    ),
    'Beyond': (
        'Release fewer edges, and with an update at least one.',
        '`tools/ask orders` says how many are left.',
    ),
    'NoWalk': (
        'No way leads to the pick, to the drop, or to the node of a drive; or the vehicle stands'
        ' there.',
        '`tools/check-layout` names stations without a way.',
    ),
    'TooLong': (
        'Take a vehicle that stands nearer, carry the load by two jobs, with a station in between,'
        ' or drive to a node in between.'
    ),
    'Spent': 'After 4,294,967,295 messages of a vehicle begin a new file (docs/OPERATE.md).',
    'RefUsed': USED,
    'JobState': (
        "The job doesn't wait: it rides, or is over. One that rides ends with its order, which can"
        " be cancelled."
    ),
    'Limit': (
        'There are as many as there may be (README.md, *Limits*); or a vehicle is to carry none or'
        ' more than 4 loads.'
    ),
    'OrderKnown': "The vehicle's last state names this order. Take a new name.",
    'BadStops': 'Each job has to be picked once and, later, dropped once.',
    'OtherOrder': (
        'The state names another order than the open one, or none, though the vehicle has confirmed'
        ' that one: it has lost its order. `resync` it and `place` it where it stands'
        ' (docs/OPERATE.md, *A vehicle that was restarted*).'
    ),
    'UpdateNotSent': (
        "The vehicle reports an update that the desk hasn't sent, for example because a copy was"
        " put back without all of its steps. Clear the order on it, and `place` it."
    ),
    'UpdateBackwards': OUT_OF_TURN,
    'NotOurNode': NOT_RELEASED,
    'Backwards': OUT_OF_TURN,
    'BeyondBase': NOT_RELEASED,
    'ActionTwice': OUT_OF_TURN,
    'ActionBackwards': OUT_OF_TURN,
    'ActionEarly': OUT_OF_TURN,
    'DropFirst': OUT_OF_TURN,
    'CancelEarly': OUT_OF_TURN,
    'NotThere': (
        'A vehicle without an order names another node than the desk has, for example because it'
        ' was driven by hand. `place` it there.'
    ),
    'CountTwice': ('A load stands at one place.', '`tools/check-count` names both lines.'),
    'OnVehicle': (
        'Once the load has no live job, `correct` it and count again.',
        '`tools/check-count` names it.',
    ),
    'Memory': 'Give the machine or the unit more memory, and ask again.',
    'Storage': (
        'The desk has ended, and its supervisor restarts it. Check its disk, then send the call'
        ' again: it was done as a whole or not at all.'
    ),
}
# What is wrong, of the refusals whose answers have more members, with these in braces.
TOLD = {
    'BadMethod': 'The path has only the method {allow}',
    'Held': 'The vehicle {by} holds {what}',
    'WrongUpdate': "The update isn't the one after {sent}, the last",
}


def refusal_of(number: str, name: str, status: str, says: str) -> Refusal:
    """Returns the refusal of a line of the table."""
    advice = ADVICE[name]
    remedy, command = (advice, '') if isinstance(advice, str) else advice
    return Refusal(int(number), name, int(status), says, remedy, command, TOLD.get(name, ''))


ALL = tuple(refusal_of(*line.split(maxsplit=3)) for line in TABLE.strip().splitlines())
BY_NAME = {refusal.name: refusal for refusal in ALL}
