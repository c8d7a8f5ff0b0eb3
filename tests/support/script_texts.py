"""The scripts of crates/agv_tests_support, read from its sources: requests and their answers as
text, worked out by hand, in the form that its `lines.rt` tells. What they say of tables and moves
is for that crate's users; here they are streams of bytes."""
import functools
import json
import os
import re
from collections.abc import Iterator
from typing import Any

from tests.support.answers import REASONS
from tests.support.programs import ROOT

FOLDER = os.path.join(ROOT, 'crates', 'agv_tests_support', 'src', 'scripts')
MOMENT = '1700000000000'
TEXT = re.compile(r'^(?:pub )?const (\w+): &str =\s+(?:r#"(.*?)"#|r?"(.*?)");', re.M | re.S)
LISTS = re.compile(r'^(?:pub )?const (\w+): &\[&\[&str\]\] = &\[(.*?)\];$', re.M | re.S)
IMPORTS = re.compile(r'^use crate::scripts::(\w+)::(?:\{(.*?)\}|(\w+));', re.M | re.S)
ASKING = 'GET', 'POST', 'PUT', 'DELETE'


def source(name: str) -> Any:
    with open(os.path.join(FOLDER, name + '.rt'), encoding='utf-8') as file:
        return file.read()


@functools.lru_cache(None)
def texts_of(name: str) -> Any:
    """The texts of a file by their names, with those that it takes from others."""
    text = source(name)
    found: dict[Any, Any] = {}
    for other, names, one in IMPORTS.findall(text):
        found.update((part, texts_of(other)[part]) for part in re.findall(r'\w+', names or one))
    found.update((part, raw or plain) for part, raw, plain in TEXT.findall(text))
    return found


def expanded(text: str) -> Iterator[Any]:
    """The lines of a text: one that begins with `*` and a number stands so often, with 000, 001 and
    so on for `#`, and `%` ends a line."""
    for line in text.split('\n'):
        if line.startswith('*'):
            times, line = line[1:].split(' ', 1)
            for number in range(int(times)):
                yield from line.replace('%', '\n').replace('#', f'{number:03d}').split('\n')
        else:
            yield line


def parsed(parts: Any) -> list[tuple[Any, str]]:
    """The lines of a script, each with the lines of text behind it."""
    found: list[Any] = []
    for line in expanded('\n'.join(parts)):
        if line.startswith('| '):
            found[-1][1].append(line[2:] + '\n')
        elif line and not line.startswith('#'):
            found.append((line, []))
    return [(line, ''.join(text)) for line, text in found]


def request(method: str, target: str, body: Any) -> str:
    if not body and method in ('GET', 'DELETE'):
        return f'{method} {target} HTTP/1.1\r\n\r\n'
    return f'{method} {target} HTTP/1.1\r\nContent-Length: {len(body)}\r\n\r\n{body}'


def state(
    serial: Any, number: int, order: str, update: int, node: str, place: str, *actions: Any
) -> Any:
    """The state of a vehicle that is ready, as a script writes it."""
    body = {
        'headerId': int(number),
        'timestamp': '2023-11-14T22:13:19.50Z',
        'version': '2.0.0',
        'manufacturer': 'KIT',
        'serialNumber': serial,
        'orderId': order.strip('-'),
        'orderUpdateId': int(update),
        'lastNodeId': node,
        'lastNodeSequenceId': int(place),
        'driving': False,
        'nodeStates': [],
        'edgeStates': [],
        'actionStates': [
            dict(zip(('actionId', 'actionStatus'), word.split('='))) for word in actions
        ],
        'batteryState': {'batteryCharge': 80, 'charging': False},
        'operatingMode': 'AUTOMATIC',
        'errors': [],
        'safetyState': {'eStop': 'NONE', 'fieldViolation': False},
    }
    return request('POST', f'/uagv/v2/KIT/{serial}/state', json.dumps(body, separators=(',', ':')))


def asked(line: str, text: str) -> Any:
    """The request of a line."""
    if line.startswith('state '):
        words: Any = line.split()[1:]
        return state(*words)
    method, target, body = (line.split(' ', 2) + [''])[:3]
    return request(method, target, body or text)


def answered(asked_for: Any, line: str, text: str) -> str:
    """The answer of a line to a request."""
    status, _, body = line.partition(' ')
    body = body or text
    if status == '204':
        return 'HTTP/1.1 204 No Content\r\n\r\n'
    kind = {'report': 'text/plain', 'export': 'text/csv'}.get(
        asked_for.split()[1].split('/')[1], 'application/json'
    )
    if status != '200':
        kind = 'application/json'
    return (
        f'HTTP/1.1 {status} {REASONS[int(status)]}\r\nContent-Length: {len(body)}\r\nContent-Type:'
        f' {kind}\r\n\r\n{body}'
    )


def streams_of(parts: Any) -> list[tuple[Any, bytes, bytes]]:
    """The streams of a script, one for each moment that it names: the moment, the requests and the
    answers, as bytes."""
    streams, last = [[MOMENT, '', '']], ''
    for line, text in parsed(parts):
        word = line.split()[0]
        if word == 'at':
            streams.append([line.split()[1], '', ''])
        elif word == 'state' or word in ASKING:
            last = asked(line, text)
            streams[-1][1] += last
        elif word.isdigit():
            streams[-1][2] += answered(last, line, text)
        elif word not in ('moves', 'row', 'rows'):
            raise ValueError(line)
    return [(at, requests.encode(), answers.encode()) for at, requests, answers in streams]


def scripts() -> Any:
    """All scripts of vehicles for up to four loads, by the name of their list and their number in
    it."""
    found = {}
    for name in sorted(os.listdir(FOLDER)):
        name = name.removesuffix('.rt')
        for title, lists in LISTS.findall(source(name)):
            if title != 'ONE_LOAD':
                for number, parts in enumerate(re.findall(r'&\[(.*?)\]', lists, re.S)):
                    found[f'{title} {number}'] = [
                        texts_of(name)[part] for part in re.findall(r'\w+', parts)
                    ]
    return found
