"""Reads the answers of a stream, each checked to be whole and in the form that the desk writes."""
import json
import os
import re
from typing import Any

from tests.model import desk
from tests.support.programs import ROOT, matched

LONG = os.environ.get('NULVRADER_LONG') == '1'
REASONS = {**desk.REASONS, 503: 'Service Unavailable'}

with open(os.path.join(ROOT, 'docs', 'HTTP.md')) as page:
    REFUSALS = {
        name: (int(number), int(status))
        for number, name, status in re.findall(
            r'^\| (\d+) \| (\w+) \| (\d+) \|', page.read().split('## All refusals')[1], re.M
        )
    }


def refusal(name: str) -> tuple[Any, bytes]:
    number, status = REFUSALS[name]
    return status, json.dumps({'name': name, 'refusal': number}, separators=(',', ':')).encode()


class Answer:
    def __init__(self, status: int, lines: Any, body: Any) -> None:
        self.status, self.lines, self.body = status, lines, body
        self.closes = 'Connection: close' in lines


def answers_of(data: bytes) -> tuple[Any, bytes]:
    """The answers that an output has, each checked to be a whole one in the form that the desk
    writes; and what is left."""
    found = []
    while data:
        end = data.find(b'\r\n\r\n')
        if end < 0:
            break
        first, *lines = data[:end].decode('ascii').split('\r\n')
        status = int(matched(r'\AHTTP/1\.1 (\d{3}) [A-Za-z ]+\Z', first)[1])
        if first[13:] != REASONS[status]:
            raise AssertionError(first)
        form = (
            ''
            if status == 204
            else r'Content-Length: (\d+)\nContent-Type: (application/json|text/plain|text/csv)\n'
        )
        form += r'Allow: (GET|PUT|POST|DELETE)\n' if status == 405 else ''
        form += r'(?:Connection: close\n)?'
        told = re.fullmatch(form, ''.join(line + '\n' for line in lines))
        if not told:
            raise AssertionError(lines)
        length = int(told.group(1)) if status != 204 else 0
        if len(data) < end + 4 + length:
            break
        body = data[end + 4 : end + 4 + length]
        check_body(status, told.group(2) if status != 204 else None, body)
        found.append(Answer(status, lines, body))
        data = data[end + 4 + length :]
    return found, data


def check_body(status: int, kind: Any, body: Any) -> None:
    """A body of JSON is JSON, and a refusal has the number and the status of its name."""
    if kind != 'application/json':
        return
    told = json.loads(body)
    if status == 200:
        if 'refusal' in told:
            raise AssertionError(body)
    elif REFUSALS[told['name']] != (told['refusal'], status):
        raise AssertionError(body)
