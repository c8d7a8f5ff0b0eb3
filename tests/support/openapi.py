"""The examples of docs/openapi.json, as requests."""
import json
import os
from typing import Any

from tests.support.programs import ROOT

METHODS = ('get', 'put', 'post', 'delete')


def text_of(*path: str) -> Any:
    with open(os.path.join(ROOT, *path)) as file:
        return file.read()


DOCUMENT = json.loads(text_of('docs', 'openapi.json'))
SETUPS = DOCUMENT['x-setups']


def operations() -> list[tuple[Any, Any, Any, Any]]:
    """Each method, path and operation of the document, with the parameters of its path."""
    return [
        (method.upper(), path, item[method], item.get('parameters', []))
        for path, item in DOCUMENT['paths'].items()
        for method in item
        if method in METHODS
    ]


def requests_before(setup: Any) -> Any:
    said = SETUPS[setup]
    return (requests_before(said['after']) if 'after' in said else []) + said['requests']


def data_of(body: Any) -> bytes | None:
    if body is None:
        return None
    return (body if isinstance(body, str) else json.dumps(body)).encode()


class Asked:
    """An answer: its status, its type and its body, with one text in the place of each moment."""

    def __init__(self, desk: Any, method: str, path: str, body: Any) -> None:
        connection = desk.connect()
        connection.request(method, path, data_of(body))
        answer = connection.getresponse()
        self.status, self.kind, self.allow = (
            answer.status,
            answer.getheader('Content-Type'),
            answer.getheader('Allow'),
        )
        self.data = answer.read()
        connection.close()

    def value(self) -> Any:
        return json.loads(self.data) if self.kind == 'application/json' else self.data.decode()


def body_of(operation: Any) -> tuple[Any, Any, Any] | None:
    """Of the operation's body: its type, its schema and its examples; none where it has none."""
    if 'requestBody' not in operation:
        return None
    ((kind, media),) = operation['requestBody']['content'].items()
    return kind, media['schema'], media['examples']
