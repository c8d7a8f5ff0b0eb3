"""Checks the body of a request against docs/openapi.json before it is sent, and names each fault in
a sentence. A desk itself ignores members that it does not know, and names no member where it
refuses a body."""
from __future__ import annotations

import difflib
import json
import os
import re
from collections.abc import Iterable, Iterator, Mapping
from dataclasses import dataclass
from typing import TypedDict, Union

from .members import JsonObject
from ..common.names import NAME_RULE

DOCUMENT = os.path.join(
    os.path.dirname(os.path.abspath(__file__)), '..', '..', '..', 'docs', 'openapi.json'
)
KINDS: dict[str, tuple[type, str]] = {
    'object': (dict, 'an object'),
    'array': (list, 'an array'),
    'string': (str, 'a text'),
    'boolean': (bool, 'true or false'),
    'integer': (int, 'a whole number'),
}
# Schemas whose faults have words of their own.
WORDS = {'Name': f'no name: {NAME_RULE}', 'Number': 'no whole number from 0 to 4294967295'}
OPEN = 'State'  # the schema whose bodies may have members that it does not name

Schema = TypedDict(
    'Schema',
    {
        '$ref': str,
        'oneOf': list['Schema'],
        'type': Union[str, list[str]],
        'enum': list[object],
        'pattern': str,
        'minimum': int,
        'maximum': int,
        'properties': dict[str, 'Schema'],
        'required': list[str],
        'items': 'Schema',
    },
    total=False,
)


class Media(TypedDict):
    """A media type of a request's body."""

    schema: Schema


class RequestBody(TypedDict, total=False):
    """The body of a request, by its media types."""

    content: dict[str, Media]


class OperationItem(TypedDict, total=False):
    """A call as the description has it, as far as it is read here."""

    requestBody: RequestBody


class NoDescription(Exception):
    """There is no docs/openapi.json to check by, or it is no description."""


@dataclass(frozen=True)
class Operation:
    """A call of the description: its method, its path with names in braces, and the media type, the
    schema and the schema's name of its body. A call without a body has no media type."""

    method: str
    path: str
    media: str | None
    schema: Schema
    name: str


def likely(word: str, words: Iterable[str], least: float = 0.6) -> str | None:
    """Returns the word that was probably meant, if one is alike by at least `least` (0 to 1)."""
    by_lower = {one.lower(): one for one in words}
    near = difflib.get_close_matches(word.lower(), list(by_lower), 1, least)
    return by_lower[near[0]] if near else None


def hint(word: str, words: Iterable[str], least: float = 0.6) -> str:
    """Returns the word that was probably meant as the end of a sentence, or ''."""
    meant = likely(word, words, least)
    return f'; {meant} was probably meant' if meant else ''


def as_json(value: object) -> str:
    """Returns a value as JSON, cut where it is long."""
    text = json.dumps(value)
    return text if len(text) <= 60 else text[:57] + '...'


class Description:
    """The calls and the schemas of docs/openapi.json. It checks by those words of JSON Schema that
    this document has."""

    def __init__(self, operations: list[Operation], schemas: Mapping[str, Schema]) -> None:
        self.operations, self.schemas = operations, schemas

    def operation(self, method: str, target: str) -> Operation | None:
        """Returns the call that a request is, if it is one."""
        for operation in self.operations:
            pattern = re.sub(r'\\\{\w+\\\}', '[A-Za-z0-9_.:-]{1,32}', re.escape(operation.path))
            if operation.method == method and re.fullmatch(pattern, target.partition('?')[0]):
                return operation
        return None

    def unknown(self, method: str, target: str) -> str:
        """Returns what is wrong with a request that is no call."""
        for operation in self.operations:
            if self.operation(operation.method, target):
                return f'{method} {target}: the method of this path is {operation.method}'
        known = [f'{operation.method} {operation.path}' for operation in self.operations]
        meant = hint(f'{method} {target}', known)
        return f'{method} {target}: there is no such call{meant}'

    def faults(self, operation: Operation, body: bytes) -> list[str]:
        """Returns what is wrong with the JSON body of a call."""
        try:
            value = json.loads(body.decode())
            found = self.check(value, operation.schema, '', operation.name == OPEN)
            return [*found, *fractions(value, '')]
        except (ValueError, RecursionError) as fault:
            return [f'the body is no JSON: {fault}']

    def check(self, value: object, schema: Schema, at: str, is_open: bool = False) -> list[str]:
        """Returns the faults of a value that is not null. `at` says where it stands in the body,
        and with `is_open` an object may have members that the schema does not name."""
        if '$ref' in schema:
            name = schema['$ref'].rpartition('/')[2]
            found = self.check(value, self.schemas[name], at, is_open)
            return (
                [f'{before(at)}{as_json(value)} is {WORDS[name]}']
                if found and name in WORDS
                else found
            )
        if 'oneOf' in schema:
            return min((self.check(value, one, at, is_open) for one in schema['oneOf']), key=len)
        kinds = schema.get('type', [])
        found = self.check_kind(value, [kinds] if isinstance(kinds, str) else kinds, at)
        if found:
            return found
        if 'enum' in schema and value not in schema['enum']:
            known = [str(one) for one in schema['enum']]
            found.append(
                f'{before(at)}{as_json(value)} is none of'
                f' {", ".join(known)}{hint(str(value), known)}'
            )
        if isinstance(value, str) and 'pattern' in schema:
            if not re.search(schema['pattern'].replace('$', r'\Z'), value, re.ASCII):
                found.append(f'{before(at)}{as_json(value)} does not fit {schema["pattern"]}')
        if isinstance(value, int) and 'minimum' in schema:
            least, most = schema['minimum'], schema['maximum']
            if not least <= value <= most:
                found.append(f'{before(at)}{value} is not from {least} to {most}')
        return [*found, *self.check_parts(value, schema, at, is_open)]

    def check_parts(self, value: object, schema: Schema, at: str, is_open: bool) -> list[str]:
        """Returns the faults of the members of an object, or of the items of an array."""
        if isinstance(value, dict) and 'properties' in schema:
            return self.check_members(value, schema, at, is_open)
        found = []
        if isinstance(value, list) and 'items' in schema:
            for number, item in enumerate(value):
                found += self.check(item, schema['items'], f'{at}[{number}]', is_open)
        return found

    def check_kind(self, value: object, kinds: list[str], at: str) -> list[str]:
        """Returns the fault of a value that is of none of these kinds. No kinds allow any value."""
        if kinds == ['null']:
            return [f'{before(at)}it has to be left out']
        for kind in kinds:
            if (
                kind != 'null'
                and isinstance(value, KINDS[kind][0])
                and (kind == 'boolean') == isinstance(value, bool)
            ):
                return []
        wanted = ' or '.join(KINDS[kind][1] for kind in kinds if kind != 'null')
        return [f'{before(at)}{as_json(value)} is not {wanted}'] if kinds else []

    def check_members(self, value: JsonObject, schema: Schema, at: str, is_open: bool) -> list[str]:
        """Returns the faults of an object's members. A member that is null counts as absent."""
        present = {name: one for name, one in value.items() if one is not None}
        found = []
        absent = [name for name in schema['properties'] if name not in present]
        for name in present:
            if name not in schema['properties']:
                more = hint(name, absent, 0.85 if is_open else 0.6)
                if more or not is_open:
                    found.append(f'{before(at)}there is no member {name}{more}')
        known = ', '.join(schema['properties'])
        found += [
            f'{before(at)}the member {name} is missing (the members are {known})'
            for name in schema.get('required', [])
            if name not in present
        ]
        for name, one in schema['properties'].items():
            if name in present:
                found += self.check(present[name], one, f'{at}.{name}' if at else name, is_open)
        return found


def before(at: str) -> str:
    """Returns where a fault is, as the beginning of its sentence."""
    return f'{at}: ' if at else ''


def fractions(value: object, at: str) -> list[str]:
    """Returns the faults of numbers that are not whole. A desk refuses them even in members that it
    does not read."""
    if isinstance(value, float):
        return [f'{before(at)}{as_json(value)} is no whole number']
    if isinstance(value, dict):
        return [
            one
            for name, item in value.items()
            for one in fractions(item, f'{at}.{name}' if at else name)
        ]
    if isinstance(value, list):
        return [
            one for number, item in enumerate(value) for one in fractions(item, f'{at}[{number}]')
        ]
    return []


def operations_of(path: str, item: Mapping[str, OperationItem]) -> Iterator[Operation]:
    """Yields the calls of a path of the description."""
    for method in ('get', 'put', 'post', 'delete'):
        if method in item:
            content = item[method].get('requestBody', {}).get('content', {})
            media = next(iter(content), None)
            schema = content[media]['schema'] if media else Schema()
            name = schema.get('$ref', '').rpartition('/')[2]
            yield Operation(method.upper(), path, media, schema, name)


def description(path: str = DOCUMENT) -> Description:
    """Reads the description that lies beside the programs. Raises `NoDescription`."""
    try:
        with open(path) as file:
            document = json.load(file)
        paths: Mapping[str, Mapping[str, OperationItem]] = document['paths']
        operations = [one for path, item in paths.items() for one in operations_of(path, item)]
        return Description(operations, document['components']['schemas'])
    except (OSError, ValueError, LookupError, TypeError, AttributeError) as fault:
        raise NoDescription(
            f'{os.path.normpath(path)} can not be read, so no body is checked: {fault}'
        ) from None
