"""Shows that docs/openapi.json describes each path and method of the table of calls and no other,
that each of its examples is answered as it stands there, and that each answer of a running desk
fits its schema."""
import contextlib
import importlib
import json
import os
import re
import tempfile
import unittest
from typing import Any

from tests.support.programs import matched
from tests.support.openapi import Asked, DOCUMENT, body_of, operations, requests_before, text_of
from tests.support.desks import AT, Serving, over_sockets, run, without_moments
from tests.support.script_calls import answers_of

# A checker that others have written: Debian's python3-jsonschema, where it is installed.
jsonschema: Any = None
with contextlib.suppress(ImportError):
    jsonschema = importlib.import_module('jsonschema')

# Refusals of a body that doesn't fit its schema.
UNFIT = ('BadBody', 'Position', 'Version')
# Words of a schema that say nothing of a value.
NOTES = {'description'}
KINDS = {'object': dict, 'array': list, 'string': str, 'boolean': bool, 'null': type(None)}
SCHEMAS = DOCUMENT['components']['schemas']


def is_kind(value: Any, kind: str) -> bool:
    if kind == 'integer':
        return type(value) is int
    return isinstance(value, KINDS[kind])


def same(one: str, other: str) -> bool:
    """JSON equality, in which true is not 1."""
    return json.dumps(one, sort_keys=True) == json.dumps(other, sort_keys=True)


def faults(value: Any, schema: Any, at: Any = '$') -> Any:
    """What of a value doesn't fit a schema. A word of the schema that isn't known here is an
    error."""
    if '$ref' in schema:
        return faults(
            value, SCHEMAS[matched('^#/components/schemas/(\\w+)$', schema['$ref'])[1]], at
        )
    found = []
    for word, said in schema.items():
        if word in NOTES:
            continue
        if word == 'type':
            fits = any(is_kind(value, kind) for kind in ([said] if isinstance(said, str) else said))
        elif word == 'enum':
            fits = any(same(value, one) for one in said)
        elif word == 'oneOf':
            fits = sum(not faults(value, one, at) for one in said) == 1
        elif word == 'pattern':
            fits = (
                not isinstance(value, str)
                or re.search(said.replace('$', r'\Z'), value, re.ASCII) is not None
            )
        elif word == 'minimum':
            fits = not is_kind(value, 'integer') or value >= said
        elif word == 'maximum':
            fits = not is_kind(value, 'integer') or value <= said
        elif word == 'required':
            fits = not isinstance(value, dict) or all(name in value for name in said)
        elif word == 'additionalProperties' and said is False:
            fits = not isinstance(value, dict) or all(
                name in schema['properties'] for name in value
            )
        elif word == 'properties':
            fits = True
            for name in said if isinstance(value, dict) else ():
                if name in value:
                    found += faults(value[name], said[name], at + '.' + name)
        elif word == 'items':
            fits = True
            for number, item in enumerate(value if isinstance(value, list) else ()):
                found += faults(item, said, f'{at}[{number}]')
        else:
            raise AssertionError(f'{at}: the schema says {word}')
        if not fits:
            found.append(f'{at}: {word} {json.dumps(said)}: {json.dumps(value)}')
    return found


def is_valid_elsewhere(value: Any, schema: Any) -> bool:
    """Whether a value fits a schema by a checker of others, jsonschema, where it is installed."""
    if jsonschema is None:
        return True
    checker = jsonschema.Draft202012Validator({**schema, 'components': DOCUMENT['components']})
    return bool(checker.is_valid(value))


def wanted_of(operation: Any, status: int) -> tuple[Any, Any, Any] | None:
    """Of the answer with a status: its type, its schema, and its examples; none where it has no
    body."""
    content = operation['responses'][str(status)].get('content')
    if content is None:
        return None
    ((kind, media),) = content.items()
    return kind, media['schema'], media.get('examples', {})


def fits(test: Any, operation: Any, answer: Any) -> None:
    """The answer is one that the operation has for its status."""
    wanted = wanted_of(operation, answer.status)
    if wanted is None:
        test.assertEqual((answer.kind, answer.data), (None, b''))
    else:
        test.assertEqual(answer.kind, wanted[0])
        test.assertEqual(faults(answer.value(), wanted[1]), [])
        test.assertTrue(is_valid_elsewhere(answer.value(), wanted[1]), answer.data)


# Values that do not fit, by each rule of a schema once.
WRONG: tuple[tuple[Any, Any], ...] = (
    ({}, {'$ref': '#/components/schemas/NewLoad'}),
    ({'load': 'a b'}, {'$ref': '#/components/schemas/NewLoad'}),
    ({'load': 'L1', 'station': 1}, {'$ref': '#/components/schemas/NewLoad'}),
    ('L1\n', {'$ref': '#/components/schemas/Name'}),
    ({'a': 1}, {'$ref': '#/components/schemas/Done'}),
    (1.0, {'type': 'integer'}),
    (True, {'type': 'integer'}),
    (-1, {'$ref': '#/components/schemas/Number'}),
    (4294967296, {'$ref': '#/components/schemas/Number'}),
    ([1, 'a'], {'type': 'array', 'items': {'type': 'integer'}}),
    (1, {'enum': [True]}),
    (1, {'oneOf': [{'type': 'integer'}, {'enum': [1]}]}),
)


def first_line(method: str, path: str) -> str:
    """Returns the first line of a request whose names are all X1."""
    target = re.sub(r'\{\w+\}', 'X1', path)
    return f'{method} {target} HTTP/1.1\r\n'


class Document(unittest.TestCase):
    def test_the_paths_are_those_of_the_table(self) -> None:
        described = {(method, path) for method, path, _, _ in operations()}
        page = text_of('docs', 'HTTP.md')
        page = page[page.index('## The table of calls') : page.index('## Answers')]
        self.assertEqual(described, set(re.findall(r'^- `(\w+) (/\S+)`\.', page, re.M)))
        table = text_of('crates', 'agv_face_http', 'src', 'routing', 'table.rt')
        lines = re.findall(r'\((Get|Put|Post|Delete),\s*"(/[^"]*)"', re.sub(r'\(\s+', '(', table))
        self.assertEqual(described, {(verb.upper(), path) for verb, path in lines})
        self.assertEqual(len(lines), len(operations()))

    def test_the_parameters_are_those_of_the_path(self) -> None:
        for _, path, _, parameters in operations():
            self.assertEqual(re.findall(r'\{(\w+)\}', path), [one['name'] for one in parameters])
            for one in parameters:
                self.assertEqual(
                    (one['in'], one['required'], one['schema']),
                    ('path', True, {'$ref': '#/components/schemas/Name'}),
                )
        names = [operation['operationId'] for _, _, operation, _ in operations()]
        self.assertEqual(len(names), len(set(names)))

    def test_the_refusals_are_those_of_the_page(self) -> None:
        """Each refusal has its number in its schema, and is answered with its status alone."""
        page = text_of('docs', 'HTTP.md')
        rows = re.findall(
            r'^\| (\d+) \| (\w+) \| (\d+) \|', page[page.index('## All refusals') :], re.M
        )
        self.assertGreater(len(rows), 50)
        told = {
            name[len('Refusal') :]: schema['properties']
            for name, schema in SCHEMAS.items()
            if name.startswith('Refusal')
        }
        self.assertEqual(
            {name: ({'enum': [name]}, {'enum': [int(number)]}) for number, name, _ in rows},
            {name: (said['name'], said['refusal']) for name, said in told.items()},
        )
        status_of = {name: status for _, name, status in rows}
        for _, path, operation, _ in operations():
            for status in operation['responses']:
                for name in self.refusals(operation, status):
                    self.assertEqual(status_of[name], status, (path, name))

    def refusals(self, operation: Any, status: Any) -> Any:
        wanted = wanted_of(operation, status)
        said = json.dumps(wanted[1]) if wanted else ''
        return re.findall(r'#/components/schemas/Refusal(\w+)', said)

    def test_the_checks_are_those_of_the_page(self) -> None:
        """Each call's refusals of the statuses 404 and 409, but that for a path, are those which
        docs/CALLS.md names for it."""
        page = text_of('docs', 'CALLS.md')
        names = [name[len('Refusal') :] for name in SCHEMAS if name.startswith('Refusal')]
        for title, ids in {
            'Set the layout': ['setLayout'],
            'Register a vehicle': ['registerVehicle'],
            'Pause, resume, cancel': ['startPause', 'stopPause', 'cancelOrder'],
            'Place a vehicle': ['placeVehicle'],
            'Resync a vehicle': ['resync'],
            'Register a load': ['registerLoad'],
            'Correct its place': ['correctLoad'],
            'It leaves': ['leaveLoad'],
            'Stocktake': ['takeStock'],
            'Add a job': ['addJob'],
            'Stop a job': ['stopJob'],
            'Start an order': ['startOrder'],
            'Release more': ['advance'],
            'A state': ['postState'],
        }.items():
            said = matched(fr'^\*\*{re.escape(title)}\*\*(.*?)\n\n', page, re.S | re.M)[1]
            for first, last in re.findall(r'from (\w+) to (\w+)\)', said):
                said += ' ' + ' '.join(names[names.index(first) : names.index(last) + 1])
            wanted = {name for name in names if re.search(fr'\b{name}\b', said)}
            self.assertTrue(wanted, title)
            for _, _, operation, _ in operations():
                if operation['operationId'] in ids:
                    found = {
                        name
                        for status in ('404', '409')
                        if status in operation['responses']
                        for name in self.refusals(operation, status)
                    }
                    self.assertEqual(
                        found - {'NoPath'},
                        wanted - ({'NoOrder'} if 'Pause' in operation['operationId'] else set()),
                        title,
                    )

    def test_the_examples_fit(self) -> None:
        """A body that is refused for what its schema says doesn't fit it, and each other one does;
        each answer's example fits."""
        for _, path, operation, _ in operations():
            body, title = body_of(operation), operation['operationId']
            examples = operation['x-examples']
            self.assertIn(200, {said['status'] for said in examples.values()}, title)
            if body:
                self.assertEqual(set(body[2]), set(examples), title)
            for name, said in examples.items():
                self.assertRegex(said['path'], re.sub(r'\{\w+\}', '[^/]+', f'^{path}$'))
                if body and body[0] == 'application/json':
                    found = faults(body[2][name]['value'], body[1])
                    self.assertEqual(bool(found), name in UNFIT, (title, name, found))
                    if not found:
                        value = body[2][name]['value']
                        self.assertTrue(is_valid_elsewhere(value, body[1]), (title, name))
            for status in operation['responses']:
                wanted: Any = wanted_of(operation, status)
                for name, said in wanted[2].items() if wanted else ():
                    self.assertEqual(examples[name]['status'], int(status))
                    self.assertEqual(faults(said['value'], wanted[1]), [], (title, name))

    def test_the_checker_finds_faults(self) -> None:
        for value, schema in WRONG:
            self.assertNotEqual(faults(value, schema), [], (value, schema))

    @unittest.skipIf(jsonschema is None, 'jsonschema is not here')
    def test_a_checker_of_others_finds_them_too(self) -> None:
        """But for two: it takes 1.0 for a whole number, and a line feed behind the end."""
        taken = [value for value, schema in WRONG if is_valid_elsewhere(value, schema)]
        self.assertEqual(taken, ['L1\n', 1.0])


@over_sockets
class Answers(unittest.TestCase):
    def test_each_example(self) -> None:
        """Over a new desk with what the example needs. What is refused or only asked changes
        nothing, so such examples share a desk."""
        shared: dict[Any, Any] = {}
        alone: list[Any] = []
        for method, _, operation, _ in operations():
            for name, said in operation['x-examples'].items():
                line = method, operation, name, said
                if method == 'GET' or said['status'] != 200:
                    shared.setdefault(said['before'], []).append(line)
                else:
                    alone.append((said['before'], [line]))
        for before, lines in [*shared.items(), *alone]:
            with (
                tempfile.TemporaryDirectory() as folder,
                Serving(os.path.join(folder, 'desk.db')) as desk,
            ):
                for request in requests_before(before):
                    answer = Asked(desk, request['method'], request['path'], request.get('body'))
                    self.assertEqual(answer.status, 200, (before, request, answer.data))
                    self.assertNotEqual(answer.data, b'{"accepted":false}', (before, request))
                for line in lines:
                    with self.subTest(line[1]['operationId'] + ' ' + line[2]):
                        self.check(desk, *line)

    def check(self, desk: Any, method: Any, operation: Any, name: str, said: Any) -> None:
        body = body_of(operation)
        sent = body[2][name]['value'] if body else ('' if method == 'POST' else None)
        answer = Asked(desk, method, said['path'], sent)
        self.assertEqual(answer.status, said['status'], answer.data)
        fits(self, operation, answer)
        wanted = wanted_of(operation, answer.status)
        if wanted:
            told = (
                answer.data.decode()
                if answer.kind != 'application/json'
                else json.loads(without_moments(answer.data))
            )
            shown = wanted[2][name]['value']
            self.assertEqual(
                told,
                (
                    shown
                    if isinstance(shown, str)
                    else json.loads(without_moments(json.dumps(shown).encode()))
                ),
            )

    def test_other_methods_and_paths(self) -> None:
        with (
            tempfile.TemporaryDirectory() as folder,
            Serving(os.path.join(folder, 'desk.db')) as desk,
        ):
            for method, path, operation, parameters in operations():
                path = re.sub(r'\{\w+\}', 'X1', path)
                for other in ('GET', 'PUT', 'POST', 'DELETE', 'PATCH', 'OPTIONS'):
                    if other != method:
                        answer = Asked(desk, other, path, '')
                        self.assertEqual((answer.status, answer.allow), (405, method))
                        self.assertEqual(faults(answer.value(), SCHEMAS['RefusalBadMethod']), [])
                if parameters:
                    answer = Asked(desk, method, path.replace('X1', 'X~1'), '')
                    self.assertEqual(answer.status, 404)
                    fits(self, operation, answer)
                    self.assertEqual(answer.value()['name'], 'NoPath')
            for path in ('/', '/load', '/layout/', '/report', '/loads/L1/leave/now'):
                answer = Asked(desk, 'GET', path, None)
                self.assertEqual(answer.status, 404)
                self.assertEqual(faults(answer.value(), SCHEMAS['RefusalNoPath']), [])


class Raw(unittest.TestCase):
    def check(self, operation: Any, data: bytes, name: str) -> None:
        """One request as bytes, which is answered by a refusal that the operation has."""
        status, out, said = run('replay', '--db', 'memory', '--at', AT, stdin=data)
        self.assertEqual((status, said), (0, b''))
        ((code, body),) = answers_of(out)
        self.assertEqual(json.loads(body)['name'], name, data)
        wanted: Any = wanted_of(operation, code)
        self.assertEqual(faults(json.loads(body), wanted[1]), [])

    def test_bodies_that_are_refused(self) -> None:
        for method, path, operation, _ in operations():
            body = body_of(operation)
            if not body:
                continue
            line = first_line(method, path)
            for text, name in (
                (('nonsense', 'BadCsv'),)
                if body[0] == 'text/csv'
                else (('{', 'BadJson'), ('{"x":0.5}', 'Fraction'), ('[]', 'BadBody'))
            ):
                head = f'Content-Length: {len(text)}\r\n\r\n'
                self.check(operation, (line + head + text).encode(), name)

    def test_heads_that_are_refused(self) -> None:
        for method, path, operation, _ in operations():
            line = first_line(method, path)
            self.check(operation, (line + 'Content-Length: x\r\n\r\n').encode(), 'BadHead')
            self.check(operation, (line + 'Transfer-Encoding: chunked\r\n\r\n').encode(), 'Coding')
            self.check(operation, (line + 'Content-Length: 65537\r\n\r\n').encode(), 'TooLarge')
            if method in ('PUT', 'POST'):
                self.check(operation, (line + '\r\n').encode(), 'NoLength')


if __name__ == '__main__':
    unittest.main()
