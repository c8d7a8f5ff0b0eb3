"""Shows that the documents of OpenAPI, of the desk's calls and of what the board answers to other
programs, have the paths that there are, and say who may ask what as `examples/nginx` has it."""
from __future__ import annotations

import importlib
import importlib.util
import json
import os
import re
import unittest
from typing import Any

from tests.support import board_document, proxies
from tests.support.programs import ROOT

from nulvrader.board.api.routes import FIXED, ROUTES
from nulvrader.board.pages import DO, TOKEN

DESK = os.path.join(ROOT, 'docs', 'openapi.json')
METHODS = ('get', 'put', 'post', 'delete')
SCHEMES = {'basic': 'http', 'certificate': 'mutualTLS'}
ROLES = ('reader', 'gateway', 'dispatcher')


def read(path: str) -> Any:
    """A document."""
    with open(path, encoding='utf-8') as file:
        return json.load(file)


def operations(document: Any) -> list[tuple[str, str, Any]]:
    """The method, the path and the operation of each call."""
    return [
        (method, path, item[method])
        for path, item in document['paths'].items()
        for method in METHODS
        if method in item
    ]


def patterns(name: str) -> list[tuple[re.Pattern[str], str]]:
    """The lines of a map of `examples/nginx`, as it looks at them: each pattern with its value."""
    form = rf'\nmap [^\n]* \${name} {{\n(.*?)\n}}'
    (lines,) = re.findall(form, proxies.text_of('desk.conf'), re.S)
    found = re.findall(r'^ *"~(.*)" (\w+);$', lines, re.M)
    return [(re.compile(pattern, re.A), value) for pattern, value in found]


def first(name: str, text: str) -> str | None:
    """What a map has for a text."""
    return next((value for pattern, value in patterns(name) if pattern.search(text)), None)


def roles_of(method: str, target: str) -> set[str]:
    """The roles of `examples/nginx` that may make a request."""
    call = first('desk_call', f'{method.upper()} {target}')
    return {role for role in ROLES if first('desk_may', f'{role} {call}') == '1'}


class Document(unittest.TestCase):
    """What holds of each document."""

    path = ''
    front = ''  # before the paths, behind the proxy
    everybody: tuple[str, ...] = ROLES

    def setUp(self) -> None:
        self.document = read(self.path)

    @unittest.skipIf(
        importlib.util.find_spec('openapi_spec_validator') is None, 'no openapi_spec_validator here'
    )
    def test_it_is_valid(self) -> None:
        importlib.import_module('openapi_spec_validator').validate(self.document)

    def test_tags(self) -> None:
        """Each operation has one tag that is described, and each tag an operation."""
        told = [tag['name'] for tag in self.document['tags']]
        used = [operation['tags'] for _, _, operation in operations(self.document)]
        self.assertEqual({1}, {len(tags) for tags in used})
        self.assertEqual(set(told), {tag for (tag,) in used})
        self.assertEqual(len(told), len(set(told)))

    def test_who_may(self) -> None:
        """The roles of each operation are those that `examples/nginx` lets make it: `security`
        names none where each user may."""
        for method, path, operation in operations(self.document):
            target = re.sub(r'\{\w+\}', 'X.1', self.front + path)
            said = operation.get('security', self.document['security'])
            self.assertEqual([set(one) for one in said], [{'basic'}, {'certificate'}, set()])
            named = {role for one in said for roles in one.values() for role in roles}
            with self.subTest(f'{method} {path}'):
                self.assertEqual(named or set(self.everybody), roles_of(method, target))
        schemes = self.document['components']['securitySchemes']
        self.assertEqual({name: scheme['type'] for name, scheme in schemes.items()}, SCHEMES)


class OfTheDesk(Document):
    path = DESK

    def test_the_connection(self) -> None:
        """Each operation has the header that ends its connection."""
        wanted = {'$ref': '#/components/parameters/Connection'}
        for method, path, operation in operations(self.document):
            self.assertIn(wanted, operation['parameters'], f'{method} {path}')
        header = self.document['components']['parameters']['Connection']
        self.assertEqual((header['in'], header['schema']['enum']), ('header', ['close']))


class OfTheBoard(Document):
    path = board_document.PATH
    front = '/board'
    everybody = ('reader', 'dispatcher')

    def test_the_paths_are_those_that_are_answered(self) -> None:
        paths = set(self.document['paths'])
        fixed = (*FIXED, TOKEN, DO)
        found = {board_document.path_of(path, self.document) for path in fixed}
        for route in ROUTES:
            one = [path for path in paths if route.path.fullmatch(re.sub(r'\{\w+\}', 'X.1', path))]
            self.assertEqual(len(one), 1, route)
            found.add(one[0])
        self.assertEqual(found, paths)

    @unittest.skipUnless(board_document.CAN_CHECK, 'no jsonschema here')
    def test_the_checker_finds_faults(self) -> None:
        well: dict[str, Any] = {'healthy': True, 'reasons': []}
        self.assertEqual(board_document.faults('/health', 200, well), [])
        for target, status, value in (
            ('/health', 200, {'healthy': 1, 'reasons': []}),
            ('/health', 200, {'healthy': True}),
            ('/health', 200, {**well, 'more': 1}),
            ('/health', 204, well),
            ('/nothing', 200, well),
            ('/api/alarms', 200, {'alarms': [{'id': -1}]}),
        ):
            self.assertNotEqual(board_document.faults(target, status, value), [], value)


def load_tests(
    loader: unittest.TestLoader, _: unittest.TestSuite, __: str | None
) -> unittest.TestSuite:
    """`Document` has no tests of its own."""
    suite = unittest.TestSuite()
    for case in (OfTheDesk, OfTheBoard):
        suite.addTests(loader.loadTestsFromTestCase(case))
    return suite


if __name__ == '__main__':
    unittest.main()
