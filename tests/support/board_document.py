"""The document of OpenAPI of the board, and whether an answer is one that it describes."""
from __future__ import annotations

import importlib
import importlib.util
import json
import os
import re
from typing import Any

from tests.support.programs import ROOT

PATH = os.path.join(ROOT, 'tools', 'nulvrader', 'board', 'api', 'openapi.json')
CAN_CHECK = importlib.util.find_spec('jsonschema') is not None


def document() -> Any:
    """The document."""
    with open(PATH, encoding='utf-8') as file:
        return json.load(file)


def path_of(target: str, described: Any) -> str | None:
    """The path of the document that a target is one of, or None."""
    plain = target.partition('?')[0]
    for path in described['paths']:
        pattern = re.sub(r'\\\{\w+\\\}', '[^/]+', re.escape(path))
        if re.fullmatch(pattern, plain):
            return str(path)
    return None


def faults(target: str, status: int, value: Any) -> list[str]:
    """What of an answer the document doesn't describe; nothing where jsonschema is not here."""
    described = document()
    path = path_of(target, described)
    if path is None:
        return [] if status == 404 else [f'{target} is not described']
    told = described['paths'][path]['get']['responses'].get(str(status))
    if told is None:
        return [f'{target}: the status {status} is not described']
    if not CAN_CHECK or 'application/json' not in told.get('content', {}):
        return []
    schema = {
        **told['content']['application/json']['schema'],
        'components': described['components'],
    }
    checker = importlib.import_module('jsonschema').Draft202012Validator(schema)
    return [f'{target}: {fault.json_path}: {fault.message}' for fault in checker.iter_errors(value)]
