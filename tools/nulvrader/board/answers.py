"""What the board replies to a request: a status, and a body whole."""
from __future__ import annotations

import json
from dataclasses import dataclass
from typing import Any

from .messages import Line

JSON = 'application/json'


@dataclass(frozen=True)
class Reply:
    """What is sent back: the status, the type of the body, and its bytes."""

    status: int
    kind: str
    data: bytes


def told(what: Any, status: int = 200) -> Reply:
    """Returns a reply of JSON."""
    return Reply(status, JSON, json.dumps(what, separators=(',', ':')).encode())


def refused(status: int, words: str | Line) -> Reply:
    """Returns a refusal, with a sentence; one of the table of messages the page says in its
    language."""
    if isinstance(words, str):
        return told({'fault': words}, status)
    return told({'fault': words.words(), 'says': [words.told()]}, status)
