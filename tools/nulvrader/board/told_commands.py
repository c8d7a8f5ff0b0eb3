"""What pages are told of commands: which there are, what one will do, and what came of it."""
from __future__ import annotations

from typing import NotRequired, TypedDict

from .messages import ToldLine


class ListedField(TypedDict):
    """A value of a command, as the page makes an input of it."""

    name: str
    label: str
    kind: str
    optional: bool
    given: str


class ListedCommand(TypedDict):
    """A command, as the page makes a form of it."""

    command: str
    title: str
    fields: list[ListedField]


class LookLines(TypedDict):
    """The sentences of a look, which the page says in its language."""

    says: list[ToldLine]
    warns: list[ToldLine]


class ToldLook(TypedDict):
    """What a command will do, what may be against it, and the values that it is carried out
    with."""

    title: str
    says: list[str]
    warns: list[str]
    lines: LookLines
    values: dict[str, str]


class OutcomeLines(TypedDict):
    """The sentences of an outcome, which the page says in its language."""

    says: list[ToldLine]
    advice: list[ToldLine]


class ToldOutcome(TypedDict):
    """What came of a command: whether it was done, what is said of it, what to do, and the name of
    the refusal, if it was refused."""

    done: bool
    text: str
    advice: str
    lines: OutcomeLines
    refusal: NotRequired[str]


class TakenOn(TypedDict):
    """That somebody has taken an alarm on, or has it no more."""

    done: bool
