"""Reads what a desk, or a proxy in front of it, answers with another status than 200 or 204."""
from __future__ import annotations

from . import refusals
from .errors import NotADesk, Refused
from .members import Members, read_object
from .values import Answer
from ..common.text import shown

# What a proxy refuses, by the status: the name, the sentence and the advice.
PROXY = {
    401: ('Unauthorized', 'The proxy requires a user', 'Give a user and the password.'),
    403: (
        'Forbidden',
        'The proxy does not allow this user to make this call',
        'Use a user with another role.',
    ),
    429: (
        'TooMany',
        'The proxy has too many requests of this user or address at a time',
        'Ask again in a moment.',
    ),
}


def refused(answer: Answer) -> Refused | NotADesk:
    """Returns the exception for an answer with another status than 200 or 204: a `Refused`, or a
    `NotADesk` where no desk answers so."""
    try:
        members = read_object(answer.body)
        name, number = Members(members).name('name'), Members(members).number('refusal')
    except NotADesk:
        if answer.status in PROXY:
            name, sentence, advice = PROXY[answer.status]
            return Refused(name, 0, answer.status, {}, sentence, advice)
        text = shown(answer.body.strip(), 80) or 'and no text'
        return NotADesk(f'status {answer.status}, {text}', answer.status >= 500)
    known = refusals.BY_NAME.get(name)
    if not 400 <= answer.status < 600 or known is not None and known.number != number:
        return NotADesk(f'status {answer.status} with the refusal {name} ({number})', True)
    plain = {one: value for one, value in members.items() if not isinstance(value, (dict, list))}
    if known is None:
        sentence, advice = f'The desk refuses it: {name}', 'Look into docs/HTTP.md.'
        return Refused(name, number, answer.status, plain, sentence, advice)
    sentence = known.sentence(plain)
    return Refused(name, number, answer.status, plain, sentence, known.advice, known.on_page)
