"""What the desk refuses, and why it does not answer, as sentences of the table of messages, and
what to do about it."""
from __future__ import annotations

from ..common.text import shown
from ..desk.client import NoAnswer, NotADesk, Refused
from .messages import Line, has
from .same_desk import OtherDesk

LONG = 300  # characters of what others say


def is_known(refusal: Refused) -> bool:
    """Whether the table has it. Another desk may name it as it likes."""
    return refusal.name.isalpha() and refusal.name != 'other' and has(f'refusal.{refusal.name}')


def refusal_of(refusal: Refused) -> Line:
    """Returns what is wrong, in a sentence without a full stop at its end."""
    name = f'refusal.{refusal.name}'
    if is_known(refusal):
        return Line(name, {key: shown(str(one), LONG) for key, one in refusal.members.items()})
    return Line('refusal.other', {'name': refusal.name, 'words': str(refusal)})


def advice_of(refusal: Refused) -> Line:
    """Returns what to do about a refusal."""
    name = f'refusal.{refusal.name}.do'
    return Line(name if is_known(refusal) and has(name) else 'advice.look')


def fault_of(fault: Exception) -> Line:
    """Returns why no answer came that is of use."""
    if isinstance(fault, OtherDesk):
        return fault.line
    if isinstance(fault, NotADesk):
        return Line('fault.nodesk', {'why': shown(fault.why, LONG)})
    if isinstance(fault, Refused):
        line = refusal_of(fault)
        return Line('fault.refused', {'words': line.words(), 'says': [line.told()]})
    if isinstance(fault, NoAnswer):
        return Line(f'fault.{fault.name}', {n: shown(v, LONG) for n, v in fault.values.items()})
    return Line('fault.other', {'why': shown(str(fault), LONG)})
