"""What is raised where a desk is asked and does not do it: `Refused` where it refuses, `NoAnswer`
where no answer of a desk has come, and of these `NotADesk` where an answer came that no desk
writes."""
from __future__ import annotations

from collections.abc import Mapping

from ..common.text import shown, shown_lines

SENTENCE = 500  # the most characters of a sentence


# Why no answer came, by a name, with the values of the sentence in braces.
WHY = {
    'certificate': 'its certificate is not trusted: {why}',
    'nobody.path': 'no program listens there: is the desk started, and at this path?',
    'nobody.port': 'no program listens there: is the desk started, and on this port?',
    'forbidden': 'this user may not connect: only the group of the socket may',
    'late.answer': 'no whole answer came within {seconds} seconds',
    'late.connection': 'no connection was made within {seconds} seconds',
    'cut': 'the connection was closed before the answer arrived: {why}',
    'other': '{why}',
}


class NoAnswer(Exception):
    """No answer of a desk has come. `may_be_done` says that the request may have reached the desk,
    so that a call may have been carried out. Its `str()` is a sentence that a terminal can print.
    `name` is one of `WHY`, and `values` are those of its sentence."""

    def __init__(
        self,
        sentence: str,
        may_be_done: bool,
        name: str = 'other',
        values: Mapping[str, str] | None = None,
    ):
        super().__init__(shown(sentence, SENTENCE))
        self.may_be_done, self.name = may_be_done, name
        self.values = {'why': str(self)} if values is None else dict(values)

    @classmethod
    def at(cls, address: str, may_be_done: bool, name: str, **values: str) -> NoAnswer:
        """Returns one that says of an address why none came from there."""
        sentence = f'{address}: {WHY[name].format(**values)}'
        return cls(sentence, may_be_done, name, {'address': address, **values})


class NotADesk(NoAnswer):
    """An answer came that is none of a desk's: its form, a member or a report is wrong, or it is
    longer than any answer of a desk, or it contradicts another answer. `why` says which."""

    def __init__(self, why: str, may_be_done: bool = False):
        super().__init__(f'What answers there is no desk: {why}', may_be_done)
        self.why = shown(why, SENTENCE)


class Refused(Exception):
    """A refusal: its name, its number (0 where a proxy before the desk refuses), the status and the
    members of the answer that are texts, numbers or truth values. Its `str()` is the sentence of
    what is wrong; `advice` says what to do on the command line, and `on_page` on a page, where that
    is not the same."""

    def __init__(
        self,
        name: str,
        number: int,
        status: int,
        members: Mapping[str, object],
        sentence: str,
        advice: str,
        on_page: str | None = None,
    ):
        super().__init__(shown(sentence, SENTENCE))
        self.name, self.number, self.status, self.members = name, number, status, dict(members)
        self.advice, self.on_page = advice, advice if on_page is None else on_page

    def told(self) -> str:
        """Returns all that a person is told: `Held (33): The vehicle KIT/0001 holds node N2. Wait
        until ..`."""
        number = f' ({self.number})' if self.number else ''
        return f'{self.name}{number}: {self}. {self.advice}'

    def is_fault(self) -> bool:
        """Whether it is a fault of the machine, or a limit of the proxy (429), so that the same
        request may be answered later."""
        return self.status >= 500 or self.status == 429


def told(fault: Exception) -> str:
    """Returns what a person is told of a refusal or of another fault, which may have lines."""
    return fault.told() if isinstance(fault, Refused) else shown_lines(str(fault), SENTENCE)
