"""The commands of the page: looks at them, and carries them out. Each is looked at before it is
done, and stands in the record with who gave it before it is sent to the desk."""
from __future__ import annotations

import re
from collections.abc import Mapping
from dataclasses import dataclass, replace
from typing import Protocol

from ..common.instructions import NoInstructions
from ..common.names import BadValue
from ..common.text import shown as printable
from ..desk.client import Desk, NoAnswer, Refused
from . import order_previews
from .command_calls import NotAll
from .command_kinds import COMMANDS
from .command_log import Command, CommandLog, Outcome
from .command_values import NAME, AskedCommand, read_command, wrong
from .desk_faults import advice_of, fault_of, refusal_of
from .events import ABOUT, Cause, Event
from .instructed import NotSaid
from .shown_layout import ShownLayout
from .messages import Line, has, say, told, words_of
from .news import News
from .poller import now
from .record import NoRecord
from .scene import Scene
from .shown_rows import DESK
from .told_commands import ListedCommand, TakenOn, ToldLook, ToldOutcome

TEXT = 20_000  # characters of what is wrong with a value
UNSAID = '–'  # of what may be said of a job, and was not
URGENCY = ('due', 'priority', 'truck', 'place')
INSTRUCTED = (*URGENCY, 'thing')
# values that an entry says besides
MORE = ('order', 'stops', 'edges', 'update', 'ref', 'vehicles', *INSTRUCTED)


class NotSent(Exception):
    """A command was not sent to the desk. `line` is the sentence that says why, and `str()` the
    same in English."""

    def __init__(self, name: str, **values: object):
        self.line = Line(name, values)
        super().__init__(self.line.words())


class Hurried(Protocol):
    """Who asks the desk anew after a command."""

    def hurry(self) -> None:
        """Has all that may have changed asked for at once."""


@dataclass(frozen=True)
class Answered:
    """What came of a command: whether it was done; what is said of it, and what to do; the name of
    the refusal, where it was refused; and whether it may have been done all the same."""

    done: bool
    says: list[Line]
    advice: list[Line]
    refusal: str | None = None
    is_open: bool = False

    @property
    def kind(self) -> str:
        """The kind of its entry."""
        return 'command' if self.done else 'refused' if self.refusal else 'failed'

    def text(self) -> str:
        """Returns what is said of it, in English."""
        return words_of(self.says)

    def told(self) -> ToldOutcome:
        """Returns the outcome as the page has it."""
        found: ToldOutcome = {
            'done': self.done,
            'text': self.text(),
            'advice': words_of(self.advice),
            'lines': {'says': told(self.says), 'advice': told(self.advice)},
        }
        if self.refusal:
            found['refusal'] = self.refusal
        return found


def event_of(given: Command, cause: Cause, answered: Answered) -> Event:
    """Returns the entry of a command: it names all things that the command does."""
    values = given.values
    names = {'order': 'order_name', 'to': 'station'}
    about = {names.get(name, name): value for name, value in values.items()}
    after = None
    if given.name in ('register', 'correct'):
        after = f'station {values["station"]}' if values.get('station') else 'checking'
    refusal, says = answered.refusal, answered.says
    if refusal:
        words = {'words': answered.text(), 'says': told(says)}
        says = [Line('answer.refused', {'name': refusal, **words})]
    more: dict[str, object] = {'answer': words_of(says), 'says': told(says)}
    more |= {name: values[name] for name in MORE if values.get(name)}
    if given.name == 'urgency':
        more |= {name: values.get(name) or UNSAID for name in URGENCY}
    edges = values.get('edges', '')
    if re.fullmatch('[0-9]{1,3}', edges):
        more['edges'] = int(edges)
    more |= {'refusal': refusal} if refusal else {}
    known = {name: about.get(name) or None for name in ABOUT}
    if not has(f'event.command.{given.name}'):
        more['command'] = given.name
        return Event(answered.kind, 'command.', cause, known, None, after, more)
    return Event(answered.kind, f'command.{given.name}', cause, known, None, after, more)


class Commands:
    """Looks at commands and carries them out, each over a connection of its own. Threads may call
    it at a time. `instructions` is the path of the file by which the dispatcher is told; without
    one there are no commands for that."""

    def __init__(
        self,
        desk: Desk,
        drawn: ShownLayout,
        news: News,
        log: CommandLog,
        asker: Hurried,
        instructions: str | None = None,
    ):
        self.desk, self.drawn, self.shown = desk, drawn, news.shown
        self.sent_commands = news.sent_commands
        self.log, self.asker, self.instructions = log, asker, instructions

    def listed(self) -> list[ListedCommand]:
        """Returns the commands, as the page makes its forms of them."""
        return [
            {
                'command': name,
                'title': say(f'command.{name}'),
                'fields': [
                    {
                        'name': field.name,
                        'label': field.label(),
                        'kind': field.kind,
                        'optional': field.optional,
                        'given': field.given() if field.given else '',
                    }
                    for field in command.fields
                ],
            }
            for name, command in COMMANDS.items()
            if self.has(name)
        ]

    def has(self, name: str) -> bool:
        """Whether there is such a command here."""
        return COMMANDS[name].tell is None or self.instructions is not None

    def _read(self, said: Mapping[str, object], *, is_whole: bool) -> AskedCommand:
        """Returns the command that was said. `NoCommand` where it is none."""
        asked = read_command(said, self.drawn.layout, is_whole)
        if not self.has(asked.name):
            raise wrong('command')
        return asked

    def look(self, said: Mapping[str, object]) -> ToldLook:
        """Returns what a command will do, with the values for `do`."""
        asked = self._read(said, is_whole=False)
        look = COMMANDS[asked.name].look(Scene(self.drawn.layout, self.shown), asked.values)
        desk = self.shown.get(DESK, '')
        down = [Line('look.down')]
        warns = look.warns if desk is None or desk['up'] else down + look.warns
        return {
            'title': say(f'command.{asked.name}'),
            'says': [line.words() for line in look.says],
            'warns': [line.words() for line in warns],
            'lines': {'says': told(look.says), 'warns': told(warns)},
            'values': look.values,
        }

    def do(self, said: Mapping[str, object], who: str) -> ToldOutcome:
        """Carries a command out. What is told says whether it was done, what is to be said of it,
        and what to do. `NotSent` where it can't be recorded, or another desk answers."""
        asked = self._read(said, is_whole=True)
        if asked.values.get('edges') in order_previews.WAYS:
            raise wrong('edges')
        desk = self.shown.get(DESK, '')
        if desk is not None and desk.get('other'):
            raise NotSent('unsent.other')
        try:
            number = self.log.asked(now(), who, asked.name, asked.values)
        except NoRecord as fault:
            raise NotSent('unsent.record', fault=str(fault)) from fault
        self.sent_commands.note_sending(number, who, asked.name, asked.values, now())
        answered = self._send(asked)
        is_known = answered.done or not answered.is_open
        self.sent_commands.note_outcome(number, answered.done if is_known else None, now())
        try:
            self._end(Command(number, who, asked.name, asked.values), answered, answered.done)
        except NoRecord as fault:
            answered.says.append(Line('answer.unwritten', {'fault': str(fault)}))
        if answered.done:
            self.asker.hurry()
        return answered.told()

    def _send(self, asked: AskedCommand) -> Answered:
        """Sends a command to the desk, or tells the dispatcher. Returns what came of it."""
        kind = COMMANDS[asked.name]
        try:
            if kind.tell is not None and self.instructions is not None:
                return Answered(True, kind.tell(self.instructions, self.desk, asked.values), [])
            return Answered(True, kind.do(self.desk, asked.values), [])
        except NotSaid as fault:
            return Answered(False, [fault.line], [])
        except Refused as refusal:
            line = refusal_of(refusal)
            says = [Line('refused', {'words': line.words(), 'says': [line.told()]})]
            return Answered(False, says, [advice_of(refusal)], refusal.name)
        except NoAnswer as fault:
            return unanswered(asked, fault)
        except BadValue as fault:
            why = Line('wrong.other', {'why': printable(str(fault), TEXT)})
            return Answered(False, [why], [Line('advice.unsent')])
        except (NoInstructions, OSError) as fault:
            words = str(fault) if isinstance(fault, NoInstructions) else str(fault.strerror)
            why = Line('wrong.instructions', {'fault': printable(words, TEXT)})
            return Answered(False, [why], [Line('advice.unsent')])

    def _end(self, given: Command, answered: Answered, done: bool | None) -> None:
        """Tells the pages and the record what came of a command; `done` is None where that is not
        known."""
        cause = Cause('person', given.who or None, given.name, given.number)
        event = event_of(given, cause, answered)
        self.log.answered(given.number, Outcome(done, answered.text(), now(), event))

    def take(self, said: Mapping[str, object], user: str) -> TakenOn:
        """Notes that somebody has taken an alarm on, or has it no more. `NotSent` where that can't
        be recorded."""
        number, who = said.get('alarm'), user or printable(str(said.get('name') or ''), NAME)
        if type(number) is not int or not 0 < number < 2**63:
            raise wrong('alarm')
        if not who.strip():
            raise wrong('nobody')
        is_taken = said.get('take') is not False
        try:
            event = self.log.take(number, who if is_taken else None, now())
            if event is None:
                raise wrong('over')
            if not is_taken:
                event = replace(event, cause=Cause('person', who))
            self.log.tell(event, now())
        except NoRecord as fault:
            raise NotSent('unsent.take', fault=str(fault)) from fault
        return {'done': True}

    def tell_left(self) -> None:
        """Tells of the commands of an earlier run whose outcome is not known."""
        for left in self.log.left():
            self._end(left, Answered(False, [Line('answer.unknown')], []), None)


def unanswered(asked: AskedCommand, fault: NoAnswer) -> Answered:
    """Returns what came of a command to which the desk has not answered."""
    why = fault_of(fault.fault if isinstance(fault, NotAll) else fault)
    values: dict[str, object] = {'fault': why.words(), 'says': [why.told()]}
    name = 'fault.down'
    if isinstance(fault, NotAll):
        name = 'fault.down.all' if fault.vehicles else 'fault.down.none'
        values['vehicles'] = fault.vehicles
    advice = [Line('advice.maybe' if fault.may_be_done else 'advice.not')]
    if fault.may_be_done and asked.values.get('order'):
        advice.append(Line('advice.order', {'order': asked.values['order']}))
    return Answered(False, [Line(name, values)], advice, is_open=fault.may_be_done)
