"""Which releases and new orders leave each vehicle able to finish, and the plan by which all do.
Pure, over the search of `deadlock.py`."""
from __future__ import annotations

from collections import deque
from collections.abc import Collection, Iterable, Iterator, Mapping, Sequence
from dataclasses import dataclass
from functools import cached_property

from .deadlock import Found, along, look
from .lanes import Ground, Way
from .plan import Moves, Plan
from .traffic import LATER, NOW, SOON, Traffic, View, Views

KEPT = 2_000
"""So many answers of the look are kept."""

QUICK, DEEP = 50, 300
"""So many states are looked at."""

KNOWN = 8
"""So many of the moves that were found last are tried first. The last ones may be behind what was
allowed and then not done, since the desk has refused it or has not answered."""

ANEW = 5
"""After so many turns it is looked for more vehicles that finish, where some don't and nothing has
changed but that vehicles have gone on: by that alone no more of them can."""


@dataclass(frozen=True)
class Outlook:
    """Who finishes of a traffic, in each of its views. `now` is what is found where nobody that
    stands goes away: neither those without an order, nor those that do not go on, nor those that
    have finished. `soon` is where those that do not go on do so again. `later` is where besides all
    leave a dead end then, also those without an order. `is_joined`: the moves of each view begin
    with those of the one before, so that who makes them keeps the others able to finish."""

    views: Views
    found: tuple[Found, Found, Found]
    is_joined: bool = True

    @property
    def now(self) -> Found:
        return self.found[NOW]

    @property
    def soon(self) -> Found:
        return self.found[SOON]

    @property
    def later(self) -> Found:
        return self.found[LATER]

    @cached_property
    def finishing(self) -> tuple[frozenset[str], ...]:
        """Who finishes, by view."""
        return tuple(found.finishing for found in self.found)

    @cached_property
    def ends(self) -> tuple[Mapping[str, str], ...]:
        """By view the node where each vehicle stands behind the moves that were found."""
        return tuple(
            {name: ways[name][-1 - left] for name, left in found.left.items()}
            for (ways, _), found in zip(self.views, self.found)
        )

    def is_all(self) -> bool:
        """Whether all finish."""
        return all(
            found.finishing == ways.keys() for (ways, _), found in zip(self.views, self.found)
        )

    def has(self, wanted: Iterable[frozenset[str]]) -> bool:
        """Whether these finish, by view."""
        return all(found.finishing >= names for found, names in zip(self.found, wanted))

    def can_move(self) -> bool:
        """Whether one that finishes now has something before it."""
        ways = self.views[NOW][0]
        return any(len(ways[name]) > 1 for name in self.now.finishing)

    @cached_property
    def ahead(self) -> frozenset[str]:
        """The nodes that vehicles still have before them, later."""
        return frozenset().union(*(way[1:] for way in self.views[LATER][0].values()))

    @cached_property
    def last(self) -> frozenset[str]:
        """The nodes where vehicles finish, also those that do not go on now."""
        return frozenset(
            ends[name]
            for ends, found in zip(self.ends[:LATER], self.found)
            for name in found.finishing
        )

    def plans(self) -> list[Plan]:
        """Returns the moves that were found, to be checked."""
        return [
            Plan(ways, walls, found.moves, found.finishing, self.is_joined)
            for (ways, walls), found in zip(self.views, self.found)
        ]


Hints = tuple[Moves, Moves, Moves]
"""Moves by view."""


class Judge:
    """Says what may be released and started, and keeps the plan (`plan.py`): the moves that were
    found last, by which all finish whom it has said to. They are tried first, so that a move of
    the plan is always allowed; what has to be looked for is kept.

    The moves of a view begin with those of the view before it, as far as such are found. So who
    carries out the plan for now keeps all able to finish who are to do so later.

    What is asked of a traffic as it is gets `deep` states, and of one that would come about `quick`
    ones. Where nothing moves the dispatcher asks for more. `looks` counts those that were made."""

    def __init__(self, quick: int = QUICK, deep: int = DEEP) -> None:
        self.quick, self.deep, self.times, self.looks = quick, deep, 1, 0
        self._ground = Ground()
        self._kept: dict[object, Found] = {}
        self._plans: deque[Hints] = deque([((), (), ())], KNOWN)  # the last ones first
        self._turn = 0
        self._looked = (-ANEW, 0)  # in which turn it was looked last, and how far
        nobody: frozenset[str] = frozenset()
        self._finish = (nobody, nobody, nobody)  # who finishes by the plan, by view
        self._before: Traffic | None = None  # the traffic that was asked for last
        self._granted: Outlook | None = None  # what was found where something was allowed last
        self._last: tuple[Traffic, int, Outlook] | None = None

    def find(
        self,
        ways: Mapping[str, Way],
        walls: Collection[str],
        budget: int,
        hint: Moves,
        wanted: frozenset[str] | None = None,
    ) -> Found:
        """Moves by which all that are wanted finish, or else as many as are found."""
        goal = ways.keys() if wanted is None else wanted
        for settle in (False, True):
            told = along(ways, walls, hint, self._ground, settle=settle)
            if told.finishing >= goal:
                return told
        if budget == 0:
            return told
        question = (
            budget,
            wanted,
            frozenset((name, tuple(way)) for name, way in ways.items()),
            frozenset(walls),
        )
        found = self._kept.get(question)
        if found is None:
            if len(self._kept) >= KEPT:
                self._kept.clear()
            self.looks += 1
            found = self._kept[question] = look(ways, walls, budget, wanted, self._ground)
        return found if found.finishing >= (told.finishing if wanted is None else wanted) else told

    def begin_turn(self) -> None:
        """Begins a turn: who finishes is looked for anew, also where a release or an order was seen
        to keep who did."""
        self._granted, self._turn = None, self._turn + 1

    def extended(
        self,
        views: Sequence[View],
        found: Sequence[Found],
        budget: int,
        hint: Moves,
        wanted: frozenset[str] | None = None,
    ) -> Found:
        """Moves of the view behind those of which this was found. They begin with the last ones of
        these."""
        before, (ways, walls) = views[len(found) - 1][0], views[len(found)]
        moves = [
            (name, left + len(ways[name]) - len(before[name])) for name, left in found[-1].moves
        ]
        rest = dict(ways)
        for name, left in moves:
            rest[name] = ways[name][len(ways[name]) - 1 - left :]
        told = self.find(rest, walls, budget, hint, wanted)
        return Found(told.finishing, [*moves, *told.moves], told.left)

    def _joined(
        self,
        views: Views,
        now: Found,
        hints: Hints,
        budget: int = 0,
        wanted: tuple[frozenset[str] | None, ...] = (None,) * 3,
    ) -> Outlook:
        """Returns what is found where the moves for now are these."""
        soon = now
        if views[SOON] is not views[NOW]:
            soon = self.extended(views, [now], budget, hints[SOON], wanted[SOON])
        later = self.extended(views, [now, soon], budget, hints[LATER], wanted[LATER])
        return Outlook(views, (now, soon, later))

    def _planned(self, views: Views, goes_on: bool) -> Outlook | None:
        """Returns what the plan leads to, where by it all finish whom it was for. Where one goes on
        that stood, what was planned for that is the plan."""
        wanted = [names & ways.keys() for names, (ways, _) in zip(self._finish, views)]
        for hints in list(self._plans):
            for moves in (hints[NOW],) if goes_on else (hints[NOW], hints[SOON]):
                now = self.find(*views[NOW], 0, moves, wanted[NOW])
                if now.finishing >= wanted[NOW]:
                    told = self._joined(views, now, hints)
                    if not told.has(wanted):
                        told = self._apart(views, now, hints)
                    if told.has(wanted):
                        return told
        return None

    def _apart(self, views: Views, now: Found, hints: Hints) -> Outlook:
        """Returns what is found by moves for each view that have nothing to do with one another."""
        soon = now
        if views[SOON] is not views[NOW]:
            soon = self.find(*views[SOON], 0, hints[SOON])
        return Outlook(views, (now, soon, self.find(*views[LATER], 0, hints[LATER])), False)

    def _anew(self, views: Views, planned: Outlook | None) -> Outlook:
        """Returns what a look finds. Where vehicles have not all come to stand, more that finish
        now come before a plan for now behind which all others still can finish."""
        most, hints = self.times * self.deep, self._plans[0]
        later = self.find(*views[LATER], most, hints[LATER])
        now = self.find(*views[NOW], most, hints[NOW])
        soon = self.find(*views[SOON], most, hints[SOON]) if views[SOON] is not views[NOW] else now
        wanted = (None, soon.finishing, later.finishing)
        before = (frozenset(),) * 3 if planned is None else planned.finishing
        tried = [Outlook(views, (now, soon, later), False)]
        if planned is not None:
            tried = [planned, *(one for one in tried if one.has(before))]
        best = max(tried, key=self._rank)
        for one in self._for_now(views, now, (soon, later)):
            if best.is_joined and best.now.finishing >= now.finishing:
                break
            told = self._joined(
                views, one, (one.moves, soon.moves, later.moves), self.times * self.quick, wanted
            )
            if told.later.finishing >= later.finishing and told.has(before):
                best = max(best, told, key=self._rank)
        return best

    def _rank(self, outlook: Outlook) -> tuple[int, ...]:
        """Returns how good it is."""
        now, soon, later = (len(found.finishing) for found in outlook.found)
        goes = outlook.is_joined and outlook.can_move()
        return goes if self.times > 1 else 0, later, now, soon, outlook.is_joined

    def _for_now(self, views: Views, now: Found, others: tuple[Found, Found]) -> Iterator[Found]:
        """Yields what to do now: what a look has found; or what is done soon or later, as far as it
        can be done now, with or without moves that take nothing from anybody."""
        yield now
        ways, walls = views[NOW]
        for (longer, _), found in zip(views[SOON:], others):
            moves = [
                (name, max(0, left + len(ways[name]) - len(longer[name])))
                for name, left in found.moves
                if name in ways
            ]
            for settle in (True, False):
                yield along(ways, walls, moves, self._ground, settle=settle)

    def outlook(self, traffic: Traffic) -> Outlook:
        """Returns who finishes, and by which moves. Where nothing has changed but that vehicles
        have gone on, no look is made for some turns for more than finish by the plan."""
        if self._last is None or self._last[0] is not traffic or self._last[1] != self.times:
            views, outlook = traffic.views(), self._granted
            if outlook is None or outlook.views != views:
                goes_on = self._before is not None and traffic.goes_on_from(self._before)
                outlook = self._planned(views, goes_on)
                turn, times = self._looked
                is_new = goes_on and self._turn - turn < ANEW and times == self.times
                if outlook is None or not (is_new or outlook.is_joined and outlook.is_all()):
                    # (what a person has done may have to undo what was planned)
                    outlook = self._anew(views, outlook if goes_on else None)
                    self._looked = self._turn or -ANEW, self.times
            self._keep(outlook)
            self._before, self._last = traffic, (traffic, self.times, outlook)
        return self._last[2]

    def _keep(self, outlook: Outlook) -> None:
        """Makes its moves the plan."""
        now, soon, later = outlook.found
        self._plans.appendleft((now.moves, soon.moves, later.moves))
        self._finish = now.finishing, soon.finishing, later.finishing

    def plans(self, traffic: Traffic) -> list[Plan]:
        """Returns the plan for each view."""
        return self.outlook(traffic).plans()

    def finish_now(self, traffic: Traffic) -> frozenset[str]:
        """Returns who finishes though nobody that stands goes away."""
        return self.outlook(traffic).now.finishing

    def finish_later(self, traffic: Traffic) -> frozenset[str]:
        """Returns who finishes, and gets out of a dead end then, where all others do too: whom the
        vehicles do not shut in for good."""
        return self.outlook(traffic).later.finishing

    def look_longer(self, traffic: Traffic, times: int) -> frozenset[str]:
        """Returns who finishes later, by a look of so many times as many states. The moves that it
        finds are tried first from here on."""
        now, soon, hint = self._plans[0]
        found = self.find(*traffic.views()[LATER], max(self.times, times) * self.deep, hint)
        self._plans.appendleft((now, soon, found.moves))
        self._last = self._granted = None
        return found.finishing

    def keeps(
        self, traffic: Traffic, after: Traffic, vehicle: str | None = None, last: bool = False
    ) -> bool:
        """Whether each vehicle that could finish before can after, in each view, and this one too,
        which has begun its way. Whether it goes first or last is tried first. The moves that are
        found are the plan then."""
        before, views, most = self.outlook(traffic), after.views(), self.times * self.quick
        found: list[Found] = []
        is_joined = True
        for number, told in enumerate(before.found):
            if number == SOON and not after.still:
                found.append(found[NOW])
                continue
            wanted, hint = told.finishing, list(told.moves)
            if vehicle is not None:
                wanted, hint = wanted | {vehicle}, [move for move in hint if move[0] != vehicle]
                hint.insert(len(hint) if last else 0, (vehicle, 0))
            if number == NOW:
                found.append(self.find(*views[NOW], most, hint, wanted))
            else:
                found.append(self.extended(views, found, most, hint, wanted))
            if not wanted <= found[-1].finishing and number != NOW and not before.is_joined:
                found[-1], is_joined = self.find(*views[number], most, hint, wanted), False
            if not wanted <= found[-1].finishing:
                return False
        self._granted = Outlook(views, (found[0], found[1], found[2]), is_joined)
        self._keep(self._granted)
        return True

    def is_open(self, traffic: Traffic, vehicle: str, way: Way) -> bool:
        """Whether nobody stands on this way of the vehicle who does not go on."""
        return traffic.is_open(vehicle, way)

    def may_release(self, traffic: Traffic, vehicle: str, nodes: int) -> bool:
        """Whether so many nodes more may be released to the vehicle, all of them free. One that
        can't finish now stays where it is, unless it is in the way of another that can, or of one
        that is in such a one's way."""
        finish = self.finish_now(traffic)
        if vehicle not in finish and not traffic.makes_room(vehicle, finish):
            return False
        return self.keeps(traffic, traffic.released(vehicle, nodes))

    def goes_last(self, traffic: Traffic, vehicle: str, way: Way) -> bool:
        """Whether a vehicle without an order can stay until all others are where they go, and then
        take this way, on which nobody stands now. So it may be started, which is seen without a
        look."""
        outlook = self.outlook(traffic)
        now, soon, later = outlook.ends
        if way[0] in outlook.ahead or not frozenset(now.values()).isdisjoint(way):
            return False
        if not frozenset(soon.values()).isdisjoint(way):
            return False
        others = frozenset(node for name, node in later.items() if name != vehicle)
        return others.isdisjoint(way) and others.isdisjoint(traffic.out.get(way[-1], ()))

    def plainly(self, traffic: Traffic, vehicle: str, way: Way) -> bool | None:
        """Whether a vehicle without an order may be given one along this way, where that is seen
        without a look; else None."""
        if not self.is_open(traffic, vehicle, way):
            return False
        if self.goes_last(traffic, vehicle, way):
            return True
        both_stay_there = way[-1] in self.outlook(traffic).last
        return False if both_stay_there else None

    def may_start(self, traffic: Traffic, vehicle: str, way: Way) -> bool:
        """Whether a vehicle without an order may be given one along this way: it can finish, and so
        can all that could before."""
        told = self.plainly(traffic, vehicle, way)
        return told is not False and self.keeps(
            traffic, traffic.started(vehicle, way), vehicle, told is True
        )
