"""The dispatcher: in each turn it looks at the desk, releases what may be released, and gives
orders for jobs that wait.

The desk tells it what it needs. What it remembers besides, as how long a job or a vehicle has
waited or when that was last heard, begins anew with a start."""
from __future__ import annotations

import time
from collections.abc import Callable, Mapping, Sequence
from dataclasses import dataclass

from ..common.layouts import Layout
from ..desk.client import Desk, NoAnswer, NotADesk, Refused
from .batteries import Batteries, untold
from .chargers import Chargers, Marks
from .charging import Charging
from .choose import Chooser
from .closures import Closures
from .drives import Drives
from ..common.instructions import Instructions, NoInstructions
from .job_book import Waiting
from .judge import Judge
from .lines import Lines
from .memory import Memory
from .orders import Orders
from .parking import Parking
from .plan import Plan
from .releases import Releases
from .routes import Ways
from .shared import Settings, Shared, Turn, held_in, told_of
from .snapshot import Seen, Snapshot, check, take
from .standstill import Standstill
from .traffic import Still, Traffic
from .waits import Waits

NO_CHARGERS: Chargers = {}


@dataclass(frozen=True)
class Hindrance:
    """Why a vehicle does not go on: in short, and what its own line says besides."""

    short: str
    more: str = ''

    def __str__(self) -> str:
        return self.short + self.more


class Dispatcher:
    """A dispatcher over a desk and its layout. `say` takes its lines, `alarm` those which say that
    what answers is no desk, or one with another layout, and `clock` tells seconds that only grow.
    `parking` has the nodes where vehicles without an order are to stand, if these are given.
    `chargers` are those of the layout, with the marks of a battery, and `batteries` returns what
    vehicles tell of theirs. `instructions` returns what people say besides, and `wall` the time
    that their clocks have."""

    def __init__(
        self,
        desk: Desk,
        layout: Layout,
        settings: Settings = Settings(),
        *,
        judge: Judge | None = None,
        parking: Sequence[str] | None = None,
        chargers: Chargers = NO_CHARGERS,
        marks: Marks = Marks(),
        batteries: Batteries = untold,
        instructions: Callable[[], Instructions] = Instructions,
        say: Callable[[str], None] = print,
        alarm: Callable[[str], None] | None = None,
        clock: Callable[[], float] = time.monotonic,
        wall: Callable[[], float] = time.time,
    ) -> None:
        self.desk, self.layout, self.settings = desk, layout, settings
        self.say, self.alarm, self.clock, self.wall = say, alarm or say, clock, wall
        ways, self.judge = Ways(layout), judge or Judge()
        self.shared = Shared(desk, settings, ways, self.judge, Lines(say, settings.told))
        self.lines, self.book, self._memory = (
            self.shared.lines,
            self.shared.book,
            self.shared.memory,
        )
        self._out = {node: ways.way_out(node) for node in layout.nodes}
        self.chooser = Chooser(ways, self.judge, settings.detour)
        self._releases = Releases(self.shared)
        self._orders = Orders(self.shared, self.chooser, self._releases)
        self._charging = Charging(ways, self.judge, chargers, marks)
        self._batteries = batteries
        places = Parking(ways, self.judge, parking, chargers)
        self._drives = Drives(self.shared, places, self._charging, self._releases)
        self._standstill = Standstill(self.shared)
        self._told = Waits(self.shared, self._takes_no_job)
        self._read = instructions
        self._instructions: Instructions | None = None  # the last ones that could be read
        self._plans: Sequence[Plan] = ()
        self._last: Snapshot | None = None

    def turn(self) -> bool:
        """Looks at the desk, and does what follows. Returns whether the desk answered; where it did
        not, or has a fault, the next turn may."""
        try:
            self._turn()
        except (NoAnswer, Refused) as fault:
            self._standstill.shut_in.turn_failed()
            if isinstance(fault, NotADesk):
                self.lines.once('desk', f'alarm: {fault}', say=self.alarm)
            else:
                self.lines.once('desk', f'the desk does not answer: {fault}')
            return False
        self.lines.once('desk', None, over='the desk answers again')
        return True

    def waits(self) -> Mapping[str, str]:
        """Returns why each vehicle and job waits that does, as of the last turn. A job is called
        `job J1`."""
        return self._told.reasons

    def reasons(self) -> Mapping[str, str]:
        """Returns the same, for people: also why a vehicle without an order takes no job, and of
        each job what ends its wait."""
        return self._told.all

    def shut_in(self) -> Mapping[str, tuple[float, str]]:
        """Returns the vehicles that others shut in, as of the last turn: since when, and why."""
        return self._standstill.shut_in.told()

    def plans(self) -> Sequence[Plan]:
        """Returns the moves by which vehicles finish, as of the last turn: where nobody that stands
        goes away, where those that do not go on do so again, and where all others get out, too."""
        return self._plans

    def _turn(self) -> None:
        now = self.clock()
        instructions = self._instructed()
        seen = self._last = self._look()
        if instructions is None:
            return
        self.book.look(seen.jobs, now, instructions.jobs, self.wall())
        for vehicle in seen.vehicles.values():
            self._remember(vehicle, seen, now)
        turn = Turn(seen, now, self._traffic(seen, now, instructions), held_in(seen))
        self.judge.begin_turn()
        self._standstill.shut_in.begin_turn(turn.traffic)
        self.chooser.begin_turn(now)
        batteries = self._batteries(seen.vehicles.keys())
        self._charging.begin_turn(seen.vehicles, batteries, bool(self.book.waiting), now)
        released = self._releases.release(turn)
        moved, able = self._set_going(turn)
        self._standstill.look_deeper(turn, bool(released or moved))
        self._standstill.untangle(turn)
        self._drives.turn_back(turn)
        self._plans = self.judge.plans(turn.traffic)
        self._told.tell(turn, able)

    def _set_going(self, turn: Turn) -> tuple[bool, dict[str, Seen]]:
        """Gives vehicles without an order one: a job, or a drive. Whether any has got one, and
        those to which a job could still be given."""
        idle = {
            name: one
            for name, one in turn.seen.vehicles.items()
            if one.order is None and self._out_of_use(one, turn.now) is None
        }
        self._drives.begin_turn(turn, idle)
        charged = self._drives.charge(turn, idle)
        able = {name: one for name, one in idle.items() if self._charging.rests(name) is None}
        taken = set(able)
        started = self._orders.start(turn, able)
        for name in taken - able.keys():
            del idle[name]
        driven = self._drives.charge_idle(turn, idle) or self._drives.park(turn, idle)
        return bool(charged or started or driven), {
            name: one for name, one in able.items() if name in idle
        }

    def _look(self) -> Snapshot:
        """Returns what the desk tells now."""
        with self.desk.kept():
            seen = take(self.desk, self._last)
        check(seen, self.layout)
        return seen

    # What people say.

    def _instructed(self) -> Instructions | None:
        """Returns what people say now; the last that could be read where that can't be. None, so
        that nothing is released, where nothing ever could."""
        try:
            self._instructions = self._read()
            self.lines.once('instructions', None, over='the instructions can be read again')
        except NoInstructions as fault:
            end = 'nothing is released' if self._instructions is None else 'the last ones hold'
            self.lines.once('instructions', f'alarm: {fault}; {end}', say=self.alarm)
        return self._instructions

    def _closed(self, instructions: Instructions) -> Closures:
        """Returns what is closed of the layout. Names that it does not have are told."""
        nodes = instructions.nodes & set(self.layout.nodes)
        edges = instructions.edges & self.layout.edges.keys()
        strange = [f'node {name}' for name in instructions.nodes - nodes]
        strange += [f'edge {name}' for name in instructions.edges - edges]
        what = f'the layout has no {", ".join(sorted(strange))}, which people have closed'
        self.lines.once('closed', what if strange else None)
        ends = {pair: name for pair, name in self.shared.ways.edges.items() if name in edges}
        return Closures(frozenset(nodes), ends)

    # What is remembered and told of the vehicles.

    def _remember(self, seen: Seen, all_seen: Snapshot, now: float) -> None:
        memory = self._memory.setdefault(seen.name, Memory(seen.row.header, now))
        memory.hear(seen.row.header, now)
        if memory.order != seen.row.order:
            if memory.order is not None:
                what = f'order {memory.order} has ended at {seen.row.node}'
                self.say(
                    f'{seen.name}: {"; ".join([what, *memory.not_done(seen, all_seen.places)])}'
                )
            memory.begin(None)
            if seen.row.order is not None:
                memory.begin(seen.row.order, _jobs_of(seen.row.order, all_seen))
                self.say(f'{seen.name}: has order {seen.row.order}, {told_of(memory, seen)}')
        if seen.order is not None:
            memory.follow(seen, all_seen.places)

    def _why_still(self, seen: Seen, now: float) -> Hindrance | None:
        """Returns why a vehicle does not go on, or None."""
        memory = self._memory[seen.name]
        if seen.row.astray:
            return Hindrance('left its order on the way', '; look where it stands, and place it')
        if seen.row.pending == 'cancelOrder':
            return Hindrance('its order is being cancelled')
        if not seen.row.ready:
            return Hindrance(
                'is not ready', ': it is not in automatic mode, has an emergency stop or an error'
            )
        if now - memory.heard > self.settings.silent:
            return Hindrance(f'has sent no state for {self.settings.silent:g} seconds')
        if seen.row.paused:
            return Hindrance('is paused')
        return None

    def _out_of_use(self, seen: Seen, now: float) -> str | None:
        """Returns why a vehicle without an order gets none, in short, or None."""
        why = self._why_still(seen, now)
        if why is not None:
            return why.short
        return None if seen.free() > 0 else f'carries {" ".join(seen.loads)} in no job'

    def _takes_no_job(self, seen: Seen, now: float) -> str | None:
        """Returns why a vehicle without an order gets no job, in short, or None."""
        return self._out_of_use(seen, now) or self._charging.rests(seen.name)

    def _traffic(self, seen: Snapshot, now: float, instructions: Instructions) -> Traffic:
        ways, still, parked = {}, {}, {}
        for name, vehicle in seen.vehicles.items():
            why = self._why_still(vehicle, now)
            if vehicle.order is None or vehicle.row.pending == 'cancelOrder':
                parked[name] = vehicle.nodes
            elif why is not None:
                still[name] = Still(vehicle.nodes, vehicle.rest())
            else:
                ways[name] = vehicle.rest()
            is_told = why is not None and (vehicle.order is not None or vehicle.row.astray)
            self.lines.once(name, f'{name}: {why}' if is_told else None, over=f'{name}: goes on')
        return Traffic(ways, still, parked, self._out, self._closed(instructions))


def _jobs_of(order: str, seen: Snapshot) -> tuple[Waiting, ...]:
    """Returns the live jobs of an order that this dispatcher has not given."""
    jobs = (job for job in seen.jobs.values() if job.order == order)
    return tuple(Waiting(job.name, job.load, job.origin, job.target) for job in jobs)
