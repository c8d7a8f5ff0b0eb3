"""The list of the rules for the rows of a desk's file. A desk starts only on rows that keep all of
them. docs/TABLES.md has the same list, and docs/MODEL.md says the same of the world."""
import dataclasses
import itertools
from collections.abc import Iterator

from . import order_rules, row_rules, stock_rules
from .checks import Breach, Rule
from .rows import Rows
from ..common.text import shown

LONGEST = 1000  # the most characters of what is wrong with rows
RULES: list[Rule] = [
    row_rules.has_schema,
    row_rules.has_no_trips,
    row_rules.has_keys_once,
    row_rules.has_names,
    row_rules.has_words,
    row_rules.has_numbers,
    row_rules.counts_are_within_limits,
    row_rules.edges_join_nodes,
    row_rules.stations_are_at_nodes,
    row_rules.vehicles_are_at_nodes,
    row_rules.rests_go_on,
    row_rules.moments_have_messages,
    row_rules.pending_actions_were_sent,
    row_rules.vehicles_have_a_capacity,
    order_rules.orders_have_a_vehicle,
    order_rules.orders_are_used_names,
    order_rules.parts_have_an_order,
    order_rules.ways_are_walks,
    order_rules.orders_pick_and_drop,
    order_rules.acts_are_at_stations,
    order_rules.bases_are_in_order,
    order_rules.updates_are_confirmed,
    order_rules.acts_are_finished_in_turn,
    order_rules.ended_orders_are_gone,
    order_rules.vehicles_are_on_their_way,
    order_rules.nothing_is_held_twice,
    order_rules.holds_are_what_is_held,
    stock_rules.loads_have_places,
    stock_rules.jobs_name_what_is_known,
    stock_rules.stations_have_room,
    stock_rules.vehicles_keep_capacity,
    stock_rules.loads_have_one_live_job,
    stock_rules.jobs_ride_in_orders,
    stock_rules.dropped_jobs_are_done,
    stock_rules.jobs_are_in_one_order,
    stock_rules.waiting_loads_are_at_the_origin,
    stock_rules.carried_loads_are_aboard,
]


@dataclasses.dataclass(frozen=True)
class Broken:
    """A rule that rows break: the first breaches, and how many more there are."""

    rule: Rule
    first: list[Breach]
    more: int


def broken_rules(rows: Rows, most: int) -> Iterator[Broken]:
    """Yields the rules that the rows break, in the order of `RULES`, each with at most `most`
    breaches."""
    for rule in RULES:
        found = rule.check(rows)
        some = itertools.islice(found, most)
        first = [Breach(rule, shown(str(of)), shown(text, LONGEST)) for of, text in some]
        if first:
            yield Broken(rule, first, sum(1 for _ in found))
