"""What is truly where: each vehicle on a node or an edge, each load at a place. What may not be is
a `Wrong`, at the moment at which it is so; a load in two places is one when the places of all loads
are asked for next."""
from __future__ import annotations

from collections.abc import Mapping
from typing import Any

from nulvrader.common.layouts import Edge


class Wrong(Exception):
    """Something happened in the plant that may never happen. Its `str()` says what."""


class Track:
    """Who is on which node and edge. A vehicle that drives is on its edge, and on the node behind
    it until it has arrived: nothing else knows earlier that it has left. The edges of both
    directions between two nodes are one stretch of floor.
    """

    def __init__(self, edges: Mapping[str, Edge]) -> None:
        self.edges = edges
        self.nodes: dict[str, str] = {}
        self.stretches: dict[frozenset[str], str] = {}
        self.at: dict[str, str] = {}  # the node of each vehicle, or the one that it comes from
        self.on: dict[str, str] = {}  # the edge of each vehicle that drives

    def put(self, vehicle: str, node: str) -> None:
        """Sets a vehicle on a node, by hand."""
        self.take_off(vehicle)
        self._enter(vehicle, node)
        self.at[vehicle] = node

    def take_off(self, vehicle: str) -> None:
        edge = self.on.pop(vehicle, None)
        if edge is not None:
            del self.stretches[self._stretch(edge)]
        node = self.at.pop(vehicle, None)
        if node is not None:
            del self.nodes[node]

    def leave(self, vehicle: str, edge: str) -> None:
        """Notes that a vehicle begins to drive along an edge."""
        if self.edges[edge].start != self.at[vehicle] or vehicle in self.on:
            raise Wrong(f'{vehicle} drives along {edge}, and is at {self.at[vehicle]}')
        other = self.stretches.get(self._stretch(edge))
        if other is not None:
            raise Wrong(f'{other} and {vehicle} are on the edge {edge}')
        self.stretches[self._stretch(edge)] = vehicle
        self.on[vehicle] = edge

    def arrive(self, vehicle: str) -> str:
        """Notes that a vehicle has come to the end of its edge, and returns the node there."""
        edge = self.on.pop(vehicle)
        node = self.edges[edge].finish
        self._enter(vehicle, node)
        del self.stretches[self._stretch(edge)]
        del self.nodes[self.at[vehicle]]
        self.at[vehicle] = node
        return node

    def _enter(self, vehicle: str, node: str) -> None:
        other = self.nodes.get(node)
        if other is not None:
            raise Wrong(f'{other} and {vehicle} are on the node {node}')
        self.nodes[node] = vehicle

    def _stretch(self, edge: str) -> frozenset[str]:
        return frozenset((self.edges[edge].start, self.edges[edge].finish))


class Goods:
    """Where the loads are: by place, as the desk writes it: `station A`, `vehicle KIT/0001`,
    `checking`. `room` is how many a place has room for. `alone`: nobody else tells the desk where
    loads are, so that each is where an order looks for it.
    """

    def __init__(self) -> None:
        self.alone = True
        self.here: dict[str, set[str]] = {}
        self.room: dict[str, int] = {}
        self.drops: dict[
            str, tuple[str, str]
        ] = {}  # by act of an order the load and the station where a vehicle has put it down

    def add(self, load: str, place: str) -> None:
        loads = self.here.setdefault(place, set())
        loads.add(load)
        if len(loads) > self.room.get(place, len(loads)):
            raise Wrong(
                f'{load} is put to {place}, which has {len(loads)} loads then and room for'
                f' {self.room[place]}'
            )

    def at(self, place: str) -> list[str]:
        return sorted(self.here.get(place, ()))

    def has(self, load: str, place: str) -> bool:
        return load in self.here.get(place, ())

    def move(self, load: str, start: str, finish: str) -> None:
        """Carries a load from where it is to another place."""
        if not self.has(load, start):
            raise Wrong(f'{load} is taken from {start}, and is not there')
        self.here[start].remove(load)
        self.add(load, finish)

    def places(self) -> dict[str, str]:
        """Returns the place of each load. A load in two places is a `Wrong`."""
        found: dict[str, str] = {}
        for place, loads in self.here.items():
            for load in loads:
                if load in found:
                    raise Wrong(f'{load} is at {found[load]} and at {place}')
                found[load] = place
        return found


class Given:
    """What the desk has given to each vehicle: of the order messages that it answered, by order the
    numbers of the released edges. What was taken back is not given again."""

    def __init__(self) -> None:
        self.released: dict[tuple[str, str], set[int]] = {}
        self.edges: dict[tuple[str, str, int], str] = {}
        self.over: set[tuple[str, str]] = set()  # the orders that have ended
        self.drops: dict[str, tuple[str, str]] = {}  # by act the load and the station of each drop

    def note(self, vehicle: str, message: Mapping[str, Any]) -> None:
        """Takes down an order message as the desk answered it."""
        order = str(message['orderId'])
        released = self.released.setdefault((vehicle, order), set())
        for edge in message['edges']:
            self.edges[vehicle, order, edge['sequenceId']] = edge['edgeId']
            if edge['released']:
                released.add(edge['sequenceId'])
        for action in (
            action
            for node in message['nodes']
            for action in node['actions']
            if action['actionType'] == 'drop'
        ):
            said = {pair['key']: pair['value'] for pair in action['actionParameters']}
            self.drops[action['actionId']] = said['loadId'], said['stationName']

    def take_back(self, vehicle: str, order: str) -> None:
        """Takes the track of an order that has ended from its vehicle."""
        self.over.add((vehicle, order))

    def check(self, vehicle: str, order: str, number: int, edge: str) -> None:
        """Whether a vehicle may drive along this edge of its order."""
        of = vehicle, order
        if (
            of in self.over
            or number not in self.released.get(of, ())
            or self.edges[vehicle, order, number] != edge
        ):
            raise Wrong(
                f'{vehicle} drives along {edge}, edge {number} of the order {order}, which was not'
                ' given to it'
            )
