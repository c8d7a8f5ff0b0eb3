"""Ways of vehicles as bits, one for each node, as the search of `deadlock.py` has them."""
from __future__ import annotations

from collections.abc import Iterable, Sequence

Way = Sequence[str]
"""The nodes of a vehicle: the one where it stands, or the last of those that it holds, and then all
that it still has to pass."""

KEPT = 5_000
"""So many ways are kept as bits."""

PAIRS = 20_000
"""Of so many pairs of ways it is kept where both vehicles finish: a hundred vehicles with an order
have 9,900."""


class Lane:
    """A way as bits: `bits` has that of each node, `rest` of each index those of the nodes behind
    it, and `all` those of the whole way, whose nodes are `way`. `lefts` has of each node how many
    nodes are behind it on the way, each number as a bit."""

    __slots__ = ('way', 'bits', 'rest', 'all', 'end', 'lefts')

    def __init__(self, way: tuple[str, ...], bits: list[int]) -> None:
        self.way, self.bits, self.end = way, bits, len(bits) - 1
        self.rest, self.lefts = [0] * len(bits), dict.fromkeys(bits, 0)
        for index in range(self.end, 0, -1):
            self.rest[index - 1] = self.rest[index] | bits[index]
        for index, bit in enumerate(bits):
            self.lefts[bit] |= 1 << self.end - index
        self.all = self.rest[0] | bits[0]

    def passes(self, other: Lane) -> list[int]:
        """Returns from where this vehicle and one on another way can both finish, if there are no
        others. The item at `n` is for `n` nodes left on this way: bit `m` is set where both finish
        with `m` nodes left on the other."""
        rows, whole, before = [], (2 << other.end) - 1, 1
        for bit in reversed(self.bits):
            free = whole & ~other.lefts.get(bit, 0)
            begun = before & free
            # The carry of the sum goes up from each begun bit through the free ones above it, and
            # the bits that it changes are where the other can come from. A begun bit that a carry
            # meets stays set in the sum, so it is added; the bit where a carry ends is not free.
            before = (free + begun ^ free | begun) & free
            rows.append(before)
        return rows


class Ground:
    """Which bit each node has, and the ways as bits that were asked for. One of it may serve for
    many looks."""

    def __init__(self) -> None:
        self._bits: dict[str, int] = {}
        self._lanes: dict[Way, Lane] = {}
        self._of: dict[tuple[str, str], Lane] = {}  # by vehicle and the end of its way
        self._passes: dict[tuple[Lane, Lane], list[int]] = {}

    def bit(self, node: str) -> int:
        """Returns the bit of a node, the next free one where the node has none yet."""
        return self._bits.setdefault(node, 1 << len(self._bits))

    def bits(self, nodes: Iterable[str]) -> int:
        """Returns the bits of these nodes in one number."""
        found = 0
        for node in nodes:
            found |= self.bit(node)
        return found

    def lane(self, way: Way) -> Lane:
        """Returns a way as bits, the one that is kept where there is one. Where KEPT are kept, all
        are forgotten first, and so is what is kept of pairs."""
        way = tuple(way)
        lane = self._lanes.get(way)
        if lane is None:
            if len(self._lanes) >= KEPT:
                self._lanes.clear()
                self._of.clear()
                self._passes.clear()
            lane = self._lanes[way] = Lane(way, [self.bit(node) for node in way])
        return lane

    def lane_of(self, vehicle: str, way: Way) -> tuple[Lane, int]:
        """Returns the lane of a vehicle, and where on it this way begins. A vehicle that has gone
        on keeps its lane, and with it all that is kept of the pairs that it is in."""
        way = tuple(way)
        key = vehicle, way[-1]
        lane = self._of.get(key)
        if lane is None or lane.way[-len(way) :] != way:
            lane = self.lane(way)
            self._of[key] = lane
        return lane, len(lane.way) - len(way)

    def passes(self, one: Lane, other: Lane) -> list[int]:
        """Returns `one.passes(other)`, which is kept. Where PAIRS are kept, all are forgotten
        first."""
        found = self._passes.get((one, other))
        if found is None:
            if len(self._passes) >= PAIRS:
                self._passes.clear()
            found = self._passes[one, other] = one.passes(other)
        return found
