"""Places the nodes of a layout in a plane, so that the distance of two nodes is as nearly as can be
the number of edges between them."""
from __future__ import annotations

import math
import random

from ..common.layouts import Edge, Layout

LENGTH = 120  # of an edge, in units of the drawing
MOVES = 1_000_000  # the most moves of pairs of nodes, if there are fewer than 125,000 pairs

Point = tuple[float, float]
Near = dict[str, list[str]]  # by node, the nodes that an edge joins to it


def distances(near: Near, origin: str) -> dict[str, int]:
    """Returns how many edges, in either direction, each node is away from `origin`; nodes that
    nothing joins to it are left out."""
    found, row = {origin: 0}, [origin]
    for at in row:
        for other in near[at]:
            if other not in found:
                found[other] = found[at] + 1
                row.append(other)
    return found


def turns_for(pairs: int) -> int:
    """Returns how often each of this many pairs is moved, 8 to 40 times. For many pairs few turns
    are enough: with 500 nodes, which have 124,750 pairs, the stress after 8 turns is about a
    hundredth above that after 40."""
    return max(8, min(40, MOVES // max(1, pairs)))


def placed(part: list[str], far: dict[str, dict[str, int]]) -> dict[str, Point]:
    """Returns places for nodes that are joined, whose distances are as near to `far` as stress
    minimization by gradient descent gets them. The unit is the length of an edge."""
    chance = random.Random(1)
    at = {
        node: [chance.random() * len(part) ** 0.5, chance.random() * len(part) ** 0.5]
        for node in part
    }
    pairs = [
        (one, other, far[one][other]) for number, one in enumerate(part) for other in part[:number]
    ]
    longest = max([length for _, _, length in pairs], default=1)
    turns = turns_for(len(pairs))
    step, last = float(longest * longest), 0.02
    fall = (last / step) ** (1 / (turns - 1))
    for _ in range(turns):
        chance.shuffle(pairs)
        for one, other, length in pairs:
            here, there = at[one], at[other]
            x, y = here[0] - there[0], here[1] - there[1]
            now = math.sqrt(x * x + y * y) or 1e-9
            move = min(1.0, step / (length * length)) * (now - length) / (2 * now)
            here[0] -= x * move
            here[1] -= y * move
            there[0] += x * move
            there[1] += y * move
        step *= fall
    return {node: (x, y) for node, (x, y) in at.items()}


def turned(at: dict[str, Point], edges: list[Edge]) -> dict[str, Point]:
    """Returns the places turned so that most edges are level or upright and the picture is wider
    than high, and mirrored so that the node of the least name is at the upper left."""
    across = along = 0.0
    for edge in edges:
        start, finish = at[edge.start], at[edge.finish]
        angle = 4 * math.atan2(finish[1] - start[1], finish[0] - start[0])
        across, along = across + math.sin(angle), along + math.cos(angle)
    angle = -math.atan2(across, along) / 4 if edges else 0.0
    cos, sin = math.cos(angle), math.sin(angle)
    at = {node: (x * cos - y * sin, x * sin + y * cos) for node, (x, y) in at.items()}
    width = max(x for x, _ in at.values()) - min(x for x, _ in at.values())
    height = max(y for _, y in at.values()) - min(y for _, y in at.values())
    if height > width:
        at = {node: (-y, x) for node, (x, y) in at.items()}
    first = min(at)
    middle_x = sum(x for x, _ in at.values()) / len(at)
    middle_y = sum(y for _, y in at.values()) / len(at)
    left = -1 if at[first][0] > middle_x else 1
    up = -1 if at[first][1] > middle_y else 1
    return {node: (x * left, y * up) for node, (x, y) in at.items()}


def positions(layout: Layout) -> dict[str, Point]:
    """Returns the place of each node, in units of the drawing. Parts of the layout that nothing
    joins are side by side. The same layout always has the same places."""
    near: Near = {node: [] for node in layout.nodes}
    for edge in layout.edges.values():
        near[edge.start].append(edge.finish)
        near[edge.finish].append(edge.start)
    found: dict[str, Point] = {}
    left, right = list(layout.nodes), 0.0
    while left:
        reached = distances(near, left[0])
        part = [node for node in left if node in reached]
        left = [node for node in left if node not in reached]
        at = placed(part, {node: distances(near, node) for node in part})
        at = turned(at, [edge for edge in layout.edges.values() if edge.start in reached])
        shift = right - min(x for x, _ in at.values())
        top = min(y for _, y in at.values())
        for node, (x, y) in at.items():
            found[node] = ((x + shift) * LENGTH, (y - top) * LENGTH)
        right = max(x for x, _ in found.values()) / LENGTH + 1.5
    return found
