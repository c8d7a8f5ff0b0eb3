"""Random ways of vehicles over small layouts."""
import collections
import os
import random
from typing import Any

PLENTY = 10**9
CASES = int(os.environ.get('LOOKS', '3000'))


def both_ways(pairs: Any) -> Any:
    found = collections.defaultdict(set)
    for a, b in pairs:
        found[a].add(b)
        found[b].add(a)
    return found


def random_layout(chance: random.Random) -> Any:
    """From each node the nodes to which an edge leads: a one-way ring with bays, a single track
    with passing places, or any graph."""
    found = collections.defaultdict(set)
    kind = chance.randrange(3)
    if kind == 0:
        size = chance.randint(3, 6)
        for n in range(size):
            found[f'r{n}'].add(f'r{(n + 1) % size}')
            if chance.random() < 0.7:
                found[f'r{n}'].add(f'b{n}')
                found[f'b{n}'].add(f'r{n}')
    elif kind == 1:
        size = chance.randint(3, 7)
        found = both_ways([(f't{n}', f't{n + 1}') for n in range(size - 1)])
        for n in range(1, size - 1):
            if chance.random() < 0.4:
                for a, b in ((f't{n - 1}', f'p{n}'), (f'p{n}', f't{n + 1}')):
                    found[a].add(b)
                    found[b].add(a)
    else:
        nodes = [f'n{n}' for n in range(chance.randint(3, 7))]
        for a in nodes:
            for b in chance.sample([b for b in nodes if b != a], chance.randint(1, 2)):
                found[a].add(b)
                if chance.random() < 0.5:
                    found[b].add(a)
    return {node: sorted(after) for node, after in found.items()}


def shortest(layout: Any, start: str, target: str) -> Any:
    before: dict[str, Any] = {start: None}
    row = collections.deque([start])
    while row:
        at = row.popleft()
        if at == target:
            way = [at]
            while before[way[-1]] is not None:
                way.append(before[way[-1]])
            return way[::-1]
        for after in layout.get(at, ()):
            if after not in before:
                before[after] = at
                row.append(after)
    return None


def random_case(chance: random.Random) -> tuple[Any, Any]:
    """Ways of two to four vehicles over one or two stops, and perhaps a wall."""
    layout = random_layout(chance)
    nodes = sorted(set(layout) | {b for after in layout.values() for b in after})
    starts = chance.sample(nodes, min(len(nodes) - 1, chance.randint(2, 4)))
    ways = {}
    for n, start in enumerate(starts):
        way = [start]
        for _ in range(chance.randint(0, 2)):
            more = shortest(layout, way[-1], chance.choice(nodes))
            way += more[1:] if more else []
        ways[f'v{n}'] = tuple(way)
    free = [node for node in nodes if node not in starts]
    return ways, {chance.choice(free)} if free and chance.random() < 0.1 else set()
