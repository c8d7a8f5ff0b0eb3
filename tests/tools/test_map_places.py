"""Shows where `tools/map` puts nodes and labels, and how much is done for that."""
from __future__ import annotations

import collections
import unittest
from unittest import mock
from typing import Any

from nulvrader.common import layouts
from nulvrader.drawing import svg, positions, warehouse
from tests.support.drawing import Picture, length


class Places(unittest.TestCase):
    """Where nodes and labels are put, and how much is done for that."""

    def grid(self, width: int, height: int) -> Any:
        """A layout of two-way streets, with a station at each node and a vehicle at every fifth."""
        nodes = [f'N{y:02d}-{x:02d}' for y in range(height) for x in range(width)]
        edges = []
        for y in range(height):
            for x in range(width):
                here = f'N{y:02d}-{x:02d}'
                for there in (f'N{y:02d}-{x + 1:02d}', f'N{y + 1:02d}-{x:02d}'):
                    if there in nodes:
                        edges.append(layouts.Edge(f'{here}.{there}', here, there))
                        edges.append(layouts.Edge(f'{there}.{here}', there, here))
        stations = [layouts.Station('S' + node, node, 2) for node in nodes]
        vehicles = {f'KIT/{number:04d}': node for number, node in enumerate(nodes[::5])}
        return warehouse.Warehouse(layouts.of_parts(nodes, edges[:1500], stations), vehicles)

    def plain_box(self, node: Any, width: Any, height: Any, at: Any, edges: Any, boxes: Any) -> Any:
        """The box beside a node, chosen by looking at all edges, nodes and boxes."""
        radius = svg.RADIUS
        best: Any = None
        for turn, box in enumerate(svg.boxes_beside(at[node], width, height)):
            left, top = box[:2]
            price = sum(3 * svg.crosses(box, at[edge.start], at[edge.finish]) for edge in edges)
            price += 10 * sum(
                left - radius <= u <= box[2] + radius and top - radius <= v <= box[3] + radius
                for name, (u, v) in at.items()
                if name != node
            )
            price += 10 * sum(
                left < one[2] and one[0] < box[2] and top < one[3] and one[1] < box[3]
                for one in boxes
            )
            if best is None or (price, turn) < best[:2]:
                best = price, turn, box
        return best[2]

    def test_boxes(self) -> None:
        """They are those that are found by looking at everything."""
        grid = self.grid(7, 5)
        labels, at = svg.labels_of(grid), positions.positions(grid.layout)
        boxes: list[Any] = []
        for node, lines in labels.items():
            width = max(len(line.text) for line in lines) * svg.LETTER + 12
            height = svg.LINE_HEIGHT * len(lines) + 8
            boxes.append(self.plain_box(node, width, height, at, grid.layout.edges.values(), boxes))
        self.assertEqual(svg.boxes_of(labels, at, grid.layout.edges.values()), boxes)
        self.assertGreater(
            len({box[0] < at[node][0] < box[2] for node, box in zip(labels, boxes)}), 1
        )

    def test_things_near_a_box(self) -> None:
        grid: svg.Grid[int] = svg.Grid()
        for number in range(20):
            grid.add((number * 60, -500, number * 60 + 30, 500), number)
        self.assertEqual(grid.near((500, 0, 501, 1)) & {8}, {8})
        self.assertLess(len(grid.near((500, 0, 501, 1))), 6)
        self.assertEqual(grid.near((-2000, -600, 2000, 600)), set(range(20)))

    def test_turns(self) -> None:
        """Forty for the layouts that most warehouses have, and eight for the largest."""
        self.assertEqual(
            [positions.turns_for(nodes * (nodes - 1) // 2) for nodes in (1, 2, 120, 200, 500)],
            [40, 40, 40, 40, 8],
        )

    def test_the_largest_layout(self) -> None:
        grid = self.grid(25, 20)
        layout = grid.layout
        self.assertEqual(
            (len(layout.nodes), len(layout.edges), len(layout.stations)), (500, 1500, 500)
        )
        looked: Any = collections.Counter()
        crosses = svg.crosses
        with mock.patch.object(
            svg, 'crosses', lambda *words: looked.update('x') or crosses(*words)
        ):
            picture = Picture(svg.drawing(grid))
        self.assertEqual(set(picture.nodes), set(layout.nodes))
        self.assertEqual(set(picture.edges), set(layout.edges))
        self.assertEqual(len(picture.labels), 500)
        self.assertLess(looked['x'], 8 * 500 * 1500 / 50)
        place = {name: where for name, (where, _, _) in picture.nodes.items()}
        lengths = [length(place[edge.start], place[edge.finish]) for edge in layout.edges.values()]
        self.assertGreater(min(lengths), 0.8 * positions.LENGTH)
        self.assertLess(max(lengths), 1.6 * positions.LENGTH)


if __name__ == '__main__':
    unittest.main()
