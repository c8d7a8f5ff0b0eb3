"""Draws a warehouse as an SVG: the layout, the stations with their loads, the vehicles, and the
nodes and edges that each vehicle holds in its colour."""
from __future__ import annotations

import collections
import math
from collections.abc import Iterable, Iterator
from dataclasses import dataclass
from typing import Generic, TypeVar
from xml.sax.saxutils import escape, quoteattr

from ..common.layouts import Edge, Layout
from ..common.names import natural
from .floor_plan import FloorPlan
from .positions import LENGTH, Point, positions
from ..common.text import shown
from .warehouse import Warehouse

RADIUS = 15  # of a node
LINE_HEIGHT = 15  # of a line of text
LETTER = 6.6  # about the width of a letter
COLOURS = ['#0072b2', '#d55e00', '#009e73', '#cc79a7', '#8c6d00', '#5f3dc4', '#c92a2a', '#2f7d8c']
FREE = '#9aa3ab'

Box = tuple[float, float, float, float]  # left, top, right, bottom
Item = TypeVar('Item')


@dataclass(frozen=True)
class LabelLine:
    """A line of the label beside a node: its kind (`station`, `load` or `vehicle`), the name of the
    thing, the text, and the colour of its vehicle, if there is one."""

    kind: str
    name: str
    text: str
    colour: str | None = None


def colour_of(number: int) -> str:
    """Returns the colour of the vehicle of this number."""
    if number < len(COLOURS):
        return COLOURS[number]
    return f'hsl({number * 137 % 360},65%,40%)'


def labels_of(warehouse: Warehouse) -> dict[str, list[LabelLine]]:
    """Returns the label of each node that has one: the stations and vehicles there, with their
    loads."""
    lines: dict[str, list[LabelLine]] = {node: [] for node in warehouse.layout.nodes}
    at = collections.defaultdict(list)
    for load in sorted(warehouse.loads, key=natural):
        at[warehouse.loads[load]].append(load)
    for station in warehouse.layout.stations.values():
        loads = at['station ' + station.name]
        text = f'station {station.name}: {len(loads)} of {station.capacity}'
        lines[station.node].append(LabelLine('station', station.name, text))
        lines[station.node] += [LabelLine('load', load, load) for load in loads]
    for number, (vehicle, node) in enumerate(warehouse.vehicles.items()):
        loads = at['vehicle ' + vehicle]
        lines[node].append(LabelLine('vehicle', vehicle, vehicle, colour_of(number)))
        lines[node] += [LabelLine('load', load, load, colour_of(number)) for load in loads]
    return {node: label for node, label in lines.items() if label}


class Grid(Generic[Item]):
    """Keeps items by the squares of a grid that their boxes touch, so that the items near a box are
    found without a search through all of them."""

    def __init__(self) -> None:
        self.squares: dict[tuple[int, int], list[Item]] = collections.defaultdict(list)

    def touched(self, box: Box) -> list[tuple[int, int]]:
        """Returns the squares that a box touches."""
        left, top, right, bottom = (math.floor(side / LENGTH) for side in box)
        return [(x, y) for x in range(left, right + 1) for y in range(top, bottom + 1)]

    def add(self, box: Box, item: Item) -> None:
        """Adds an item with its box."""
        for square in self.touched(box):
            self.squares[square].append(item)

    def near(self, box: Box) -> set[Item]:
        """Returns all items whose boxes meet this one, and perhaps some more."""
        return {item for square in self.touched(box) for item in self.squares.get(square, ())}


def crosses(box: Box, start: Point, finish: Point) -> bool:
    """Whether the line between two points passes through a box, tried at 21 of its points."""
    left, top, right, bottom = box
    for step in range(21):
        x = start[0] + (finish[0] - start[0]) * step / 20
        y = start[1] + (finish[1] - start[1]) * step / 20
        if left <= x <= right and top <= y <= bottom:
            return True
    return False


@dataclass
class Drawn:
    """What a label should not cover: edges, nodes, and the boxes of labels that have their
    places."""

    edges: Grid[Edge]
    nodes: Grid[str]
    boxes: Grid[tuple[str, Box]]


def boxes_beside(point: Point, width: float, height: float) -> Iterator[Box]:
    """Returns the boxes of a label at a node: below, above, to the right, to the left, and in the
    corners."""
    x, y = point
    for right, down in ((0, 1), (0, -1), (1, 0), (-1, 0), (1, 1), (-1, 1), (1, -1), (-1, -1)):
        gap = RADIUS + 7 if right == 0 or down == 0 else RADIUS * 0.75
        left = x - width / 2 if right == 0 else x + gap if right > 0 else x - gap - width
        top = y - height / 2 if down == 0 else y + gap if down > 0 else y - gap - height
        yield left, top, left + width, top + height


def box_for(node: str, width: float, height: float, at: dict[str, Point], drawn: Drawn) -> Box:
    """Returns the box beside a node, of eight, that covers the least of edges, nodes and other
    boxes."""
    found = []
    for turn, box in enumerate(boxes_beside(at[node], width, height)):
        left, top = box[:2]
        price = sum(
            3 * crosses(box, at[edge.start], at[edge.finish]) for edge in drawn.edges.near(box)
        )
        wide = (left - RADIUS, top - RADIUS, box[2] + RADIUS, box[3] + RADIUS)
        price += sum(
            10 for name in drawn.nodes.near(wide) if name != node and holds_point(wide, at[name])
        )
        price += sum(10 for _, other in drawn.boxes.near(box) if meet(box, other))
        found.append((price, turn, box))
    return min(found)[2]


def holds_point(box: Box, point: Point) -> bool:
    """Whether a point lies in a box."""
    return box[0] <= point[0] <= box[2] and box[1] <= point[1] <= box[3]


def meet(one: Box, other: Box) -> bool:
    """Whether two boxes have a part in common."""
    return one[0] < other[2] and other[0] < one[2] and one[1] < other[3] and other[1] < one[3]


def boxes_of(
    labels: dict[str, list[LabelLine]], at: dict[str, Point], edges: Iterable[Edge]
) -> list[Box]:
    """Returns the box of each label. They are placed one after another."""
    boxes: list[Box] = []
    drawn = Drawn(Grid(), Grid(), Grid())
    for edge in edges:
        (x, y), (u, v) = at[edge.start], at[edge.finish]
        drawn.edges.add((min(x, u), min(y, v), max(x, u), max(y, v)), edge)
    for node, (x, y) in at.items():
        drawn.nodes.add((x, y, x, y), node)
    for node, lines in labels.items():
        width = (
            max(len(line.text) + (2 if line.kind == 'load' else 0) for line in lines) * LETTER + 12
        )
        boxes.append(box_for(node, width, LINE_HEIGHT * len(lines) + 8, at, drawn))
        drawn.boxes.add(boxes[-1], (node, boxes[-1]))
    return boxes


def xml_text(text: str) -> str:
    """Returns a text for XML. Characters that XML does not allow, or that change the direction of
    the text, are written as escapes."""
    return escape(shown(text, len(text) * 10 + 2))


def xml_value(text: str) -> str:
    """Returns a text as the value of an attribute, in quotes."""
    return quoteattr(shown(text, len(text) * 10 + 2))


def text_drawn(x: float, y: float, text: str, more: str = '') -> str:
    """Returns a text at a place; `more` are further attributes."""
    return f'<text x="{x:.1f}" y="{y:.1f}"{more}>{xml_text(text)}</text>'


def edge_drawn(edge: Edge, at: dict[str, Point], colour: str | None) -> str:
    """Returns the arrow of an edge, beside the straight line between its nodes on the right, so
    that the edges of both directions are side by side."""
    (x, y), (u, v) = at[edge.start], at[edge.finish]
    length = math.sqrt((u - x) ** 2 + (v - y) ** 2) or 1.0
    east, south = (u - x) / length, (v - y) / length
    aside_x, aside_y = -south * 5, east * 5
    begin, end = RADIUS - 1, RADIUS + (9 if colour else 7)
    tail_x, tail_y = x + east * begin + aside_x, y + south * begin + aside_y
    neck_x, neck_y = u - east * end + aside_x, v - south * end + aside_y
    tip = (u - east * (RADIUS + 1) + aside_x, v - south * (RADIUS + 1) + aside_y)
    side_x, side_y = -south * 4.5, east * 4.5
    line = (
        f'<line x1="{tail_x:.1f}" y1="{tail_y:.1f}" x2="{neck_x:.1f}" y2="{neck_y:.1f}"'
        f' stroke="{colour or FREE}" stroke-width="{4 if colour else 1.5}"/>'
    )
    sides = ((neck_x + side_x, neck_y + side_y), (neck_x - side_x, neck_y - side_y))
    points = ' '.join(f'{right:.1f},{down:.1f}' for right, down in (tip, *sides))
    head = f'<polygon points="{points}" fill="{colour or FREE}"/>'
    title = xml_text(f'edge {edge.name}: {edge.start} to {edge.finish}')
    return (
        f'<g class="edge" data-edge={xml_value(edge.name)}><title>{title}</title>{line}{head}</g>'
    )


def node_drawn(name: str, place: Point, colour: str | None) -> str:
    """Returns the circle of a node, with the name in it, or above it where the name is long."""
    x, y = place
    circle = (
        f'<circle cx="{x:.1f}" cy="{y:.1f}" r="{RADIUS}" fill="{colour or "#ffffff"}"'
        f' stroke="{colour or FREE}" stroke-width="2"/>'
    )
    if len(name) < 9:
        size = min(11.0, 2 * RADIUS / (0.62 * len(name)))
        fill = '#ffffff' if colour else '#343a40'
        more = f' text-anchor="middle" font-size="{size:.1f}" fill="{fill}"'
        label = text_drawn(x, y + size * 0.36, name, more)
    else:
        label = text_drawn(x, y - RADIUS - 4, name, ' text-anchor="middle" fill="#343a40"')
    return f'<g class="node" data-node={xml_value(name)}>{circle}{label}</g>'


def label_drawn(box: Box, lines: list[LabelLine]) -> str:
    """Returns the label of a node: its stations, vehicles and loads."""
    left, top, right, _ = box
    parts = [
        f'<rect x="{left:.1f}" y="{top:.1f}" width="{right - left:.1f}" height="{box[3] - top:.1f}"'
        ' rx="4" fill="#f8f9fa" stroke="#dee2e6"/>'
    ]
    for number, line in enumerate(lines):
        y = top + 4 + LINE_HEIGHT * number
        if line.kind == 'vehicle':
            parts.append(
                f'<rect x="{left + 3:.1f}" y="{y:.1f}" width="{right - left - 6:.1f}"'
                f' height="{LINE_HEIGHT - 1}" rx="3" fill="{line.colour}"/>'
            )
        fill = '#ffffff' if line.kind == 'vehicle' else line.colour or '#212529'
        indent = 6 if line.kind != 'load' else 16
        if line.kind == 'load':
            parts.append(
                f'<rect x="{left + 7:.1f}" y="{y + 4:.1f}" width="6" height="6" fill="{fill}"/>'
            )
        more = f' class="{line.kind}" data-{line.kind}={xml_value(line.name)} fill="{fill}"'
        parts.append(text_drawn(left + indent, y + 11, line.text, more))
    return f'<g>{"".join(parts)}</g>'


def bounds_of(boxes: Iterable[Box], at: dict[str, Point]) -> Box:
    """Returns the box around all labels and nodes, with a margin."""
    corners = [*boxes]
    corners += [(x - RADIUS, y - RADIUS - 15, x + RADIUS, y + RADIUS) for x, y in at.values()]
    left, top = (min((corner[side] for corner in corners), default=0) - 20 for side in (0, 1))
    right, bottom = (max((corner[side] for corner in corners), default=0) + 20 for side in (2, 3))
    return left, top, right, bottom


def frame(left: float, top: float, width: float, height: float) -> str:
    """Returns the beginning of the SVG, and its white ground."""
    box = f'{left:.1f} {top:.1f} {width:.1f} {height:.1f}'
    return (
        f'<svg xmlns="http://www.w3.org/2000/svg" viewBox="{box}"'
        f' width="{width:.0f}" height="{height:.0f}" font-family="sans-serif" font-size="11">\n'
        f'<rect x="{left:.1f}" y="{top:.1f}" width="{width:.1f}" height="{height:.1f}"'
        ' fill="#ffffff"/>'
    )


def hall_drawn(plan: FloorPlan | None, layout: Layout) -> tuple[list[Box], list[str]]:
    """Returns the box of the picture of the hall and the picture itself, if the plan has one."""
    box = None if plan is None else plan.picture_box(layout)
    if plan is None or plan.picture is None or box is None:
        return [], []
    left, top, width, height = box
    image = (
        f'<image x="{left:.1f}" y="{top:.1f}" width="{width:.1f}" height="{height:.1f}" '
        f'preserveAspectRatio="none" opacity="0.55" href="{plan.picture.link()}"/>'
    )
    return [(left, top, left + width, top + height)], [image]


def drawing(warehouse: Warehouse, plan: FloorPlan | None = None) -> str:
    """Returns the picture of a warehouse, an SVG: with a plan true to scale. The same warehouse
    gives the same picture. Raises `BadPlan` where the plan has no place for a node."""
    layout = warehouse.layout
    at = positions(layout) if plan is None else plan.places(layout)
    hall, images = hall_drawn(plan, layout)
    labels = labels_of(warehouse)
    boxes = boxes_of(labels, at, layout.edges.values())
    left, top, right, bottom = bounds_of([*boxes, *hall], at)
    places = warehouse.loads.items()
    checking = sorted((load for load, place in places if place == 'checking'), key=natural)
    foot = 'checking place: ' + (', '.join(checking) or 'no loads')
    right = max(right, left + 40 + len(foot) * LETTER)
    out = [frame(left, top, right - left, bottom - top + LINE_HEIGHT + 12), *images]
    colours = {vehicle: colour_of(number) for number, vehicle in enumerate(warehouse.vehicles)}
    held = {thing: colours.get(vehicle) for thing, vehicle in warehouse.holds.items()}
    out += [edge_drawn(edge, at, held.get('edge ' + name)) for name, edge in layout.edges.items()]
    out += [node_drawn(node, at[node], held.get('node ' + node)) for node in layout.nodes]
    out += [label_drawn(box, lines) for box, lines in zip(boxes, labels.values())]
    out.append(text_drawn(left + 20, bottom, foot, ' class="foot" fill="#212529"'))
    return '\n'.join(out) + '\n</svg>\n'
