"""Reads a floor plan: a file with the place of each node in metres, and a picture of the hall that
lies below them, if it names one."""
from __future__ import annotations

import base64
import os
import re
import statistics
from dataclasses import dataclass, field

from ..common import plain_files
from ..common.layouts import Layout
from ..common.names import is_name, natural
from ..common.tables import quoted, records_of, said
from .positions import LENGTH, Point

HEADER = 'kind,id,x,y,width,height'
EXAMPLE = 'node,N1,2.5,-4'
NUMBER = re.compile(r'-?[0-9]{1,6}(\.[0-9]{1,6})?')
MOST_OF_A_PICTURE = 4_194_304  # bytes
NEAR = 36  # units between nodes that are close to one another, at least
NAMED = 5  # nodes that a sentence names
# How the bytes of a picture begin, and how it is called on the web.
KINDS = {b'\x89PNG\r\n\x1a\n': 'image/png', b'\xff\xd8\xff': 'image/jpeg'}
SVG = re.compile(
    rb'\s*(<\?xml[^>]*>\s*)?(<!--(?:(?!-->).)*-->\s*)*(<!DOCTYPE[^>]*>\s*)?<svg[\s/>]', re.S
)

Box = tuple[float, float, float, float]  # left, top, width, height


class BadPlan(ValueError):
    """A floor plan can't be used. Its `str()` is a sentence."""


@dataclass(frozen=True)
class Picture:
    """A picture as it is shown on the web, and where it lies in metres: its left and lower edge,
    its width and its height."""

    data: bytes
    kind: str
    box: Box

    def link(self) -> str:
        """Returns an address that has the picture in itself."""
        return f'data:{self.kind};base64,{base64.b64encode(self.data).decode()}'


@dataclass(frozen=True)
class FloorPlan:
    """Where nodes are, in metres: x to the right and y up. `path` is the file that says so."""

    path: str
    nodes: dict[str, Point] = field(default_factory=dict)
    picture: Picture | None = None

    def unit(self, layout: Layout) -> float:
        """Returns how many units of the drawing a metre has: an edge of middle length is as long as
        in other drawings, and short ones have room for their nodes."""
        ends = [(self.nodes[at.start], self.nodes[at.finish]) for at in layout.edges.values()]
        lengths: list[float] = sorted(
            length
            for (x, y), (u, v) in ends
            if (length := ((u - x) ** 2 + (v - y) ** 2) ** 0.5) > 0
        )
        if not lengths:
            return float(LENGTH)
        return max(LENGTH / statistics.median(lengths), NEAR / lengths[len(lengths) // 10])

    def missing(self, layout: Layout) -> list[str]:
        """Returns the nodes of the layout that have no place: the first ones, and how many more."""
        names = sorted(set(layout.nodes) - self.nodes.keys(), key=natural)
        return names[:NAMED] + [f'(+{len(names) - NAMED})'] * (len(names) > NAMED)

    def places(self, layout: Layout) -> dict[str, Point]:
        """Returns the place of each node, in units of the drawing. Raises `BadPlan` where one has
        none."""
        missing = self.missing(layout)
        if missing:
            raise BadPlan(f'{self.path}: there is no place for {", ".join(missing)}')
        unit = self.unit(layout)
        at = self.nodes
        return {node: (at[node][0] * unit, -at[node][1] * unit) for node in layout.nodes}

    def picture_box(self, layout: Layout) -> Box | None:
        """Returns where the picture lies, in units of the drawing; None where there is none."""
        if self.picture is None:
            return None
        unit = self.unit(layout)
        x, y, width, height = self.picture.box
        return x * unit, -(y + height) * unit, width * unit, height * unit


def read_plan(path: str) -> FloorPlan:
    """Reads a floor plan and its picture. Raises `BadPlan` or `OSError`."""
    records = records_of(plain_files.read_text(path))
    nodes: dict[str, Point] = {}
    picture: Picture | None = None
    if not records or said(records[0][1]) != HEADER:
        raise BadPlan(f'{path}: the first line has to be {HEADER}')
    for line, fields in records[1:]:
        where = f'{path}, line {line}'
        kind, name, numbers = _row(where, fields)
        if kind == b'picture':
            if picture is not None:
                raise BadPlan(f'{where}: there is a picture already')
            picture = _picture(where, os.path.join(os.path.dirname(path), name), numbers)
        elif name in nodes:
            raise BadPlan(f'{where}: node {name} has a place already')
        else:
            nodes[name] = numbers[0], numbers[1]
    return FloorPlan(path, nodes, picture)


def _row(where: str, fields: list[bytes]) -> tuple[bytes, str, list[float]]:
    """Returns the kind, the name and the numbers of a row."""
    kind = fields[0]
    count = {b'node': 4, b'picture': 6}.get(kind)
    if count is None:
        raise BadPlan(f'{where}: {quoted(kind)} is neither node nor picture')
    if len(fields) < count or any(fields[count:]):
        form = HEADER if count == 6 else EXAMPLE
        raise BadPlan(f'{where}: a {kind.decode()} has {count} fields, as {form}')
    name = fields[1].decode('utf-8', 'replace')
    if kind == b'node' and not is_name(name):
        raise BadPlan(f'{where}: {quoted(fields[1])} is no name of a node')
    texts = [field.decode('latin-1').strip() for field in fields[2:count]]
    wrong = next((text for text in texts if not NUMBER.fullmatch(text)), None)
    if wrong is not None:
        raise BadPlan(f'{where}: {quoted(wrong.encode("latin-1"))} is no number of metres, as 12.5')
    return kind, name, [float(text) for text in texts]


def _picture(where: str, path: str, box: list[float]) -> Picture:
    """Reads the picture of a row."""
    x, y, width, height = box
    if width <= 0 or height <= 0:
        raise BadPlan(f'{where}: width and height of a picture are more than 0')
    data = plain_files.read_text(path, MOST_OF_A_PICTURE)
    kind = next((name for front, name in KINDS.items() if data.startswith(front)), None)
    if kind is None and SVG.match(data):
        kind = 'image/svg+xml'
    if kind is None:
        raise BadPlan(f'{path}: it is no picture in PNG, JPEG or SVG')
    return Picture(data, kind, (x, y, width, height))
