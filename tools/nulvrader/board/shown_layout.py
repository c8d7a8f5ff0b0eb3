"""The layout as the page draws it, which is kept, so that it is there while no desk answers."""
from __future__ import annotations


from ..common.layouts import Layout, read_layout
from ..common.names import natural
from ..drawing.floor_plan import FloorPlan
from ..drawing.positions import Point, positions
from .journal import log
from .messages import Line
from .news import News
from .shown_rows import FAULT, LAYOUT, DrawnLayout, ShownFault

NONE = Layout((), {}, {})


class ShownLayout:
    """The layout on the page, which has nothing in it until the desk has told one. `plan` says
    where its nodes truly are, if that is known."""

    def __init__(self, news: News, plan: FloorPlan | None = None):
        self.news, self.plan = news, plan
        self.layout = NONE

    def show(self) -> None:
        """Shows the layout that the record has, if it has one."""
        self.layout, kept = NONE, self.news.record.layout()
        if kept is not None:
            self._put(read_layout(kept[0].encode()), kept[1])

    def take(self, layout: Layout | None) -> None:
        """Takes the layout that the desk has answered, None where it has none yet. A layout that
        differs from the one before is drawn anew, kept in the record and shown."""
        if layout is not None and layout != self.layout:
            places = {} if self._fitting(layout) else positions(layout)
            text = layout.csv().decode().removesuffix('\n')  # a file may be a byte shorter
            self.news.record.keep_layout(text, places)
            self._put(layout, places)

    def _fitting(self, layout: Layout) -> FloorPlan | None:
        """Returns the plan, if it has a place for each node. Else the page says which it lacks."""
        if self.plan is None:
            return None
        missing = self.plan.missing(layout)
        if not missing:
            self.news.shown.put(FAULT, 'plan', None)
            return self.plan
        line = Line('plan.lacks', {'path': self.plan.path, 'nodes': missing})
        log(line.words())
        self.news.shown.put(FAULT, 'plan', ShownFault(words=line.words(), says=[line.told()]))
        return None

    def _put(self, layout: Layout, places: dict[str, Point]) -> None:
        """Shows a layout. `places` are those that the record has, where no plan has them."""
        self.layout = layout
        plan = self._fitting(layout)
        if plan is not None:
            told = drawn(layout, plan.places(layout))
            told['metre'], told['picture'] = round(plan.unit(layout), 4), drawn_box(layout, plan)
        else:
            is_whole = places.keys() >= set(layout.nodes)
            told = drawn(layout, places if is_whole else positions(layout))
        self.news.shown.put(LAYOUT, '', told)


def drawn_box(layout: Layout, plan: FloorPlan) -> list[float] | None:
    """Returns where the page draws the picture of a plan, if it has one."""
    box = plan.picture_box(layout)
    return None if box is None else [round(number, 1) for number in box]


def drawn(layout: Layout, places: dict[str, Point]) -> DrawnLayout:
    """Returns the layout as the page draws it, each kind in the order of the names."""
    stations = [layout.stations[name] for name in sorted(layout.stations, key=natural)]
    nodes = sorted(layout.nodes, key=natural)
    return {
        'nodes': [(node, round(places[node][0], 1), round(places[node][1], 1)) for node in nodes],
        'edges': [(edge.name, edge.start, edge.finish) for edge in layout.edges.values()],
        'stations': [(station.name, station.node, station.capacity) for station in stations],
    }
