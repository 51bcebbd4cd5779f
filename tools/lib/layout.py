"""Where words, arcs and labels of a drawing stand, in columns of a terminal or in units of a picture alike.

The words of all panels stand below each other. Each word has a cell, and over it the feet of its arcs: from left to
right those of arcs to the left, then the root's, then those of arcs to the right, so that only arcs cross which have to.
An arc's line lies on a level; the lines of one level don't overlap, and an arc lies above those that it encloses.
Gaps between words grow until each label has a free piece of its line.
"""
from collections.abc import Callable
from dataclasses import dataclass, field

from lib.blocks import Analysis, shown


@dataclass
class Arc:
    """An edge of a panel, the level of its line, its two feet and the middle of its label."""

    mother: int
    label: str
    daughter: int
    level: int = 0
    x_left: float = 0
    x_right: float = 0
    label_at: float = 0

    @property
    def left(self) -> int:
        return min(self.mother, self.daughter)

    @property
    def right(self) -> int:
        return max(self.mother, self.daughter)


@dataclass
class Panel:
    """The graph of a dimension: its arcs, its roots, and rows of texts under the nodes, each with its name."""

    name: str
    arcs: list[Arc]
    roots: list[int]
    rows: list[tuple[str, dict[int, str]]]
    root_at: dict[int, float] = field(default_factory=dict)

    @property
    def levels(self) -> int:
        return max((it.level for it in self.arcs), default=0)


@dataclass
class Style:
    """How wide a text is, how far feet stand apart, words at least, how much room a label has on both sides, how thick
    a line is, and how wide the mark over a root is. Where `whole`, everything stands at whole numbers."""

    measure: Callable[[str], float]
    foot: float
    gap: float
    beside: float
    line: float
    root: float
    whole: bool


def roots_of(count: int, edges: list[tuple[int, str, int]]) -> list[int]:
    """The nodes that have daughters and no mother; the only word of a sentence is a root too."""
    mothers, daughters = {it[0] for it in edges}, {it[2] for it in edges}
    return [node for node in range(1, count + 1) if node not in daughters and (node in mothers or count == 1)]


def told(value: tuple[str, ...]) -> str:
    """A value of an attribute as it is drawn."""
    return shown(value[0]) if len(value) == 1 else f"[{' '.join(shown(it) for it in value)}]"


def panel_of(analysis: Analysis, dimension: str) -> Panel:
    """The panel of a dimension, with levels for its arcs."""
    edges = analysis.edges_of(dimension)
    arcs = [Arc(mother, shown(label), daughter) for mother, label, daughter in edges]
    set_levels(arcs)
    rows = [(shown(name), {node: told(it) for node, it in at.items()}) for name, at in analysis.attrs_of(dimension).items()]
    return Panel(shown(dimension), arcs, roots_of(len(analysis.words), edges), rows)


def panels_of(analysis: Analysis, dimensions: list[str]) -> list[Panel]:
    """The panels of an analysis. Under the first one stand the numbers of the words and of their entries too."""
    panels = [panel_of(analysis, it) for it in dimensions] or [Panel("", [], roots_of(len(analysis.words), []), [])]
    words = {node: str(node) for node in range(1, len(analysis.words) + 1)}
    entries = {node: str(it[1]) for node, it in enumerate(analysis.words, 1)}
    panels[0].rows[:0] = [("word", words), ("entry", entries)]
    return panels


def set_levels(arcs: list[Arc]) -> None:
    """Gives each arc, shorter ones first, the lowest level, from 1, on which it overlaps no other. So it lies above the
    arcs that it encloses: on each level below one of these stands an arc that overlaps that one, and so this one."""
    done: list[Arc] = []
    for arc in sorted(arcs, key=lambda it: (it.right - it.left, it.left)):
        taken = {it.level for it in done if it.left < arc.right and arc.left < it.right}
        arc.level = min(set(range(1, len(taken) + 2)) - taken)
        done.append(arc)


def feet_of(panel: Panel, node: int) -> list[Arc | None]:
    """What stands over a node, from left to right: arcs, and None for the mark of a root."""
    to_left = sorted((it for it in panel.arcs if it.right == node), key=lambda it: it.level)
    to_right = sorted((it for it in panel.arcs if it.left == node), key=lambda it: -it.level)
    return [*to_left, *([None] if node in panel.roots else []), *to_right]


class Layout:
    """The places of the words of an analysis, and of what stands over them in each panel."""

    def __init__(self, words: list[float], panels: list[Panel], style: Style):
        """Lays out the panels over words of these widths."""
        self.words, self.panels, self.style = words, panels, style
        self.feet = [[feet_of(panel, node) for node in range(1, len(words) + 1)] for panel in panels]
        self.widths = [self.width(node, word) for node, word in enumerate(words, 1)]
        self.gaps = [style.gap] * (len(words) - 1)
        self.place()
        for panel in panels:
            for arc in sorted(panel.arcs, key=lambda it: it.level):
                self.make_room(panel, arc)
        for panel in panels:
            for arc in panel.arcs:
                arc.label_at = self.label_at(panel, arc)

    def width(self, node: int, word: float) -> float:
        """The width of a node's cell: that of the widest of the word, the texts under it and the feet over it."""
        widths = [word]
        widths += [self.style.measure(texts.get(node, "")) for panel in self.panels for _, texts in panel.rows]
        for feet in (it[node - 1] for it in self.feet):
            room = (len(feet) - 1) * self.style.foot + self.style.line
            widths.append(max(room, self.style.root) if None in feet else room)
        return max(widths)

    def place(self) -> None:
        """Gives each cell and each foot its place, by the widths and the gaps."""
        self.starts = [0.0]
        for width, gap in zip(self.widths, self.gaps):
            self.starts.append(self.starts[-1] + width + gap)
        for panel, by_node in zip(self.panels, self.feet):
            for node, feet in enumerate(by_node, 1):
                at, _ = self.span(node, feet)
                for foot in feet:
                    self.put(panel, node, foot, at)
                    at += self.style.foot

    def span(self, node: int, feet: list[Arc | None]) -> tuple[float, float]:
        """Where the first and the last of the feet over a node stand."""
        room = (len(feet) - 1) * self.style.foot
        first = self.starts[node - 1] + self.half(self.widths[node - 1] - room - self.style.line)
        return first, first + room

    def beams(self, panel: Panel) -> list[tuple[int, float, float]]:
        """The nodes with feet well beside their words, each with its first and its last foot: nothing else shows whose these are."""
        spans = [(node, *self.span(node, feet)) for node, feet in enumerate(self.feet[self.panels.index(panel)], 1)]
        return [it for it in spans if it[2] - it[1] > self.words[it[0] - 1] + self.style.foot]

    @staticmethod
    def put(panel: Panel, node: int, foot: Arc | None, at: float) -> None:
        """Notes the place of a foot over a node."""
        if foot is None:
            panel.root_at[node] = at
        elif foot.left == node:
            foot.x_left = at
        else:
            foot.x_right = at

    def half(self, room: float) -> float:
        return room // 2 if self.style.whole else room / 2

    def centre(self, node: int) -> float:
        """The middle of a node's cell."""
        return self.starts[node - 1] + self.widths[node - 1] / 2

    @property
    def right(self) -> float:
        """Where the last cell ends."""
        return self.starts[-1] + self.widths[-1]

    def pieces(self, panel: Panel, arc: Arc) -> list[tuple[float, float, int, int]]:
        """The pieces of an arc's line between its feet and the lines that cross it: where each begins and ends, and over which nodes."""
        crossing = [(arc.x_left, arc.left), (arc.x_right, arc.right)]
        for other in panel.arcs:
            if other.level > arc.level:
                crossing += [(other.x_left, other.left), (other.x_right, other.right)]
        crossing += [(at, node) for node, at in panel.root_at.items()] if self.style.root else []
        inside = sorted(it for it in crossing if arc.x_left <= it[0] <= arc.x_right)
        return [(x + self.style.line, y, over, upto) for (x, over), (y, upto) in zip(inside, inside[1:])]

    def wanted(self, arc: Arc) -> float:
        return self.style.measure(arc.label) + 2 * self.style.beside

    def make_room(self, panel: Panel, arc: Arc) -> None:
        """Widens the gaps under the longest piece of an arc's line until its label has room."""
        longest = max((it for it in self.pieces(panel, arc) if it[2] < it[3]), key=lambda it: it[1] - it[0])
        missing = self.wanted(arc) - (longest[1] - longest[0])
        gaps = range(longest[2] - 1, longest[3] - 1)
        if missing <= 0:
            return
        for count, gap in enumerate(gaps):
            share = missing / (len(gaps) - count)
            share = float(-(-missing // (len(gaps) - count))) if self.style.whole else share
            self.gaps[gap] += share
            missing -= share
        self.place()

    def label_at(self, panel: Panel, arc: Arc) -> float:
        """The middle of the label: as near to that of the arc as a free piece of its line allows."""
        wanted, middle = self.wanted(arc), (arc.x_left + self.style.line + arc.x_right) / 2
        free = [it for it in self.pieces(panel, arc) if it[1] - it[0] >= wanted - 0.001]
        places = [min(max(middle, it[0] + wanted / 2), it[1] - wanted / 2) for it in free]
        return min(places, key=lambda it: abs(it - middle))
