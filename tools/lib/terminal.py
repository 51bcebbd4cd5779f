"""Draws an analysis with Unicode characters for a terminal."""
from lib.blocks import Analysis, char_width, shown
from lib.layout import Layout, Panel, Style, panels_of

DOWN, ROOT = "▼", "◆"
BETWEEN = 2  # columns between the names on the left and the words


def width(text: str) -> int:
    """How many columns a text takes."""
    return sum(char_width(it) for it in text)


STYLE = Style(measure=width, foot=2, gap=2, beside=1, line=1, root=0, whole=True)


class Canvas:
    """Rows of columns; in each stands a character with its marks, or nothing behind a wide one."""

    def __init__(self, rows: int, columns: int):
        self.rows = [[" "] * columns for _ in range(rows)]

    def write(self, row: int, column: int, text: str) -> None:
        """Writes a text from a column on."""
        for char in text:
            size = char_width(char)
            if size == 0:
                self.rows[row][column - 1 if self.rows[row][column - 1] else column - 2] += char
                continue
            self.rows[row][column] = char
            if size == 2:
                self.rows[row][column + 1] = ""
            column += size

    def line(self, row: int, left: int, right: int) -> None:
        """Draws the line of an arc with its corners."""
        self.rows[row][left:right + 1] = ["┌", *["─"] * (right - left - 1), "┐"]

    def drop(self, column: int, top: int, bottom: int, foot: str) -> None:
        """Draws the leg of an arc, over the lines that it crosses, with its foot."""
        for row in range(top, bottom):
            self.rows[row][column] = "┼" if self.rows[row][column] == "─" else "│"
        self.rows[bottom][column] = foot

    def lines(self) -> list[str]:
        return ["".join(it).rstrip() for it in self.rows]


def arcs(panel: Panel, start: int, columns: int) -> list[str]:
    """The lines over the words of a panel."""
    bottom = panel.levels
    canvas = Canvas(bottom + 1, columns)
    for arc in panel.arcs:
        canvas.line(bottom - arc.level, start + int(arc.x_left), start + int(arc.x_right))
    for arc in panel.arcs:
        for column, node in ((arc.x_left, arc.left), (arc.x_right, arc.right)):
            foot = DOWN if node == arc.daughter else "│"
            canvas.drop(start + int(column), bottom - arc.level + 1, bottom, foot)
    for arc in panel.arcs:
        canvas.write(bottom - arc.level, start + int(arc.label_at - width(arc.label) / 2), arc.label)
    for at in panel.root_at.values():
        canvas.write(bottom, start + int(at), ROOT)
    return canvas.lines()


def row(name: str, texts: dict[int, str], layout: Layout, start: int, beams: list[tuple[int, float, float]]) -> str:
    """A line of texts under the arcs, with its name on the left; a beam lies under feet, and the text in it."""
    canvas = Canvas(1, start + int(layout.right))
    canvas.write(0, 0, name)
    for _, left, right in beams:
        canvas.write(0, start + int(left), "─" * int(right - left + 1))
    for node, text in texts.items():
        canvas.write(0, start + int(layout.centre(node) - width(text) / 2), text)
    return canvas.lines()[0]


def drawing(analysis: Analysis, dimensions: list[str]) -> str:
    """The drawing of an analysis: its number, and a panel for each dimension."""
    panels = panels_of(analysis, dimensions)
    words = {node: shown(it[0]) for node, it in enumerate(analysis.words, 1)}
    layout = Layout([width(it) for it in words.values()], panels, STYLE)
    start = max(width(name) for panel in panels for name, _ in panel.rows) + BETWEEN
    out = [f"analysis {analysis.number}"]
    for panel in panels:
        out += ["", panel.name] if panel.name else [""]
        out += arcs(panel, start, start + int(layout.right)) if panel.arcs or panel.roots else []
        out.append(row("", words, layout, start, layout.beams(panel)))
        out += [row(name, texts, layout, start, []) for name, texts in panel.rows]
    return "\n".join(out)
