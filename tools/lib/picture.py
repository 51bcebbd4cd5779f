"""Draws analyses as one SVG picture, with widths of texts estimated from their characters."""
import unicodedata
from html import escape

from lib.blocks import Analysis, char_width, shown
from lib.layout import Arc, Layout, Panel, Style, panels_of

WORD, SMALL, TITLE, HEADING = 16, 12, 14, 16  # sizes of letters
LEVEL, BEND, LEG = 22, 7, 16                  # between two levels, of a rounded corner, under the lowest level
ROW, MARGIN, BETWEEN = 17, 20, 16             # a line under the words, around the picture, names to words
BOLD = 1.15                                   # how much wider bold letters are
PAPER, INK, PALE, ACCENT = "#ffffff", "#1b1b1b", "#5c5c5c", "#0b4f8a"
FONT = "'DejaVu Sans', Verdana, Arial, Helvetica, 'Noto Sans', 'Noto Sans CJK JP', sans-serif"
# how wide the characters from space to ~ are in DejaVu Sans, as hundredths of the size of the letters
ASCII = (
    "3240468464957827393950843236323464646464646464646464343484848453996869707763587775292966568675796079696361736899"
    "696169393439845050616355636235636328285828976361636341523963598259595264346484")


def em(char: str) -> float:
    """The width of a character in a wide font, as a part of the size of its letters."""
    base = unicodedata.normalize("NFD", char)[0]
    if " " <= base <= "~":
        at = 2 * (ord(base) - ord(" "))
        return int(ASCII[at:at + 2]) / 100
    if char_width(char) != 1:
        return char_width(char) / 2 * 1.03
    return 1.02 if unicodedata.category(char) == "So" else 0.8 if char.isupper() else 0.66


def text_width(content: str, size: float) -> float:
    """About how wide a text is, rather too wide than too narrow."""
    return sum(em(it) for it in content) * size


def cut(number: float) -> str:
    """A number with one digit behind the point at most."""
    return f"{number:.1f}".removesuffix(".0")


def text(x: float, y: float, content: str, size: float, more: str = "", anchor: str = "middle", ink: str = INK) -> str:
    """A text at a place."""
    side = "" if anchor == "start" else f' text-anchor="{anchor}"'
    return f'<text x="{cut(x)}" y="{cut(y)}" font-size="{cut(size)}" fill="{ink}"{side}{more}>{escape(content)}</text>'


STYLE = Style(measure=lambda it: text_width(it, SMALL), foot=10, gap=16, beside=BEND + 4, line=0, root=32, whole=False)


def tip(x: float, y: float) -> str:
    """An arrow head that points down at a place."""
    return f'<path d="M{cut(x)} {cut(y)}l-3.6 -8h7.2z" fill="{INK}"/>'


def label(x: float, y: float, content: str) -> str:
    """A label on a line, which it breaks."""
    wide = text_width(content, SMALL) + 2
    box = f'<rect x="{cut(x - wide / 2)}" y="{cut(y - 8)}" width="{cut(wide)}" height="16" fill="{PAPER}"/>'
    return box + text(x, y + 4.2, content, SMALL, ink=ACCENT)


def arc(one: Arc, bottom: float) -> list[str]:
    """The line of an arc with its legs and its arrow head; the legs end above the words."""
    top = bottom - LEG - (one.level - 1) * LEVEL
    at_left = one.daughter == one.left
    left_end, right_end = (bottom - 6, bottom) if at_left else (bottom, bottom - 6)
    path = (f"M{cut(one.x_left)} {cut(left_end)}V{cut(top + BEND)}q0 -{BEND} {BEND} -{BEND}"
            f"H{cut(one.x_right - BEND)}q{BEND} 0 {BEND} {BEND}V{cut(right_end)}")
    return [f'<path d="{path}" fill="none" stroke="{INK}" stroke-width="1.2"/>', tip(one.x_left if at_left else one.x_right, bottom)]


def beam(left: float, right: float, y: float) -> str:
    """A line under the feet of a word that is much narrower than they are."""
    return f'<path d="M{cut(left)} {cut(y)}H{cut(right)}" stroke="{PALE}" stroke-width="1.2"/>'


def arcs(panel: Panel, layout: Layout, bottom: float) -> list[str]:
    """All arcs of a panel, and then their labels, and the arrows at the roots."""
    out = [it for one in panel.arcs for it in arc(one, bottom)]
    out += [beam(left, right, bottom + 2) for _, left, right in layout.beams(panel)]
    top = bottom - LEG - panel.levels * LEVEL
    for x in panel.root_at.values():
        out += [f'<path d="M{cut(x)} {cut(top + 6)}V{cut(bottom - 6)}" stroke="{INK}" stroke-width="1.2"/>', tip(x, bottom)]
        out.append(text(x, top, "root", SMALL, ' font-style="italic"', ink=ACCENT))
    out += [label(one.label_at, bottom - LEG - (one.level - 1) * LEVEL, one.label) for one in panel.arcs]
    return out


def panel_height(panel: Panel) -> float:
    """How high a panel is from the top of its arcs to its last row."""
    over = LEG + panel.levels * LEVEL if panel.arcs or panel.roots else 0
    return over + WORD + 8 + ROW * len(panel.rows)


def rows(panel: Panel, words: list[str], layout: Layout, start: float, y: float) -> list[str]:
    """The words of a panel and the rows under them, with their names on the left; y is where the arcs end."""
    y += WORD + 2
    out = [text(start + layout.centre(node), y, word, WORD) for node, word in enumerate(words, 1)]
    for name, texts in panel.rows:
        y += ROW
        out.append(text(0, y, name, SMALL, ' font-style="italic"', "start", PALE))
        out += [text(start + layout.centre(node), y, it, SMALL, ink=PALE) for node, it in texts.items()]
    return out


class Sheet:
    """The picture of an analysis: its elements from the left upper corner, and how wide and how high it is."""

    def __init__(self, analysis: Analysis, dimensions: list[str]):
        panels = panels_of(analysis, dimensions)
        words = [shown(it[0]) for it in analysis.words]
        layout = Layout([text_width(it, WORD) for it in words], panels, STYLE)
        names = [text_width(name, SMALL) for panel in panels for name, _ in panel.rows]
        start = max(*names, *(text_width(it.name, TITLE) * BOLD for it in panels)) + BETWEEN
        heading = f"analysis {analysis.number}"
        self.out = [text(0, HEADING, heading, HEADING, ' font-weight="bold"', "start")]
        self.width = max(start + layout.right, text_width(heading, HEADING) * BOLD)
        y = HEADING + 12.0
        for panel in panels:
            if panel.name:
                self.out += [line(0, y, self.width), text(0, y + 20, panel.name, TITLE, ' font-weight="bold"', "start", ACCENT)]
            y += 30
            bottom = y + panel_height(panel) - WORD - 8 - ROW * len(panel.rows)
            self.out.append(f'<g transform="translate({cut(start)} 0)">')
            self.out += [*arcs(panel, layout, bottom), "</g>"]
            self.out += rows(panel, words, layout, start, bottom)
            y += panel_height(panel) + 14
        self.height = y


def line(x: float, y: float, wide: float) -> str:
    """A thin line across the picture."""
    return f'<path d="M{cut(x)} {cut(y)}h{cut(wide)}" stroke="#c8c8c8" stroke-width="1"/>'


class Page:
    """One picture of all that is drawn, one below the other."""

    def __init__(self) -> None:
        self.out, self.width, self.height, self.names = [], 0.0, 0.0, []

    def put(self, elements: list[str], width: float, height: float) -> None:
        self.out += [f'<g transform="translate({MARGIN} {cut(MARGIN + self.height)})">', *elements, "</g>"]
        self.width, self.height = max(self.width, width), self.height + height

    def analysis(self, analysis: Analysis, dimensions: list[str]) -> None:
        sheet = Sheet(analysis, dimensions)
        self.put(sheet.out, sheet.width, sheet.height + 16)
        self.names.append(" ".join(shown(it[0]) for it in analysis.words))

    def line(self, content: str) -> None:
        self.put([text(0, SMALL, content, SMALL, anchor="start", ink=PALE)], text_width(content, SMALL), SMALL + 12)

    def heading(self, content: str) -> None:
        title = text(0, HEADING + 10, content, HEADING, ' font-weight="bold"', "start", ACCENT)
        self.put([title], text_width(content, HEADING) * BOLD, HEADING + 26)

    def text(self) -> str:
        """The whole picture."""
        wide, high = cut(self.width + 2 * MARGIN), cut(self.height + 2 * MARGIN - 8)
        title = escape("; ".join(dict.fromkeys(self.names)) or "no analysis")
        return "\n".join([
            f'<svg xmlns="http://www.w3.org/2000/svg" width="{wide}" height="{high}" viewBox="0 0 {wide} {high}"'
            f' font-family="{FONT}">',
            f"<title>{title}</title>",
            f'<rect width="{wide}" height="{high}" fill="{PAPER}"/>',
            *self.out, "</svg>", ""])
