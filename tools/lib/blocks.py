"""Reads what `parse`, `resume`, `corpus`, `best` and `arrange` print (docs/texts.md): blocks of analyses in text 1 or text 2, last lines
and fault lines, of one run or of many. Before what was printed of a sentence a line `sentence k` may stand, and before the
blocks of an arrangement of words a line `arrangement k`.

`events` gives them one after another. `runs` gives what belongs to one sentence together. Whatever has another form
raises `Bad`, which tells the line. Everything but standard input is left alone.
"""
import re
import signal
import sys
import unicodedata
from collections.abc import Callable, Iterable, Iterator
from dataclasses import dataclass, field
from typing import BinaryIO

QUOTED = r'"(?:[^"\\]|\\["\\])*"'
CONSTANT = rf"(?:[A-Za-z_][A-Za-z0-9_.]*|{QUOTED})"
NUMBER = r"[1-9][0-9]*"

TEXT = re.compile(QUOTED)
ANALYSIS = re.compile(rf"analysis ({NUMBER})")
COUNTS = re.compile(r"counts (0|[1-9][0-9]*) (0|[1-9][0-9]*) (0|[1-9][0-9]*)")
WORD = re.compile(rf"word ({NUMBER}) ({QUOTED}) ({NUMBER})")
ATTR = re.compile(rf"attr ({CONSTANT}) ({NUMBER}) ({CONSTANT}) ({CONSTANT}|\[{CONSTANT}(?: {CONSTANT})*\])")
EDGE = re.compile(rf"edge ({CONSTANT}) ({NUMBER}) ({CONSTANT}) ({NUMBER})")
ENDING = re.compile(r"(complete|first|spent) (0|[1-9][0-9]*)")
COST = re.compile(r"cost (0|[1-9][0-9]*)")
SENTENCE = re.compile(rf"sentence ({NUMBER})")
ARRANGEMENT = re.compile(rf"arrangement ({NUMBER})(?: {QUOTED})+")
FAULT = re.compile(rf"fault ({NUMBER}) ([A-Za-z0-9]+) line {NUMBER} column {NUMBER}(?: reached {NUMBER})?")


class Bad(Exception):
    """Input that is not what `xdg` prints: the number of the line, and what is wrong there."""

    def __init__(self, line: int, what: str):
        super().__init__(f"line {line}: {what}")


class Refusal(Exception):
    """Input that can be read, but is not what was asked for."""


@dataclass
class Analysis:
    """One block: its number, its words with their entries, its attributes and its edges. Nodes count from 1."""

    number: int
    line: int
    words: list[tuple[str, int]] = field(default_factory=list)
    attrs: list[tuple[str, int, str, tuple[str, ...]]] = field(default_factory=list)
    edges: list[tuple[str, int, str, int]] = field(default_factory=list)

    def dimensions(self) -> list[str]:
        """The dimensions that have an attribute or an edge here, in the order of the grammar as far as that shows."""
        return merged([it[0] for it in self.attrs], [it[0] for it in self.edges])

    def edges_of(self, dimension: str) -> list[tuple[int, str, int]]:
        """The edges of a dimension: mother, label and daughter."""
        return [it[1:] for it in self.edges if it[0] == dimension]

    def attrs_of(self, dimension: str) -> dict[str, dict[int, tuple[str, ...]]]:
        """The attributes of a dimension, and the value of each at the nodes."""
        found: dict[str, dict[int, tuple[str, ...]]] = {}
        for name, node, attr, value in self.attrs:
            if name == dimension:
                found.setdefault(attr, {})[node] = value
        return found


@dataclass
class Ending:
    """The last line of a run: `complete`, `first` or `spent`, and its number."""

    kind: str
    count: int
    line: int


@dataclass
class Cheapest:
    """How a run of `best` ends: with the cost of the block before, or None where there is no block; `spent` where the budget was used up."""

    cost: int | None
    spent: bool
    line: int


@dataclass
class Fault:
    """A fault line, with the number and the name of the fault."""

    text: str
    number: int
    name: str
    line: int


@dataclass
class Sentence:
    """The line that tells the number of the sentence of which the next lines speak."""

    number: int
    line: int


@dataclass
class Arrangement:
    """The line before the blocks of an arrangement of words, with its number."""

    number: int
    line: int


@dataclass
class Run:
    """What was printed of one sentence, or of one arrangement of words. A sentence has a last line or a fault, or neither where
    blocks were saved without it. The `name` is the word of the line that says its number, `sentence` or `arrangement`, if one does."""

    number: int
    name: str
    analyses: list[Analysis]
    end: Ending | Cheapest | Fault | None


def merged(first: Iterable[str], second: Iterable[str]) -> list[str]:
    """The different names of two lists that both follow one hidden order, in an order that fits both."""
    first, second, out = list(dict.fromkeys(first)), list(dict.fromkeys(second)), []
    for name in second:
        if name in first:
            upto = first.index(name) + 1
            out += first[:upto]
            first = first[upto:]
        elif name not in out:
            out.append(name)
    return out + first


def constant(spelled: str) -> str:
    """The constant that a name or a quoted text spells."""
    if not spelled.startswith('"'):
        return sys.intern(spelled)
    return sys.intern(re.sub(r'\\(["\\])', r"\1", spelled[1:-1]))


def value(spelled: str) -> tuple[str, ...]:
    """The constants of a value: one, or those of a tuple."""
    if not spelled.startswith("["):
        return (constant(spelled),)
    return tuple(constant(it) for it in re.findall(CONSTANT, spelled))


def is_open(line: str) -> bool:
    """Whether a quoted text begins in the line and goes on in the next one."""
    return '"' in line and TEXT.sub("", line).count('"') % 2 == 1


def numbered_lines(stream: BinaryIO) -> Iterator[tuple[int, str]]:
    """The lines with their numbers, without their line feeds; a line feed in a quoted text ends no line."""
    start, so_far = 1, ""
    for number, raw in enumerate(stream, 1):
        try:
            so_far += raw.decode("utf-8")
        except UnicodeDecodeError:
            raise Bad(number, "these bytes are no UTF-8") from None
        if not so_far.endswith("\n"):
            raise Bad(start, "the input ends inside this line")
        if not is_open(so_far[:-1]):
            yield start, so_far[:-1]
            start, so_far = number + 1, ""
    if so_far:
        raise Bad(start, "a quoted text is never closed")


class Lines:
    """Lines that can be looked at before they are taken."""

    def __init__(self, stream: BinaryIO):
        self.rest = numbered_lines(stream)
        self.at, self.text = 0, ""
        self.step()

    def step(self) -> None:
        """Goes to the next line; at the end the text is None."""
        self.at, self.text = next(self.rest, (self.at + 1, None))

    def take(self, form: re.Pattern, wanted: str) -> re.Match:
        """The next line, which has to have this form."""
        found = form.fullmatch(self.text) if self.text is not None else None
        if not found:
            raise Bad(self.at, f"{wanted} should stand here, not {told(self.text)}")
        self.step()
        return found

    def each(self, form: re.Pattern, keyword: str) -> Iterator[tuple[int, re.Match]]:
        """The next lines that begin with the keyword, each with its number."""
        while self.text is not None and self.text.startswith(keyword + " "):
            at = self.at
            yield at, self.take(form, f"a line `{keyword}`")


def told(text: str | None) -> str:
    """A line as a message shows it."""
    if text is None:
        return "the end of the input"
    short = shown(text)
    return f"`{short if len(short) <= 60 else short[:57] + '...'}`"


def node_of(digits: str, analysis: Analysis, at: int) -> int:
    """A node, which has to be one of the words."""
    if int(digits) > len(analysis.words):
        raise Bad(at, f"there is no word {digits}")
    return int(digits)


def read_block(lines: Lines) -> Analysis:
    """The block that begins here, in text 1 or text 2."""
    is_two = lines.text == "xdg 2"
    if is_two:
        lines.step()
    start = lines.at
    analysis = Analysis(int(lines.take(ANALYSIS, "`analysis K`")[1]), start)
    counts_at = lines.at
    counts = lines.take(COUNTS, "`counts N M X`") if is_two else None
    for at, found in lines.each(WORD, "word"):
        if int(found[1]) != len(analysis.words) + 1:
            raise Bad(at, f"word {len(analysis.words) + 1} should stand here, not word {found[1]}")
        analysis.words.append((constant(found[2]), int(found[3])))
    if not analysis.words:
        raise Bad(lines.at, f"`word 1 ..` should stand here, not {told(lines.text)}")
    read_attrs(lines, analysis)
    read_edges(lines, analysis)
    lines.take(re.compile("end"), "`attr ..`, `edge ..` or `end`")
    have = (len(analysis.words), len(analysis.attrs), len(analysis.edges))
    if counts and tuple(map(int, counts.groups())) != have:
        raise Bad(counts_at, f"the block has {have[0]} words, {have[1]} attributes and {have[2]} edges")
    return analysis


def read_attrs(lines: Lines, analysis: Analysis) -> None:
    """The lines `attr` of a block."""
    seen = set()
    for at, found in lines.each(ATTR, "attr"):
        key = constant(found[1]), node_of(found[2], analysis, at), constant(found[3])
        if key in seen:
            raise Bad(at, "this attribute stands here for the second time")
        seen.add(key)
        analysis.attrs.append((*key, value(found[4])))


def read_edges(lines: Lines, analysis: Analysis) -> None:
    """The lines `edge` of a block."""
    seen = set()
    for at, found in lines.each(EDGE, "edge"):
        edge = constant(found[1]), node_of(found[2], analysis, at), constant(found[3]), node_of(found[4], analysis, at)
        if edge[1] == edge[3]:
            raise Bad(at, "an edge joins two different words")
        if edge in seen:
            raise Bad(at, "this edge stands here for the second time")
        seen.add(edge)
        analysis.edges.append(edge)


def cheapest(lines: Lines) -> Cheapest | None:
    """The last lines of `best`, if they begin here: `cost n`, with `spent` behind it or not, or `none`, or `spent` alone."""
    at, found = lines.at, COST.fullmatch(lines.text)
    if not found and lines.text not in ("none", "spent"):
        return None
    spent = lines.text == "spent"
    lines.step()
    if found and lines.text == "spent":
        spent = True
        lines.step()
    return Cheapest(int(found[1]) if found else None, spent, at)


def line_event(text: str, at: int) -> Ending | Fault | Sentence | Arrangement | None:
    """What a line says that stands between blocks."""
    if found := ENDING.fullmatch(text):
        return Ending(found[1], int(found[2]), at)
    if found := FAULT.fullmatch(text):
        return Fault(text, int(found[1]), found[2], at)
    if found := SENTENCE.fullmatch(text):
        return Sentence(int(found[1]), at)
    if found := ARRANGEMENT.fullmatch(text):
        return Arrangement(int(found[1]), at)
    return None


def events(stream: BinaryIO) -> Iterator[Analysis | Ending | Cheapest | Fault | Sentence | Arrangement]:
    """Blocks, last lines, faults, and lines `sentence k` and `arrangement k`, as they come."""
    lines = Lines(stream)
    if lines.text is None:
        raise Bad(1, "the input is empty; `xdg` prints nothing where a file can't be read, or memory was wanting")
    while lines.text is not None:
        at, text = lines.at, lines.text
        if text == "xdg 2" or ANALYSIS.fullmatch(text):
            yield read_block(lines)
        elif found := cheapest(lines):
            yield found
        elif found := line_event(text, at):
            yield found
            lines.step()
        else:
            raise Bad(at, f"a block, a last line or a fault should stand here, not {told(text)}")


def runs(stream: BinaryIO) -> Iterator[Run]:
    """What was printed of each sentence, and of each arrangement. Where no line `sentence k` says its number, sentences count from 1.
    The last line of `arrange` speaks of no arrangement, and is passed over."""
    number, name, analyses = 1, "", []
    for event in events(stream):
        if isinstance(event, (Sentence, Arrangement)):
            if name == "arrangement":
                yield Run(number, name, analyses, None)
            elif name or analyses:
                raise Bad(event.line, "the sentence before this line has no last line")
            number, name, analyses = event.number, "sentence" if isinstance(event, Sentence) else "arrangement", []
        elif isinstance(event, Analysis):
            analyses.append(event)
        else:
            yield Run(number, name, analyses, None if name == "arrangement" else event)
            number, name, analyses = number + 1, "", []
    if name or analyses:
        yield Run(number, name, analyses, None)


def char_width(char: str) -> int:
    """How many columns of a terminal a character takes: 0 for marks, 2 for wide East Asian characters, else 1."""
    if unicodedata.category(char) in ("Mn", "Me", "Cf") or "\u1160" <= char <= "\u11ff":
        return 0
    return 2 if unicodedata.east_asian_width(char) in "WF" else 1


def shown(text: str) -> str:
    """A text as it can be shown in one line: control characters as symbols, a mark that stands first on a ring, and
    two quotation marks for the text without characters."""
    if not text:
        return '""'
    out = []
    for char in text:
        code = ord(char)
        if code < 0x20 or code == 0x7F:
            out.append(chr(0x2400 + code) if code < 0x20 else "\u2421")
        elif unicodedata.category(char) in ("Cc", "Zl", "Zp") or code & 0xFFFE == 0xFFFE or unicodedata.bidirectional(char) in BIDI:
            out.append("\ufffd")
        else:
            out.append(char)
    if out and char_width(out[0]) == 0:
        out.insert(0, "\u25cc")
    return "".join(out)


# characters that turn the direction of what follows them, which a drawing may not
BIDI = ("LRE", "RLE", "LRO", "RLO", "PDF", "LRI", "RLI", "FSI", "PDI")


def guarded(name: str, work: Callable[[], int]) -> int:
    """Does the work and returns its status; bad input is told on standard error, and has the status 1."""
    if hasattr(signal, "SIGPIPE"):
        signal.signal(signal.SIGPIPE, signal.SIG_DFL)
    sys.stdout.reconfigure(encoding="utf-8", newline="\n")
    sys.stderr.reconfigure(encoding="utf-8", errors="backslashreplace")
    try:
        return work()
    except (Bad, Refusal) as problem:
        sys.stdout.flush()
        print(f"{name}: {problem}", file=sys.stderr)
        return 1
