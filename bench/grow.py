#!/usr/bin/env python3
"""Time and peak memory of the built program on grammars of growing size.

Usage: python3 bench/grow.py [PROGRAM]      (where none is given, the program that ./xdg runs, which is built where need be)

Each table goes over one family of grammars whose text doubles from row to row; a cell has the seconds of a run and its peak
memory in MiB, and the last column how the seconds of `check` grew since the row before, per byte of the text. A figure near 1.0
there says that the time goes in proportion to the length of the text. The last three tables are of long sentences: compiled, searched,
and judged by `explain`.
"""

import os
import pathlib
import resource
import subprocess
import sys
import tempfile
import time

HEAD = """usedim id usedim lex
defdim lex {defentrytype {word: string}}
defdim id {
deftype id.label {det subj}
deflabeltype id.label
defentrytype {in: valency(id.label) out: valency(id.label)%s}
useprinciple principle.graph {dims {D: id}}
useprinciple principle.tree {dims {D: id}}
useprinciple principle.valency {dims {D: id}}
}
"""
COUNTED = HEAD % " n: int"
PLAIN = HEAD % ""
LIMIT = 4_194_304


def entries(count):
    """That many entries, each of a word of its own."""
    return COUNTED + "".join(
        f"defentry {{dim id {{in: {{det?}} n: {k}}} dim lex {{word: w{k}}}}}\n" for k in range(1, count + 1)
    )


def many(count):
    """That many entries of one word."""
    return COUNTED + "".join(
        f"defentry {{dim id {{n: {k}}} dim lex {{word: w}}}}\n" for k in range(1, count + 1)
    )


def alike(count, labels=32):
    """That many entries of one word, which say all the same of the edges: any number with each of so many labels."""
    names = " ".join(f"l{k}" for k in range(labels))
    takes = "{" + " ".join(f"l{k}*" for k in range(labels)) + "}"
    return (
        "usedim id usedim lex\ndefdim lex {defentrytype {word: string n: int}}\n"
        f"defdim id {{\ndeftype id.label {{{names}}}\ndeflabeltype id.label\n"
        "defentrytype {in: valency(id.label) out: valency(id.label)}\n"
        "useprinciple principle.graph {dims {D: id}}\nuseprinciple principle.valency {dims {D: id}}\n}\n"
        f"defclass c N {{dim lex {{word: w n: N}} & dim id {{in: {takes} out: {takes}}}}}\n"
        + "".join(f"defentry {{c {{N: {k}}}}}\n" for k in range(count))
    )


def combined(exponent):
    """One entry of a class with two disjuncts, joined with itself so often that it has 2 to the exponent combinations."""
    return (
        PLAIN
        + "defclass t {dim id {in: {det?}} | dim id {in: {subj?}}}\n"
        + "defentry {" + " & ".join(["t"] * exponent) + " & dim lex {word: w}}\n"
    )


def nested(depth):
    """Classes that use one another, each the one before it, so deep."""
    return (
        PLAIN
        + "defclass c0 {dim lex {word: w}}\n"
        + "".join(f"defclass c{k} {{c{k - 1}}}\n" for k in range(1, depth + 1))
        + f"defentry {{c{depth}}}\n"
    )


def filled():
    """Entries up to the limit of a grammar text."""
    line = "defentry {{dim id {{in: {{det?}} n: {0}}} dim lex {{word: w{0}}}}} % " + "-" * 12 + "\n"
    text, k = [COUNTED], 0
    size = len(COUNTED)
    while k < 65_536:
        k += 1
        piece = line.format(k)
        if size + len(piece) > LIMIT:
            break
        text.append(piece)
        size += len(piece)
    text.append("%" + " " * (LIMIT - size - 2) + "\n")
    return "".join(text)


def chained(words, labels=32):
    """A grammar with so many labels on two dimensions, and an analysis in which each word is the mother of the next."""
    names = " ".join(f"l{k}" for k in range(labels))
    takes = "{" + " ".join(f"l{k}*" for k in range(labels)) + "}"
    grammar = "usedim id usedim lp usedim lex\ndefdim lex {defentrytype {word: string}}\n" + "".join(
        f"defdim {dim} {{\ndeftype {dim}.label {{{names}}}\ndeflabeltype {dim}.label\n"
        f"defentrytype {{in: valency({dim}.label) out: valency({dim}.label)}}\n"
        + "".join(f"useprinciple principle.{name} {{dims {{D: {dim}}}}}\n" for name in ("graph", "tree", "valency", "projectivity"))
        + ("useprinciple principle.climbing {dims {D1: lp D2: id}}\n" if dim == "lp" else "")
        + "}\n"
        for dim in ("id", "lp")
    )
    grammar += f"defentry {{dim id {{in: {takes} out: {takes}}} dim lp {{in: {takes} out: {takes}}} dim lex {{word: w}}}}\n"
    lines = ["analysis 1"] + [f'word {k} "w" 1' for k in range(1, words + 1)]
    lines += [f"edge {dim} {k} l{k % labels} {k + 1}" for dim in ("id", "lp") for k in range(1, words)]
    return grammar, "\n".join(lines + ["end", ""])


def judged(program, folder):
    """A row for each length of a sentence: the seconds of `explain`, and what it tells last."""
    print("\nan analysis of so many words, with 32 labels and nine uses of principles on two dimensions")
    print(f"{'words':>10} {'bytes':>9}  {'explain':>14}")
    for words in (8, 16, 32, 64, 128):
        grammar, analysis = chained(words)
        (folder / "g.xdg").write_text(grammar)
        (folder / "a.txt").write_text(analysis)
        seconds, memory, told = run(program, ["explain", str(folder / "g.xdg"), str(folder / "a.txt")])
        print(f"{words:>10} {len(analysis):>9}  {seconds:7.3f}s{memory:5.0f}M  {told}")


CHAIN = """usedim id usedim lex
defdim lex {defentrytype {word: string}}
defdim id {
deftype id.label {own next}
deflabeltype id.label
defattrstype {on: id.label}
defentrytype {in: valency(id.label) out: valency(id.label) ons: set(id.label)}
useprinciple principle.graph {dims {D: id}}
useprinciple principle.tree {dims {D: id}}
useprinciple principle.valency {dims {D: id}}
useprinciple principle.agr {dims {D: id} args {Agr: on Agrs: ons}}
useprinciple principle.order {dims {D: id} args {Order: [own next] On: on}}
}
defentry {dim id {in: {next?} out: {next?} ons: {own}} dim lex {word: w}}
"""


def searched(program, folder):
    """A row for each length of a sentence whose only analysis is a chain of its words: the boxed prefixes are the fronts of that one."""
    print("\nso many words, whose one analysis is a chain; its fronts are the boxed prefixes")
    print(f"{'words':>10} {'prefixes':>9}  {'parse':>14}  {'a prefix':>9}")
    (folder / "g.xdg").write_text(CHAIN)
    for words in (8, 16, 32, 64, 128):
        prefixes = 2 * words * words
        seconds, memory, told = run(program, ["parse", str(folder / "g.xdg"), "--budget", str(prefixes)], b"w " * words)
        print(f"{words:>10} {prefixes:>9}  {seconds:7.3f}s{memory:5.0f}M  {1e6 * seconds / prefixes:7.1f}us  {told}")


def compiled(program, folder):
    """A row for each number of entries: what it takes to compile a sentence of 128 words, with a budget of one prefix."""
    print("\n128 words, each with so many entries that share one record of 32 labels; the search is cut at once")
    print(f"{'entries':>10} {'bytes':>9}  {'parse':>14}")
    for count in (64, 128, 256, 512, 1_024):
        grammar = alike(count)
        (folder / "g.xdg").write_text(grammar)
        seconds, memory, told = run(program, ["parse", str(folder / "g.xdg"), "--budget", "1"], b"w " * 128)
        print(f"{count:>10} {len(grammar):>9}  {seconds:7.3f}s{memory:5.0f}M  {told}")


def run(program, words, sentence=b""):
    """The seconds and the peak memory in MiB of one run, and the last line that it prints or its status."""
    with tempfile.TemporaryFile() as out:
        start = time.monotonic()
        child = subprocess.Popen([*program, *words], stdin=subprocess.PIPE, stdout=out)
        child.stdin.write(sentence)
        child.stdin.close()
        _, status, used = os.wait4(child.pid, 0)
        seconds = time.monotonic() - start
        child.returncode = os.waitstatus_to_exitcode(status)
        out.seek(0, os.SEEK_END)
        size = out.tell()
        out.seek(max(0, size - 200))
        lines = out.read().decode(errors="replace").splitlines()
    told = lines[-1] if lines else f"status {child.returncode}"
    return seconds, used.ru_maxrss / 1024, told


def table(program, folder, title, family, sentence):
    """A row for each grammar of a family: its size, the four commands, and the growth of `check`."""
    print(f"\n{title}")
    print(f"{'grammar':>10} {'bytes':>9}  {'print':>14} {'check':>14} {'lexicon':>14} {'parse':>14}  growth")
    before = None
    for name, text in family:
        path = folder / "g.xdg"
        path.write_text(text)
        cells, told = [], ""
        for command in ("print", "check", "lexicon", "parse"):
            seconds, memory, last = run(program, [command, str(path)], sentence if command == "parse" else b"")
            cells.append((seconds, memory))
            if command == "check":
                told = last
        growth = ""
        if before:
            growth = f"{(cells[1][0] / before[1]) / (len(text) / before[0]):.2f}"
        before = (len(text), max(cells[1][0], 1e-3))
        shown = " ".join(f"{seconds:7.2f}s{memory:5.0f}M" for seconds, memory in cells)
        print(f"{name:>10} {len(text):>9}  {shown}  {growth:>6}  {told}")


def built(root):
    """The program that ./xdg runs, by its own path: that script looks at the sources first, which is no part of what is measured."""
    subprocess.run([root / "xdg", "check", root / "examples" / "plain.xdg"], stdout=subprocess.DEVNULL, check=True)
    for folder in (root / "out", root / "release"):
        if subprocess.run([root / "release" / "sum", "--fits", folder], stdout=subprocess.DEVNULL).returncode == 0:
            return str(folder / "xdg")
    sys.exit("./xdg has run, but its program isn't found")


def main():
    root = pathlib.Path(__file__).resolve().parent.parent
    program = sys.argv[1:2] or [built(root)]
    resource.setrlimit(resource.RLIMIT_CORE, (0, 0))
    with tempfile.TemporaryDirectory() as name:
        folder = pathlib.Path(name)
        run(program, ["print", str(root / "examples" / "plain.xdg")])
        table(program, folder, "entries, each with a word of its own; one word is parsed",
              [(str(n), entries(n)) for n in (1_000, 2_000, 4_000, 8_000, 16_000, 32_000, 65_536)] + [("to limit", filled())], b"w1")
        table(program, folder, "entries of one word, each an analysis of its own",
              [(str(n), many(n)) for n in (64, 128, 256, 512, 1_024)], b"w")
        table(program, folder, "combinations of one entry, of which three differ",
              [(f"2^{n}", combined(n)) for n in (10, 12, 14, 15, 16)], b"w")
        table(program, folder, "classes that use one another, so deep",
              [(str(n), nested(n)) for n in (1_000, 2_000, 4_000, 8_000, 16_000, 32_000, 65_000)], b"w")
        compiled(program, folder)
        searched(program, folder)
        judged(program, folder)


if __name__ == "__main__":
    main()
