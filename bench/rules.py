#!/usr/bin/env python3
"""What a rule of three nested quantifiers costs, with 16 words and with 128.

    python3 bench/rules.py PROGRAM [--only NAME ..] [--runs N] [--seconds S]

PROGRAM, which is not the script ./xdg, runs `parse --first 1` on a sentence of 16 words and on one of 128, without a rule and with each rule of a table, N times each. There are three
grammars: in `chain` all is decided before a choice is made, so that a rule is looked at once or twice; in `tree` the search makes a choice for each attribute and for each edge that the tree
leaves open, and a rule that names them is looked at again behind each; in `graph` no principle leaves out an edge, so that each of them is a choice. A line has a grammar, a rule, the least
processor seconds with 16 words and with 128, how many times as much the second is, the same ratio where what the run takes without the rule is taken off both, and the last line that was
printed. A run that takes more than S seconds is ended. A run of 16 words is little more than a program's start, so the second ratio is rough; only ratios of one run on a machine that is left
alone count.

The status is 1 where a run of 128 words takes more than 100 times what the one of 16 words takes.
"""

import os
import pathlib
import subprocess
import sys
import tempfile

import command_line

HEAD = """usedim id usedim lex
defdim lex {defentrytype {word: string}}
defdim id {
deftype id.label {own next}
deftype id.num {sg pl}
deflabeltype id.label
defattrstype {on: id.label num: id.num}
defentrytype {in: valency(id.label) out: valency(id.label) ons: set(id.label) nums: set(id.num) kinds: set(id.num)}
useprinciple principle.graph {dims {D: id}}
useprinciple principle.agr {dims {D: id} args {Agr: on Agrs: ons}}
useprinciple principle.agr {dims {D: id} args {Agr: num Agrs: nums}}
"""
TREE = """useprinciple principle.tree {dims {D: id}}
useprinciple principle.valency {dims {D: id}}
"""
GRAMMARS = {
    "chain": HEAD
    + TREE
    + "useprinciple principle.order {dims {D: id} args {Order: [own next] On: on}}\n}\n"
    + "defentry {dim id {in: {next?} out: {next?} ons: {own} nums: {sg} kinds: {sg}} dim lex {word: w}}\n",
    "tree": HEAD
    + TREE
    + "}\ndefentry {dim id {in: {own? next?} out: {own* next*} ons: {own} nums: {sg pl} kinds: {sg}} dim lex {word: w}}\n",
    "graph": HEAD + "}\ndefentry {dim id {ons: {own} nums: {sg pl} kinds: {sg}} dim lex {word: w}}\n",
}

# Each is true of the first analysis in `chain` and in `tree`. The atoms have the innermost name as mother, as daughter and as both.
RULES = {
    "daughter": "all x (all y (all z (!(edge(id x next y) & edge(id y own z)) | edge(id y next z) | above(id x z))))",
    "mother": "all x (all y (all z (!(edge(id y next x) & edge(id z own x)) | same(y z))))",
    "itself": "all x (all y (all z (!(edge(id z next z) & above(id z z)) | same(x y))))",
    "below": "all x (all y (all z (!(above(id x y) & above(id y z)) | above(id x z))))",
    "above": "all x (all y (all z (!(above(id y x) & above(id z y)) | above(id z x))))",
    "order": "all x (all y (all z (left(x y) | left(y x) | same(x y) | left(x z))))",
    "attribute": "all x (all y (all z (!(edge(id x next y) & edge(id y next z)) | attr(z id num sg) | attr(z id num pl))))",
    "each": "all x (all y (all z (attr(z id num sg) | attr(z id num pl) | edge(id x own y))))",
    "feature": "all x (all y (all z (feat(z id kinds sg) & feat(x id kinds sg) | left(x y))))",
    "some": "all x (all y (some z (left(x y) | same(x z) | edge(id x next z) | above(id z y))))",
    "between": "all x (some y (all z (same(x z) | same(y z) | !above(id x z) | left(y z) | above(id y z))))",
    "none": "!some x (some y (some z (edge(id x next y) & edge(id x next z) & left(y z) & above(id z x))))",
}


def run(words, sentence, seconds):
    """Returns the processor seconds of a run and the last line that it printed, or None where it was ended."""
    with tempfile.TemporaryFile() as out:
        child = subprocess.Popen(["timeout", str(seconds), *words], stdin=subprocess.PIPE, stdout=out, stderr=subprocess.STDOUT)
        child.stdin.write(sentence)
        child.stdin.close()
        _, status, used = os.wait4(child.pid, 0)
        child.returncode = os.waitstatus_to_exitcode(status)
        out.seek(0)
        lines = out.read().decode(errors="replace").splitlines()
    if child.returncode == 124:
        return None
    return used.ru_utime + used.ru_stime, lines[-1] if lines else f"status {child.returncode}"


def least(words, sentence, runs, seconds):
    """Returns the least seconds of some runs and the last line, or None where one was ended."""
    done = []
    for _ in range(runs):
        done.append(run(words, sentence, seconds))
        if done[-1] is None:
            return None
    return min(done)


def line(grammar, rule, alone, found):
    """Prints the line of a rule from the runs with 16 and 128 words, without it and with it. Returns whether the ratio is at most 100."""
    if None in found:
        print(f"{grammar:6} {rule:10} a run was ended", flush=True)
        return False
    (few, _), (many, last) = found
    ratio, rest = many / few, max(many - alone[1][0], 0) / max(few - alone[0][0], 0.0005)
    print(f"{grammar:6} {rule:10} {few:8.4f} {many:8.4f} {ratio:7.1f} {rest:7.1f}  {last}", flush=True)
    return ratio <= 100


def main():
    """Reads the words, and runs the rules."""
    given = command_line.given(__doc__, 5)
    kept = True
    with tempfile.TemporaryDirectory() as name:
        folder = pathlib.Path(name)
        for grammar, text in GRAMMARS.items():
            path = folder / f"{grammar}.xdg"
            path.write_text(text, encoding="utf-8")
            parse = [given.program, "parse", "--first", "1", str(path)]
            alone = [least(parse, b"w " * count, given.runs, given.seconds) for count in (16, 128)]
            for rule, formula in RULES.items():
                if given.only and rule not in given.only:
                    continue
                asked = folder / f"{rule}.rules"
                asked.write_text(f"rule {rule}: {formula}\n", encoding="utf-8")
                found = [least([*parse, "--rules", str(asked)], b"w " * count, given.runs, given.seconds) for count in (16, 128)]
                kept = line(grammar, rule, alone, found) and kept
    return 0 if kept else 1


if __name__ == "__main__":
    sys.exit(main())
