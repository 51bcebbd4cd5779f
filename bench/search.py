#!/usr/bin/env python3
"""Two built programs side by side on problems of search.

    python3 bench/search.py OLD NEW [--only NAME ..] [--runs N] [--seconds S] [--budget N]

OLD and NEW are built programs, not the script ./xdg, which looks at the sources first. bench/search/problems.tsv has a line for each problem: its name, the
grammar beside it, the sentence and a note. Each program runs each problem N times, in turns. A line has the median seconds of a processor that both took, how many times
more OLD takes, the last line that was printed, and, where what they printed isn't the same, that it differs. A run that takes more than S seconds by the clock is ended. The last line
has the least, the median and the greatest ratio. Only ratios of one run count.

The status is 1 where two programs print different texts.
"""

import argparse
import pathlib
import resource
import statistics
import subprocess
import sys

PROBLEMS = pathlib.Path(__file__).resolve().parent / "search"


def used():
    """Returns the processor seconds that all runs so far took."""
    children = resource.getrusage(resource.RUSAGE_CHILDREN)
    return children.ru_utime + children.ru_stime


def run(words, sentence, seconds):
    """Returns the processor seconds that a run took and what it printed, or None where it was ended."""
    begin = used()
    try:
        done = subprocess.run(words, input=sentence.encode(), stdout=subprocess.PIPE, stderr=subprocess.STDOUT, timeout=seconds, check=False)
    except subprocess.TimeoutExpired:
        return None
    return used() - begin, done.stdout


def in_turns(commands, sentence, runs, seconds):
    """Returns for each command the median seconds and the text, or None where a run was ended."""
    found = [[] for _ in commands]
    for _ in range(runs):
        for place, words in enumerate(commands):
            if found[place] is not None:
                one = run(words, sentence, seconds)
                found[place] = None if one is None else found[place] + [one]
    return [None if it is None else (statistics.median(seconds for seconds, _ in it), it[-1][1]) for it in found]


def line(name, results, limit):
    """Prints the line of a problem. Returns the ratio, or None, and whether the texts are the same."""
    shown = [f"> {limit:g}" if it is None else f"{it[0]:.3f}" for it in results]
    texts = [it[1] for it in results if it is not None]
    last = texts[-1].rstrip(b"\n").rsplit(b"\n", 1)[-1].decode() if texts else "-"
    ratio = results[0][0] / max(results[1][0], 0.001) if None not in results else None
    same = len(set(texts)) < 2
    print(f"{name:16} {shown[0]:>9} {shown[1]:>9} {f'{ratio:.2f}' if ratio else '-':>7}  {last}{'' if same else '  DIFFERENT'}", flush=True)
    return ratio, same


def main():
    """Reads the words, and runs the problems."""
    words = argparse.ArgumentParser(description=__doc__, formatter_class=argparse.RawDescriptionHelpFormatter)
    words.add_argument("programs", nargs=2, metavar="PROGRAM")
    words.add_argument("--only", nargs="*", default=[], metavar="NAME")
    words.add_argument("--runs", type=int, default=3, metavar="N")
    words.add_argument("--seconds", type=float, default=60, metavar="S")
    words.add_argument("--budget", type=int, metavar="N")
    given = words.parse_args()
    budget = ["--budget", str(given.budget)] if given.budget else []
    ratios, all_same = [], True

    def one(name, commands, sentence):
        nonlocal all_same
        ratio, same = line(name, in_turns(commands, sentence, given.runs, given.seconds), given.seconds)
        all_same = all_same and same
        if ratio:
            ratios.append(ratio)

    for problem in (PROBLEMS / "problems.tsv").read_text(encoding="utf-8").splitlines():
        name, grammar, sentence, _ = problem.split("\t")
        if not given.only or name in given.only:
            one(name, [[it, "parse", str(PROBLEMS / grammar), *budget] for it in given.programs], sentence)
    if ratios:
        print(f"least {min(ratios):.2f}, median {statistics.median(ratios):.2f}, greatest {max(ratios):.2f} of {len(ratios)}")
    return 0 if all_same else 1


if __name__ == "__main__":
    sys.exit(main())
