#!/usr/bin/env python3
"""Two built programs at every budget from 1 to the one that is enough.

    python3 bench/charge.py OLD NEW [--most N] [--only NAME ..]

OLD and NEW are built programs, not the script ./xdg, which looks at the sources first. For each problem of bench/search/problems.tsv whose sentence
ends `complete` under a budget of N (2,000 where none is given), `parse` is run by both with each budget from 1 to the least that is enough, and
both are to print the same text with the same status. A line has the problem, how many budgets were tried, and the first at which the two differ.

The status is 1 where they differ.
"""

import argparse
import pathlib
import subprocess
import sys

PROBLEMS = pathlib.Path(__file__).resolve().parent / "search"


def run(program, grammar, sentence, budget):
    """Returns what a run printed, and its status."""
    words = [program, "parse", PROBLEMS / grammar, "--budget", str(budget)]
    done = subprocess.run(words, input=sentence.encode(), stdout=subprocess.PIPE, stderr=subprocess.STDOUT, check=False)
    return done.stdout, done.returncode


def enough(program, grammar, sentence, most):
    """Returns the least budget under which a sentence ends complete, or None where that is above the most."""
    if run(program, grammar, sentence, most)[1] != 0:
        return None
    low, high = 1, most
    while low < high:
        middle = (low + high) // 2
        if run(program, grammar, sentence, middle)[1] == 0:
            high = middle
        else:
            low = middle + 1
    return low


def main():
    words = argparse.ArgumentParser(description=__doc__, formatter_class=argparse.RawDescriptionHelpFormatter)
    words.add_argument("old")
    words.add_argument("new")
    words.add_argument("--most", type=int, default=2_000)
    words.add_argument("--only", nargs="*", default=[])
    given = words.parse_args()
    old, new = (str(pathlib.Path(program).resolve()) for program in (given.old, given.new))
    wrong = tried = 0
    for problem in (PROBLEMS / "problems.tsv").read_text(encoding="utf-8").splitlines():
        name, grammar, sentence, _ = problem.split("\t")
        if given.only and name not in given.only:
            continue
        least = enough(old, grammar, sentence, given.most)
        if least is None:
            continue
        other = next((at for at in range(1, least + 1) if run(old, grammar, sentence, at) != run(new, grammar, sentence, at)), None)
        tried += 1
        wrong += other is not None
        print(f"{name:16} {least:6}" + ("" if other is None else f"  they differ at {other}"), flush=True)
    print(f"{tried} problems, {wrong} on which the two differ")
    sys.exit(1 if wrong else 0)


if __name__ == "__main__":
    main()
