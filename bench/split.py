#!/usr/bin/env python3
"""One built program with and without `--split`.

    python3 bench/split.py PROGRAM [--only NAME ..] [--runs N] [--seconds S]

bench/search/split.tsv has a line for each problem: its name, the grammar beside it, the sentence and a note. The first word of each has several entries of like work.
PROGRAM, which is not the script ./xdg, runs `parse` and `parse --split` on each problem N times, in turns. A line has the median seconds that both took by the
clock, how many times faster the second is, the last line that was printed, and, where what they printed isn't the same, that it differs. A run that takes more than S
seconds is ended. Run it on a machine that is left alone: only ratios of one run count.

The status is 1 where the two print different texts.
"""

import pathlib
import statistics
import subprocess
import sys
import time

import command_line

PROBLEMS = pathlib.Path(__file__).resolve().parent / "search"


def run(words, sentence, seconds):
    """Returns the seconds that a run took by the clock and what it printed, or None where it was ended."""
    begin = time.monotonic()
    try:
        done = subprocess.run(words, input=sentence.encode(), stdout=subprocess.PIPE, stderr=subprocess.STDOUT, timeout=seconds, check=False)
    except subprocess.TimeoutExpired:
        return None
    return time.monotonic() - begin, done.stdout


def line(name, runs):
    """Prints the line of a problem from its pairs of runs. Returns whether the texts are the same."""
    done = [pair for pair in runs if None not in pair]
    if len(done) < len(runs):
        print(f"{name:10} a run was ended", flush=True)
        return True
    alone, split = (statistics.median(pair[place][0] for pair in done) for place in (0, 1))
    texts = {found[1] for pair in done for found in pair}
    last = done[-1][1][1].rstrip(b"\n").rsplit(b"\n", 1)[-1].decode()
    print(f"{name:10} {alone:9.3f} {split:9.3f} {alone / max(split, 0.001):7.2f}  {last}{'' if len(texts) == 1 else '  DIFFERENT'}", flush=True)
    return len(texts) == 1


def main():
    """Reads the words, and runs the problems."""
    given = command_line.given(__doc__, 3)
    all_same = True
    for problem in (PROBLEMS / "split.tsv").read_text(encoding="utf-8").splitlines():
        name, grammar, sentence, _ = problem.split("\t")
        if given.only and name not in given.only:
            continue
        parse = [given.program, "parse", str(PROBLEMS / grammar)]
        runs = [(run(parse, sentence, given.seconds), run([*parse, "--split"], sentence, given.seconds)) for _ in range(given.runs)]
        all_same = line(name, runs) and all_same
    return 0 if all_same else 1


if __name__ == "__main__":
    sys.exit(main())
