#!/usr/bin/env python3
"""Time and peak memory of many sentences: `parse` for each of them, `corpus` for all on one processor, and on all processors.

Usage: python3 bench/corpus.py PROGRAM [--lines N] [--sample N]

One grammar has 50,000 entries in which a sentence of three words costs next to nothing beside the reading of the grammar, which one processor does. The sample
examples/german.xdg is read with its own sentences; and the same sentences of 12 words, with eight analyses each, are parsed over the sample and over the sample enlarged to 50,000 entries.

PROGRAM is the built program, not the script ./xdg, which looks at the sources first. A file has 10,000 lines, or N. Of `parse` a sample of 20
lines, or N, spread over the file, is run, and the seconds of one run are told. What `corpus` prints is looked at: the numbers of the
sentences, and of each line of the sample that its text is what `parse` prints. A ratio is how many times longer the one takes than the
other. What processors do together may be less than their number tells, where two of them are one core: so as many runs at once are timed as
there are processors, each alone on one of them, which is what no program can do better.
"""

import argparse
import itertools
import os
import pathlib
import resource
import subprocess
import sys
import tempfile
import time

ROOT = pathlib.Path(__file__).resolve().parent.parent
HEAD = """usedim id usedim lex
defdim lex {defentrytype {word: string}}
defdim id {
deftype id.label {det subj}
deflabeltype id.label
defentrytype {in: valency(id.label) out: valency(id.label)}
useprinciple principle.graph {dims {D: id}}
useprinciple principle.tree {dims {D: id}}
useprinciple principle.valency {dims {D: id}}
}
defentry {dim id {in: {det?}} dim lex {word: "the"}}
defentry {dim id {out: {subj!}} dim lex {word: "barks"}}
"""
ENTRIES = 50_000


def lexicon():
    """A grammar of 50,000 entries: an article, a verb and nouns, each of them a word of its own."""
    return HEAD + "".join(f"defentry {{dim id {{in: {{subj?}} out: {{det!}}}} dim lex {{word: n{k}}}}}\n" for k in range(1, ENTRIES - 1))


def nouns(count):
    """That many sentences of three words, each with another noun."""
    return [f"the n{1 + 4_999 * k % (ENTRIES - 2)} barks" for k in range(count)]


def german(count):
    """That many sentences: those of examples/german.sentences in turns, without the refused ones."""
    found = []
    for line in (ROOT / "examples" / "german.sentences").read_text(encoding="utf-8").splitlines():
        number, _, sentence = line.partition(" ")
        if number.isdigit():
            found.append(sentence.strip())
    return [found[k % len(found)] for k in range(count)]


def enlarged():
    """The grammar examples/german.xdg with as many further nouns as make some 50,000 entries."""
    text = (ROOT / "examples" / "german.xdg").read_text(encoding="utf-8")
    more = ENTRIES - text.count("\ndefentry ")
    return text + "".join(f'defentry {{noun {{Word: "Frau{k}" Agrs: $ f}}}}\n' for k in range(more))


def ambiguous(count):
    """That many German sentences of 12 words: the 32 of the sample's words with five noun phrases that may be subjects, objects or genitives, in turns."""
    first, other = ("die Frau", "die Katze"), ("der Frau", "der Katze")
    found = [f"dass {a} {b} {c} {d} {e} schenkt" for a, b, c, d, e in itertools.product(first, other, first, other, other)]
    return [found[k % len(found)] for k in range(count)]


def run(words, given=b""):
    """The seconds, the peak memory in MiB, the status and the bytes of one run."""
    with tempfile.TemporaryFile() as source, tempfile.TemporaryFile() as out:
        source.write(given)
        source.seek(0)
        start = time.monotonic()
        child = subprocess.Popen(words, stdin=source, stdout=out)
        _, status, used = os.wait4(child.pid, 0)
        seconds = time.monotonic() - start
        child.returncode = os.waitstatus_to_exitcode(status)
        out.seek(0)
        return seconds, used.ru_maxrss / 1024, child.returncode, out.read()


def texts(told, count):
    """The text of each sentence, where what was told has that many, numbered from 1."""
    parts = [[]]
    for line in told.splitlines(keepends=True):
        if line.startswith(b"sentence "):
            if line != b"sentence %d\n" % len(parts):
                sys.exit("the line %r stands where sentence %d is to begin" % (line, len(parts)))
            parts.append([])
        else:
            parts[-1].append(line)
    if len(parts) != count + 1 or parts[0]:
        sys.exit("%d sentences are told, and not %d" % (len(parts) - 1, count))
    return [b"".join(part) for part in parts[1:]]


def corpus(program, grammar, lines, alone):
    """The seconds and the peak memory of `corpus` over the lines, on one processor or on all, and the text of each line."""
    given = "".join(line + "\n" for line in lines).encode()
    words = (["taskset", "-c", "0"] if alone else []) + [program, "corpus", grammar]
    seconds, memory, status, told = run(words, given)
    if status != 0:
        sys.exit("%s ends with status %d: %s" % (" ".join(words), status, told[:200].decode(errors="replace")))
    return seconds, memory, texts(told, len(lines))


def at_once(program, grammar, lines):
    """The seconds of as many runs at once as there are processors, each of all lines on a processor of its own."""
    with tempfile.NamedTemporaryFile() as given:
        given.write("".join(line + "\n" for line in lines).encode())
        given.flush()
        start = time.monotonic()
        runs = []
        for place in range(os.cpu_count()):
            with open(given.name, "rb") as source:
                words = ["taskset", "-c", str(place), program, "corpus", grammar]
                runs.append(subprocess.Popen(words, stdin=source, stdout=subprocess.DEVNULL))
        for child in runs:
            child.wait()
        return time.monotonic() - start


def measured(program, title, grammar, lines, sample):
    """Tells of one file of sentences."""
    print(f"\n{title}: {len(lines)} lines, {sum(len(line.encode()) + 1 for line in lines)} bytes")
    one, one_memory, alone = corpus(program, grammar, lines, True)
    whole, whole_memory, together = corpus(program, grammar, lines, False)
    if alone != together:
        sys.exit("one processor and all of them print different texts")
    runs = at_once(program, grammar, lines)
    total, most = 0.0, 0.0
    places = sorted({k * len(lines) // sample for k in range(sample)})
    for place in places:
        seconds, memory, _, told = run([program, "parse", grammar], lines[place].encode())
        total, most = total + seconds, max(most, memory)
        if told != together[place]:
            sys.exit("sentence %d isn't what parse prints of: %s" % (place + 1, lines[place]))
    each = total / len(places)
    print(f"  parse, a line                  {each:9.4f} s  {most:6.0f} MiB   {each * len(lines):9.1f} s for all lines")
    print(f"  corpus on one processor        {one:9.2f} s  {one_memory:6.0f} MiB   parse takes {each * len(lines) / one:.1f} times as long")
    print(f"  corpus on {os.cpu_count():3} processors       {whole:9.2f} s  {whole_memory:6.0f} MiB   one processor takes {one / whole:.2f} times as long")
    print(f"  as many runs at once           {runs:9.2f} s                so the machine does {one * os.cpu_count() / runs:.2f} times as much as one processor", flush=True)


def against_check(program, grammar, lines):
    """Tells of a file of one word a line, beside `check` of the same grammar."""
    print(f"\none word a line: {len(lines)} lines")
    check, check_memory, status, told = run([program, "check", grammar])
    if status != 0:
        sys.exit("check ends with status %d: %s" % (status, told.decode(errors="replace")))
    seconds, memory, _ = corpus(program, grammar, lines, True)
    print(f"  check                          {check:9.2f} s  {check_memory:6.0f} MiB   {told.decode().strip()}")
    print(f"  corpus on one processor        {seconds:9.2f} s  {memory:6.0f} MiB   {seconds - check:.2f} s more than check", flush=True)


def main():
    parser = argparse.ArgumentParser(description=__doc__, formatter_class=argparse.RawDescriptionHelpFormatter)
    parser.add_argument("program")
    parser.add_argument("--lines", type=int, default=10_000)
    parser.add_argument("--sample", type=int, default=20)
    given = parser.parse_args()
    program = str(pathlib.Path(given.program).resolve())
    resource.setrlimit(resource.RLIMIT_CORE, (0, 0))
    with tempfile.TemporaryDirectory() as folder:
        large = str(pathlib.Path(folder, "g.xdg"))
        pathlib.Path(large).write_text(lexicon())
        measured(program, f"{ENTRIES} entries", large, nouns(given.lines), given.sample)
        sample = str(ROOT / "examples" / "german.xdg")
        measured(program, "examples/german.xdg with its sentences", sample, german(given.lines), given.sample)
        large_sample = str(pathlib.Path(folder, "german.xdg"))
        pathlib.Path(large_sample).write_text(enlarged(), encoding="utf-8")
        lines = ambiguous(given.lines)
        measured(program, "examples/german.xdg", sample, lines, given.sample)
        measured(program, f"the same over examples/german.xdg with {ENTRIES} entries", large_sample, lines, given.sample)
        against_check(program, large, ["the"] * given.lines)


if __name__ == "__main__":
    main()
