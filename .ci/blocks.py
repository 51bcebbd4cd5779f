#!/usr/bin/env python3
"""Runs the commands that a document shows, and compares what they print with what it shows.

    .ci/blocks.py PROGRAM FILE...

A file is a document, or an `.out` file. In a document each fenced block whose first line begins with `$ ` is run; other blocks are
left alone. An `.out` file is one such block; its lines that begin with `%` are comments. A command is a line that begins with `$ `; where it ends with a backslash the next line belongs to
it. What stands below it, up to the next command, is exactly what it prints. A block that is one command and shows
nothing below it is run, and only has to end with status 0.

The commands run in bash, in a folder of their own with a copy of examples/, docs/ and tools/, and with the program as ./xdg. The
blocks of one file share the folder, so that a later one can read what an earlier one wrote. Nothing in the repository is
written to.
"""
import os
import re
import shutil
import subprocess
import sys
import tempfile

ROOT = os.path.dirname(os.path.dirname(os.path.abspath(__file__)))
SECONDS = 20


class Scratch:
    """A folder to run commands in."""

    def __init__(self, program):
        self.path = tempfile.mkdtemp(prefix="xdg-blocks-")
        for name in ("examples", "docs", "tools"):
            shutil.copytree(os.path.join(ROOT, name), os.path.join(self.path, name))
        os.symlink(os.path.abspath(program), os.path.join(self.path, "xdg"))

    def __enter__(self):
        return self

    def __exit__(self, *_):
        shutil.rmtree(self.path, ignore_errors=True)

    def run(self, command):
        """The status and what is printed, on standard output and then on standard error."""
        env = dict(os.environ, LC_ALL="C.UTF-8")
        try:
            done = subprocess.run(["bash", "-c", command], cwd=self.path, env=env, timeout=SECONDS,
                                  stdin=subprocess.DEVNULL, stdout=subprocess.PIPE, stderr=subprocess.PIPE)
        except subprocess.TimeoutExpired:
            return None, "not done within %d seconds\n" % SECONDS
        return done.returncode, (done.stdout + done.stderr).decode("utf-8", "replace")


def commands(lines, first):
    """The commands of a block: (line number, command, lines shown). `first` is the number of its first line."""
    found = []
    more = False
    for number, line in enumerate(lines, first):
        if more:
            found[-1][1] += "\n" + line
        elif line.startswith("$ "):
            found.append([number, line[2:], []])
        else:
            found[-1][2].append(line)
            continue
        more = line.endswith("\\")
    return [tuple(f) for f in found]


def blocks(path, text):
    """The blocks that are run, each a list of commands."""
    lines = text.split("\n")
    if path.endswith(".out"):
        if lines and not lines[-1]:
            lines.pop()
        kept = [(n, l) for n, l in enumerate(lines, 1) if not l.startswith("%")]
        if not kept or not kept[0][1].startswith("$ "):
            return []
        found = []                           # comments may stand anywhere: each line keeps its number
        for number, line in kept:
            if line.startswith("$ "):
                found.append((number, line[2:], []))
            else:
                found[-1][2].append(line)
        return [found]
    found, inside, start = [], None, 0
    for number, line in enumerate(lines, 1):
        if re.match(r" {0,3}```", line):
            if inside is None:
                inside, start = [], number + 1
            else:
                if inside and inside[0].startswith("$ "):
                    found.append(commands(inside, start))
                inside = None
        elif inside is not None:
            inside.append(line)
    return found


def check(program, path):
    """Runs the blocks of a file. Gives how many commands there were, and the offences as texts."""
    with open(os.path.join(ROOT, path), encoding="utf-8") as file:
        text = file.read()
    count, offences = 0, []
    found = blocks(path, text)
    if not found:
        return 0, []
    with Scratch(program) as scratch:
        for block in found:
            for number, command, shown in block:
                count += 1
                status, printed = scratch.run(command)
                if len(block) == 1 and not shown:
                    if status != 0:
                        offences.append("%s:%d: %s\n  ends with status %s\n%s" % (path, number, command, status, printed))
                    continue
                wanted = "".join(line + "\n" for line in shown)
                if printed != wanted:
                    offences.append("%s:%d: $ %s\n--- shown\n%s--- printed\n%s---" % (path, number, command, wanted, printed))
    return count, offences


def main(words):
    if len(words) < 2:
        sys.exit(__doc__)
    total, bad = 0, 0
    for path in words[1:]:
        count, offences = check(words[0], os.path.relpath(os.path.abspath(path), ROOT))
        total += count
        bad += len(offences)
        for offence in offences:
            print(offence)
    print("%d commands, %d differ" % (total, bad))
    return 1 if bad else 0


if __name__ == "__main__":
    sys.exit(main(sys.argv[1:]))
