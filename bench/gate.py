#!/usr/bin/env python3
"""Runs a command such as `rt ci`, stamps each line that it prints, and prints what each crate cost.

    python3 bench/gate.py [--log FILE] rt ci [--anew]

The lines go to FILE (gate.log in the temporary folder where none is given), each behind the minute at which it came. Once a second
the processes below the command are looked at: the prover's name the crate that they work on, and whether they prove it, prove its
tests, or try its edits (the ground that these stand on counts with them). The table has for each crate the processor minutes of
each, the sum, and the longest chain: the crates that wait for one another, by the minutes of their proofs alone.
It ends with the status of the command."""
import os
import subprocess
import sys
import tempfile
import threading
import time

TICKS = os.sysconf("SC_CLK_TCK")
KINDS = ("proof", "tests", "edits")


def stats():
    """Returns for each process its parent and the processor ticks that it has used."""
    found = {}
    for name in os.listdir("/proc"):
        if name.isdigit():
            try:
                with open(f"/proc/{name}/stat", encoding="utf-8", errors="replace") as it:
                    fields = it.read().rpartition(")")[2].split()
                found[int(name)] = int(fields[1]), int(fields[11]) + int(fields[12])
            except (OSError, IndexError, ValueError):
                pass
    return found


def work_of(pid):
    """Returns the crate that a process of the prover works on and the kind of its work, or None."""
    try:
        with open(f"/proc/{pid}/cmdline", "rb") as it:
            words = it.read().decode(errors="replace").split("\0")
        folder = os.readlink(f"/proc/{pid}/cwd")
    except OSError:
        return None
    if "--crate-name" not in words:
        return None
    crate = words[words.index("--crate-name") + 1]
    is_edit = "rt-edit" in folder or any("rt-edit" in word for word in words)
    return crate, "edits" if is_edit else "tests" if "--test" in words else "proof"


def below(pid, found):
    """Returns the processes that a process started, and those that they started."""
    children = {}
    for it, (parent, _) in found.items():
        children.setdefault(parent, []).append(it)
    reached = [pid]
    for it in reached:
        reached += children.get(it, [])
    return reached


def watch(pid, ended, seen):
    """Fills seen: for each process of the prover its crate, the kind of its work and the ticks that it had used when last looked at."""
    while not ended.wait(1):
        found = stats()
        for it in below(pid, found):
            if it not in seen:
                seen[it] = work_of(it), 0
            seen[it] = seen[it][0], max(seen[it][1], found[it][1])


def waits():
    """Returns for each crate the crates that it stands on, as crates.txt has them."""
    with open("crates.txt", encoding="utf-8") as it:
        lines = [line.partition(":") for line in it if not line.startswith("#") and ":" in line]
    names = {name.split()[0] for name, _, _ in lines}
    return {name.split()[0]: [dep for dep in deps.split() if dep in names] for name, _, deps in lines}


def chain(stands_on, minutes):
    """Returns the chain of crates that takes longest when each waits for those that it stands on."""
    longest = {}

    def of(name):
        if name not in longest:
            under = max((of(dep) for dep in stands_on[name]), default=(0, []))
            longest[name] = under[0] + minutes.get(name, 0), [*under[1], name]
        return longest[name]

    return max((of(name) for name in stands_on), default=(0, []))


def table(seen, stands_on):
    """Returns the lines of the table: crates by what they cost, the sums, and the longest chain."""
    spent = {}
    for work, ticks in seen.values():
        if work:
            crate, kind = work
            spent.setdefault(crate, dict.fromkeys(KINDS, 0))[kind] += ticks / TICKS / 60
    rows = sorted(spent.items(), key=lambda it: -sum(it[1].values()))
    lines = ["| crate | proof | tests | edits | sum |", "|---|---|---|---|---|"]
    for name, by in [*rows, ("all", {kind: sum(by[kind] for _, by in rows) for kind in KINDS})]:
        figures = [by[kind] for kind in KINDS]
        lines.append(f"| {name} | {' | '.join(f'{it:.1f}' if it else '' for it in [*figures, sum(figures)])} |")
    minutes, names = chain(stands_on, {name: by["proof"] for name, by in rows})
    return [*lines, "", f"Longest chain: {minutes:.1f} processor minutes: {', '.join(names)}."]


def main(words):
    log = os.path.join(tempfile.gettempdir(), "gate.log")
    if words[:1] == ["--log"] and len(words) > 1:
        log, words = words[1], words[2:]
    if not words or words[0].startswith("-"):
        print(__doc__, file=sys.stderr)
        return 2
    start, seen, ended = time.monotonic(), {}, threading.Event()
    with open(log, "w", encoding="utf-8") as to:
        run = subprocess.Popen(words, stdin=subprocess.DEVNULL, stdout=subprocess.PIPE, stderr=subprocess.STDOUT, text=True, errors="replace")
        watching = threading.Thread(target=watch, args=(run.pid, ended, seen))
        watching.start()
        last = ""
        for last in run.stdout:
            to.write(f"{(time.monotonic() - start) / 60:7.2f} {last}")
            to.flush()
        status = run.wait()
        ended.set()
        watching.join()
    minutes = (time.monotonic() - start) / 60
    print(f"{' '.join(words)}: {minutes:.1f} minutes on {len(os.sched_getaffinity(0))} processors, load at the end {os.getloadavg()[0]:.1f}, status {status}")
    print(last.rstrip())
    print("\n".join(["", *table(seen, waits())]))
    return status


if __name__ == "__main__":
    sys.exit(main(sys.argv[1:]))
