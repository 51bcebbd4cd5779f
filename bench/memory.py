#!/usr/bin/env python3
"""How the built program ends where a growth of its memory is refused: one after the other, for rows of rows/.

Usage: python3 bench/memory.py PROGRAM [ROW ..]

PROGRAM is the built program, not the script ./xdg, and ROW a front of the name of one of the rows below; where none is given, all are run.
A growth is a call of malloc, calloc or realloc. Each row is run with the first growth refused, then with the second, up to a run in
which none was; and once more so, with each growth from there on refused as well. Each run is to end with the row's status and text, or with
status 9 and a front of the text, which of all commands but `corpus` is empty. Another end is told, and the status is then 1. Prints how many
growths each row has. It needs a C compiler, `cc`, and the C library of GNU.
"""

import importlib.machinery
import importlib.util
import os
import pathlib
import subprocess
import sys
import tempfile
import time

sys.dont_write_bytecode = True
ROOT = pathlib.Path(__file__).resolve().parent.parent

# The group of each row, the front of its name, and the status that it wants.
ROWS = (
    ("parse", "the dog barks", 0),
    ("parse", "pair of edges", 0),
    ("resume", "resume pair", 0),
    ("limits", "too many combinations", 4),
    ("explain", "explain kept", 0),
    ("corpus", "five-line corpus", 0),
)

# Refuses the growths whose numbers are in range, and tells at the end how many it refused of how many.
REFUSING = r"""
#include <errno.h>
#include <stdio.h>
#include <stdlib.h>
#include <sys/syscall.h>
#include <unistd.h>

extern void *__libc_malloc(size_t size);
extern void *__libc_calloc(size_t count, size_t size);
extern void *__libc_realloc(void *old, size_t size);

static long first, last, growths, refused;

static long number(const char *name) {
    const char *text = getenv(name);
    return text ? atol(text) : 0;
}

__attribute__((constructor)) static void begin(void) {
    first = number("REFUSED_FROM");
    last = number("REFUSED_TO");
}

static void tell(void) {
    static int told;
    char text[64];
    int size = snprintf(text, sizeof text, "%ld %ld\n", refused, growths);
    if (!told++ && write((int)number("REFUSED_TOLD"), text, size) != size) syscall(SYS_exit_group, 99);
}

__attribute__((destructor)) static void end(void) { tell(); }

// The program ends by this call where threads may still run.
void _exit(int status) {
    tell();
    syscall(SYS_exit_group, status);
    __builtin_unreachable();
}

static int is_refused(void) {
    long growth = __atomic_add_fetch(&growths, 1, __ATOMIC_SEQ_CST);
    if (growth < first || last < growth) return 0;
    __atomic_add_fetch(&refused, 1, __ATOMIC_SEQ_CST);
    errno = ENOMEM;
    return 1;
}

void *malloc(size_t size) { return is_refused() ? 0 : __libc_malloc(size); }
void *calloc(size_t count, size_t size) { return is_refused() ? 0 : __libc_calloc(count, size); }
void *realloc(void *old, size_t size) { return is_refused() ? 0 : __libc_realloc(old, size); }
"""


def rows():
    """The rows that are run: for each the group and the row, as rows/run reads it."""
    loader = importlib.machinery.SourceFileLoader("rows_run", str(ROOT / "rows" / "run"))
    reader = importlib.util.module_from_spec(importlib.util.spec_from_loader("rows_run", loader))
    loader.exec_module(reader)
    texts, found = {}, []
    for path in sorted((ROOT / "rows").glob("*.texts")):
        list(reader.rows_of(path, texts))
    for group in dict.fromkeys(group for group, _, _ in ROWS):
        path = ROOT / "rows" / (group + ".rows")
        for row in reader.rows_of(path, texts) if path.exists() else ():
            if any(one == group and row["name"].decode().startswith(front) and row["status"] == status for one, front, status in ROWS):
                found.append((group, row))
    return found


def run(words, refusing, given, folder, first, last):
    """The status and the text of a run in which these growths are refused, how many were, and how many growths there were."""
    with tempfile.TemporaryFile() as told:
        variables = {"LD_PRELOAD": refusing, "REFUSED_FROM": str(first), "REFUSED_TO": str(last), "REFUSED_TOLD": str(told.fileno())}
        done = subprocess.run(words, input=given, stdout=subprocess.PIPE, cwd=folder, env=variables, pass_fds=[told.fileno()], timeout=60)
        told.seek(0)
        numbers = told.read().split()
    refused, growths = map(int, numbers) if len(numbers) == 2 else (None, None)
    return done.returncode, done.stdout, refused, growths


def is_right(row, status, text):
    """Whether a run that was refused a growth ends as it may."""
    if status == row["status"]:
        return text == row["wanted"]
    front = row["wanted"] if row["words"][0] == b"corpus" else b""
    return status == 9 and front.startswith(text)


def tried(program, refusing, group, row, later):
    """Runs a row with each growth refused in turn, or with each and all later ones: how many there are, how many runs end with 9, and how
    many offend."""
    spent, wrong, growth = 0, 0, 0
    with tempfile.TemporaryDirectory() as folder:
        for name, text in row["files"].items():
            pathlib.Path(folder, name.decode()).write_bytes(text)
        while True:
            growth += 1
            last = sys.maxsize if later else growth
            status, text, refused, _ = run([program, *row["words"]], refusing, row["input"], folder, growth, last)
            right = (status, text) == (row["status"], row["wanted"]) if refused == 0 else is_right(row, status, text)
            spent += refused != 0 and status == 9
            if not right or refused is None:
                wrong += 1
                print("%s line %d: with growth %d refused%s status %d and %r" % (
                    group, row["line"], growth, ", and all later ones," if later else "", status, text[-200:]))
            if refused == 0:
                return growth - 1, spent, wrong


def main():
    if len(sys.argv) < 2:
        sys.exit(__doc__)
    program = str(pathlib.Path(sys.argv[1]).resolve())
    wrong = 0
    with tempfile.TemporaryDirectory() as folder:
        source, refusing = os.path.join(folder, "refusing.c"), os.path.join(folder, "refusing.so")
        pathlib.Path(source).write_text(REFUSING)
        subprocess.run(["cc", "-O1", "-fno-builtin", "-shared", "-fPIC", "-o", refusing, source], check=True)
        print("%-34s %9s %9s %12s %9s" % ("row", "growths", "status 9", "and later", "seconds"))
        for group, row in rows():
            name = row["name"].decode()
            if sys.argv[2:] and not any(name.startswith(front) for front in sys.argv[2:]):
                continue
            start = time.monotonic()
            growths, spent, offences = tried(program, refusing, group, row, False)
            _, spent_later, more = tried(program, refusing, group, row, True)
            wrong += offences + more
            print("%-34s %9d %9d %12d %9.1f" % (name, growths, spent, spent_later, time.monotonic() - start), flush=True)
    print("%d runs ended otherwise" % wrong)
    sys.exit(1 if wrong else 0)


if __name__ == "__main__":
    main()
