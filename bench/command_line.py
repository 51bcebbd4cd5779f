"""The words that the scripts of this folder take which run one built program on problems with names."""

import argparse


def given(doc, runs):
    """Returns the words of the command line: the program, the names of problems, how often each is run, and the seconds at most."""
    words = argparse.ArgumentParser(description=doc, formatter_class=argparse.RawDescriptionHelpFormatter)
    words.add_argument("program", metavar="PROGRAM")
    words.add_argument("--only", nargs="*", default=[], metavar="NAME")
    words.add_argument("--runs", type=int, default=runs, metavar="N")
    words.add_argument("--seconds", type=float, default=60, metavar="S")
    return words.parse_args()
