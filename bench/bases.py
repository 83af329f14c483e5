#!/usr/bin/env python3
"""Measures merge bases, beside the same search in plain Rust, and beside Git.

usage: python3 bench/bases.py [FOLDER]

FOLDER keeps the files and both programs for further runs. Git makes a million commits of topic branches,
long lines that merge each other and merges of several at once, and a commit-graph of them, in one layer and
in a chain of ten. Both programs compare 100 pairs of commits at random, 1,000 of the newest 2,000, and
1,000 commits with themselves, and these once more with memory that is asked for anew at each, in turn. They
have to give the same sums of bases, of commits ahead and behind, and of visits. A line a figure: ours and
the baseline's, in microseconds a pair, each the best of all runs, their ratio, and the visits a pair. The
check of the graph is not counted.

Then the time of `git merge-base --all` for the first pairs of each kind with the layer, one process each, and
that of a process of Git that does nothing; and the numbers of bases, which have to be ours.

Ours is bench/bases/main.rt.txt, which is proved and built by LLVM, over the repository's crates. The baseline
is bench/bases/baseline.rs, by `rustc -O` for the same processor. The status is 1 where two disagree.
"""

import os
import sys
import tempfile

import common
from topics import PAIRS, Made

NAME = "bases"
LIBRARIES = ["gix_hash_core", "gix_commitgraph", "graph_history", "anyhow"]
FIRST_PAIRS = 20
"""So many pairs of each kind are asked of Git."""
ROUNDS = 2
"""How often each program is run. The two take turns."""


def main(folder=None):
    """Prints the figures, and answers the exit status."""
    with tempfile.TemporaryDirectory() as scratch:
        folder = os.path.abspath(folder or scratch)
        os.makedirs(folder, exist_ok=True)
        made = Made(folder)
        programs = common.our_program(folder, NAME, LIBRARIES), common.baseline_program(folder, NAME)
        common.print_load()
        print("%-16s %10s %10s %7s %10s" % ("figure", "ours us", "rust us", "ratio", "visits"))
        graphs = {"layer": made.layer(), "chain": made.chain()}
        agreed = [report(programs, name, made.pairs, paths) for name, paths in graphs.items()]
        agreed += [report_git(made, kind, programs[1]) for kind in ("any", "newest")]
        return 0 if all(agreed) else 1


def report(programs, name, pairs, layers):
    """Prints a line a figure, and answers whether the two programs agreed."""
    figures = common.compared(programs, pairs + layers, ROUNDS)
    for kind, figure in figures.items():
        asked = PAIRS["same" if kind == "anew" else kind]
        best, other, visits = (number / asked for number in (figure.ours, figure.other, max(figure.numbers)[-1]))
        print("%-16s %10.1f %10.1f %7.3f %10.1f" % (name + " " + kind, best / 1000, other / 1000, best / other, visits), flush=True)
    agreed = all(len(figure.numbers) == 1 for figure in figures.values())
    if not agreed:
        print("%-16s the answers differ" % name)
    return agreed


def report_git(made, kind, baseline):
    """Prints what Git takes for the first pairs of a kind, and answers whether it found as many bases."""
    asked, pairs = common.first_pairs(made.pairs[("any", "newest").index(kind)], FIRST_PAIRS)
    _, bases, taken, idle = common.asked_of_git(made.folder, [["merge-base", "--all", *pair] for pair in pairs])
    first = os.path.join(os.path.dirname(made.folder), "first")
    with open(first, "wb") as file:
        file.write(asked)
    nanoseconds, found, *_ = dict(common.lines(baseline, [first] * 3 + made.layer()))["any"]
    figures = (kind, taken, idle, nanoseconds / FIRST_PAIRS / 1000)
    print("git %-12s %10.1f us a pair, and %.1f to start; plain Rust %.1f" % figures)
    if bases != found:
        print("git names %d bases, and there are %d" % (bases, found))
    return bases == found


if __name__ == "__main__":
    if len(sys.argv) > 2:
        sys.exit(__doc__)
    sys.exit(main(*sys.argv[1:]))
