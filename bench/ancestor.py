#!/usr/bin/env python3
"""Measures queries for ancestors, beside the same searches in plain Rust, and beside Git.

usage: python3 bench/ancestor.py [FOLDER]

FOLDER keeps the files and both programs for further runs. The commits are those of bench/lookup.py, almost a line, in one
layer and in a chain of ten; and those of bench/bases.py, of topic branches. Both programs answer the same queries over a
million commits, in turn: 100 pairs at random, and 1,000 of the newest 2,000, each for a shortest walk and for whether
there is one. They have to give the same number of walks, of commits on them and of visits, and the same number of yes. A
line a figure: ours and the baseline's, in microseconds a query, each the best of all runs, their ratio, and the visits a
walk. The check of the graph is not counted.

Then the time of `git merge-base --is-ancestor` for the first pairs of each kind among the topic branches, one process each,
less that of a process of Git that does nothing. Git has to say yes as often.

Ours is bench/ancestor/main.rt.txt, which is proved and built by LLVM, over the repository's crates. The baseline is
bench/ancestor/baseline.rs, by `rustc -O` for the same processor. The status is 1 where two disagree.
"""

import os
import random
import sys
import tempfile

import common
import lookup
from topics import NEWEST, PAIRS, Made

NAME = "ancestor"
LIBRARIES = ["gix_hash_core", "gix_commitgraph", "graph_history", "anyhow"]
FIRST_PAIRS = 50
"""So many pairs of each kind are asked of Git."""
ROUNDS = 2
"""How often each program is run. The two take turns."""


def main(folder=None):
    """Prints the figures, and answers the exit status."""
    with tempfile.TemporaryDirectory() as scratch:
        folder = os.path.abspath(folder or scratch)
        os.makedirs(folder, exist_ok=True)
        present, _, _, _, _, layer, *chain = lookup.written_files(folder)
        line, topics = pairs_files(folder, present), Made(folder)
        programs = our_program(folder), common.baseline_program(folder, NAME)
        common.print_load()
        print("%-24s %10s %10s %7s %10s" % ("figure", "ours us", "rust us", "ratio", "visits"))
        graphs = [("layer", line, [layer]), ("chain", line, chain), ("topics", topics.pairs[:2], topics.layer())]
        agreed = [report(programs, *graph) for graph in graphs]
        agreed += [report_git(topics, at, programs[1]) for at in (0, 1)]
        return 0 if all(agreed) else 1


def our_program(folder):
    """The path of our program, proved and built."""
    return common.our_program(folder, NAME, LIBRARIES)


def report(programs, name, pairs, layers):
    """Prints a line a figure, and answers whether the two programs agreed."""
    agreed = True
    for kind, figure in common.compared(programs, pairs + layers, ROUNDS).items():
        asked = PAIRS[kind.partition("-")[0]]
        best, other, visits = (number / asked for number in (figure.ours, figure.other, max(figure.numbers)[-1]))
        print("%-24s %10.2f %10.2f %7.3f %10.1f" % (name + " " + kind, best / 1000, other / 1000, best / other, visits), flush=True)
        if len(figure.numbers) != 1:
            print("%-24s the answers differ: %s" % (name + " " + kind, figure.numbers))
            agreed = False
    return agreed


def report_git(topics, at, baseline):
    """Prints what Git takes for the first pairs of a kind, and answers whether it says yes as often."""
    kind = ("any", "newest")[at]
    asked, pairs = common.first_pairs(topics.pairs[at], FIRST_PAIRS)
    commands = [["merge-base", "--is-ancestor", second, first] for first, second in pairs]
    yes, _, taken, idle = common.asked_of_git(topics.folder, commands)
    first = os.path.join(os.path.dirname(topics.folder), "first")
    with open(first, "wb") as file:
        file.write(asked)
    found = dict(common.lines(baseline, [first, first] + topics.layer()))["any-yes"][1]
    print("git %-20s %10.1f us a query, and %.1f to start" % (kind, taken, idle))
    if yes != found:
        print("git says yes %d times, and there are %d walks" % (yes, found))
    return yes == found


def pairs_files(folder, present):
    """The paths of the pairs: the first of the ids in a random order, two by two, and some of the newest commits."""
    paths = [os.path.join(folder, name) for name in ("pairs", "near")]
    newest, chance = range(lookup.COMMITS - NEWEST, lookup.COMMITS), random.Random(9)
    with open(present, "rb") as source, open(paths[0], "wb") as target:
        target.write(source.read(2 * 20 * PAIRS["any"]))
    with open(paths[1], "wb") as target:
        target.write(b"".join(lookup.digest("commit", place) for place in chance.choices(newest, k=2 * PAIRS["newest"])))
    return paths


if __name__ == "__main__":
    if len(sys.argv) > 2:
        sys.exit(__doc__)
    sys.exit(main(*sys.argv[1:]))
