#!/usr/bin/env python3
"""Measures the library through C and through the Rust crate, beside the same crates called from Rattle.

usage: python3 bench/library.py [FOLDER]

FOLDER keeps the files and the programs for further runs. The files and our programs are those of bench/lookup.py, and for
queries those of bench/ancestor.py. The others are bench/library/measure.c, by `cc -O2`, and bench/library/measure.rs over
bindings/rust, by `rustc -O`; both link the library that building/proving.py left in crates/commitgraph_c. All read the same files, in
turn, and have to give the same sums.

A line a figure: the times through C and through Rust and ours, in nanoseconds an item, each the best of all runs; both
ratios; and the bound that is wanted of them, or of the times where it begins with a sign. The items are the commits that
are opened, with a copy of their bytes or without (`open_lent`); lookups of ids; commits with their parents, by a call each
(`iterate`) and many in a call (`blocks`), and with their first parents (`first`); commits at random positions; the commits
of the graphs that are checked; queries for a walk, or for whether there is one, by a call each (`yes`) and all in a call
(`many`), of 30 random pairs and of 1,000 near ones, whose positions are looked up before; and calls that only answer a
number. The status is 1 where the sums differ.
"""

import functools
import os
import subprocess
import sys
import tempfile

import ancestor
import common
import lookup
from topics import PAIRS

SOURCES = common.sources("library")
LIBRARY = os.path.join(common.TOP, "crates", "commitgraph_c", "out")
ROUNDS = 40
"""How often each program is run. They take turns, so that all find a time when their neighbours leave the memory to them."""
FEW = 30
"""Of the pairs at random so many are asked about."""
CALLS = 100_000_000
"""How many calls each program makes that only answer a number."""
ITEMS = {"calls": CALLS, "any": FEW, "newest": PAIRS["newest"]}
"""How many items the figures have that are not of each commit."""
OURS = {"blocks": "iterate", "any-many": "any-yes", "newest-many": "newest-yes", "open_lent": "open"}
"""The figure of our program that another is compared with, where it has another name."""
ALIGNED = "-mbranches-within-32B-boundaries"
"""How both programs are assembled. Some processors take a jump across 32 bytes slowly, so that where a loop lies by chance would
decide on what takes a nanosecond. The library is the same."""
OPENING = 45
"""Opening may take so many nanoseconds a commit more than ours, as it copies the bytes."""
BOUNDS = {"iterate": "2.5", "first": "1.5", "blocks": "1.3", "calls": "=3", "open": "+%d" % OPENING, "commit_at": ""}
"""The bounds that are not 1.1: of the ratio; of the time; of how much longer it may be; and none."""


def main(folder=None):
    """Prints the figures, and answers the exit status."""
    with tempfile.TemporaryDirectory() as scratch:
        folder = os.path.abspath(folder or scratch)
        os.makedirs(folder, exist_ok=True)
        present, absent, positions, once, twice, *layers = lookup.written_files(folder)
        pairs = few_pairs(folder, *ancestor.pairs_files(folder, present))
        inputs = [present, absent, positions, *pairs, *layers]
        ours, queries = lookup.our_program(folder), ancestor.our_program(folder)
        runs = [functools.partial(figures, program, inputs) for program in (c_program(folder), rust_program(folder))]
        runs.append(functools.partial(own_figures, ours, queries, [present, absent, positions, once, twice], pairs, layers))
        common.print_load()
        return report([in_turn(runs, number) for number in range(ROUNDS)])


def own_figures(ours, queries, files, pairs, layers):
    """What our two programs print."""
    own = figures(ours, [*files, *layers])
    own.update(figures(queries, [*pairs, layers[0]], "layer-"))
    own.update(figures(queries, [*pairs, *layers[1:]], "chain-"))
    return own


def in_turn(runs, first):
    """What the runs answer, begun with another one each time. A run seems to get the memory that the one before gave back, and where
    that lies decides on a tenth of a lookup."""
    answers = {}
    for number in range(first, first + len(runs)):
        place = number % len(runs)
        answers[place] = runs[place]()
    return [answers[place] for place in range(len(runs))]


def few_pairs(folder, pairs, near):
    """The paths of the first of the pairs at random, whose queries take long, and of all near ones."""
    few = os.path.join(folder, "few")
    with open(pairs, "rb") as source, open(few, "wb") as target:
        target.write(source.read(2 * 20 * FEW))
    return [few, near]


def figures(program, words, prefix=""):
    """What one run of a program prints: for each figure its time, and the numbers that came out."""
    return {prefix + name: (time, numbers) for name, (time, *numbers) in common.lines(program, words)}


def report(rounds):
    """Prints a line a figure, and answers the exit status."""
    agreed = True
    print("%-18s %10s %10s %10s %7s %7s %7s" % ("figure", "C ns", "Rust ns", "ours ns", "C", "Rust", "bound"))
    for name in rounds[0][0]:
        layers, figure = name.split("-", 1)
        columns = [name, name, "%s-%s" % (layers, OURS.get(figure, figure))]
        found = [[run[at][column] for run in rounds] for at, column in enumerate(columns) if column in rounds[0][at]]
        items = ITEMS.get(figure.split("-")[0], lookup.COMMITS)
        times = [min(time for time, _ in runs) / items for runs in found]
        ratios = [time / times[2] for time in times[:2]] if len(times) == 3 else []
        cells = ["%10.2f" % time for time in times] + [" " * 10] * (3 - len(times))
        cells += ["%7.3f" % ratio for ratio in ratios] + [" " * 7] * (2 - len(ratios))
        print("%-18s %s %7s" % (name, " ".join(cells), BOUNDS.get(figure, "1.1" if ratios else "")), flush=True)
        if len({tuple(numbers) for runs in found for _, numbers in runs}) != 1:
            print("%-18s the sums differ" % name)
            agreed = False
    return 0 if agreed else 1


def archives():
    """The folders of the library, and of the kit's own heap."""
    kit = os.path.dirname(subprocess.check_output(["rt", "doc"], text=True).strip())
    return LIBRARY, os.path.join(kit, "c")


def c_program(folder):
    """The path of the program in C, built."""
    program = os.path.join(folder, "library_c")
    library, heap = archives()
    flags = ["-std=c11", "-D_GNU_SOURCE", "-O2", "-Wa," + ALIGNED, "-I" + os.path.join(common.TOP, "bindings", "c")]
    linked = [os.path.join(library, "libcommitgraph_c.a"), os.path.join(heap, "liblibc_c.a")]
    subprocess.check_call(["cc", *flags, os.path.join(SOURCES, "measure.c"), *linked, "-o", program])
    return program


def rust_program(folder):
    """The path of the program in Rust, built over the crate."""
    program, crate = os.path.join(folder, "library_rust"), os.path.join(folder, "libcommitgraph.rlib")
    source = os.path.join(common.TOP, "bindings", "rust", "src", "lib.rs")
    found = [word for path in archives() for word in ("-L", "native=" + path)]
    rustc = ["rustc", "--edition", "2021", "-O", "-C", "codegen-units=1", *found]
    linked = ["-l", "static=commitgraph_c", "-l", "static=libc_c"]
    subprocess.check_call([*rustc, "--crate-type", "rlib", "--crate-name", "commitgraph", *linked, source, "-o", crate])
    measured = os.path.join(SOURCES, "measure.rs")
    aligned = ["-C", "llvm-args=-x86-branches-within-32B-boundaries"]
    subprocess.check_call([*rustc, *aligned, "--extern", "commitgraph=" + crate, measured, "-o", program])
    return program


if __name__ == "__main__":
    if len(sys.argv) > 2:
        sys.exit(__doc__)
    sys.exit(main(*sys.argv[1:]))
