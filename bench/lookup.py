#!/usr/bin/env python3
"""Measures lookups, reads and checks of commit-graphs, beside the same work in plain Rust.

usage: python3 bench/lookup.py [FOLDER]

FOLDER keeps the files and both programs for further runs; without it all is made anew, which takes
some minutes. The files are one layer of a million commits, a chain of ten layers of the same
commits, and two layers whose commits share one long list of further parents, the second twice as
large as the first. Both programs read the same files, in turn, and have to give the same sums.

A line a figure: ours and the baseline's, in nanoseconds an item, each the best of all runs, and
their ratio. The items are the commits that are opened; lookups of ids that are there and of ids that
are not, in a random order that is always the same; commits with all their parents, in order; commits
at random positions, each with its generation number, its time and its parents; and the commits of
the layers whose checksums are checked, and of the graphs that are. Then how the check of a graph
compares with that of its checksums, and how each check grows from the first to the second of the two
layers, where twice is right.

Ours is bench/lookup/main.rt.txt, which is proved and built by LLVM, over the repository's crates.
The baseline is bench/lookup/baseline.rs, by `rustc -O` for the same processor. The status is 1
where the two disagree.
"""

import hashlib
import os
import struct
import sys
import tempfile

import common

NAME = "lookup"

COMMITS = 1_000_000
LAYERS = 10
ROUNDS = 5
"""How often each program is run. The two take turns."""

SHARED_COMMITS = 2_000
"""How many commits the smaller layer with one shared list has."""
SHARED_WORDS = 14
"""How many words a commit that list has: then it is as long as the other chunks."""
ROOTS = 16
"""How many commits of such a layer have no parents. The others have these."""

LIBRARIES = ["gix_hash_core", "gix_commitgraph", "anyhow"]

NAMES = ["present", "absent", "positions", "once", "twice", "layer"] + ["chain-%d" % layer for layer in range(LAYERS)]
"""The names of the inputs, in the order in which the programs take them."""

NO_PARENT = 0x70000000
TOP_BIT = 0x80000000


def main(folder=None):
    """Prints the figures, and answers the exit status."""
    with tempfile.TemporaryDirectory() as scratch:
        folder = os.path.abspath(folder or scratch)
        os.makedirs(folder, exist_ok=True)
        files = written_files(folder)
        ours, baseline = our_program(folder), common.baseline_program(folder, NAME)
        common.print_load()
        rounds = [(figures(ours, files), figures(baseline, files)) for _ in range(ROUNDS)]
        return report([first for first, _ in rounds], [second for _, second in rounds])


def report(ours, baseline):
    """Prints a line a figure, and answers the exit status."""
    agreed = True
    print("%-16s %10s %10s %10s %7s" % ("figure", "items", "ours ns", "rust ns", "ratio"))
    for name in baseline[0]:
        best, sums = best_and_sums(name, ours)
        other, other_sums = best_and_sums(name, baseline)
        items = commits_of(name)
        print("%-16s %10d %10.2f %10.2f %7.3f" % (name, items, best / items, other / items, best / other))
        if len(sums | other_sums) != 1:
            print("%-16s the sums differ: %s and %s" % (name, sums, other_sums))
            agreed = False
    for name in ("layer", "chain"):
        print_ratio(name + "-integrity", name + "-checksum", ours, baseline)
    for check in ("integrity", "traverse"):
        print_ratio("twice-" + check, "once-" + check, ours, baseline)
    return 0 if agreed else 1


def commits_of(name):
    """How many commits the files of a figure have."""
    return {"once": SHARED_COMMITS, "twice": 2 * SHARED_COMMITS}.get(name.split("-")[0], COMMITS)


def print_ratio(name, other, ours, baseline):
    """Prints how a figure compares with another of the same program, in each program that has it."""
    for program, runs in (("ours", ours), ("rust", baseline)):
        if name in runs[0]:
            ratio = best_and_sums(name, runs)[0] / best_and_sums(other, runs)[0]
            print("%-16s %s: %.3f times %s" % (name, program, ratio, other))


def best_and_sums(name, runs):
    """The least time of a figure, and the sums that the runs gave."""
    times = [time for run in runs for time, _ in run[name]]
    return min(times), {sums for run in runs for _, sums in run[name]}


def figures(program, files):
    """What one run of a program prints: for each figure its times, each with its sums."""
    found = {}
    for name, (time, *sums) in common.lines(program, files):
        found.setdefault(name, []).append((time, tuple(sums)))
    return found


def our_program(folder):
    """The path of our program, proved and built."""
    return common.our_program(folder, NAME, LIBRARIES)


def written_files(folder):
    """The paths of the inputs: ids that are there, ids that are not, positions, the layers, the chain's layers."""
    paths = [os.path.join(folder, name) for name in NAMES]
    if not all(os.path.exists(path) for path in paths):
        for path, data in zip(paths, inputs()):
            with open(path, "wb") as file:
                file.write(data)
    return paths


def inputs():
    """The bytes of the inputs, in their order."""
    order = sorted(range(COMMITS), key=lambda place: digest("order", place))
    yield b"".join(digest("commit", place) for place in order)
    yield b"".join(digest("absent", place) for place in range(COMMITS))
    yield struct.pack(">%dI" % COMMITS, *sorted(range(COMMITS), key=lambda place: digest("position", place)))
    yield shared_layer(SHARED_COMMITS)
    yield shared_layer(2 * SHARED_COMMITS)
    yield layer_file(range(COMMITS), positions_of([range(COMMITS)]), [])
    yield from chain_files(LAYERS)


def chain_files(layers):
    """The bytes of the files of a chain of so many layers, the lowest first."""
    size = -(-COMMITS // layers)
    parts = [range(start, min(start + size, COMMITS)) for start in range(0, COMMITS, size)]
    positions = positions_of(parts)
    bases = []
    for part in parts:
        data = layer_file(part, positions, bases)
        bases.append(data[-20:])
        yield data


def digest(what, place):
    """Twenty random bytes, always the same for the same arguments."""
    return hashlib.sha1(b"%s %d" % (what.encode(), place)).digest()


def positions_of(parts):
    """The position in the graph of each commit, where each layer has one part of them."""
    positions = [0] * COMMITS
    start = 0
    for part in parts:
        for rank, place in enumerate(ordered(part)):
            positions[place] = start + rank
        start += len(part)
    return positions


def ordered(part):
    """The commits of a part in the order of their ids."""
    return sorted(part, key=lambda place: digest("commit", place))


def layer_file(part, positions, bases):
    """The bytes of a layer's file: see Git's commit-graph format."""
    places = ordered(part)
    ids = [digest("commit", place) for place in places]
    edges, records = [], []
    for place, name in zip(places, ids):
        records.append(record(place, name, positions, edges))
    return layer_of(ids, records, edges, bases)


def layer_of(ids, records, edges, bases):
    """The bytes of a layer's file with these ids, records, words of the extra edge list and base ids."""
    chunks = [
        (b"OIDF", fan(ids)),
        (b"OIDL", b"".join(ids)),
        (b"CDAT", b"".join(records)),
        (b"EDGE", struct.pack(">%dI" % len(edges), *edges)),
    ]
    if bases:
        chunks.append((b"BASE", b"".join(bases)))
    return with_trailer(struct.pack(">4s4B", b"CGPH", 1, 1, len(chunks), len(bases)) + table(chunks))


def shared_layer(commits, words=SHARED_WORDS):
    """The bytes of a layer in which all commits but the roots have one list of further parents, of so many words a commit."""
    ids = sorted(digest("shared", place) for place in range(commits))
    edges = [place % ROOTS for place in range(words * commits - 1)] + [TOP_BIT]
    root = struct.pack(">2IQ", NO_PARENT, NO_PARENT, 1 << 34)
    other = struct.pack(">2IQ", 0, TOP_BIT, 2 << 34)
    records = [name[::-1] + (root if pos < ROOTS else other) for pos, name in enumerate(ids)]
    return layer_of(ids, records, edges, [])


def fan(ids):
    """For each byte, how many ids begin with it or a lesser one."""
    counts = [0] * 256
    for name in ids:
        counts[name[0]] += 1
    totals = []
    for count in counts:
        totals.append((totals[-1] if totals else 0) + count)
    return struct.pack(">256I", *totals)


def record(place, name, positions, edges):
    """A commit's record. Its words of the extra edge list, if it has any, are put after the others."""
    first, *others = [positions[parent] for parent in parents(place)] or [NO_PARENT]
    second = others[0] if others else NO_PARENT
    if len(others) > 1:
        second = TOP_BIT + len(edges)
        edges.extend(others[:-1] + [TOP_BIT + others[-1]])
    dates = ((place + 1) << 34) + 1_000_000_000 + 60 * place
    return name[::-1] + struct.pack(">2IQ", first, second, dates)


def parents(place):
    """The commit before. Each tenth is a merge, and each thousandth one of four parents."""
    steps = (1, 5, 50, 500) if place % 1000 == 999 else (1, 5) if place % 10 == 9 else (1,)
    return [place - step for step in steps if place >= step]


def table(chunks):
    """The table of the chunks, which lie one after another, and then they themselves."""
    at = 8 + 12 * (len(chunks) + 1)
    rows = []
    for name, data in chunks + [(bytes(4), b"")]:
        rows.append(struct.pack(">4sQ", name, at))
        at += len(data)
    return b"".join(rows) + b"".join(data for _, data in chunks)


def with_trailer(data):
    """The bytes, and their digest."""
    return data + hashlib.sha1(data).digest()


if __name__ == "__main__":
    if len(sys.argv) > 2:
        sys.exit(__doc__)
    sys.exit(main(*sys.argv[1:]))
