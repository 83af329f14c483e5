#!/usr/bin/env python3
"""Measures corrected dates and changed-path filters, beside the same work in plain Rust.

usage: python3 bench/dates.py [FOLDER [COMMITS]]

FOLDER keeps the files and both programs for further runs. The files are two layers of so many commits, a million if left
out, whose parents stand close by or anywhere. Both programs read the same files, in turn, and have to give the same sums.
A line a figure: ours and the baseline's, in nanoseconds a commit, each the best of all runs, and their ratio: for the
decoding of dates, for that and their comparison, for the walk over the index of filters, for that and the probe of one
path in each, and for the checksum. Then what part of the checksum dates and filters take, and the seconds of processor of
`historytool check` and `graphtool verify`.

Ours is bench/dates/main.rt.txt, which is proved and built by LLVM, over the repository's crates. The baseline is
bench/dates/baseline.rs, by `rustc -O` for the same processor. The status is 1 where the two disagree.
"""

import os
import random
import struct
import sys
import tempfile

import common
import lookup
import processes

NAME = "dates"
LIBRARIES = "gix_commitgraph graph_layer changed_paths graph_chunks anyhow".split()
ROUNDS = 7
"""How often each program is run. They take turns."""
FARTHEST = {"near": 20, "far": 2**32}
"""How many positions before its child a parent stands at most, by the name of a layer."""
FILTER_BYTES = 13
"""How long each filter is: that of a commit of ten paths."""


def main(folder=None, commits="1000000"):
    """Prints the figures, and answers the exit status."""
    with tempfile.TemporaryDirectory() as scratch:
        folder = os.path.abspath(folder or scratch)
        os.makedirs(folder, exist_ok=True)
        paths = {os.path.join(folder, "%s-%s" % (name, commits)): farthest for name, farthest in FARTHEST.items()}
        for path in paths:
            if not os.path.exists(path):
                with open(path, "wb") as file:
                    file.write(layer(int(commits), paths[path]))
        programs = common.our_program(folder, NAME, LIBRARIES), common.baseline_program(folder, NAME)
        common.print_load()
        return 0 if all([report(programs, path, int(commits)) for path in paths]) else 1


def layer(commits, farthest):
    """The bytes of a layer with right dates and with filters, in which all commits but the first have two parents."""
    chance, dates, levels, records, offsets = random.Random(5), [], [], [], []
    for place in range(commits):
        parents = [chance.randrange(max(0, place - farthest), place) for _ in range(2)] if place else []
        time = 1_000_000_000 + 60 * place - (5000 if place % 8 == 0 else 0)
        dates.append(max([time] + [dates[parent] + 1 for parent in parents]))
        levels.append(1 + max([levels[parent] for parent in parents], default=0))
        fields = (*(parents or 2 * [lookup.NO_PARENT]), (levels[-1] << 34) + time)
        records.append(b"\1" * 20 + struct.pack(">2IQ", *fields))
        offsets.append(dates[-1] - time)
    overflow = offsets[::100]
    offsets[::100] = range(lookup.TOP_BIT, lookup.TOP_BIT + len(overflow))
    ids = [struct.pack(">Q", (place << 64) // commits) + b"\1" * 12 for place in range(commits)]
    ends = range(FILTER_BYTES, FILTER_BYTES * commits + 1, FILTER_BYTES)
    chunks = [
        (b"OIDF", lookup.fan(ids)),
        (b"OIDL", b"".join(ids)),
        (b"CDAT", b"".join(records)),
        (b"GDA2", struct.pack(">%dI" % commits, *offsets)),
        (b"GDO2", struct.pack(">%dQ" % len(overflow), *overflow)),
        (b"BIDX", struct.pack(">%dI" % commits, *ends)),
        (b"BDAT", struct.pack(">3I", 1, 7, 10) + chance.randbytes(FILTER_BYTES * commits)),
    ]
    return lookup.with_trailer(struct.pack(">4s4B", b"CGPH", 1, 1, len(chunks), 0) + lookup.table(chunks))


def report(programs, path, commits):
    """Prints the figures of a layer, and answers whether the two programs agreed."""
    figures, name = common.compared(programs, [path], ROUNDS), os.path.basename(path)
    best = {kind: (figure.ours / commits, figure.other / commits) for kind, figure in figures.items()}
    for kind, (ours, other) in best.items():
        print("%-20s %-10s %9.2f %9.2f %7.3f" % (name, kind, ours, other, ours / other), flush=True)
    part = [(best["compare"][at] + best["index"][at]) / best["checksum"][at] for at in range(2)]
    print("%-20s %-10s %9.3f %9.3f" % (name, "part", *part))
    print_processes(name, path)
    return all(len(figure.numbers) == 1 for figure in figures.values())


def print_processes(name, path):
    """Prints the least times of processor that a check and `verify` take."""
    words = {"historytool": "check", "graphtool": "verify"}
    commands = [[common.program(tool), word, path] for tool, word in words.items()]
    runs = [[processes.measured(command, None) for command in commands] for _ in range(ROUNDS)]
    check, verify = (processes.best_of(tries).processor for tries in zip(*runs))
    print("%-20s %-10s %9.3f %9.3f %7.3f" % (name, "processes", check, verify, check / verify))


if __name__ == "__main__":
    if len(sys.argv) > 3:
        sys.exit(__doc__)
    sys.exit(main(*sys.argv[1:]))
