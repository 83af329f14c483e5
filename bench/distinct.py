#!/usr/bin/env python3
"""Measures `graphtool distinct` beside `graphtool verify`, over chains of a million commits.

usage: python3 bench/distinct.py FOLDER [NAME=PROGRAM..]

FOLDER keeps the files for further runs. Each chain holds one line of commits. Their ids are random, or
alike in all but the last four bytes. A line a chain and a program, which is ours or another one by its
NAME: the processor time of `verify` and of `distinct` in seconds, each the best of all runs, the second
over the first, and the peak of the memory of `distinct`.
"""

import multiprocessing
import os
import struct
import sys

import common
import lookup
import processes

RUNS = 5
"""How often each command is run."""
SHAPES = [
    ("10 layers", [100_000] * 10, 0),
    ("256 layers", [3_906] * 255 + [3_970], 0),
    ("256 layers, ids alike", [3_906] * 255 + [3_970], 16),
    ("one great layer", [900_000] + [392] * 255, 0),
]
"""The title of each chain, the numbers of commits of its layers, and in how many bytes all ids are alike."""


def main(folder, *others):
    """Prints the figures."""
    os.makedirs(folder, exist_ok=True)
    programs = {"ours": common.program(), **dict(other.split("=", 1) for other in others)}
    common.print_load()
    print("%-22s %-10s %9s %9s %7s %10s" % ("chain", "program", "verify s", "distinct", "ratio", "memory MB"))
    for number, (title, sizes, alike) in enumerate(SHAPES):
        chain = processes.chain_folder(folder, "distinct-%d" % number, paths(folder, number, sizes, alike))
        for name, program in programs.items():
            verify, distinct = (best(program, command, chain) for command in ("verify", "distinct"))
            ratio = distinct.processor / verify.processor
            row = (title, name, verify.processor, distinct.processor, ratio, distinct.memory / 1e6)
            print("%-22s %-10s %9.3f %9.3f %7.2f %10.1f" % row, flush=True)


def best(program, command, chain):
    """The best of all runs of a command."""
    return processes.best_of([processes.measured([program, command, chain], None) for _ in range(RUNS)])


def paths(folder, number, sizes, alike):
    """The paths of the layers of a chain, which are written where they are not there.

    A process of its own writes them, as a program's peak of memory begins with that of the process that
    starts it."""
    names = [os.path.join(folder, "distinct-%d-%d" % (number, layer)) for layer in range(len(sizes))]
    if not all(os.path.exists(name) for name in names):
        writer = multiprocessing.Process(target=write, args=(names, sizes, alike))
        writer.start()
        writer.join()
    return names


def write(names, sizes, alike):
    """Writes the layers of a chain to files of these names."""
    for name, data in zip(names, layers(sizes, alike)):
        with open(name, "wb") as file:
            file.write(data)


def layers(sizes, alike):
    """The bytes of the layers of a chain with these numbers of commits, the lowest first."""
    bases, first, parent = [], 0, lookup.NO_PARENT
    for size in sizes:
        ids = {place: commit_id(place, alike) for place in range(first, first + size)}
        order = sorted(ids, key=ids.get)
        positions = {place: first + rank for rank, place in enumerate(order)}
        before = {place: positions.get(place - 1, parent) for place in order}
        records = [ids[place][::-1] + record(place, before[place]) for place in order]
        data = file_of([ids[place] for place in order], records, bases)
        bases, first, parent = bases + [data[-20:]], first + size, positions[first + size - 1]
        yield data


def commit_id(place, alike):
    """The id of a commit by its place in the line."""
    if alike:
        return b"\7" * alike + struct.pack(">I", place * 2_654_435_761 % 2**32)
    return lookup.digest("distinct", place)


def record(place, parent):
    """The fields of a commit beside its tree: its parent, and its generation number."""
    return struct.pack(">2IQ", parent, lookup.NO_PARENT, (place + 1) << 34)


def file_of(ids, records, bases):
    """The bytes of a layer's file with these ids, records and base ids."""
    chunks = [(b"OIDF", lookup.fan(ids)), (b"OIDL", b"".join(ids)), (b"CDAT", b"".join(records))]
    if bases:
        chunks.append((b"BASE", b"".join(bases)))
    header = struct.pack(">4s4B", b"CGPH", 1, 1, len(chunks), len(bases))
    return lookup.with_trailer(header + lookup.table(chunks))


if __name__ == "__main__":
    main(*sys.argv[1:])
