#!/usr/bin/env python3
"""Measures whole processes: `graphtool list`, `verify`, `distinct` and `find`, and how `verify` grows.

usage: python3 bench/processes.py FOLDER [NAME=PROGRAM ..]

FOLDER keeps the files for further runs; making them takes some minutes, and the largest has 1.7 GB.
The program that building/program gives is measured beside each PROGRAM, as one of an older state of
this repository, and beside bench/lookup/baseline.rs: `PROGRAM list`, with the file as its input,
`PROGRAM verify PATH`, `PROGRAM distinct PATH` and `PROGRAM find PATH ID`, each where the program ends
with 0. The programs take turns. A line a figure and a program: the least processor time and the least
elapsed time of all runs, the greatest memory, and the ratio of our processor time to the program's.

The files are those of bench/lookup.py, one layer of a million commits and a chain of ten, the same
commits in a chain of 256 layers, and three layers whose parents stand at random positions, by
bench/processes/random_layer.rs.
"""

import os
import subprocess
import sys
import time
from typing import NamedTuple

import common
import lookup

RUNS = 7
LONG_RUNS = 3
MOST_LAYERS = 256
SIZES = [1_000_000, 10_000_000, 30_000_000]


class Run(NamedTuple):
    """What a run took: processor time and elapsed time in seconds, and at most so many bytes."""

    processor: float
    elapsed: float
    memory: int


def main(folder, *others):
    """Prints the figures."""
    folder = os.path.abspath(folder)
    os.makedirs(folder, exist_ok=True)
    programs = {"ours": common.program(), "rust": common.baseline_program(folder, lookup.NAME)}
    programs.update(other.split("=", 1) for other in others)
    common.print_load()
    print("%-22s %-10s %11s %11s %9s %10s" % ("figure", "program", "processor s", "elapsed s", "memory MB", "ours of it"))
    files = lookup.written_files(folder)
    layer = files[lookup.NAMES.index("layer")]
    chain = chain_folder(folder, "commit-graphs", files[-lookup.LAYERS :])
    long_chain = chain_folder(folder, "commit-graphs-of-%d" % MOST_LAYERS, long_chain_files(folder))
    measure("list", programs, ["list"], layer, RUNS)
    measure("verify, one layer", programs, ["verify", layer], None, RUNS)
    for command in ("verify", "distinct"):
        measure("%s, ten layers" % command, programs, [command, chain], None, RUNS)
        measure("%s, %d layers" % (command, MOST_LAYERS), programs, [command, long_chain], None, RUNS)
    with open(files[lookup.NAMES.index("present")], "rb") as file:
        wanted = file.read(20).hex()
    for title, path in (("one layer", layer), ("ten layers", chain)):
        measure("find, " + title, programs, ["find", path, wanted], None, RUNS)
    for size in SIZES:
        path = random_layer(folder, size)
        measure("verify, %d" % size, programs, ["verify", path], None, RUNS if size < 10_000_000 else LONG_RUNS)


def measure(figure, programs, words, source, runs):
    """Prints a line for each program that ends well."""
    first = {name: measured([program] + words, source) for name, program in programs.items()}
    able = [name for name in programs if first[name]]
    rounds = [{name: measured([programs[name]] + words, source) for name in able} for _ in range(runs - 1)]
    rounds.append(first)
    for name in able:
        best = best_of([run[name] for run in rounds])
        ratio = best_of([run["ours"] for run in rounds]).processor / best.processor
        row = (figure, name, best.processor, best.elapsed, best.memory / 1e6, ratio)
        print("%-22s %-10s %11.4f %11.4f %9.1f %10.3f" % row, flush=True)


def best_of(runs):
    """The least times and the greatest memory of some runs."""
    processor, elapsed, memory = zip(*runs)
    return Run(min(processor), min(elapsed), max(memory))


def measured(command, source):
    """One run of a command from a file, or None where it fails. Its output is thrown away."""
    with open(source or os.devnull, "rb") as stdin:
        start = time.perf_counter()
        process = subprocess.Popen(command, stdin=stdin, stdout=subprocess.DEVNULL, stderr=subprocess.DEVNULL)
        _, ended, usage = os.wait4(process.pid, 0)
        elapsed = time.perf_counter() - start
    process.returncode = os.waitstatus_to_exitcode(ended)
    if process.returncode != 0:
        return None
    return Run(usage.ru_utime + usage.ru_stime, elapsed, 1024 * usage.ru_maxrss)


def long_chain_files(folder):
    """The paths of the layers of the longest chain that a graph may have."""
    paths = [os.path.join(folder, "chain-of-%d-%d" % (MOST_LAYERS, layer)) for layer in range(MOST_LAYERS)]
    if not all(os.path.exists(path) for path in paths):
        for path, data in zip(paths, lookup.chain_files(MOST_LAYERS)):
            with open(path, "wb") as file:
                file.write(data)
    return paths


def chain_folder(folder, name, layers):
    """The path of a folder of this name that is a chain of these layers."""
    chain = os.path.join(folder, name)
    os.makedirs(chain, exist_ok=True)
    names = []
    for layer in layers:
        with open(layer, "rb") as file:
            file.seek(-20, os.SEEK_END)
            names.append(file.read().hex())
        link = os.path.join(chain, "graph-%s.graph" % names[-1])
        if not os.path.exists(link):
            os.link(layer, link)
    with open(os.path.join(chain, "commit-graph-chain"), "w") as file:
        file.writelines(name + "\n" for name in names)
    return chain


def random_layer(folder, commits):
    """The path of a layer of so many commits whose parents stand at random positions."""
    path = os.path.join(folder, "random-%d" % commits)
    if not os.path.exists(path):
        program = os.path.join(folder, "random_layer")
        source = os.path.join(common.TOP, "bench", "processes", "random_layer.rs")
        subprocess.check_call(["rustc", "--edition", "2024", "-O", source, "-o", program])
        subprocess.check_call([program, str(commits), path])
    return path


if __name__ == "__main__":
    if len(sys.argv) < 2:
        sys.exit(__doc__)
    main(*sys.argv[1:])
