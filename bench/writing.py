#!/usr/bin/env python3
"""Measures how long a layer of a million commits takes to write, and how much memory, beside the same in plain Rust.

usage: python3 bench/writing.py [FOLDER]

FOLDER keeps the programs for further runs; without it ours is proved and built anew, which takes some minutes. The commits
have 1.2 million parents, most of them near, and are handed in in a random order that is always the same. Printed are, each
the least of all runs: the seconds of the call, ours and the baseline's, which are run in turn, and their ratio; the seconds
of processor of a run of ours that writes no layer and of one that writes one, and their difference; and by how many bytes a
commit the memory of the second is more.

Ours is bench/writing/main.rt.txt, over the repository's crates. The baseline is bench/writing/baseline.rs, by `rustc -O`,
which takes the same steps. Both have to write files of one size.
"""

import os
import subprocess
import sys
import tempfile
from typing import NamedTuple

import common

COMMITS = 1_000_000
ROUNDS = 3
LIBRARIES = ["gix_hash_core", "graph_writer", "anyhow"]


class Run(NamedTuple):
    """What a run took: seconds of the call, seconds of processor, and the most bytes of memory; and the bytes of its file."""

    call: float
    processor: float
    memory: int
    size: int


def main(folder=None):
    """Prints the figures."""
    with tempfile.TemporaryDirectory() as scratch:
        folder = os.path.abspath(folder or scratch)
        os.makedirs(folder, exist_ok=True)
        ours = common.our_program(folder, "writing", LIBRARIES)
        baseline = common.baseline_program(folder, "writing")
        runs = [(run_of(ours, 0), run_of(ours, 1), run_of(baseline, 1)) for _ in range(ROUNDS)]
    without, written, plain = (Run(*map(min, zip(*taken))) for taken in zip(*runs))
    if written.size != plain.size:
        raise RuntimeError("one file has %d bytes, the other %d" % (written.size, plain.size))
    common.print_load()
    print("call       %.2f s, in plain Rust %.2f s: %.2f" % (written.call, plain.call, written.call / plain.call))
    print("processor  %.2f s without a layer, %.2f s with one" % (without.processor, written.processor))
    print("so         %.2f s a layer" % (written.processor - without.processor))
    print("memory     %.0f bytes a commit" % ((written.memory - without.memory) / COMMITS))


def run_of(program, layers):
    """What a run takes that writes so many layers."""
    with subprocess.Popen([program, str(COMMITS), str(layers)], stdout=subprocess.PIPE, text=True) as run:
        words = run.stdout.read().split()
        _, status, used = os.wait4(run.pid, 0)
        run.returncode = os.waitstatus_to_exitcode(status)
    if run.returncode != 0:
        raise RuntimeError("%s ended with %d" % (program, run.returncode))
    call, size = (int(words[1]) / 1e6, int(words[2])) if words else (0.0, 0)
    return Run(call, used.ru_utime, used.ru_maxrss * 1024, size)


if __name__ == "__main__":
    main(*sys.argv[1:])
