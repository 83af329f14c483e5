#!/usr/bin/env python3
"""Measures the crate with the names of `gix-commitgraph`, beside plain Rust of the original's design.

usage: python3 bench/dropin.py [FOLDER]

FOLDER keeps the files and the programs for further runs. The files are those of bench/lookup.py: a layer of a million commits, and a
chain of ten layers of the same commits. The same program, bench/dropin/measure.rs, is built twice by `rustc -O`: with
bindings/rust/gix-commitgraph, over the library that building/proving.py left in crates/commitgraph_c, and with
bench/dropin/original.rs, which maps the files and reads each answer at its place in them, as the original does. Both run in turn, and
have to give the same sums.

A line a figure: nanoseconds an item of both, the best of all runs, and their ratio; the items are the commits that are opened, each
with all its parents (`parents`), with its id (`ids`) and with its numbers (`numbers`), in order; and commits at random positions, each
with its numbers and its parents (`commit_at`), also where the single calls of bindings/rust are made for them (`calls`). Then, for the
passes, instructions an item by `callgrind`, where it is installed. The status is 1 where the sums differ.
"""

import os
import re
import shutil
import subprocess
import sys
import tempfile

import common
import library
import lookup

SOURCES = common.sources("dropin")
CRATES = os.path.join(common.TOP, "bindings", "rust")
ROUNDS = 10
"""How often each program is run. They take turns."""
FLAGS = ["rustc", "--edition", "2021", "-O", "-C", "codegen-units=1"]
COUNTED = ("parents", "commit_at", "numbers", "ids")
"""The passes whose instructions are counted: each is made once more, and the difference is taken."""


def main(folder=None):
    """Prints the figures, and answers the exit status."""
    with tempfile.TemporaryDirectory() as scratch:
        folder = os.path.abspath(folder or scratch)
        os.makedirs(folder, exist_ok=True)
        _, _, positions, _, _, layer, *layers = lookup.written_files(folder)
        words = [positions, layer, chain_folder(folder, layers)]
        programs = [our_program(folder), original_program(folder)]
        common.print_load()
        status = report(common.compared(programs, words, ROUNDS))
        if shutil.which("valgrind"):
            print_instructions(programs, words)
        return status


def chain_folder(folder, layers):
    """The folder of a chain with these layers, the lowest first."""
    chain = os.path.join(folder, "chain")
    os.makedirs(chain, exist_ok=True)
    names = []
    for path in layers:
        with open(path, "rb") as file:
            names.append(file.read()[-20:].hex())
        linked = os.path.join(chain, "graph-%s.graph" % names[-1])
        if not os.path.exists(linked):
            os.link(path, linked)
    with open(os.path.join(chain, "commit-graph-chain"), "w", encoding="utf-8") as file:
        file.writelines(name + "\n" for name in names)
    return chain


def report(figures):
    """Prints a line a figure, and answers the exit status."""
    print("%-16s %10s %10s %7s" % ("figure", "ours ns", "plain ns", "ratio"))
    for name, (ours, other, numbers) in figures.items():
        print("%-16s %10.2f %10.2f %7.3f" % (name, ours / lookup.COMMITS, other / lookup.COMMITS, ours / other))
        if len(numbers) != 1:
            print("%-16s the sums differ: %s" % (name, numbers))
    return 0 if all(len(numbers) == 1 for _, _, numbers in figures.values()) else 1


def print_instructions(programs, words):
    """Prints how many instructions each pass takes for an item: those of a run that makes it twice, without those of one that does once."""
    print("%-16s %10s %10s %7s" % ("instructions", "ours", "plain", "ratio"))
    once = [instructions(program, [*words, "-"]) for program in programs]
    for name in COUNTED:
        twice = [instructions(program, [*words, name]) for program in programs]
        ours, other = ((more - less) / (2 * lookup.COMMITS) for more, less in zip(twice, once))
        print("%-16s %10.1f %10.1f %7.3f" % (name, ours, other, ours / other))


def instructions(program, words):
    """How many instructions a run executes."""
    command = ["valgrind", "--tool=callgrind", "--callgrind-out-file=/dev/null", program, *words]
    told = subprocess.run(command, check=True, capture_output=True, text=True).stderr
    return int(re.search(r"Collected : (\d+)", told).group(1))


def rlib(folder, name, source, words):
    """The path of a crate that is built in a folder."""
    path = os.path.join(folder, "lib%s.rlib" % name)
    subprocess.check_call([*FLAGS, "--crate-type", "rlib", "--crate-name", name, *words, source, "-o", path])
    return "%s=%s" % (name, path)


def program(folder, name, words):
    """The path of the measuring program, built with a crate."""
    path = os.path.join(folder, name)
    subprocess.check_call([*FLAGS, *words, "-L", folder, os.path.join(SOURCES, "measure.rs"), "-o", path])
    return path


def our_program(folder):
    """The program over our crate."""
    folder = os.path.join(folder, "ours")
    os.makedirs(folder, exist_ok=True)
    linked = [word for path in library.archives() for word in ("-L", "native=" + path)]
    names = ["-l", "static=commitgraph_c", "-l", "static=libc_c"]
    features = ["--cfg", 'feature="sha1"', "--cfg", 'feature="sha256"']
    dropin = os.path.join(CRATES, "gix-commitgraph")
    crate = rlib(folder, "commitgraph", os.path.join(CRATES, "src", "lib.rs"), [*linked, *names])
    ids = rlib(folder, "gix_hash", os.path.join(dropin, "stand-in", "gix-hash", "src", "lib.rs"), features)
    uses = ["--extern", crate, "--extern", ids, "-L", folder, *linked, *features]
    ours = rlib(folder, "gix_commitgraph", os.path.join(dropin, "src", "lib.rs"), uses)
    return program(folder, "dropin_ours", ["--extern", ours, "--extern", crate, "--cfg", "ours", *linked])


def original_program(folder):
    """The program over plain Rust."""
    folder = os.path.join(folder, "plain")
    os.makedirs(folder, exist_ok=True)
    plain = rlib(folder, "gix_commitgraph", os.path.join(SOURCES, "original.rs"), [])
    return program(folder, "dropin_plain", ["--extern", plain])


if __name__ == "__main__":
    if len(sys.argv) > 2:
        sys.exit(__doc__)
    sys.exit(main(*sys.argv[1:]))
