#!/usr/bin/env python3
"""Measures `historytool merge` of ten layers with changed-path filters and without, beside the same command of Git.

usage: python3 bench/merge.py FOLDER

FOLDER keeps the repository: the shape of bench/topics.py, with fewer commits, each of which changes three of 4,096 files; making it
takes some minutes. Git writes a chain of ten layers of it, with filters and without. Printed are, each the least of all runs, which
take turns, seconds of processor time and of elapsed time, and the most memory: of `historytool merge`, and of
`git commit-graph write --reachable --split=replace`, which takes its filters from the chain, and all else from the commits. Both
have to make the same file, bit by bit.
"""

import os
import random
import shutil
import subprocess
import sys

import common
import processes
import topics

from histories import repository, shapes

COMMITS = 200_000
LAYERS = 10
CHANGES = 3
FOLDERS, FILES = 16, 16
"""There are so many folders, with as many in each, and so many files in each of those."""

RUNS = 5
CHAIN = "objects/info/commit-graphs"
KINDS = {"with filters": "--changed-paths", "without filters": "--no-changed-paths"}


def main(folder):
    """Prints the figures."""
    folder = os.path.abspath(folder)
    os.makedirs(folder, exist_ok=True)
    path = os.path.join(folder, "merged.git")
    if not os.path.exists(os.path.join(path, "made")):
        make(path)
    common.print_load()
    for kind, option in KINDS.items():
        compare(kind, option, path, os.path.join(folder, "layer"))


def make(path):
    """Makes the repository, with both chains."""
    made, history = repository.Repository(path, "sha1"), shapes.topics(COMMITS, seed=9, disorder=0.01, roots=0)
    marks, chance = os.path.join(path, "marks"), random.Random(9)
    with subprocess.Popen(["git", "-C", path, "fast-import", "--quiet", "--export-marks=" + marks], stdin=subprocess.PIPE) as run:
        for place, commit in enumerate(history):
            run.stdin.write(topics.commit_command(place, commit)[:-1] + changes(place, chance))
        run.stdin.close()
    with open(marks, encoding="utf-8") as file:
        names = dict(line.split() for line in file)
    ids = [names[":%d" % (place + 1)] for place in range(COMMITS)]
    childless = set(range(COMMITS)) - {parent for commit in history for parent in commit.parents}
    tips = "".join("create refs/heads/tip-%d %s\n" % (place, ids[place]) for place in childless)
    subprocess.run(["git", "-C", path, "update-ref", "--stdin"], input=tips, text=True, check=True)
    subprocess.check_call(["git", "-C", path, "pack-refs", "--all"])
    for kind, option in KINDS.items():
        for layer in range(1, LAYERS + 1):
            made.write_graph("--split=no-merge", option, tips=ids[: layer * COMMITS // LAYERS])
        os.replace(os.path.join(path, CHAIN), os.path.join(path, kind))
    with open(os.path.join(path, "made"), "wb"):
        pass


def changes(place, chance):
    """The lines by which `git fast-import` changes some files."""
    lines = b""
    for _ in range(CHANGES):
        names = (chance.randrange(FOLDERS), chance.randrange(FOLDERS), chance.randrange(FILES))
        text = b"%d\n" % place
        lines += b"M 100644 inline folder-%d/part-%d/file-%d\n" % names + b"data %d\n%s" % (len(text), text)
    return lines + b"\n"


def compare(kind, option, path, layer):
    """Prints the figures of both commands over one of the chains."""
    chain = os.path.join(path, CHAIN)
    gits = ["git", "-C", path, "-c", "commitGraph.generationVersion=2", "commit-graph", "write", "--no-progress", "--reachable"]
    gits += ["--split=replace", option]
    ours, runs = [common.program("historytool"), "merge", chain], {"historytool merge": [], "Git": []}
    for _ in range(RUNS):
        shutil.rmtree(chain, ignore_errors=True)
        shutil.copytree(os.path.join(path, kind), chain)
        runs["historytool merge"].append(processes.measured(ours, None))
        with open(layer, "wb") as file:
            subprocess.run(ours, stdout=file, check=True)
        runs["Git"].append(processes.measured(gits, None))
    best = {name: processes.best_of(taken) for name, taken in runs.items()}
    for name, run in best.items():
        row = (kind, name, run.processor, run.elapsed, run.memory / 1e6)
        print("%-16s %-18s %7.3f s of processor time, %7.3f elapsed, %4.0f MB" % row)
    with open(layer, "rb") as merged, open(only_layer(chain), "rb") as written:
        same = "the same file" if merged.read() == written.read() else "ANOTHER FILE"
    print("%-16s %d bytes, %s" % (kind, os.path.getsize(layer), same))


def only_layer(chain):
    """The path of the layer of a chain that has no other."""
    with open(os.path.join(chain, "commit-graph-chain"), encoding="utf-8") as file:
        [name] = file.read().split()
    return os.path.join(chain, "graph-%s.graph" % name)


if __name__ == "__main__":
    if len(sys.argv) != 2:
        sys.exit(__doc__)
    main(sys.argv[1])
