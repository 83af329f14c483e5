#!/usr/bin/env python3
"""Measures the check of a graph against its commits, over a million commits.

usage: python3 bench/objects.py FOLDER [topics | project]

FOLDER keeps the repository, of bench/topics.py, or of bench/project.py, with messages as those of real histories, as Git packs
it with `git repack -adf`, and the stream of its commits; making them takes some minutes. It prints how many commits are deltas
in the pack, and how long their chains are at most and on average.

Seconds of processor time: `historytool objects` beside the digest of the stream by the kit's sha1, in turn, beside the check
of the graph alone, and beside `git cat-file`; of elapsed time: `cg_matches` over the same commits, through C
(bench/objects/matches.c, by `cc -O2`), beside that digest, and `git cgraph verify --objects` with one job and with four,
beside `git commit-graph verify`. Each is the least of all runs.
"""

import os
import subprocess
import sys

import common
import processes
import project
import topics

RUNS = 5
DIGEST_RUNS = 10
LONG_RUNS = 2
JOBS = [1, 4]
MADE = {"topics": topics.Made, "project": project.Made}


def main(folder, name="topics"):
    """Prints the figures."""
    folder = os.path.abspath(folder)
    os.makedirs(folder, exist_ok=True)
    made = MADE[name](folder)
    layer, stream, ids = made.layer()[0], made.folder + ".stream", made.folder + ".stream-ids"
    if not os.path.exists(stream):
        pack(made.folder)
        write(ids, [common.program("historytool"), "ids", layer])
        write(stream, cat_file(made.folder), ids)
    common.print_load()
    print("commits that are deltas %d of %d, chains of %d at most, %.1f on average" % chains(made.folder, ids))
    objects, digest = beside_digest(folder, layer, stream)
    figures = {
        "objects": objects,
        "verify": best([common.program("graphtool"), "verify", layer], None),
        "ids": best([common.program("historytool"), "ids", layer], None),
        "git cat-file": best(cat_file(made.folder), ids),
    }
    for name, run in figures.items():
        print("%-14s %7.3f s of processor time, %7.3f elapsed" % (name, run.processor, run.elapsed))
    matches = seconds_of(matches_program(folder), [layer, stream])
    print("%-14s %7.3f s" % ("digest", digest))
    print("%-14s %7.3f s, %.2f of the digest" % ("cg_matches", matches, matches / digest))
    print("objects beside the digest      %.2f" % (figures["objects"].processor / digest))
    print("objects beside git cat-file    %.2f" % (figures["objects"].processor / figures["git cat-file"].processor))
    by_git = best(["git", "-C", made.folder, "commit-graph", "verify", "--no-progress"], None, LONG_RUNS)
    print("git commit-graph verify        %.3f s of processor time, %.3f elapsed" % (by_git.processor, by_git.elapsed))
    for jobs in JOBS:
        words = [os.path.join(common.TOP, "git-cgraph"), "-C", made.folder, "verify", "--objects", "--jobs", str(jobs)]
        run = best(words, None, LONG_RUNS)
        row = (jobs, run.processor, run.elapsed, run.elapsed / by_git.elapsed)
        print("verify --objects --jobs %-6d %.3f s of processor time, %.3f elapsed, %.3f of Git's" % row)


def pack(repository):
    """Packs a repository as Git does by itself. Where no branch leads to a commit, it stays too."""
    subprocess.check_call(["git", "-C", repository, "repack", "-adfkq"])


def chains(repository, ids):
    """How many commits are deltas of others in the pack, of how many, and how long their chains are at most and on average."""
    with open(ids, "rb") as stdin:
        command = ["git", "-C", repository, "cat-file", "--buffer", "--batch-check=%(objectname) %(deltabase)"]
        lines = subprocess.run(command, stdin=stdin, check=True, capture_output=True).stdout.split()
    base, depths = dict(zip(lines[::2], lines[1::2])), {}
    for commit in base:
        above = []
        while commit in base and commit not in depths:
            above.append(commit)
            commit = base[commit]
        for place, delta in enumerate(reversed(above)):
            depths[delta] = depths.get(commit, -1) + place + 1
    deltas = [depth for depth in depths.values() if depth]
    return len(deltas), len(base), max(deltas, default=0), sum(deltas) / max(len(deltas), 1)


def cat_file(repository):
    """The command that writes the objects of the ids that it reads."""
    return ["git", "-C", repository, "--no-replace-objects", "cat-file", "--batch", "--buffer"]


def write(path, command, source=os.devnull):
    """Writes what a command prints to a file."""
    with open(source, "rb") as stdin, open(path + ".part", "wb") as stdout:
        subprocess.check_call(command, stdin=stdin, stdout=stdout)
    os.rename(path + ".part", path)


def best(command, source, runs=RUNS):
    """The least of all runs of a command, which has to end well."""
    return processes.best_of([processes.measured(command, source) for _ in range(runs)])


def beside_digest(folder, layer, stream):
    """The best run of the check of a layer, and the least seconds of the digest of the stream. They are run in turn."""
    command = [common.program("historytool"), "objects", layer]
    program = common.our_program(folder, "objects", ["sha1", "anyhow"])
    runs = [(processes.measured(command, stream), nanoseconds_of(program, [stream])) for _ in range(DIGEST_RUNS)]
    return processes.best_of([run for run, _ in runs]), min(digest for _, digest in runs) / 1e9


def matches_program(folder):
    """The path of the program in C, built over the library."""
    program = os.path.join(folder, "objects_matches")
    library = subprocess.check_output([os.path.join(common.TOP, "building", "library")], text=True).strip()
    flags = ["-std=c11", "-D_GNU_SOURCE", "-O2", "-I" + os.path.join(common.TOP, "bindings", "c")]
    subprocess.check_call(["cc", *flags, os.path.join(common.sources("objects"), "matches.c"), library, "-o", program])
    return program


def seconds_of(program, words):
    """The least seconds of the one figure that a program prints."""
    return min(nanoseconds_of(program, words) for _ in range(RUNS)) / 1e9


def nanoseconds_of(program, words):
    """The one figure that a program prints."""
    return next(common.lines(program, words))[1][0]


if __name__ == "__main__":
    if len(sys.argv) not in (2, 3) or sys.argv[2:] and sys.argv[2] not in MADE:
        sys.exit(__doc__)
    main(*sys.argv[1:])
