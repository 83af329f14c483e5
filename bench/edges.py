#!/usr/bin/env python3
"""Measures how `graphtool verify` and `ancestor` grow where all commits share one extra edge list.

usage: python3 bench/edges.py [PROGRAM]

PROGRAM is measured in place of the one that building/program gives. The files are one layer of so many
commits, whose extra edge list has as many words. For `verify` all commits but the roots have all of
them as parents. For `ancestor` each has the one before it as well, and the search goes from the last
commit to a root that is not in the list: it visits all commits, and finds no walk. A line a file: its
commits, and the least processor time of all runs in seconds. Then how the times grow from file to
file, where twice the commits are to take twice the time. The status is 1 where one takes more than
MOST times the time of the one before.
"""

import os
import resource
import struct
import subprocess
import sys
import tempfile

import common
from lookup import NO_PARENT, ROOTS, TOP_BIT, digest, layer_of, shared_layer

COMMITS = (50_000, 100_000, 200_000)
RUNS = 5
MOST = 3
NO_WALK = 1
"""The status of `ancestor` where there is no walk."""


def main(program=None):
    """Prints the figures, and answers the exit status."""
    program = program or common.program()
    with tempfile.TemporaryDirectory() as folder:
        checks = [seconds([program, "verify", shared(folder, commits)], 0) for commits in COMMITS]
        walks = [seconds([program, "ancestor", *line(folder, commits)], NO_WALK) for commits in COMMITS]
    return 1 if max(report("verify", checks), report("ancestor", walks)) > MOST else 0


def report(command, times):
    """Prints the times of a command, and how they grow; answers the greatest growth."""
    for commits, time in zip(COMMITS, times):
        print("%-8s %8d commits  %8.3f s" % (command, commits, time))
    growth = [after / before for before, after in zip(times, times[1:])]
    print("%-8s growth %s" % (command, " ".join("%.2f" % times for times in growth)))
    return max(growth)


def shared(folder, commits):
    """The path of the file of so many commits, all but the roots with the same parents."""
    return written(folder, "shared-%d" % commits, shared_layer(commits, 1))


def line(folder, commits):
    """The path of the file of so many commits, one after another, and the ids of the last one and of a root that is not listed."""
    ids = sorted(digest("shared", place) for place in range(commits))
    listed = ROOTS - 1
    edges = [place % listed for place in range(commits - 1)] + [TOP_BIT]
    roots = [struct.pack(">2IQ", NO_PARENT, NO_PARENT, 1 << 34)] * ROOTS
    others = [struct.pack(">2IQ", pos - 1, TOP_BIT, (pos - listed + 1) << 34) for pos in range(ROOTS, commits)]
    # The first of them is on a root that is listed.
    others[0] = struct.pack(">2IQ", 0, TOP_BIT, 2 << 34)
    records = [name[::-1] + fields for name, fields in zip(ids, roots + others)]
    path = written(folder, "line-%d" % commits, layer_of(ids, records, edges, []))
    return path, ids[-1].hex(), ids[listed].hex()


def written(folder, name, contents):
    """The path of a file with these contents."""
    path = os.path.join(folder, name)
    with open(path, "wb") as file:
        file.write(contents)
    return path


def seconds(command, status):
    """The least processor time that a command takes, which has to end with this status."""
    return min(run(command, status) for _ in range(RUNS))


def run(command, status):
    """The processor time of one run."""
    before = resource.getrusage(resource.RUSAGE_CHILDREN)
    ended = subprocess.call(command, stdout=subprocess.DEVNULL)
    after = resource.getrusage(resource.RUSAGE_CHILDREN)
    if ended != status:
        raise RuntimeError("%s ended with status %d" % (command, ended))
    return after.ru_utime + after.ru_stime - before.ru_utime - before.ru_stime


if __name__ == "__main__":
    if len(sys.argv) > 2:
        sys.exit(__doc__)
    sys.exit(main(*sys.argv[1:]))
