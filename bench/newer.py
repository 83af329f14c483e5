#!/usr/bin/env python3
"""Measures questions about commits that are newer than the commit-graph, as processes beside those of Git.

usage: python3 bench/newer.py FOLDER

FOLDER keeps the history of bench/topics.py, a million commits, for further runs; making it takes minutes. On top of it come 100,
1,000 and 100,000 commits that the commit-graph lacks, in repositories that borrow its objects. A line a number of them, in
milliseconds a process: the elapsed and the processor time of `git cgraph is-ancestor`, with the processes that it starts, those of
`git merge-base --is-ancestor`, the ratios of both, and how many microseconds of processor each newer commit adds. Pairs are of the
newest commit and of others among the newest 2,000. The first line is `git cgraph is-ancestor --graph-only` of pairs in the graph. Then
all of these once more with `--unchecked`; and the last ones have no commit-graph at all. The processes take turns, and all is read once
before. Each has to answer as Git does.
`git cgraph` is installed in FOLDER.
"""

import os
import random
import subprocess
import sys

import common
from topics import Made
from unchecked import install, taken

NEWER = (100, 1000, 100_000)
ALONE = (1000, 100_000)
"""So many commits are in a repository without a commit-graph."""
PAIRS, ROUNDS, NEWEST = 10, 3, 2000


def main(folder):
    """Prints the figures, and answers the exit status."""
    folder = os.path.abspath(folder)
    os.makedirs(folder, exist_ok=True)
    install(folder)
    common.print_load()
    print("%-28s %9s %9s %9s %9s %7s %7s %9s" % ("ms", "elapsed", "own", "Git", "own", "ratio", "own", "us each"))
    made, same = Made(folder), True
    for title, options in (("", []), ("unchecked, ", ["--unchecked"])):
        base, right = report(title + "in the graph", made.folder, made.ids, ["--graph-only", *options], 0, 0)
        same = same and right
        for count in NEWER:
            path, ids = repository(folder, "newer_%d" % count, count, made)
            same = report(title + "%d newer" % count, path, made.ids + ids, options, count, base)[1] and same
    for count in ALONE:
        path, ids = repository(folder, "alone_%d" % count, count)
        same = report("%d, no commit-graph" % count, path, ids, [], count, 0)[1] and same
    return 0 if same else 1


def repository(folder, name, count, below=None):
    """A repository of so many commits, on top of those of another one or of none: its folder, and their ids."""
    path = os.path.join(folder, name + ".git")
    if not os.path.exists(path):
        subprocess.check_call(["git", "init", "-q", "--bare", path])
        if below:
            with open(os.path.join(path, "objects", "info", "alternates"), "w") as file:
                file.write(os.path.join(below.folder, "objects") + "\n")
        start = "from %s\n" % below.ids[-1] if below else ""
        lines = ("commit refs/heads/main\ncommitter a <a> %d +0000\ndata 0\n%s\n" % (2_000_000_000 + at, "" if at else start) for at in range(count))
        subprocess.run(["git", "-C", path, "fast-import", "--quiet"], input="".join(lines).encode(), check=True)
    listed = subprocess.check_output(["git", "-C", path, "rev-list", "-n", str(count), "main"], text=True)
    return path, listed.split()[::-1]


def report(figure, path, ids, options, count, base):
    """Prints a line: the milliseconds of processor of ours, and whether both say the same of each pair."""
    chance, git = random.Random(7), ["git", "-C", path]
    pairs = [[chance.choice(ids[-NEWEST:]), ids[-1]] for _ in range(PAIRS)]
    ours = [[*git, "cgraph", "is-ancestor", *options, *pair] for pair in pairs]
    theirs = [[*git, "merge-base", "--is-ancestor", *pair] for pair in pairs]
    for command in (*ours, *theirs):
        taken(command)
    runs = [[(taken(own), taken(other)) for own, other in zip(ours, theirs)] for _ in range(ROUNDS)]
    least = [[[min(run[at][who][part] for run in runs) for part in (1, 2)] for who in (0, 1)] for at in range(PAIRS)]
    own, other = [[sum(1000 * pair[who][part] for pair in least) / PAIRS for part in (0, 1)] for who in (0, 1)]
    each = "%9.2f" % (1000 * (own[1] - base) / count) if count else ""
    print("%-28s %9.2f %9.2f %9.2f %9.2f %7.2f %7.2f %9s" % (figure, *own, *other, own[0] / other[0], own[1] / other[1], each), flush=True)
    return own[1], all(first[0] == second[0] for first, second in runs[0])


if __name__ == "__main__":
    if len(sys.argv) != 2:
        sys.exit(__doc__)
    sys.exit(main(sys.argv[1]))
