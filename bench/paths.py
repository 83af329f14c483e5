#!/usr/bin/env python3
"""Measures the check of changed-path filters against the trees, as processes beside those of Git.

usage: python3 bench/paths.py FOLDER [COMMITS]

FOLDER keeps two histories for further runs: `wide`, of 100,000 commits (or COMMITS) over some 5,000 files three folders deep, and
`deep`, of a tenth as many over files twenty folders deep. Each commit changes one file to three. Making them takes minutes. A row for
each: `git cgraph verify --paths`, `git commit-graph write --changed-paths` that computes all filters anew, and `git log --raw -r`, in
seconds elapsed, the least of three runs, and the ratio of the first two; then the processor seconds of `historytool paths` and of the
`git cat-file --batch` that feeds it, their ratio, how many trees were asked for, and how much memory `historytool` took, in MiB.
`git cgraph` is installed in FOLDER.
"""

import os
import random
import subprocess
import sys
import time

import common
from unchecked import install

COMMITS, ROUNDS = 100_000, 3
SHAPES = {"wide": (1, (12, 12, 12), 3), "deep": (10, (3, 3) + (1,) * 18, 100)}
"""One in so many commits, how many names the folders of each level have, and how many files the last of them has."""


def main(folder, commits=str(COMMITS)):
    """Prints the figures, and answers the exit status."""
    folder = os.path.abspath(folder)
    os.makedirs(folder, exist_ok=True)
    install(folder)
    common.print_load()
    print("%-6s %8s %8s %8s %8s %9s %9s %8s %9s %7s" % ("s", "--paths", "write", "ratio", "log", "own", "cat-file", "ratio", "trees", "MiB"))
    for name, (share, widths, files) in SHAPES.items():
        path = repository(folder, name, int(commits) // share, widths, files)
        report(name, path)
    return 0


def repository(folder, name, count, widths, files):
    """A repository of so many commits in a row, each of which writes one file to three."""
    path = os.path.join(folder, "%s-%d.git" % (name, count))
    if not os.path.exists(path):
        subprocess.check_call(["git", "init", "-q", "--bare", path])
        importing = subprocess.Popen(["git", "-C", path, "fast-import", "--quiet"], stdin=subprocess.PIPE)
        chance = random.Random(name)
        for number in range(count):
            importing.stdin.write(commit(chance, number, widths, files))
        importing.stdin.close()
        if importing.wait():
            raise RuntimeError("git fast-import failed")
        subprocess.check_call(["git", "-C", path, "repack", "-adq"])
    return path


def commit(chance, number, widths, files):
    """A commit, as git fast-import reads it."""
    text = "commit refs/heads/main\ncommitter a <a> %d +0000\ndata 0\n" % (1_000_000_000 + 60 * number)
    for _ in range(chance.choice((1, 1, 2, 3))):
        folders = "".join("d%d/" % chance.randrange(width) for width in widths)
        text += "M 100644 inline %sf%d\ndata %d\n%d\n" % (folders, chance.randrange(files), len(str(number)), number)
    return text.encode() + b"\n"


def report(name, path):
    """Prints a row."""
    git, graph = ["git", "-C", path], os.path.join(path, "objects/info/commit-graph")
    written = [elapsed([*git, "commit-graph", "write", "--reachable", "--changed-paths"], graph) for _ in range(ROUNDS)]
    verified = [elapsed([*git, "cgraph", "verify", "--paths"]) for _ in range(ROUNDS)]
    logged = elapsed([*git, "-c", "core.commitGraph=false", "log", "--raw", "-r", "--format=%H", "--all"])
    own, other, trees, memory = ring(path)
    ratio = min(verified) / min(written)
    row = (name, min(verified), min(written), ratio, logged, own, other, own / other, trees, memory / 1024)
    print("%-6s %8.2f %8.2f %8.2f %8.2f %9.2f %9.2f %8.2f %9d %7.1f" % row, flush=True)


def elapsed(command, removed=None):
    """How many seconds a command takes that has to succeed; a file is removed before."""
    if removed and os.path.exists(removed):
        os.remove(removed)
    begun = time.monotonic()
    subprocess.run(command, check=True, stdout=subprocess.DEVNULL)
    return time.monotonic() - begun


def ring(path):
    """The processor seconds of `historytool paths` and of Git, how many trees were asked for, and the memory of the first in KiB."""
    git = subprocess.Popen(["git", "-C", path, "cat-file", "--batch"], stdin=subprocess.PIPE, stdout=subprocess.PIPE)
    words = [common.program("historytool"), "paths", "objects/info"]
    tool = subprocess.Popen(words, cwd=path, stdin=git.stdout, stdout=subprocess.PIPE)
    git.stdout.close()
    trees = 0
    for line in iter(tool.stdout.readline, b"\n"):
        git.stdin.write(line)
        git.stdin.flush()
        trees += 1
    git.stdin.close()
    tool.stdout.read()
    _, _, own = os.wait4(tool.pid, 0)
    _, _, other = os.wait4(git.pid, 0)
    return own.ru_utime + own.ru_stime, other.ru_utime + other.ru_stime, trees, own.ru_maxrss


if __name__ == "__main__":
    if len(sys.argv) not in (2, 3):
        sys.exit(__doc__)
    sys.exit(main(*sys.argv[1:]))
