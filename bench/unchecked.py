#!/usr/bin/env python3
"""Measures questions about a graph that is not checked, as processes beside those of Git.

usage: python3 bench/unchecked.py FOLDER [COMMITS ..]

FOLDER keeps the three histories of bench/topics.py, a million commits each, for further runs; making one takes minutes. A line
a history and a kind of pairs, of the newest 1,000 commits, of the newest 20,000 and of all, in milliseconds a process: the
elapsed and the processor time of `historytool is-ancestor --unchecked`, those of `git merge-base --is-ancestor`, the ratios of
both, and of the processor times the greatest ratio of one pair. The processes take turns, and all is read once before. Each
has to answer as Git does. The rows `merge-base` are `historytool merge-base-ids --unchecked` beside
`git merge-base --all`. A row `git cgraph` is `git cgraph is-ancestor --unchecked`, which finds the
commit-graph and the ids, and the row `rev-parse` one call of Git for that. The row `git cgraph verify` stands beside
`graphtool verify`, and the row `git cgraph --version` alone: what `git cgraph` adds to a program. It is installed in FOLDER.

For each number COMMITS, a layer of so many commits by bench/processes/random_layer.rs, and ours alone.
"""

import os
import random
import shutil
import subprocess
import sys
import time

import common
from processes import random_layer
from topics import COMMITS, HISTORIES, Made

PAIRS = {"newest 1,000": (1000, 300), "newest 20,000": (20_000, 100), "any": (COMMITS, 40)}
"""Of so many of the newest commits so many pairs are asked for."""
CHECKS = 10
"""So often the whole is checked in a round."""
ROUNDS = 3
"""How often each pair is asked for. The least time counts."""


def main(folder, *sizes):
    """Prints the figures, and answers the exit status."""
    folder = os.path.abspath(folder)
    os.makedirs(folder, exist_ok=True)
    install(folder)
    common.print_load()
    print("%-40s %9s %9s %9s %9s %7s %7s %7s" % ("ms", "elapsed", "own", "Git", "own", "ratio", "own", "most"))
    agreed = [report_pairs(Made(folder, history), kind) for history in HISTORIES for kind in PAIRS]
    agreed.append(report_wrapper(Made(folder)))
    for size in map(int, sizes):
        report_size(folder, size)
    return 0 if all(agreed) else 1


def report_pairs(made, kind):
    """Prints the lines of a kind of pairs of a history, and answers whether ours and Git say the same."""
    newest, count = PAIRS[kind]
    chance, info, git = random.Random(7), os.path.join(made.folder, "objects", "info"), ["git", "-C", made.folder]
    pairs = [chance.choices(made.ids[-newest:], k=2) for _ in range(count)]
    program, same = common.program("historytool"), True
    for name, ours, theirs in (("is-ancestor", "is-ancestor", "--is-ancestor"), ("merge-base", "merge-base-ids", "--all")):
        own = [[program, ours, "--unchecked", info, *pair] for pair in pairs]
        other = [[*git, "merge-base", theirs, *pair] for pair in pairs]
        same = report("%s: %s, %s" % (made.history, name, kind), own, other) and same
    return same


def report_wrapper(made):
    """Prints what `git cgraph` adds to a program, and answers whether it says the same."""
    chance, git = random.Random(7), ["git", "-C", made.folder]
    pairs = [chance.choices(made.ids[-1000:], k=2) for _ in range(50)]
    cgraph = [[*git, "cgraph", "is-ancestor", "--unchecked", *pair] for pair in pairs]
    same = report("git cgraph is-ancestor", cgraph, [[*git, "merge-base", "--is-ancestor", *pair] for pair in pairs])
    names = [[*git, "rev-parse", "--git-path", "objects/info", *pair] for pair in pairs]
    report("git rev-parse", names, names)
    verify = [[common.program(), "verify", os.path.join(made.folder, "objects", "info")]] * CHECKS
    same = report("git cgraph verify", [[*git, "cgraph", "verify"]] * CHECKS, verify) and same
    report("git cgraph --version", [["git", "cgraph", "--version"]] * CHECKS, [])
    return same


def report_size(folder, size):
    """Prints the lines of a layer of so many commits."""
    program, path, chance = common.program("historytool"), random_layer(folder, size), random.Random(7)
    for kind, (newest, count) in PAIRS.items():
        numbers = range(max(0, size - newest), size) if newest < COMMITS else range(size)
        pairs = [[commit_id(number) for number in chance.choices(numbers, k=2)] for _ in range(count)]
        report("%d, %s" % (size, kind), [[program, "is-ancestor", "--unchecked", path, *pair] for pair in pairs], [])


def report(figure, ours, theirs):
    """Prints a line, and answers whether both say the same of each pair."""
    for command in (*ours, *theirs):
        taken(command)
    runs = [[(taken(own), taken(other)) for own, other in zip(ours, theirs or ours)] for _ in range(ROUNDS)]
    least = [[[min(run[at][who][part] for run in runs) for part in (1, 2)] for who in (0, 1)] for at in range(len(ours))]
    own, other = [[sum(1000 * pair[who][part] for pair in least) / len(ours) for part in (0, 1)] for who in (0, 1)]
    print("%-40s %9.2f %9.2f" % (figure, *own), end="")
    if theirs:
        most = max(pair[0][1] / pair[1][1] for pair in least)
        print(" %9.2f %9.2f %7.2f %7.2f %7.2f" % (*other, own[0] / other[0], own[1] / other[1], most), end="")
    print(flush=True)
    return all(first[0] == second[0] for first, second in runs[0]) or not theirs


def taken(command):
    """The status of one run of a command, the seconds that passed, and those of its processor time."""
    path = shutil.which(command[0])
    out = [(os.POSIX_SPAWN_OPEN, stream, os.devnull, os.O_WRONLY, 0) for stream in (1, 2)]
    start = time.perf_counter()
    child = os.posix_spawn(path, command, os.environ, file_actions=out)
    _, status, usage = os.wait4(child, 0)
    return os.waitstatus_to_exitcode(status), time.perf_counter() - start, usage.ru_utime + usage.ru_stime


def install(folder):
    """Installs `git cgraph` below the folder, and has each process find it there."""
    prefix = os.path.join(folder, "installed")
    subprocess.check_call([os.path.join(common.TOP, "building", "install"), prefix], stdout=subprocess.DEVNULL)
    os.environ["PATH"] = os.path.join(prefix, "bin") + ":" + os.environ["PATH"]


def commit_id(number):
    """The id of the commit of a number in a layer of random_layer.rs."""
    return b"".join(mixed(3 * number + part).to_bytes(8, "big") for part in range(3))[:20].hex()


def mixed(number):
    """Sixty-four bits at random, others for each number ("SplitMix64")."""
    whole = 2**64 - 1
    bits = (number + 1) * 0x9E3779B97F4A7C15 & whole
    bits = (bits ^ (bits >> 30)) * 0xBF58476D1CE4E5B9 & whole
    bits = (bits ^ (bits >> 27)) * 0x94D049BB133111EB & whole
    return bits ^ (bits >> 31)


if __name__ == "__main__":
    if len(sys.argv) < 2:
        sys.exit(__doc__)
    sys.exit(main(*sys.argv[1:]))
