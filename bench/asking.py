#!/usr/bin/env python3
"""Measures `historytool ask`: what a question costs in one run of many, what the library's own calls take and what Git takes for
as many, and what `reload` takes.

usage: python3 bench/asking.py FOLDER [NUMBER]

FOLDER keeps the million commits of bench/topics.py and a program for further runs; making them takes minutes. NUMBER is how
many questions are asked in one run, 100,000 without it, and a tenth of that for merge bases. The pairs are of the newest 1,000
commits.

A line a kind of question, in microseconds for one. The first number is processor time of the program itself, so beside reading
and writing, which the system does. The second is all processor time. Of both, the least of some runs with questions less the
least of some without any. The third is that of the library's own calls that find the same, by bench/asking/main.rt.txt, which
is proved and built by LLVM: both ids are looked up, and the ids of a walk's commits and of merge bases are taken. Then the
ratio of the first to it. Runs of both are made in turn. Then what Git takes for one, in all its processor time and in elapsed
time: `git cat-file --batch-command` in one process, `git merge-base --is-ancestor` and `git merge-base --all` in a process
each, for the first 2,000 pairs. Between them, how much memory a run needs at most, with few questions and with ten times as
many.

Then `reload`: a chain of ten layers with a million commits gets a layer of 1,000. The processor time that this takes, of the
program itself and in all, beside that of a run that opens and checks the eleven layers; the least of some. And how many
milliseconds pass until the answer comes.
"""

import os
import random
import shutil
import subprocess
import sys
import tempfile
import time

import common
from topics import Made, commit_command

from histories import repository, shapes

RUNS = 5
NEAR = 1000
LATER = 1000
"""So many commits are in the layer that is new."""
SLOWER = 10
"""For merge bases so many times fewer questions are asked."""
PROCESSES = 2000
"""For so many pairs Git is asked in a process each."""
LIBRARIES = ["gix_hash_core", "gix_commitgraph", "graph_history", "anyhow"]


def main(folder, number="100000"):
    """Prints the figures."""
    folder, number = os.path.abspath(folder), int(number)
    made, chance = Made(folder), random.Random(5)
    path = made.layer()[0]
    near = [chance.choices(made.ids[-NEAR:], k=2) for _ in range(number)]
    singles = chance.choices(made.ids, k=number)
    program, calls = common.program("historytool"), common.our_program(folder, "asking", LIBRARIES)
    common.print_load()
    with tempfile.TemporaryDirectory() as scratch:
        pairs = os.path.join(scratch, "pairs-%d")
        for count in (0, number // SLOWER, number):
            with open(pairs % count, "wb") as target:
                target.write(bytes.fromhex("".join(map("".join, near[:count]))))
        print("%-34s %8s %8s %8s %7s" % ("us", "own", "all", "library", "ratio"))
        for word, asked in (("find", singles), ("parents", singles), ("is-ancestor", near), ("walk", near), ("merge-base", near)):
            count = number // SLOWER if word == "merge-base" else number
            lines = "".join("%s %s\n" % (word, ids if asked is singles else " ".join(ids)) for ids in asked[:count])
            runs = [([program, "ask", path], text) for text in (lines, "")]
            if asked is near:
                runs += [([calls, word, file, path], "") for file in (pairs % count, pairs % 0)]
            some, none, *found = least(runs)
            ours = beyond(some, none, count)
            if asked is singles:
                print("%-34s %8.2f %8.2f" % (word, *ours), flush=True)
                continue
            own = beyond(*found, count)[0]
            print("%-34s %8.2f %8.2f %8.2f %7.2f" % (word, *ours, own, ours[0] / own), flush=True)
    print_memory(program, path, near)
    print_git(made, singles, near)
    print_reload(program, *grown(folder, made))


def beyond(some, none, number):
    """The microseconds of one of so many, of both times, beyond those of a run without any."""
    return [1e6 * (one - other) / number for one, other in zip(some, none)]


def least(runs):
    """For each of these commands with its input, which are run in turn, the least processor seconds of some runs: of the program
    itself, and in all."""
    taken = [[used(*run) for run in runs] for _ in range(RUNS)]
    return [[min(times[place][at] for times in taken) for at in range(2)] for place in range(len(runs))]


def used(command, text):
    """The processor seconds of one run: of the program itself, in all, and the seconds that pass; and its KiB of memory at most."""
    with tempfile.TemporaryFile() as file:
        file.write(text.encode())
        file.seek(0)
        start = time.perf_counter()
        run = subprocess.Popen(command, stdin=file, stdout=subprocess.DEVNULL)
        _, status, usage = os.wait4(run.pid, 0)
        run.returncode = os.waitstatus_to_exitcode(status)
        if run.returncode > 1:
            raise RuntimeError("%s: status %d" % (command, run.returncode))
        return usage.ru_utime, usage.ru_utime + usage.ru_stime, time.perf_counter() - start, usage.ru_maxrss


def print_memory(program, path, near):
    """How many KiB a run of all kinds of questions about pairs needs at most, of a hundredth of the pairs and of a tenth."""
    peaks = []
    for count in (len(near) // 100, len(near) // 10):
        lines = ["%s %s\n" % (word, " ".join(ids)) for ids in near[:count] for word in ("is-ancestor", "walk", "merge-base")]
        peaks.append(used([program, "ask", path], "".join(lines))[3])
    print("KiB at most, %d and %d questions: %d and %d" % (3 * (len(near) // 100), 3 * (len(near) // 10), *peaks), flush=True)


def print_git(made, singles, near):
    """What Git takes for one."""
    git = ["git", "-C", made.folder]
    command = [*git, "cat-file", "--batch-command"]
    some, none = least([(command, "".join("info %s\n" % one for one in singles)), (command, "")])
    print("%-34s %8.2f %8.2f" % ("git cat-file --batch-command, info", *beyond(some, none, len(singles))), flush=True)
    for words in (["--is-ancestor"], ["--all"]):
        runs = [used([*git, "merge-base", *words, *pair], "") for pair in near[:PROCESSES]]
        taken = [1e6 * sum(run[at] for run in runs) / PROCESSES for at in range(3)]
        print("%-34s %8.0f %8.0f    elapsed %.0f" % ("git merge-base %s, a process" % words[0], *taken), flush=True)


def grown(folder, made):
    """The path of an info folder with the chain of a million commits, and a layer of some more on top; its chain file without
    that layer, and with it."""
    path = os.path.join(folder, "grown.git")
    info = os.path.join(path, "objects", "info")
    chain = os.path.join(info, "commit-graphs", "commit-graph-chain")
    if not os.path.exists(chain + ".more"):
        shutil.rmtree(path, ignore_errors=True)
        made_anew = repository.Repository(path, "sha1")
        with open(os.path.join(info, "alternates"), "w") as file:
            file.write(os.path.join(made.folder, "objects") + "\n")
        shutil.copytree(made.folder + ".chain", os.path.join(info, "commit-graphs"))
        shutil.copyfile(chain, chain + ".less")
        stream = []
        for place, commit in enumerate(shapes.linear(LATER)):
            command = commit_command(place, commit)
            stream.append(command if place else command.replace(b"data 0", b"data 0\nfrom " + made.ids[-1].encode()))
        made_anew.git("fast-import", "--quiet", stdin=b"".join(stream))
        made_anew.write_graph("--split=no-merge", tips=[made_anew.git("rev-parse", "refs/heads/work").decode().strip()])
        shutil.copyfile(chain, chain + ".more")
    return info, [open(chain + end, "rb").read() for end in (".less", ".more")], chain


def print_reload(program, info, texts, chain):
    """What it takes to open the chain anew where it has a layer more."""
    def put(text):
        with open(chain + ".new", "wb") as file:
            file.write(text)
        os.replace(chain + ".new", chain)

    put(texts[1])
    whole = [used([program, "ask", info], "") for _ in range(RUNS)]
    put(texts[0])
    with subprocess.Popen([program, "ask", info], stdin=subprocess.PIPE, stdout=subprocess.PIPE) as run:
        def answer():
            lines = [run.stdout.readline(), run.stdout.readline()]
            return lines[0]

        def reload(text):
            put(text)
            before, start = ticks(run.pid), time.perf_counter()
            run.stdin.write(b"reload\n")
            run.stdin.flush()
            told = answer()
            taken = time.perf_counter() - start
            return told, [now - then for now, then in zip(ticks(run.pid), before)] + [taken]

        answer()
        found = []
        for _ in range(4 * RUNS):
            told, taken = reload(texts[1])
            found.append(taken)
            assert told.startswith(b"ok commits "), told
            reload(texts[0])
        run.stdin.close()
    each = [sum(taken[at] for taken in found) / len(found) for at in range(2)] + [min(taken[2] for taken in found)]
    all_of = [min(run[at] for run in whole) for at in range(3)]
    print("%-34s %8s %8s %8s" % ("ms", "own", "all", "elapsed"))
    for title, times in (("opening and checking", all_of), ("reload, a layer of %d more" % LATER, each)):
        print("%-34s %8.1f %8.1f %8.1f" % (title, *(1e3 * one for one in times)))
    print("%-34s %8.3f %8.3f %8.3f" % ("ratio", *(one / other for one, other in zip(each, all_of))), flush=True)


def ticks(process):
    """The processor seconds that a process has taken so far: of the program itself, and in all."""
    with open("/proc/%d/stat" % process) as file:
        words = file.read().rsplit(")", 1)[1].split()
    own, system = (int(word) / os.sysconf("SC_CLK_TCK") for word in words[11:13])
    return own, own + system


if __name__ == "__main__":
    if len(sys.argv) not in (2, 3):
        sys.exit(__doc__)
    main(*sys.argv[1:])
