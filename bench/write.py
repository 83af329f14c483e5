#!/usr/bin/env python3
"""Measures `git cgraph write` beside `git commit-graph write --reachable`, and `historytool write` beside `git cat-file`, over a
million commits.

usage: python3 bench/write.py FOLDER

FOLDER keeps the repository: the history of bench/topics.py in one pack, as `git repack -adfk` makes it, with a branch at each
commit that has no child; making it takes some minutes. Seconds of processor time and of elapsed time, each the least of all
runs, which take turns: of the commit-graph in one file, and of a layer of a thousand new commits on top of that file, which
both write as Git's rule has it. The files have to be the same, bit by bit. Then of `historytool write`, which reads the stream
of all commits from a file, and of `git cat-file`, which writes that stream.
"""

import os
import subprocess
import sys

import common
import objects
import processes
import topics

from histories import repository, shapes

RUNS = 3
NEW = 1000
"""So many commits are new in the second figure."""

GRAPHS = "objects/info"


def main(folder):
    """Prints the figures."""
    folder = os.path.abspath(folder)
    os.makedirs(folder, exist_ok=True)
    path = os.path.join(folder, "written.git")
    if not os.path.exists(os.path.join(path, "made")):
        make(path)
    common.print_load()
    ours = [os.path.join(common.TOP, "git-cgraph"), "-C", path, "write"]
    gits = ["git", "-C", path, "-c", "commitGraph.generationVersion=2", "commit-graph", "write", "--no-progress", "--reachable"]
    compare("one file", path, ours, gits, None)
    compare_streams(folder, path)
    old = os.path.join(folder, "old-graph")
    write_old(path, gits[:-1], old)
    compare("a layer of %d commits" % NEW, path, ours + ["--split"], gits + ["--split"], old)


def make(path):
    """Makes the repository."""
    history = shapes.topics(topics.COMMITS, seed=9, disorder=0.01, roots=0)
    repository.Repository(path, "sha1")
    childless = set(range(len(history))) - {parent for commit in history for parent in commit.parents}
    with subprocess.Popen(["git", "-C", path, "fast-import", "--quiet"], stdin=subprocess.PIPE) as run:
        for place, commit in enumerate(history):
            run.stdin.write(topics.commit_command(place, commit))
        for place in sorted(childless):
            run.stdin.write(b"reset refs/heads/tip-%d\nfrom :%d\n\n" % (place, place + 1))
        run.stdin.close()
    subprocess.check_call(["git", "-C", path, "pack-refs", "--all"])
    subprocess.check_call(["git", "-C", path, "repack", "-adfkq"])
    with open(os.path.join(path, "made"), "wb"):
        pass


def write_old(path, words, old):
    """Has Git write the commit-graph of all commits but the newest thousand."""
    listed = subprocess.check_output(["git", "-C", path, "rev-list", "--date-order", "--glob=refs/*"], text=True)
    clear(path)
    tips = "".join(commit + "\n" for commit in listed.split()[NEW:])
    subprocess.run([*words, "--stdin-commits"], input=tips, text=True, check=True)
    os.replace(os.path.join(path, GRAPHS, "commit-graph"), old)


def clear(path):
    """Removes the commit-graph."""
    subprocess.check_call(["rm", "-rf", os.path.join(path, GRAPHS, "commit-graph"), os.path.join(path, GRAPHS, "commit-graphs")])


def compare(figure, path, ours, gits, old):
    """Prints the figures of both commands, which begin with a commit-graph of one file, or with none."""
    runs, files = {"ours": [], "Git": []}, {}
    for _ in range(RUNS):
        for name, command in (("ours", ours), ("Git", gits)):
            clear(path)
            if old:
                os.link(old, os.path.join(path, GRAPHS, "commit-graph"))
            runs[name].append(processes.measured(command, None))
            files[name] = files_below(os.path.join(path, GRAPHS))
    best = {name: processes.best_of(taken) for name, taken in runs.items()}
    for name, run in best.items():
        print("%-24s %-5s %8.3f s of processor time, %8.3f elapsed" % (figure, name, run.processor, run.elapsed))
    same = "the same files" if files["ours"] == files["Git"] else "OTHER FILES"
    print("%-24s %.2f of Git's elapsed time, %s" % (figure, best["ours"].elapsed / best["Git"].elapsed, same))


def compare_streams(folder, path):
    """Prints the figures of the stream of all commits. The commit-graph is Git's one file."""
    ids, stream, layer = (os.path.join(folder, name) for name in ("ids", "stream", "layer"))
    objects.write(ids, ["git", "-C", path, "rev-list", "--all"])
    objects.write(stream, objects.cat_file(path), ids)
    ours, gits = [common.program("historytool"), "write"], objects.cat_file(path)
    objects.write(layer, ours, stream)
    runs = [(processes.measured(ours, stream), processes.measured(gits, ids)) for _ in range(RUNS)]
    best = list(map(processes.best_of, zip(*runs)))
    for name, run in zip(("historytool write", "git cat-file"), best):
        row = (name, run.processor, run.elapsed, run.memory / 1e6)
        print("%-30s %8.3f s of processor time, %8.3f elapsed, %4.0f MB" % row)
    same = "the same file" if bytes_of(layer) == bytes_of(os.path.join(path, GRAPHS, "commit-graph")) else "ANOTHER FILE"
    print("%-30s %.2f of Git's processor time, %s" % ("", best[0].processor / best[1].processor, same))


def bytes_of(path):
    """The bytes of a file."""
    with open(path, "rb") as file:
        return file.read()


def files_below(folder):
    """The files below a folder, with their bytes."""
    found = {}
    for at, _, names in os.walk(folder):
        for name in names:
            found[name] = bytes_of(os.path.join(at, name))
    return found


if __name__ == "__main__":
    if len(sys.argv) != 2:
        sys.exit(__doc__)
    main(sys.argv[1])
