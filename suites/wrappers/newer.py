"""Checks questions of `git cgraph` about commits that the commit-graph lacks: which ones Git hands over, where, and what is said beside
the answer. Git is the real one, and the programs are those of programs.py.
"""

import json
import os
import shutil
import tempfile
import zlib

from wrappers.spots import Spot, clear, new_clone, put

MANY = 10_000
"""From so many commits on it is said how answers become fast."""

HOOK = """#!/bin/sh
while read -r old new name; do git cgraph is-ancestor "$old" "$new"; done
"""
"""A hook that says whether a push is a fast-forward."""

DIES = "exec python3 -c 'import os; print(\"%s\", flush=True); os.kill(os.getpid(), 9)'\n" % ("ab" * 20)

ASKS_ON = r"""exec python3 -c '
import sys, time
print("ab" * 20, flush=True)
sys.stdin.read()
for _ in range(3):
    print("cd" * 20, flush=True)
    time.sleep(0.05)
print("\nrefused newer 1 id " + "ab" * 20)
sys.exit(1)'
"""
"""A program that asks for more after Git has ended, and tells then that the entry of the first commit did not come."""


def check_all(results):
    """The checks, each in a repository of its own."""
    with tempfile.TemporaryDirectory() as folder:
        clone, root = new_clone(folder), os.path.join(os.path.realpath(folder), "root")
        os.symlink(shutil.which("python3"), os.path.join(clone.folder, "bin", "python3"))
        os.mkdir(root)
        for check in (check_counts, check_places, check_hook, check_many, check_progress, check_failures, check_ended):
            check(results, Spot(clone, root, "plain"))
            clear(root)
        results.check("git cgraph, of newer commits, nothing is left over", clone.left_over())


def object_of(answer):
    """The object of an answer with `--json`."""
    return json.loads(answer.out)


def check_counts(results, spot):
    """How many commits are read: those that the commit-graph lacks, and that a commit of the question leads to."""
    for title, make, count in (
        ("of a new commit-graph", spot.write, 0),
        ("of two commits later", lambda: [spot.git("commit", "-q", "--allow-empty", "-m", text) for text in ("one", "two")], 2),
        ("without a commit-graph", lambda: os.remove(spot.path("commit-graph")), 8),
    ):
        make()
        for words in (["is-ancestor", "main~3", "main"], ["walk", "main", "main~3"], ["merge-base", "main", "main~1", "main~2"]):
            for options in (["--json"], ["--json", "--unchecked"]):
                answer = spot.ask(words[0], *options, *words[1:])
                right = answer.status == 0 and not answer.err and object_of(answer)["newer"] == count
                results.check("git cgraph %s %s, %s" % (words[0], " ".join(options), title), None if right else "it is %r" % (answer,))
    answer = spot.ask("is-ancestor", "--graph-only", "main~3", "main")
    right = answer.status == 128 and "there is no commit-graph" in answer.err
    results.check("git cgraph is-ancestor --graph-only, without a commit-graph", None if right else "it is %r" % (answer,))


def check_places(results, spot):
    """In a clone, a fork, a worktree, and by -C, the commits are those of the repository that is asked."""
    new, fork, tree = (os.path.join(spot.root, name) for name in ("a new clone", "a fork", "a tree"))
    spot.write()
    spot.git("commit", "-q", "--allow-empty", "-m", "later")
    spot.git("clone", "-q", "file://" + spot.folder, new)
    spot.git("clone", "-q", "-s", spot.folder, fork)
    spot.git("worktree", "add", "-q", "-b", "side", tree)
    for title, folder, count in (("a new clone", new, 7), ("a fork", fork, 1), ("a worktree", tree, 1)):
        answer = spot.run("git", "-C", folder, "cgraph", "is-ancestor", "--json", "HEAD~4", "HEAD")
        right = answer.status == 0 and object_of(answer)["newer"] == count
        results.check("git cgraph is-ancestor, in " + title, None if right else "it is %r" % (answer,))


def check_hook(results, spot):
    """In a hook that runs before objects are taken, the commits that are pushed are read where they wait."""
    spot.write()
    bare = os.path.join(spot.root, "pushed to.git")
    spot.git("clone", "-q", "--bare", spot.folder, bare)
    put(os.path.join(bare, "hooks", "pre-receive"), HOOK.encode())
    os.chmod(os.path.join(bare, "hooks", "pre-receive"), 0o755)
    spot.git("commit", "-q", "--allow-empty", "-m", "pushed")
    answer = spot.run("git", "push", "-q", bare, "main", cwd=spot.folder)
    right = answer.status == 0 and "remote: yes" in answer.err
    results.check("git cgraph is-ancestor, in a hook", None if right else "it is %r" % (answer,))


def check_many(results, spot):
    """Where many commits are read, it is said what makes that fast."""
    lines = ("commit refs/heads/many\ncommitter A <a@example.com> %d +0000\ndata 0\n\n" % at for at in range(MANY))
    spot.run("git", "fast-import", "--quiet", cwd=spot.folder, input="".join(lines).encode())
    for title, options, words in (
        ("none", [], "as there is no commit-graph; this makes it fast: git commit-graph write --reachable\n"),
        ("quiet", ["-q"], ""),
    ):
        answer = spot.ask("is-ancestor", *options, "many~2", "many")
        right = answer.status == 0 and (answer.err.endswith(words) if words else not answer.err)
        results.check("git cgraph is-ancestor, of many commits, " + title, None if right else "it is %r" % (answer,))
    answer = spot.ask("is-ancestor", "--json", "many~2", "many~1")
    right = answer.status == 0 and "warnings" not in object_of(answer) and not answer.err
    results.check("git cgraph is-ancestor, of not so many commits", None if right else "it is %r" % (answer,))


def check_progress(results, spot):
    """The line that says how many commits were read."""
    answer = spot.ask("is-ancestor", "--progress", "main~2", "main")
    right = answer.out == "yes\n" and answer.err.endswith("Reading newer commits: 6, done.\n")
    results.check("git cgraph is-ancestor --progress", None if right else "it is %r" % (answer,))


def check_failures(results, spot):
    """A program that ends while it asks, one that asks for what is not there, and a Git that does not read."""
    clone = spot.clone
    clone.put_program("historytool", DIES, asks=True)
    answer = spot.ask("is-ancestor", "main~1", "main")
    right = answer.status == 137 and "git cgraph: ended by signal 9\n" in answer.err
    results.check("git cgraph is-ancestor, the program is killed while it asks", None if right else "it is %r" % (answer,))
    spot.put_programs()
    answer = spot.ask("is-ancestor", "main", "ab" * 20)
    right = answer.status == 128 and "ab" * 20 in answer.err
    results.check("git cgraph is-ancestor, of no commit", None if right else "it is %r" % (answer,))


def check_ended(results, spot):
    """Where Git ends at an object that it cannot read, no id that is still asked for is taken for the answer."""
    broken = os.path.join(spot.common, "objects", "ab", "ab" * 19)
    put(broken, zlib.compress(b"commit 9\0parent ab")[:-7])
    spot.clone.put_program("historytool", ASKS_ON, asks=True)
    answer = spot.ask("is-ancestor", "main~1", "main")
    right = answer.status == 128 and "ab" * 20 in answer.err and "cd" * 20 not in answer.out + answer.err
    results.check("git cgraph is-ancestor, Git ends while it is asked", None if right else "it is %r" % (answer,))
    spot.put_programs()
