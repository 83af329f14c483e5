"""Checks `git cgraph verify --paths` around its programs: which trees Git hands over, what is told and when, and what becomes of it where a
process ends early. Git is the real one, and the programs are those of programs.py, which hold filters against root trees alone.
"""

import json
import os
import shutil
import sys
import tempfile
import zlib

from wrappers.clone import exactly
from wrappers.newer import ASKS_ON, DIES
from wrappers.pasted import clear_filter, without_tree
from wrappers.spots import COMMITS, GRAPH, PROGRAMS, Spot, clear, new_clone, put

VERIFIED = "ok commits %d longest 1\n" % COMMITS
PATHS = "paths commits %d\n" % COMMITS
OBJECTS = "objects commits %d\n" % COMMITS


def check_all(results):
    """The checks, each in a repository of its own."""
    with tempfile.TemporaryDirectory() as folder:
        clone, root = new_clone(folder), os.path.join(os.path.realpath(folder), "root")
        os.symlink(shutil.which("python3"), os.path.join(clone.folder, "bin", "python3"))
        os.mkdir(root)
        for check in (check_right, check_lacking, check_progress, check_failures, check_ended, check_exchanged):
            check(results, Spot(clone, root, "plain"))
            clear(root)
        results.check("git cgraph verify --paths, nothing is left over", clone.left_over())


def check_right(results, spot):
    """What is told where all is right, with and without filters, and beside other options."""
    spot.write()
    results.check("git cgraph verify --paths, no filters", exactly(spot.ask("verify", "--paths"), 0, VERIFIED + "paths none\n", ""))
    spot.write("--changed-paths")
    for options, lines in (
        ([], PATHS),
        (["--objects"], OBJECTS + PATHS),
        (["--objects", "-j2"], OBJECTS + PATHS),
        (["--all-checks"], PATHS),
        (["--all-checks", "--objects"], OBJECTS + PATHS),
        (["-q"], None),
    ):
        out = VERIFIED + lines if lines else ""
        answer = spot.ask("verify", "--paths", *options)
        results.check("git cgraph verify --paths %s" % " ".join(options), exactly(answer, 0, out, ""))
    for options, value in (([], COMMITS), (["--no-changed-paths"], None)):
        spot.write(*options or ["--changed-paths"])
        answer = spot.ask("verify", "--paths", "--json")
        right = answer.status == 0 and not answer.err and json.loads(answer.out)["paths"] == value
        results.check("git cgraph verify --paths --json, %s" % value, None if right else "it is %r" % (answer,))


def check_lacking(results, spot):
    """The first filter that lacks a path, by the commit and the path. Nothing is told of what was found right before."""
    spot.write("--changed-paths")
    clear_filter(spot.path(GRAPH))
    last = COMMITS - 1
    for options in ([], ["--objects"]):
        answer = spot.ask("verify", "--paths", *options)
        told = "the commit at position %d is %s" % (last, sorted(spot.git("rev-list", "main").split())[last])
        right = answer[:2] == (1, 'refused paths 11 position %d path "file0"\n' % last) and told in answer.err
        results.check("git cgraph verify --paths %s, a path that is lacked" % " ".join(options), None if right else "it is %r" % (answer,))
    answer = spot.ask("verify", "--paths", "--json")
    fields = json.loads(answer.out)
    right = answer.status == 1 and fields["error"].startswith("refused paths 11 ") and fields["cure"][-1].endswith(" --changed-paths")
    results.check("git cgraph verify --paths --json, a path that is lacked", None if right else "it is %r" % (answer,))


def check_progress(results, spot):
    """The line that says how many trees were read."""
    spot.write("--changed-paths")
    answer = spot.ask("verify", "--paths", "--progress")
    right = answer.out == VERIFIED + PATHS and answer.err.endswith("Reading trees: %d, done.\n" % COMMITS)
    results.check("git cgraph verify --paths --progress", None if right else "it is %r" % (answer,))


def check_failures(results, spot):
    """A program that ends while it asks, one that knows no such command, and a graph that is wrong."""
    spot.write("--changed-paths")
    for title, program, status, said in (
        ("the program is killed while it asks", DIES, 137, "git cgraph: ended by signal 9\n"),
        ("of a program without it", "exit 2\n", 128, ""),
        ("of a program that says nothing", "echo\n", 128, "git cgraph: the answer could not be written\n"),
    ):
        spot.clone.put_program("historytool", program, asks=True)
        answer = spot.ask("verify", "--paths")
        right = answer[:2] == (status, "") and said in answer.err
        results.check("git cgraph verify --paths, %s" % title, None if right else "it is %r" % (answer,))
        spot.put_programs()
    put(spot.path(GRAPH), b"no commit-graph")
    answer = spot.ask("verify", "--paths")
    right = answer[:2] == (1, "refused open 5 layer 0 file 1\n")
    results.check("git cgraph verify --paths, of a commit-graph that is wrong", None if right else "it is %r" % (answer,))


def check_ended(results, spot):
    """Where Git ends at an object that it cannot read, no id that is still asked for is taken for the answer."""
    spot.write("--changed-paths")
    broken = os.path.join(spot.common, "objects", "ab", "ab" * 19)
    put(broken, zlib.compress(b"tree 9\0" + b"1" * 9)[:-7])
    spot.clone.put_program("historytool", ASKS_ON.replace("refused newer 1", "refused paths 1 position 0"), asks=True)
    answer = spot.ask("verify", "--paths")
    right = answer[:2] == (1, "refused paths 1 position 0 id %s\n" % ("ab" * 20)) and "cd" * 20 not in answer.out + answer.err
    results.check("git cgraph verify --paths, Git ends while it is asked", None if right else "it is %r" % (answer,))
    spot.put_programs()
    for title, content, told in (("missing", None, "the tree is missing"), ("damaged", b"no object", "the object is '")):
        without_tree(content)(spot)
        answer = spot.ask("verify", "--paths")
        tree = spot.git("log", "-1", "--format=%T", "main~2")
        right = answer.status == 1 and answer.out.startswith("refused paths 4 ") and tree in answer.out and told in answer.err
        results.check("git cgraph verify --paths, a tree that is %s" % title, None if right else "it is %r" % (answer,))


def check_exchanged(results, spot):
    """A commit-graph that is exchanged meanwhile for another one is asked about once more."""
    spot.write("--changed-paths")
    name = os.path.join(spot.root, "was asked")
    exchange = 'case "$1" in paths) [ -e "%s" ] || { : >"%s"; cp "%s" "%s.new"; mv "%s.new" "%s"; } ;; esac\n' % (
        (name, name) + (spot.path(GRAPH),) * 4
    )
    own = "exec '%s' '%s' historytool \"$@\"\n" % (sys.executable, PROGRAMS)
    spot.clone.put_program("historytool", exchange + own, asks=True)
    answer = spot.ask("verify", "--paths")
    right = exactly(answer, 0, VERIFIED + PATHS, "") is None and os.path.exists(name)
    results.check("git cgraph verify --paths, of a graph that is exchanged meanwhile", None if right else "it is %r" % (answer,))
    spot.put_programs()
