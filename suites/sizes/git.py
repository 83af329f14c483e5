"""What Git says of the smaller shapes: that their commit-graphs are right, and which merge bases there are."""

import os
import shutil
import subprocess
import zlib

from sizes import table

MOST_COMMITS = 5000
"""A history with more takes long to hand to Git, commit by commit."""


def check(results, shape):
    """Checks that Git finds the commit-graph of a shape right beside its commits, and names the same merge bases."""
    if shape.count > MOST_COMMITS or shape.plan.padding:
        return
    folder = os.path.join(shape.folder, "repository.git")
    git(None, "init", "--quiet", "--bare", "--object-format=" + shape.kind, folder)
    for number in range(shape.count):
        put_object(folder, shape.plan, number)
    put_graph(folder, shape)
    told = git(folder, "commit-graph", "verify", "--no-progress")
    results.check("%s: Git finds it right" % shape.title(), None if told == (0, "") else "it says %r" % (told,))
    named = git(folder, "merge-base", "--all", *table.asked_bases(shape))
    right = 0, table.bases(shape)
    named = named[0], "".join(sorted(named[1].splitlines(keepends=True)))
    results.check("%s: Git names the same merge bases" % shape.title(), None if named == right else "it names %r" % (named,))
    ahead = git(folder, "rev-list", "--count", shape.plan.hex(shape.first), *("^" + other for other in table.asked_bases(shape)[1:]))
    results.check("%s: and as many commits ahead" % shape.title(), None if ahead == (0, "%d\n" % shape.ahead) else "%r" % (ahead,))
    shutil.rmtree(folder)


def git(folder, *words):
    """The status of Git, and what it writes."""
    options = ["-C", folder] if folder else []
    quiet = {**os.environ, "LC_ALL": "C", "GIT_CONFIG_NOSYSTEM": "1"}
    quiet = {name: value for name, value in quiet.items() if not name.startswith("GIT_DIR")}
    ended = subprocess.run(["git", *options, *words], capture_output=True, text=True, check=False, env=quiet)
    return ended.returncode, ended.stdout + ended.stderr


def put_object(folder, plan, number):
    """Writes the object of a commit."""
    name, contents = plan.hex(number), plan.contents(number)
    place = os.path.join(folder, "objects", name[:2])
    os.makedirs(place, exist_ok=True)
    with open(os.path.join(place, name[2:]), "wb") as file:
        file.write(zlib.compress(b"commit %d\0" % len(contents) + contents, 1))


def put_graph(folder, shape):
    """Puts the commit-graph of a shape where Git looks for it."""
    info = os.path.join(folder, "objects", "info")
    os.makedirs(info, exist_ok=True)
    if os.path.isdir(shape.path):
        shutil.copytree(shape.path, os.path.join(info, "commit-graphs"))
    else:
        shutil.copy(shape.path, os.path.join(info, "commit-graph"))
