"""Checks `git cgraph` in repositories of the kinds that Git knows: a submodule, forks, shallow and partial clones, one in which
nobody may write, a hook, and where commits have other parents for Git.
"""

import os
import re
import shutil
from functools import partial

from checks.case_checks import DENIED, NOBODY
from checks.cgraph_checks import Installed
from histories import shapes
from histories.repository import read_bytes, write_bytes
from wrappers.clone import run
from wrappers.tools import read

COMMITS = 13
"""The commits of each history."""


class Place:
    """A folder in which `git cgraph` is asked, and Git too."""

    def __init__(self, installed, folder, **more):
        path = installed.variables["PATH"] + ":" + os.environ["PATH"]
        trusted = {"safe.directory": "*", "protocol.file.allow": "always", "user.name": "A", "user.email": "a@example.com"}
        self.installed, self.folder, self.variables = installed, folder, {**installed.variables, "PATH": path, **more}
        self.variables["GIT_CONFIG_COUNT"] = str(len(trusted))
        for number, (name, value) in enumerate(trusted.items()):
            self.variables.update({"GIT_CONFIG_KEY_%d" % number: name, "GIT_CONFIG_VALUE_%d" % number: value})

    def at(self, *names):
        """A place in another folder, by its path from here."""
        return Place(self.installed, os.path.realpath(os.path.join(self.folder, *names)))

    def run(self, *command, **streams):
        """The answer of a command."""
        return run(command, self.variables, cwd=self.folder, **streams)

    def git(self, *words):
        """What a git command writes, which has to succeed."""
        answer = self.run("git", *words)
        if answer.status:
            raise RuntimeError("git %s: %s" % (" ".join(words), answer.err))
        return answer.out.strip()

    def ask(self, *words, **streams):
        """The answer of `git cgraph`."""
        return self.run("git", "cgraph", *words, **streams)


def check_all(programs, results, folder, new):
    """The checks for both kinds of hash. All may write where files of a moment are made."""
    installed = Installed(os.path.join(folder, "installed"), programs)
    os.chmod(installed.clone.temporary, 0o777)
    for kind in ("sha1", "sha256"):
        origin = new(kind, "kinds, the origin.git")
        origin.add(shapes.diamonds(4))
        tip = origin.git("for-each-ref", "--format=%(refname)", "refs/heads/tip-*").decode().split()[0]
        origin.git("symbolic-ref", "HEAD", tip)
        origin.git("config", "uploadpack.allowFilter", "true")
        origin.write_graph()
        os.makedirs(os.path.join(folder, kind))
        place = Place(installed, os.path.join(folder, kind))
        for check in (check_submodule, check_forks, check_partial, check_shallow, check_closed, check_hook, check_parents):
            check(results, kind, place, origin.folder)


def check_right(results, title, place, **streams):
    """All questions where all is right: the answers are Git's own, and nothing is said."""
    asked = {
        ("verify",): (0, r"ok commits %d longest 8\n(.*\n)*" % COMMITS),
        ("verify", "--all-checks", "--objects", "-j2"): (0, r"(.*\n)*objects commits %d\n" % COMMITS),
        ("show",): (0, r"layer 0 commits (.*\n)*right\nmissing 0\ngone 0\nunreachable 0\n"),
        ("list",): (0, r"layer (.*\n)*"),
        ("find", "HEAD~3"): (0, r"position \d+ generation 6 time \d+\n"),
        ("is-ancestor", "HEAD~2", "HEAD"): (0, "yes\n"),
        ("is-ancestor", "HEAD", "HEAD~2"): (1, "no\n"),
        ("merge-base", "HEAD^1", "HEAD^2"): (0, place.git("merge-base", "--all", "HEAD^1", "HEAD^2") + "\n"),
        ("walk", "HEAD", "HEAD~1"): (0, "".join(place.git("rev-parse", name) + "\n" for name in ("HEAD", "HEAD~1"))),
    }
    for words, (status, out) in asked.items():
        answer = place.ask(*words, **streams)
        right = answer.status == status and re.fullmatch(out, answer.out) and not answer.err
        results.check("git cgraph %s in %s" % (" ".join(words), title), None if right else "it is %r" % (answer,))


def check_refused(results, title, place, path, words=("verify",)):
    """A bit of a file is changed: the file is named, and by the commands all is right again."""
    content = read_bytes(path)
    os.chmod(path, 0o644)
    write_bytes(path, content[:-1] + bytes([content[-1] ^ 1]))
    answer = place.ask(*words)
    cured = place.run("sh", "-e", "-c", "".join(line + "\n" for line in answer.err.splitlines() if line.startswith("    ")))
    after = place.ask(*words)
    right = answer.status == 1 and "'%s'" % path in answer.err and cured.status == after.status == 0
    results.check("git cgraph in %s, damaged and cured" % title, None if right else "it is %r, %r, %r" % (answer, cured, after))


def check_submodule(results, kind, place, origin):
    """A submodule, whose repository lies below that of the project."""
    place.git("init", "-q", "--object-format=" + kind, "project")
    place.at("project").git("submodule", "--quiet", "add", origin, "sub")
    sub = place.at("project", "sub")
    sub.git("commit-graph", "write", "--reachable")
    check_right(results, "a submodule, " + kind, sub)
    check_refused(results, "a submodule, " + kind, sub, os.path.realpath(sub.folder + "/../.git/modules/sub/objects/info/commit-graph"))


def check_forks(results, kind, place, origin):
    """Forks, which borrow objects and the commit-graph of the origin: in one step, in two, by a path that is relative, and
    beside objects of their own.
    """
    place.git("clone", "-q", "-s", origin, "fork")
    place.git("clone", "-q", "-s", "fork", "fork of the fork")
    place.git("clone", "-q", "--reference", origin, "file://" + origin, "reference")
    shutil.copytree(os.path.join(place.folder, "fork"), os.path.join(place.folder, "relative"))
    objects = os.path.join(place.folder, "relative/.git/objects")
    write_bytes(objects + "/info/alternates", os.path.relpath(origin + "/objects", os.path.realpath(objects)).encode() + b"\n")
    for name in ("fork", "fork of the fork", "reference", "relative"):
        check_right(results, "a clone, %s, %s" % (name, kind), place.at(name))
    fork = place.at("fork")
    fork.git("commit-graph", "write", "--reachable", "--split")
    path = os.path.join(os.path.realpath(origin), "objects/info/commit-graph")
    content = read_bytes(path)
    check_refused(results, "a fork over the origin, " + kind, fork, path)
    left = read_bytes(path) == content[:-1] + bytes([content[-1] ^ 1])
    results.check("git cgraph in a fork, the origin's file is left as it was, " + kind, None if left else "it is another one")
    write_bytes(path, content)
    named = fork.ask("verify", "--object-dir", origin + "/objects")
    results.check("git cgraph verify --object-dir, " + kind, None if named.status == 0 else "it is %r" % (named,))


def check_partial(results, kind, place, origin):
    """A partial clone, which has all commits and no trees: nothing is fetched."""
    place.git("clone", "-q", "--bare", "--filter=tree:0", "file://" + origin, "partial.git")
    partial_clone = place.at("partial.git")
    partial_clone.git("commit-graph", "write", "--reachable")
    partial_clone.git("config", "remote.origin.url", "file:///nowhere")
    check_right(results, "a partial clone, " + kind, partial_clone)


def check_shallow(results, kind, place, origin):
    """A shallow clone, in which Git writes no commit-graph: that is said, also where there is one, and the commands help."""
    place.git("clone", "-q", "--depth=3", "file://" + origin, "shallow")
    shallow = place.at("shallow")
    answer = shallow.ask("verify")
    right = answer[:2] == (128, "refused open 2\n") and "there is no commit-graph" in answer.err and "git fetch --unshallow" in answer.err
    results.check("git cgraph in a shallow clone, " + kind, None if right else "it is %r" % (answer,))
    shutil.copy(origin + "/objects/info/commit-graph", shallow.folder + "/.git/objects/info/commit-graph")
    verified, answer, shown = (shallow.ask(*words) for words in (["verify"], ["is-ancestor", "HEAD~1", "HEAD"], ["show"]))
    said = "git cgraph: this repository is shallow: Git answers as if the commits at its end had no parents\n"
    right = verified.status == 0 and answer == (0, "yes\n", said) and "since this repository is shallow" in shown.err
    results.check("git cgraph in a shallow clone with a commit-graph, " + kind, None if right else "they are %r, %r" % (answer, shown))
    os.remove(shallow.folder + "/.git/objects/info/commit-graph")
    cure = "".join(line + "\n" for line in shallow.ask("verify").err.splitlines() if line.startswith("    "))
    cured, after = shallow.run("sh", "-e", "-c", cure), shallow.ask("verify", "--objects")
    right = cured.status == after.status == 0
    results.check("git cgraph in a shallow clone, cured, " + kind, None if right else "it is %r, %r" % (cured, after))


def check_closed(results, kind, place, origin):
    """A repository in which nobody may write is asked all the same; a folder that may not be entered is told from none."""
    nobody = {"preexec_fn": partial(os.setuid, NOBODY)} if os.geteuid() == 0 else {}
    shutil.copytree(origin, os.path.join(place.folder, "closed.git"))
    closed = place.at("closed.git")
    for at, folders, files in os.walk(closed.folder):
        for name in folders + files:
            os.chmod(os.path.join(at, name), 0o555 if name in folders else 0o444)
    os.chmod(closed.folder, 0o555)
    check_right(results, "a repository that may only be read, " + kind, closed, **nobody)
    for name in ("objects/info", "objects/info/commit-graphs"):
        path = os.path.join(closed.folder, name)
        os.chmod(closed.folder + "/objects/info", 0o755)
        if name.endswith("graphs"):
            os.mkdir(path)
            os.rename(closed.folder + "/objects/info/commit-graph", path + "/commit-graph-chain")
        os.chmod(path, 0)
        answer = closed.ask("verify", **nobody)
        right = answer[:2] == (128, "refused open 2\n") and "the folder '%s' %s" % (path, DENIED) in answer.err
        right = right and "there is no commit-graph" not in answer.err and "    ls -ld '%s'" % path in answer.err
        results.check("git cgraph, %s that may not be entered, %s" % (name, kind), None if right else "it is %r" % (answer,))
        os.chmod(path, 0o755)


def check_hook(results, kind, place, origin):
    """The manual's hook in a repository to which is pushed: it finds the commit-graph, and refuses a push where that is wrong."""
    recipe = re.search(r"In a `pre-receive` hook.*?\n\n    (.*?)\n", read("docs", "MANUAL.md"), re.DOTALL).group(1)
    place.git("clone", "-q", "--bare", origin, "hooked.git")
    place.git("clone", "-q", origin, "pushing")
    hooked, pushing = place.at("hooked.git"), place.at("pushing")
    hooked.git("commit-graph", "write", "--reachable")
    os.makedirs(hooked.folder + "/hooks", exist_ok=True)
    with open(hooked.folder + "/hooks/pre-receive", "w", encoding="utf-8") as file:
        file.write("#!/bin/sh\ncat >/dev/null\ngit cgraph is-ancestor HEAD~1 HEAD && git cgraph verify --objects || exit\n%s\n" % recipe)
    os.chmod(hooked.folder + "/hooks/pre-receive", 0o755)
    pushing.git("commit", "-q", "--allow-empty", "-m", "pushed")
    answer = pushing.run("git", "push", "-q", hooked.folder, "HEAD:refs/heads/new")
    right = answer.status == 0 and "remote: yes" in answer.err and "remote: objects commits %d" % COMMITS in answer.err
    results.check("git cgraph in a pre-receive hook, " + kind, None if right else "it is %r" % (answer,))
    with open(hooked.folder + "/hooks/pre-receive", "w", encoding="utf-8") as file:
        file.write("#!/bin/sh\n%s\n" % recipe)
    graph = hooked.folder + "/objects/info/commit-graph"
    content = read_bytes(graph)
    write_bytes(graph, content[:-1] + bytes([content[-1] ^ 1]))
    answer = pushing.run("git", "push", "-q", hooked.folder, "HEAD:refs/heads/newer")
    right = answer.status == 1 and "the file is '%s'" % graph in answer.err and "pre-receive hook declined" in answer.err
    results.check("git cgraph in a pre-receive hook, damaged, " + kind, None if right else "it is %r" % (answer,))
    os.remove(graph)
    answer = pushing.run("git", "push", "-q", hooked.folder, "HEAD:refs/heads/newer")
    results.check("git cgraph in a pre-receive hook, without a commit-graph, " + kind, None if answer.status == 0 else "it is %r" % (answer,))


def check_parents(results, kind, place, origin):
    """Where commits are replaced, or grafted, names and answers go by the commits themselves, and one line says so."""
    place.git("clone", "-q", origin, "parents")
    parents = place.at("parents")
    parents.git("commit-graph", "write", "--reachable")
    root = parents.git("rev-list", "--max-parents=0", "HEAD")
    line = parents.ask("find", "HEAD~2").out
    before = parents.git("rev-parse", "HEAD~2")
    parents.git("replace", "--graft", "HEAD~1", root)
    for title, said in (("replaced", "some commits are replaced (git replace)"), ("grafted", "'%s/.git/info/grafts'" % parents.folder)):
        named, answer, merged = (parents.ask(*words) for words in (["find", "HEAD~2"], ["is-ancestor", before, "HEAD"], ["merge-base", "HEAD", before]))
        complaint = None
        if named != (0, line, "") or answer[:2] != (0, "yes\n") or merged[:2] != (0, before + "\n"):
            complaint = "they are %r, %r, %r" % (named, answer, merged)
        if [it.err.count("\n") for it in (answer, merged)] != [1, 1] or said not in answer.err:
            complaint = complaint or "it says %r" % answer.err
        results.check("git cgraph, commits that are %s, %s" % (title, kind), complaint)
        if title == "replaced":
            parents.git("replace", "-d", parents.git("rev-parse", "HEAD~1"))
            with open(parents.folder + "/.git/info/grafts", "w", encoding="ascii") as file:
                file.write("%s %s\n" % (parents.git("rev-parse", "HEAD~1"), root))
    os.remove(parents.folder + "/.git/objects/info/commit-graph")
    answer = parents.ask("verify")
    cured = parents.run("sh", "-e", "-c", "".join(line + "\n" for line in answer.err.splitlines() if line.startswith("    ")))
    after = parents.ask("verify")
    right = answer.status == 128 and "convert-graft-file" in answer.err and cured.status == after.status == 0
    results.check("git cgraph, grafts and no commit-graph, " + kind, None if right else "it is %r, %r, %r" % (answer, cured, after))
