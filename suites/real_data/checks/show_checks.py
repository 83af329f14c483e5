"""Checks `show`: graphs that Git writes, and some that were damaged after that; and `git cgraph show`, with what it says of the
files, and how much of a repository the commit-graph covers.
"""

import os

from damage.layer import sealed
from expected import judge, shown
from expected.facts import verified
from histories import shapes
from histories.repository import ID_LENGTH, read_bytes, write_bytes
from wrappers.clone import run
from wrappers.json_answers import difference

PERSON = ("-c", "user.name=A", "-c", "user.email=a@example.com")


def check_kind(histories, results, new):
    """The checks of the program; a new repository comes from a function of its name."""
    check_files(histories, results, new("shown"))
    check_chain(histories, results, new("shown, a chain"))


def check_one(histories, results, repository, name, layers, said=None):
    """The answer for the graph that stands there, of these layers."""
    said = verified(repository.words()) if said is None else said
    text = shown.shown(said, layers, repository.object_format)
    status = int("\nrefused" in text)
    complaint = judge.exactly(status, text, "", histories.show(repository.info_path()))
    results.check("%s, show, %s" % (repository.object_format, name), complaint)


def check_files(histories, results, repository):
    """Files with dates or without, with filters or without, with long lists of parents, and damaged ones."""
    repository.add(shapes.tangled(24, seed=3))
    for version in (1, 2):
        for flags in ([], ["--changed-paths"]):
            layer = repository.new_graph(*flags, generation_version=version)
            check_one(histories, results, repository, "version %d %s" % (version, " ".join(flags)), [layer])
    kind = repository.object_format
    for name, change in (
        ("one bit of the checksum", lambda layer: layer[:-1] + bytes([layer[-1] ^ 1])),
        ("filters of no version", lambda layer: sealed(other_version(layer), kind)),
    ):
        damaged = change(layer)
        write_bytes(repository.graph_path(), damaged)
        said = "refused verify 4 layer 0 fault 1\n" if "checksum" in name else None
        check_one(histories, results, repository, name, [damaged], said)


def other_version(layer):
    """A layer whose filters have the version 9."""
    entry = layer.index(b"BDAT")
    at = int.from_bytes(layer[entry + 4 : entry + 12], "big")
    return layer[:at] + bytes([0, 0, 0, 9]) + layer[at + 4 :]


def check_chain(histories, results, repository):
    """Chains of one layer to three."""
    history = shapes.tangled(24, seed=5)
    for stop in (8, 16, 24):
        repository.add(history[:stop], stop - 8)
        repository.write_graph("--split=no-merge", *(["--changed-paths"] if stop == 16 else []))
        layers = [layer for _, layer in repository.chain()]
        check_one(histories, results, repository, "a chain of %d layers" % len(layers), layers)


def check_told(installed, results, folder, bare, way):
    """`git cgraph show` in a bare repository, in one with files and in a linked worktree, from one state to the next; a way
    comes from a function of a folder.
    """
    bare.add(shapes.diamonds(3))
    bare.git("symbolic-ref", "HEAD", bare.git("for-each-ref", "--format=%(refname)").decode().split()[0])
    os.mkdir(folder)
    plain, linked = os.path.join(folder, "plain"), os.path.join(folder, "linked")
    installed.git(way(folder), "clone", "-q", bare.folder, plain)
    installed.git(way(plain), "worktree", "add", "-q", "--detach", linked)
    for flags in ([], ["--split", "--changed-paths"]):
        for title, at, objects in (
            ("bare", bare.folder, os.path.join(bare.folder, "objects")),
            ("plain", plain, os.path.join(plain, ".git/objects")),
            ("linked", linked, os.path.join(plain, ".git/objects")),
        ):
            place = Place(installed, way(at), os.path.realpath(objects), bare.object_format)
            place.write(flags)
            states(results, " ".join(["git cgraph show,", bare.object_format, title, *flags]), place)


class Place:
    """A repository, by a way to name it, and its object folder."""

    def __init__(self, installed, way, objects, kind):
        self.installed, self.way, self.objects, self.kind = installed, way, objects, kind

    def git(self, *words):
        """What Git says there, with no commit-graph."""
        answer = self.installed.git(self.way, *PERSON, *words)
        if answer.status:
            raise RuntimeError("git %s: %s" % (" ".join(words), answer.err))
        return answer.out

    def run(self, *command):
        """The answer of a command there."""
        return run(command, self.installed.variables, cwd=self.way.folder)

    def write(self, flags):
        """Has Git write a commit-graph in the place of any other."""
        info = os.path.join(self.objects, "info")
        self.run("rm", "-rf", info + "/commit-graph", info + "/commit-graphs")
        self.run("git", "commit-graph", "write", "--reachable", "--no-progress", *flags)

    def files(self):
        """The paths of its layers, the lowest first."""
        info = os.path.join(self.objects, "info")
        if os.path.exists(os.path.join(info, "commit-graph")):
            return [os.path.join(info, "commit-graph")]
        names = read_bytes(os.path.join(info, "commit-graphs/commit-graph-chain")).decode().split()
        return [os.path.join(info, "commit-graphs/graph-%s.graph" % name) for name in names]

    def expected(self):
        """What `git cgraph show` has to write: the commits by Git's own lists, and those of the layers by their bytes."""
        files, size = self.files(), ID_LENGTH[self.kind]
        layers = [read_bytes(file) for file in files]
        more = ["size %d file %s\n" % (len(layer), file) for layer, file in zip(layers, files)]
        more.append("size %d\n" % sum(map(len, layers)))
        stored = {commit for layer in layers for commit in ids_in(layer, size)}
        reachable = set(self.git("rev-list", "--all").split())
        objects = self.git("cat-file", "--batch-all-objects", "--batch-check=%(objectname) %(objecttype)").split("\n")
        there = {line.split()[0] for line in objects if line.endswith(" commit")}
        counts = len(reachable - stored), len(stored - there), len((stored & there) - reachable)
        return shown.shown("right\n", layers, self.kind, more) + "missing %d\ngone %d\nunreachable %d\n" % counts, counts


def ids_in(layer, size):
    """The ids of a layer in hexadecimal."""
    entry = layer.index(b"OIDL")
    at, end = (int.from_bytes(layer[entry + start : entry + start + 8], "big") for start in (4, 16))
    return [layer[place : place + size].hex() for place in range(at, end, size)]


def states(results, title, place):
    """What is told as commits are made, lose their branch, and go; and after the command that is told."""
    tree = place.git("rev-parse", "HEAD^{tree}").strip()
    check_state(results, title + ", as it was written", place, (0, 0, 0))
    new = place.git("commit-tree", "-m", title, "-p", "HEAD", tree).strip()
    place.git("update-ref", "refs/heads/new", new)
    check_state(results, title + ", a new commit", place, (1, 0, 0))
    check_cure(results, title + ", the command", place)
    place.git("update-ref", "-d", "refs/heads/new")
    check_state(results, title + ", of no branch", place, (0, 0, 1))
    place.git("prune", "--expire=now")
    check_state(results, title + ", a commit that is gone", place, (0, 1, 0))
    check_cure(results, title + ", the command after that", place)
    verdict = place.run("git", "commit-graph", "verify", "--no-progress")
    results.check(title + ", passed by Git", None if verdict.status == 0 else "it is %r" % (verdict,))


def check_state(results, title, place, counts):
    """The answer, and whether the counts are these."""
    answer, (text, seen) = place.installed.ask(place.way, "show"), place.expected()
    right = answer[:2] == (0, text) and seen == counts and bool(answer.err) == (counts[:2] != (0, 0))
    results.check(title, None if right else "it is %r, expected %r" % (answer, text))
    results.check(title + ", --json", difference("show", answer, place.installed.ask(place.way, "show", "--json")))


def check_cure(results, title, place):
    """After the commands that are told nothing is missing, and nothing is gone."""
    told = place.installed.ask(place.way, "show").err
    commands = [line for line in told.split("\n") if line.startswith("    ")]
    answer = place.run("sh", "-e", "-c", "\n".join(commands))
    results.check(title, None if commands and answer.status == 0 else "it is %r, after %r" % (answer, told))
    check_state(results, title + ", and what is shown then", place, (0, 0, 0))
