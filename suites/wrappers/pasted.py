"""Checks each command that `git cgraph` prints as what to do: it is pasted into a shell where the question was asked, and does what
its sentence says. Nothing outside of the repository changes, and no file and no filter is lost that is not named. Git is the real one.
"""

import hashlib
import os
import re
import resource
import shutil
import tempfile
from functools import partial
from typing import Callable, NamedTuple, Sequence

import refusals
from wrappers.clone import TOP
from wrappers.spots import CHAIN, CHAINS, COMMITS, GRAPH, SPOTS, Spot, clear, damage, listing, new_clone, put, quoted, read

NOBODY = 65534
UNKNOWN = "if it had, put --changed-paths behind the last command"
NOT_OWN = "is not this repository's own: ask whoever keeps it to "
ANEW = ("rm -f {file}", "{git} commit-graph write --reachable")
FILTERED = ("rm -f {file}", "{git} commit-graph write --reachable --changed-paths")
OWN = ("{git} cgraph write",)
OWN_LAYER = ("{git} cgraph write --split",)
FORK = ("fork",)


class Row(NamedTuple):
    """A situation: the functions whose commands are printed, how it is made, the question, the commands, what is said before them,
    what holds after they were pasted, and in which repositories that is tried."""

    title: str
    places: str
    make: Callable
    words: Sequence[str]
    commands: Sequence[str]
    says: str = ""
    holds: Callable = Spot.verdict
    spots: Sequence[str] = ("plain",)


def nothing(_spot):
    """Where a command shows something, nothing has to hold after it."""


def damaged(*options, content=None, info="info"):
    """A commit-graph of one file that is damaged, or has another content."""
    def make(spot):
        folder = getattr(spot, info)
        spot.write(*options, folder=os.path.dirname(os.path.dirname(os.path.dirname(folder))) if info != "info" else None)
        damage(os.path.join(folder, GRAPH)) if content is None else put(os.path.join(folder, GRAPH), content)
    return make


def damaged_chain(*options):
    """A chain of two layers, of which the lower one is damaged."""
    def make(spot):
        spot.write("--split=no-merge", *options)
        lower = spot.layers()[0]
        spot.advance()
        spot.write("--split=no-merge", *options)
        damage(lower)
    return make


def beside_chain(file_options, chain_options, wrong=False):
    """A file that is damaged beside a chain that lacks a commit, and is right or wrong."""
    def make(spot):
        spot.write("--split", *chain_options)
        shutil.copytree(spot.path(CHAINS), spot.path("aside"))
        shutil.rmtree(spot.path(CHAINS))
        spot.write(*file_options)
        os.rename(spot.path("aside"), spot.path(CHAINS))
        spot.filters = bool(file_options or chain_options)
        damage(spot.path(GRAPH))
        spot.advance()
        spot.more["layer"] = spot.layers()[0]
        if wrong:
            damage(spot.layers()[0])
    return make


def chain_stays(spot):
    """A complaint where a layer of the chain is not there any more, or Git finds it wrong."""
    return spot.verdict() or (None if spot.more["layer"] in spot.layers() else "the layer is gone")


def layer_stays(spot):
    """A complaint where the layer of the chain is not there any more."""
    return None if spot.more["layer"] in spot.layers() else "the layer is gone"


def without_lister(spot):
    """The same, where the program that tells about the chain is not there."""
    beside_chain((), ())(spot)
    os.remove(os.path.join(spot.clone.folder, "crates/graphtool/out/graphtool"))


def linked(place, *options):
    """A commit-graph that is a link into a folder of the repository, or elsewhere, and damaged."""
    def make(spot):
        spot.write(*options)
        folder = os.path.join(spot.common if place == "common" else spot.root, "graphs")
        os.mkdir(folder)
        os.rename(spot.path(GRAPH), os.path.join(folder, "a graph"))
        os.symlink(os.path.join(folder, "a graph"), spot.path(GRAPH))
        damage(os.path.join(folder, "a graph"))
        spot.more["target"] = quoted(os.path.join(os.path.realpath(folder), "a graph"))
    return make


def link_stays(spot):
    """A complaint where the link is no link any more."""
    return spot.verdict() or (None if os.path.islink(spot.path(GRAPH)) else "the link is gone")


def linked_folder(name, wrong=False):
    """A folder of the commit-graph, or its info folder, that stands elsewhere, and to which a link leads."""
    def make(spot):
        spot.write(*(["--split"] if name == CHAINS else []))
        path, elsewhere = (os.path.join(folder, name) if name else folder for folder in (spot.info, os.path.join(spot.root, "elsewhere")))
        os.makedirs(os.path.dirname(elsewhere), exist_ok=True)
        os.rename(path, elsewhere)
        os.symlink(elsewhere, path)
        borrows = os.path.exists(os.path.join(spot.info, "alternates"))
        spot.more["kept"] = "mkdir %s && cp %s %s" % tuple(map(quoted, (path, os.path.join(elsewhere, "alternates"), path))) if borrows else ""
        if wrong:
            damage(os.path.join(elsewhere, GRAPH))
        else:
            spot.advance()
    return make


def kept_alternates(spot):
    """A complaint where the repository does not find its objects any more."""
    answer = spot.run("git", "fsck", "--connectivity-only", cwd=spot.folder)
    return spot.verdict() or (None if answer.status == 0 and not os.path.islink(spot.info) else "it is %r" % (answer,))


def linked_chain(spot):
    """A chain whose chain file is a link, and whose layer is damaged."""
    spot.write("--split")
    os.rename(spot.path(CHAIN), os.path.join(spot.common, "a chain"))
    os.symlink(os.path.join(spot.common, "a chain"), spot.path(CHAIN))
    damage(spot.layers()[0])
    spot.more["target"] = quoted(os.path.join(spot.common, "a chain"))


def foreign_chain(spot):
    """A chain of a fork over a layer of the other repository, which is damaged."""
    spot.write("--split", "--changed-paths", folder=spot.pool)
    spot.advance()
    spot.write("--split=no-merge", "--changed-paths")
    damage(spot.layers(spot.pool_info)[0])


def pools_filters(spot):
    """Filters of the other repository, in one file."""
    spot.write("--changed-paths", folder=spot.pool)
    spot.advance()


def pools_layers(spot):
    """Filters of the other repository, in a chain."""
    spot.write("--split", "--changed-paths", folder=spot.pool)
    spot.advance()


def has_filters(spot):
    """Filters in one file, and a commit that it lacks."""
    spot.write("--changed-paths")
    spot.advance()


def has_layers(spot):
    """Filters in a chain, and a commit that it lacks."""
    spot.write("--split", "--changed-paths")
    spot.advance()


def lost_chain(spot):
    """Layers with filters whose chain file is lost."""
    has_layers(spot)
    os.remove(spot.path(CHAIN))


def configured(before, *words):
    """Something, and then a setting, or another command of Git."""
    def make(spot):
        before(spot)
        spot.git(*words)
    return make


def grafted(before):
    """Something, and grafts."""
    def make(spot):
        before(spot)
        put(os.path.join(spot.common, "info/grafts"), (spot.git("rev-parse", "main") + "\n").encode())
    return make


def shallow(before=lambda spot: None):
    """A shallow clone of the repository in its place."""
    def make(spot):
        os.rename(spot.folder, spot.folder + " whole")
        spot.run("git", "clone", "-q", "--depth=2", "file://" + spot.folder + " whole", spot.folder)
        before(spot)
    return make


def copied(spot):
    """The damaged commit-graph of the whole repository in a shallow one."""
    spot.git("commit-graph", "write", "--reachable", folder=spot.folder + " whole")
    shutil.copy(os.path.join(spot.folder + " whole", ".git/objects/info", GRAPH), spot.path(GRAPH))
    damage(spot.path(GRAPH))


def empty(spot):
    """A repository without a commit."""
    shutil.rmtree(spot.common)
    spot.git("init", "-q")
    os.makedirs(spot.info, exist_ok=True)


def later(way):
    """A commit that is not in the commit-graph, and to which something leads."""
    def make(spot):
        spot.write()
        commit = spot.commit()
        spot.more.update(asked=commit, heads=way == "HEAD")
        if way == "HEAD":
            spot.git("update-ref", "--no-deref", "HEAD", commit)
        elif way == "reflog":
            for target in (commit, "main"):
                spot.git("update-ref", "--create-reflog", "refs/stash", target)
        elif way:
            spot.git("update-ref", way, commit)
    return make


def linked_before(spot):
    """A commit-graph that is a link to elsewhere, and lacks a commit."""
    linked("root")(spot)
    later("refs/heads/x")(spot)


def of_commits(spot):
    """A complaint where the commit-graph is not that of the commits themselves."""
    answer = spot.run("git", "--no-replace-objects", "commit-graph", "verify", cwd=spot.folder)
    return None if answer.status == 0 and os.path.exists(spot.path(GRAPH)) else "Git finds %r" % (answer,)


def has_asked(spot):
    """A complaint where the commit is not in the commit-graph."""
    return spot.verdict() or (None if spot.ask("is-ancestor", "--graph-only", "main", spot.more["asked"]).out == "yes\n" else "it is not there")


def missing(way):
    """A commit-graph of a commit that is missing: a reference, or HEAD, or nothing leads there."""
    def make(spot):
        commit = spot.commit()
        spot.git("update-ref", "--no-deref", "HEAD" if way == "HEAD" else "refs/heads/later", commit)
        spot.git("-c", "alias.x=!git rev-list --no-walk --all | git commit-graph write --stdin-commits", "x")
        if way is None:
            spot.git("update-ref", "-d", "refs/heads/later")
        os.remove(spot.loose(commit))
        spot.more["graph"] = read(spot.path(GRAPH))
    return make


def graph_stays(spot):
    """A complaint where the commit-graph is not as it was."""
    return None if read(spot.path(GRAPH)) == spot.more["graph"] else "it is another one"


def ruined(spot):
    """A commit whose object is damaged."""
    spot.write()
    put(spot.loose(spot.git("rev-parse", "main~2")), b"no object")


def ungraphed(make):
    """The same without a commit-graph."""
    def made(spot):
        make(spot)
        os.remove(spot.path(GRAPH))
    return made


def lost(spot):
    """A commit that is missing, to which another one leads."""
    spot.write()
    os.remove(spot.loose(spot.git("rev-parse", "main~2")))


def partial_clone(spot, name="main~2", *options):
    """A partial clone without one object, of another repository that has it."""
    spot.write(*options)
    commit = spot.git("rev-parse", name)
    whole = os.path.join(spot.root, "whole.git")
    spot.git("clone", "-q", "--bare", "--no-hardlinks", spot.folder, whole)
    spot.git("config", "uploadpack.allowAnySHA1InWant", "true", folder=whole)
    for name, value in (("url", "file://" + whole), ("promisor", "true"), ("partialclonefilter", "tree:0")):
        spot.git("config", "remote.origin." + name, value)
    os.remove(spot.loose(commit))
    spot.more["commit"] = commit


def cleared(*options):
    """A commit-graph of which a filter has no bit, and is right but for that."""
    def make(spot):
        spot.write("--changed-paths", *options)
        clear_filter(spot.layers()[0] if options else spot.path(GRAPH))
    return make


def clear_filter(path):
    """Takes all bits out of the last filter of a layer, which then has the checksum of its bytes; a layer is named by that."""
    content = bytearray(read(path)[:-20])
    end = max(int.from_bytes(content[8 + 12 * at + 4 : 20 + 12 * at], "big") for at in range(content[6] + 1))
    rows = {bytes(content[8 + 12 * at :][:4]): int.from_bytes(content[12 + 12 * at : 20 + 12 * at], "big") for at in range(content[6])}
    first = rows[b"BDAT"] + 12 + int.from_bytes(content[rows[b"BDAT"] - 8 : rows[b"BDAT"] - 4], "big")
    content[first:end] = bytes(end - first)
    os.chmod(path, 0o644)
    put(path, bytes(content) + hashlib.sha1(content).digest())
    if os.path.basename(path) != GRAPH:
        name = hashlib.sha1(content).hexdigest()
        os.rename(path, os.path.join(os.path.dirname(path), "graph-%s.graph" % name))
        put(os.path.join(os.path.dirname(path), "commit-graph-chain"), (name + "\n").encode())


def has_all_bits(spot):
    """A complaint where some filter still has no bit."""
    answer = spot.ask("verify", "--paths")
    return spot.verdict() or (None if answer.status == 0 else "it is %r" % (answer,))


def without_tree(content):
    """A commit whose root tree is missing, or has another content."""
    def make(spot):
        spot.write("--changed-paths")
        tree = spot.loose(spot.git("log", "-1", "--format=%T", "main~2"))
        if os.path.exists(tree):
            os.remove(tree)
        if content:
            put(tree, content)
        spot.more["graph"] = read(spot.path(GRAPH))
    return make


def partial_trees(spot):
    """A partial clone without one tree, of another repository that has it."""
    spot.filters = True
    partial_clone(spot, "main~2^{tree}", "--changed-paths")


def locked(spot):
    """A lock that somebody left."""
    spot.write()
    put(spot.path(GRAPH + ".lock"), b"")


def is_free(spot):
    """A complaint where `git cgraph write` does not write."""
    answer = spot.ask("write")
    return spot.verdict() if answer.status == 0 else "it is %r" % (answer,)


def in_the_way(way):
    """A folder, or a link to one, in the place of the commit-graph."""
    def make(spot):
        if way == "link":
            os.mkdir(os.path.join(spot.common, "graphs"))
            os.symlink(os.path.join(spot.common, "graphs"), spot.path(GRAPH))
        else:
            os.makedirs(os.path.join(spot.path(GRAPH), "sub"))
    return make


def closed(name, rights):
    """A file or a folder that nobody else may use. The program is a shell script, which anybody may run."""
    def make(spot):
        spot.write()
        spot.clone.put_program("graphtool", "echo 'refused open 2'\nexit 1\n")
        os.chmod(os.path.join(spot.info, name), rights)
        spot.streams = {"preexec_fn": partial(os.setuid, NOBODY)} if os.geteuid() == 0 else {}
    return make


def closed_object(spot):
    """An object that may not be read."""
    spot.write()
    commit = spot.git("rev-parse", "main~2")
    spot.clone.put_program("graphtool", "echo 'ok commits 1 longest 1'\n")
    answers = "case $1 in\nids) echo %s ;;\n*) cat >/dev/null; echo 'refused objects 4 position 0'; exit 1 ;;\nesac\n"
    spot.clone.put_program("historytool", answers % commit)
    path = spot.loose(commit)
    os.chmod(path, 0)
    spot.more["object"] = quoted(path)
    spot.streams = {"preexec_fn": partial(os.setuid, NOBODY)} if os.geteuid() == 0 else {}


def failing(spot):
    """A program that cannot write to its end."""
    spot.clone.put_program("historytool", "cat >/dev/null\nexit 2\n")


def limited(size):
    """A folder for files of a moment in which a file may have so many bytes."""
    def make(spot):
        spot.write()
        spot.streams = {"preexec_fn": lambda: resource.setrlimit(resource.RLIMIT_FSIZE, (size, size))}
    return make


def not_renamed(spot):
    """A folder that comes into the place of the new commit-graph while it is made."""
    spot.clone.put_program("graphtool", "mkdir -p '%s'\necho 'ok commits %d longest 1'\n" % (spot.path(GRAPH).replace("'", "'\\''"), COMMITS))
    spot.clone.put_program("historytool", "cat\necho 'ok commits %d longest 1'\n" % COMMITS)


ALL, GIT_WRITES = SPOTS, "{git} commit-graph write --reachable"
WITH_HEADS = "{git} rev-list --no-walk --all%s | {git} commit-graph write --stdin-commits"
DAMAGED = (
    Row("a damaged file", "anew removes writes advise_anew", damaged(), ["verify"], ANEW, spots=ALL),
    Row("a damaged file with filters", "anew writes", damaged("--changed-paths"), ["verify"],
        ("rm -f {file}", GIT_WRITES + " --changed-paths"), spots=ALL),
    *(Row("a file of %d bytes" % len(content), "advise_anew", damaged(content=content), ["verify"], ANEW, UNKNOWN)
      for content in (b"", b"CGPH\1\1\4\0", bytes(range(1, 256)) * 8)),
    Row("a damaged chain", "anew removes_chain removes", damaged_chain("--changed-paths"), ["verify"],
        ("rm -rf {chains}", GIT_WRITES + " --split --changed-paths"), spots=ALL),
    Row("a chain file that is a link", "removes_chain", linked_chain, ["verify"],
        ("rm -f {target} {chains}/graph-*.graph", GIT_WRITES + " --split")),
    Row("a folder in place of a file", "removes", in_the_way("folder"), ["verify"], ("rm -rf {file}", GIT_WRITES), UNKNOWN),
    Row("a damaged file beside a right chain", "advise_beside", beside_chain((), ("--changed-paths",)), ["verify"],
        ("rm -f {file}", GIT_WRITES + " --split --changed-paths"), "remove this file alone", chain_stays, ALL),
    Row("a damaged file with filters beside a right chain without", "advise_beside", beside_chain(("--changed-paths",), ()), ["verify"],
        ("rm -f {file}", GIT_WRITES + " --split=replace --changed-paths"), "It has no changed-path filters"),
    Row("a damaged file beside a damaged chain with filters", "anew", beside_chain((), ("--changed-paths",), True), ["verify"],
        ("rm -f {file}", "rm -rf {chains}", GIT_WRITES + " --changed-paths"), "without the split commit-graph beside it"),
    Row("a damaged file beside a chain of which nobody knows", "advise_beside", without_lister, ["check"],
        ("rm -f {file}", "{git} cgraph verify"), "see whether the split commit-graph beside it is right", layer_stays),
    Row("a damaged file by a link", "removes", linked("common"), ["verify"],
        ("rm -f {target}", GIT_WRITES), "", link_stays, ("plain", "odd", "bare")),
)
"""What is wrong in a repository of its own, whose commit-graph is damaged."""

OTHERS = (
    Row("a damaged file elsewhere, by a link", "advise_own writes_own", linked("root", "--changed-paths"), ["verify"],
        ("rm -f {file}", *OWN, GIT_WRITES + " --changed-paths"), NOT_OWN + "mend it", spots=ALL),
    Row("a file elsewhere, by a link, and a commit that it lacks", "advise_own", linked_before, ["is-ancestor", "--graph-only", "{asked}", "main"],
        ("rm -f {file}", GIT_WRITES), NOT_OWN + "write it again"),
    *(Row("a file elsewhere, by a link, to be written%s" % (" as a layer" * len(more)), "look_for_strays writes_by_cgraph", linked_before,
          ["write", *more], ("rm -f {file}", " ".join([*OWN, *more])), "which is not in this repository", spots=ALL)
      for more in ([], ["--split"])),
    Row("a chain elsewhere, by a link, to be written", "look_for_strays", linked_folder(CHAINS), ["write"], ("rm -f {chains}", *OWN),
        "remove the link", spots=("plain", "odd", "bare")),
    Row("a folder elsewhere, by a link, to be written", "look_for_strays removed", linked_folder(""), ["write"], ("rm -f {info}", *OWN),
        "which is not in this repository", kept_alternates, ("plain", "worktree")),
    Row("a folder elsewhere with alternates, by a link, to be written", "removed", linked_folder(""), ["write", "--split"],
        ("rm -f {info}", "{kept}", *OWN_LAYER), "which is not in this repository", kept_alternates, FORK),
    Row("a damaged file in a folder elsewhere, by a link", "advise_own", linked_folder("", True), ["verify"], ("rm -f {info}", *OWN),
        NOT_OWN + "mend it", kept_alternates, ("plain", "worktree")),
    Row("a damaged file of another repository", "advise_own writes_own", damaged(info="pool_info"), ["verify"],
        OWN, NOT_OWN + "mend it", spots=FORK),
    Row("a damaged file with filters of another repository", "writes_own", damaged("--changed-paths", info="pool_info"), ["verify"],
        (*OWN, GIT_WRITES + " --changed-paths"), NOT_OWN + "mend it", spots=FORK),
    Row("an empty file of another repository", "writes_own", damaged(content=b"", info="pool_info"), ["verify"],
        (*OWN, GIT_WRITES), UNKNOWN, spots=FORK),
    Row("a damaged layer of another repository", "advise_own", foreign_chain, ["verify"],
        (*OWN, GIT_WRITES + " --changed-paths"), NOT_OWN + "mend it", spots=FORK),
    Row("a damaged layer of another repository, to write on", "write_one_file", foreign_chain, ["write", "--split"],
        (*OWN, GIT_WRITES + " --changed-paths"), NOT_OWN + "mend it", spots=FORK),
    Row("a damaged file of another repository that is named", "advise_own", damaged(info="pool_info"),
        ["verify", "--object-dir=../a pool/.git/objects"], OWN, NOT_OWN + "mend it", spots=FORK),
    Row("a named repository without a commit-graph", "diagnose_absent", nothing, ["verify", "--object-dir=../a pool/.git/objects"],
        (GIT_WRITES,), NOT_OWN + "write it", spots=FORK),
    Row("commits that the commit-graph of another repository lacks", "advise_covering", pools_filters, ["show"],
        (GIT_WRITES + " --changed-paths",), NOT_OWN + "write it again", spots=FORK),
    Row("filters of another repository", "tell_dropped filters_by_git", pools_filters, ["write"], (GIT_WRITES + " --changed-paths",),
        "with filters", spots=FORK),
    Row("filters of layers of another repository", "tell_dropped", pools_layers, ["write", "--split"],
        (GIT_WRITES + " --split=replace --changed-paths",), "the new layer has no changed-path filters", spots=FORK),
    Row("filters of another repository that are to stay", "refuse_filters", pools_layers, ["write", "--split", "--keep-filters"],
        (GIT_WRITES + " --split --changed-paths",), "which keeps them", spots=FORK),
)
"""What is wrong in another repository, of which this one uses the commit-graph."""

UNUSED = (
    Row("core.commitGraph", "is_hindered", configured(damaged(), "config", "core.commitGraph", "false"), ["verify"],
        ("{git} -c core.commitGraph=true cgraph write",), "and writes none", spots=ALL),
    Row("core.commitGraph, and filters", "is_hindered writes_own",
        configured(damaged("--changed-paths"), "config", "core.commitGraph", "false"), ["verify"],
        tuple("{git} -c core.commitGraph=true " + words for words in ("cgraph write", "commit-graph write --reachable --changed-paths"))),
    Row("grafts", "is_hindered", grafted(damaged()), ["verify"],
        ("{here} replace --convert-graft-file", "{git} --no-replace-objects cgraph write"), "make replacements", of_commits),
    Row("a shallow clone", "is_hindered", shallow(copied), ["verify"], ("{here} fetch --unshallow", *OWN), "shallow"),
    Row("no commits", "is_hindered", empty, ["verify"], (GIT_WRITES,), "no branch or tag", nothing),
    Row("no commits, and a file", "is_hindered", lambda spot: (empty(spot), put(spot.path(GRAPH), b"")), ["verify"],
        (*OWN, GIT_WRITES), "no branch or tag", nothing),
    Row("core.commitGraph, to be written", "look_for_use", configured(nothing, "config", "core.commitGraph", "false"), ["write"],
        ("{git} -c core.commitGraph=true cgraph write",), "all the same", spots=ALL),
    Row("grafts, to be written", "look_for_use", grafted(nothing), ["write"],
        ("{here} replace --convert-graft-file", "{git} --no-replace-objects cgraph write"), "make replacements", of_commits),
    Row("a shallow clone, to be written", "look_for_use", shallow(), ["write", "--split"],
        ("{here} fetch --unshallow", "{git} cgraph write --split"), "fetch the whole history"),
    Row("replacements, to be written", "look_for_use", configured(nothing, "replace", "main", "main~1"), ["write"],
        ("{git} --no-replace-objects cgraph write",), "without the replacements", of_commits),
)
"""Where Git uses no commit-graph."""

TOP_TWO = ["is-ancestor", "main~1", "main"]
OWNED = [spot for spot in ALL if spot != "fork"]
"""The repositories that have the objects themselves."""

LACKING = (
    Row("no commit-graph", "diagnose_absent", nothing, ["verify"], (GIT_WRITES,), spots=ALL),
    *(Row(" ".join(["a lost chain file over filters,", *words]), "diagnose_absent", lost_chain, words, (GIT_WRITES + " --changed-paths",),
          "there is no commit-graph") for words in (["verify"], ["show", "--if-exists"])),
    Row("a commit of a branch", "diagnose_unknown", later("refs/heads/later"), ["is-ancestor", "--graph-only", "main", "{asked}"], (GIT_WRITES,),
        "newer than the commit-graph", has_asked, ALL),
    Row("a commit of a stash", "diagnose_unknown", later("refs/stash"), ["is-ancestor", "--graph-only", "main", "{asked}"], (GIT_WRITES,),
        "newer than the commit-graph", has_asked),
    Row("a commit of HEAD", "diagnose_unknown", later("HEAD"), ["is-ancestor", "--graph-only", "main", "{asked}"], (WITH_HEADS % "",),
        "newer than the commit-graph", has_asked, ALL),
    Row("a commit of a reflog", "diagnose_unknown", later("reflog"), ["is-ancestor", "--graph-only", "main", "{asked}"], (WITH_HEADS % " --reflog",),
        "only a reflog leads to the commit", has_asked),
    Row("a commit of nothing", "diagnose_unknown", later(None), ["is-ancestor", "--graph-only", "main", "{asked}"], (),
        "no reference, no HEAD and no reflog leads to the commit", nothing),
    Row("commits to be shown", "advise_covering", later("refs/heads/later"), ["show"], (GIT_WRITES,), "write it again", has_asked, ALL),
    Row("a commit that is lost", "diagnose_missing", missing("refs/heads/later"), ["verify", "--objects"], ("{here} fsck",),
        "Keep the commit-graph", graph_stays, ALL),
    Row("a commit of HEAD that is lost", "diagnose_missing", missing("HEAD"), ["verify", "--objects"], ("{here} fsck",),
        "Keep the commit-graph", graph_stays, ALL),
    Row("a commit that is gone", "advise_anew", missing(None), ["verify", "--objects"], ANEW, "so that Git removed it", spots=ALL),
    Row("a damaged commit", "diagnose_damaged", ruined, ["verify", "--objects"], ("{here} fsck",), "which objects are damaged", nothing),
    Row("a commit of a partial clone", "is_past_the_end", partial_clone, ["verify", "--objects"], ("{here} cat-file -e {commit}",),
        "let Git fetch it"),
    Row("a newer commit that is lost", "diagnose_newer diagnose_missing", ungraphed(lost), TOP_TWO, ("{here} fsck",),
        "take it from another copy of the repository, and ask again", nothing, OWNED),
    Row("a newer commit that is damaged", "diagnose_newer diagnose_damaged", ungraphed(ruined), TOP_TWO, ("{here} fsck",),
        "which objects are damaged", nothing),
    Row("a newer commit of a partial clone", "diagnose_newer is_past_the_end", ungraphed(partial_clone), TOP_TWO,
        ("{here} cat-file -e {commit}",), "let Git fetch it", nothing),
    Row("commits past the end of a shallow clone", "diagnose_newer is_past_the_end", shallow(), TOP_TWO,
        ("{here} fetch --unshallow",), "the commit lies past its end", nothing),
    *(Row("a filter that lacks a path, %s" % name, "advise_anew", cleared(*options), ["verify", "--paths"], commands,
          "leaves the commit out", has_all_bits, ALL) for name, options, commands in
      (("in a file", (), FILTERED), ("in a layer", ("--split",), ("rm -rf {chains}", "{git} commit-graph write --reachable --split --changed-paths")))),
    Row("a tree that is lost", "diagnose_missing", without_tree(None), ["verify", "--paths"], ("{here} fsck",),
        "the tree is missing, and has to come back", graph_stays, ("plain", "odd", "worktree", "bare")),
    Row("a damaged tree", "diagnose_damaged", without_tree(b"no object"), ["verify", "--paths"], ("{here} fsck",),
        "which objects are damaged", graph_stays),
    Row("a tree of a partial clone", "is_past_the_end", partial_trees, ["verify", "--paths"], ("{here} cat-file -e {commit}",),
        "in which the tree is not here", has_all_bits),
    Row("a name of a lost commit", "of_revisions", missing("refs/heads/later"), ["find", "later"], ("{here} fsck",),
        "which objects are missing", graph_stays, ("plain", "odd", "bare")),
)
"""Commits that the commit-graph lacks, or that are not there."""

KEPT = (
    Row("filters", "tell_dropped filters_by_git", has_filters, ["write"], (GIT_WRITES + " --changed-paths",), "with filters", spots=ALL),
    Row("filters of layers", "tell_dropped", has_layers, ["write", "--split"], (GIT_WRITES + " --split=replace --changed-paths",),
        "the new layer has no changed-path filters", spots=ALL),
    Row("filters that are to stay", "refuse_filters", has_filters, ["write", "--keep-filters"], (GIT_WRITES + " --changed-paths",),
        "which keeps them", spots=ALL),
    Row("a damaged layer, to write on", "write_one_file writes_own", damaged_chain(), ["write", "--split"], OWN, "as one file", spots=ALL),
    Row("a folder that is none of objects", "look_for_folder", nothing, ["write", "--object-dir=."], OWN, "to this repository's own"),
    Row("a lock", "refuse_locked", locked, ["write"], ("rm -f {lock}",), "wait for whoever writes it", is_free, ALL),
    Row("a folder in the way", "refuse_folder", in_the_way("folder"), ["write"], ("rm -rf {file}",), "remove the folder", is_free),
    Row("a link to a folder in the way", "refuse_folder", in_the_way("link"), ["write"], ("rm -f {file}",), "remove the link", is_free),
    Row("a program that cannot write", "refuse_full", failing, ["write"], ("df {info}",), "", nothing),
    Row("a folder for files of a moment that takes nothing", "from", limited(0), ["verify", "--json"], ("df {temporary}",),
        "no file of a moment can be made", nothing),
    Row("a folder for files of a moment that takes little", "refuse_scratch", limited(100), ["show"], ("df {temporary}",),
        "it was to stand in the folder", nothing),
    Row("a file that may not be renamed", "refuse_placing", not_renamed, ["write"], ("df {info}", "ls -ld {info}"),
        "could not take its place: Is a directory", nothing),
    Row("a folder that may not be written", "refuse_making", closed(".", 0o555), ["write"], ("ls -ld {info}",), "may write there", nothing),
    *(Row(" ".join(["a folder that may not be entered,", *words]), "diagnose_opening", closed(".", 0o600), words, ("ls -ld {info}",),
          "may enter the folder", nothing) for words in (["verify"], ["verify", "--if-exists"])),
    Row("a file that may not be read", "diagnose_opening", closed(GRAPH, 0), ["verify"], ("ls -l {file}",), "may read the file", nothing),
    Row("an object that may not be read", "diagnose_missing", closed_object, ["verify", "--objects"], ("ls -l {object}",),
        "may read the objects", nothing),
)
"""What keeps `git cgraph write` from writing, and what may not be read."""

ROWS = DAMAGED + OTHERS + UNUSED + LACKING + KEPT
CALLERS = {"finish", "take_halt", "unwritten", "failed", "advise_without", "find_obstacle", "name_closed", "advise_own", "git_with", "writes_by"}
"""Functions that print the commands of others, or none."""

SOURCES = tuple("cgraph/src/%s.rs" % name for name in ("answers", "cures", "diagnosis", "lost", "show", "target", "write", "write/making", "write/placing"))
FUNCTION = re.compile(r" *(?:pub )?fn (\w+)")
PRINTS = re.compile(r"""known\.cure(?: = |\.push|\.extend)|let (?:mut )?cure = |vec!\[format!|format!\(\s*"(?:rm|ls|df|mkdir|\{git\}) """)
READS = {"git rev-parse NAME", "git cat-file --batch", "git fsck", "git rev-list --all", "git commit-graph verify"}
NO_COMMANDS = {"git --no-replace-objects", "git replace", "git commit-graph write"}
"""Words of Git in tables/refusals.tsv that change nothing, and those that are named and not told to be run."""


def check_all(results):
    """The checks of each row in each repository, of the places that print commands, and of the commands of the tables."""
    check_places(results)
    with tempfile.TemporaryDirectory() as folder:
        clone, root = new_clone(folder), os.path.join(os.path.realpath(folder), "root")
        os.mkdir(root)
        for path in (folder, clone.temporary):
            os.chmod(path, 0o777)
        with open(os.path.join(clone.home, ".gitconfig"), "w", encoding="ascii") as file:
            file.write("[safe]\n\tdirectory = *\n")
        for row in ROWS:
            for kind in row.spots:
                clear(root)
                check_row(results, row, Spot(clone, root, kind))
        for command in sorted(commands_of_tables() - READS - NO_COMMANDS):
            for kind in SPOTS:
                clear(root)
                check_command(results, command, Spot(clone, root, kind))
        clear(root)
        os.remove(os.path.join(clone.home, ".gitconfig"))
        results.check("the commands that are printed, nothing is left over", clone.left_over())


def check_places(results):
    """Each function that prints a command has a row."""
    found, there = set(), set()
    for source in SOURCES:
        function = ""
        with open(os.path.join(TOP, source), encoding="utf-8") as file:
            for text in file:
                begun = FUNCTION.match(text)
                function = begun.group(1) if begun else function
                there.add(function)
                if PRINTS.search(text) and not text.lstrip().startswith("//"):
                    found.add(function)
    tried = {place for row in ROWS for place in row.places.split()}
    wrong = sorted(found - CALLERS - tried) + sorted(tried - there)
    results.check("each function that prints a command is tried, and each that is tried is there", "not so: %s" % wrong if wrong else None)


def commands_of_tables():
    """The commands of Git that stand in tables/refusals.tsv."""
    rows = refusals.read_rows()
    return {command for row in rows for text in (row.happened, row.to_do) for command in re.findall(r"`(git [^`]*)`", text)}


def check_row(results, row, spot):
    """Notes whether the commands are those of the row, and whether all holds once they were pasted."""
    spot.streams = {}
    row.make(spot)
    names = spot.words()
    answer = spot.ask(*(word.format(**names) for word in row.words), **spot.streams)
    spot.put_programs()
    commands = "".join("    %s\n" % command.format(**names) for command in row.commands)
    title = "what to do about %s, %s" % (row.title, spot.kind)
    right = answer.err.endswith((":\n" if commands else "\n") + commands) and row.says in answer.err
    results.check(title, None if right else "it is %r, not %r" % (answer, commands))
    if commands and right:
        results.check(title + ", pasted", complaint_after(spot, commands) or row.holds(spot))


def complaint_after(spot, commands):
    """Pastes commands, and complains where another folder changed, or a file is gone that they do not name."""
    outside, inside = listing(spot.root, spot.common), listing(spot.common)
    answer = spot.paste(commands)
    if listing(spot.root, spot.common) != outside:
        after = listing(spot.root, spot.common)
        return "outside there is another %s" % sorted(path for path in {**outside, **after} if outside.get(path) != after.get(path))
    gone = [path for path in set(inside) - set(listing(spot.common)) if not may_go(spot, path, commands)]
    if gone:
        return "%s are gone" % gone
    fails = [word for word in ("rm: ", "sh: ", "not found", "usage: ") if word in answer.err]
    return "it says %r" % answer.err if fails else None


def may_go(spot, path, commands):
    """Whether a path may go away: the commands name it or what it is in, or it is a layer where all is written in one file."""
    named = any(quoted(name) in commands for name in (path, os.path.dirname(path), os.path.dirname(os.path.dirname(path))))
    in_one = "--split" not in commands or "--split=" in commands
    return named or path.startswith(spot.path(CHAINS)) and in_one or "convert-graft-file" in commands or "unshallow" in commands


def check_command(results, command, spot):
    """Pastes a command of the tables where there are filters, which stay, and changes nothing outside."""
    if spot.kind == "fork":
        pools_filters(spot)
    else:
        has_filters(spot)
    pasted = command.replace("git ", spot.words()["git"] + " ", 1)
    complaint = complaint_after(spot, "    %s\n" % pasted) or spot.verdict()
    results.check("'%s' of the tables, pasted, %s" % (command, spot.kind), complaint)
