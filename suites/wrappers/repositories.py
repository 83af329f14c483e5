"""Checks where `git cgraph` finds the commit-graph: in which object folders, by which options, and what it refuses itself."""

import os
import shutil
import tempfile

import refusals
from wrappers.clone import Clone, exactly
from wrappers.questions import CONTENT, anew, ask, git, make_repository, said

LISTS = 'printf "<%s>" "$@"\n[ "$2" != chain ] || { echo; cat "$2/commit-graph-chain"; readlink "$2"/graph-*; }\npwd -P\n'
"""A program that writes its words, the chain file and the targets of the links that it is given, and its folder."""

NAMES = ("aa" * 20, "bb" * 20)
HEADS = {"sha1": CONTENT.encode(), "sha256": CONTENT.replace("\1\1", "\1\2").encode()}


class Repository:
    """A repository of two commits, without a commit-graph."""

    def __init__(self, clone, folder, name=b"own"):
        self.clone = clone
        self.folder = make_repository(clone, os.path.join(os.fsencode(folder), name))
        self.objects = os.path.join(self.folder, b".git/objects")
        os.remove(os.path.join(self.objects, b"info/commit-graph"))

    def put(self, name, content):
        """Writes a file below the info folder."""
        path = os.path.join(self.objects, b"info", os.fsencode(name))
        os.makedirs(os.path.dirname(path), exist_ok=True)
        with open(path, "wb") as file:
            file.write(content)
        return path

    def put_chain(self, names, end="\n"):
        """Writes a chain file of these names."""
        return self.put("commit-graphs/commit-graph-chain", "".join(name + end for name in names).encode())

    def put_layer(self, name, content=HEADS["sha1"]):
        """Writes a layer of this name."""
        return self.put("commit-graphs/graph-%s.graph" % name, content)

    def clear(self):
        """Removes its commit-graph."""
        shutil.rmtree(os.path.join(self.objects, b"info", b"commit-graphs"), ignore_errors=True)
        for name in (b"commit-graph", b"alternates"):
            if os.path.lexists(os.path.join(self.objects, b"info", name)):
                os.remove(os.path.join(self.objects, b"info", name))

    def ask(self, *words, **variables):
        """The answer of `git cgraph` there."""
        surroundings = self.clone.surroundings
        self.clone.surroundings = lambda **more: {**surroundings(**more), **variables}
        try:
            return ask(self.clone, list(words), self.folder)
        finally:
            self.clone.surroundings = surroundings


def check_all(results):
    """The checks over two repositories, of which one may borrow objects of the other."""
    with tempfile.TemporaryDirectory() as folder:
        clone = Clone(folder)
        own, other = Repository(clone, folder), Repository(clone, folder, b"a pool's \"\n\xff")
        for check in (check_moved, check_grafted, check_places, check_scattered, check_named, check_quarantine, check_refused, check_quiet, check_written, check_all_checks):
            check(results, own, other)
            own.clear()
            other.clear()
        results.check("git cgraph in repositories, nothing is left over", clone.left_over())


def asked(results, title, answer, words, folder):
    """Notes whether a program was asked these words in this folder."""
    out = "".join("<%s>" % word for word in words) + os.fsdecode(folder) + "\n"
    results.check("git cgraph, " + title, exactly(answer, 0, out))


def check_places(results, own, other):
    """The first object folder that has a commit-graph counts, and the repository's own comes first."""
    own.clone.put_program("graphtool", LISTS)
    own.put("alternates", os.fsencode(quoted_for_git(other.objects) + "\n"))
    other.put("commit-graph", HEADS["sha1"])
    asked(results, "a commit-graph of a pool", own.ask("verify"), ("verify", "info/commit-graph"), other.objects)
    check_sentences(results, own, os.fsdecode(other.objects) + "/info/commit-graph")
    own.clone.put_program("graphtool", LISTS)
    own.put_chain(NAMES[:1])
    own.put_layer(NAMES[0])
    asked(results, "a chain before that of a pool", own.ask("verify"), ("verify", "info"), own.objects)
    own.put("commit-graph", HEADS["sha1"])
    asked(results, "a file before a chain", own.ask("verify"), ("verify", "info/commit-graph"), own.objects)


def check_sentences(results, own, path):
    """What is said of the commit-graph at this path, which is that of a pool: a listing that is refused names the file, and a
    commit that is not in it may be in one of the repository's own.
    """
    own.clone.put_program("graphtool", "cat >/dev/null\necho \"$ANSWER\"\nexit 1\n")
    own.clone.put_program("historytool", "echo 'unknown 2'\nexit 1\n")
    for words, line, said in (
        (("list",), "refused file 2", "git cgraph: the file is '%s'\n" % path),
        (("verify",), "refused verify 2 layer 0", "git cgraph: what to do: '%s' is not this repository's own: " % path),
        (("is-ancestor", "--graph-only", "HEAD", "HEAD"), "unknown 2", "which these commands write:\n    git commit-graph write --reachable\n"),
    ):
        answer = own.ask(*words, ANSWER=line)
        right = answer.out == line + "\n" and said in answer.err
        results.check("git cgraph %s, %s at a pool" % (words[0], line), None if right else "it is %r" % (answer,))
    answer = own.ask("verify", "--json", TMPDIR="/nonexistent")
    right = answer.status == 128 and "in '/nonexistent': TMPDIR has to name one that may be written\n" in answer.err
    results.check("git cgraph verify --json, without a folder for files of a moment", None if right else "it is %r" % (answer,))


def check_scattered(results, own, other):
    """Layers in several object folders are gathered by links, and the folder of the links goes away."""
    own.clone.put_program("graphtool", LISTS)
    lower, upper = other.put_layer(NAMES[0]), own.put_layer(NAMES[1])
    own.put_chain(NAMES)
    answer = own.ask("verify", GIT_ALTERNATE_OBJECT_DIRECTORIES=quoted_for_git(other.objects))
    start = "<verify><chain>\n%s\n%s\n%s\n%s\n" % (*NAMES, os.fsdecode(lower), os.fsdecode(upper))
    right = answer.status == 0 and answer.out.startswith(start) and not answer.err
    results.check("git cgraph, a chain over a pool's layer", None if right else "it is %r" % (answer,))


def check_moved(results, own, _other):
    """Where Git was called with -C, the commands of a cure name the repository: the variable PWD tells where the shell stands."""
    own.put("commit-graph", HEADS["sha1"])
    own.clone.put_program("graphtool", "echo 'refused verify 1'\nexit 1\n")
    folder = os.path.realpath(os.fsdecode(own.folder))
    for place, by in ((folder, "git"), (os.path.dirname(folder), "git --git-dir='%s/.git'" % folder), ("", "git")):
        cure = ["rm -f '%s/.git/objects/info/commit-graph'" % folder, by + " commit-graph write --reachable"]
        err = said(refusals.sentences(refusals.read_rows(), "refused verify 1", "verify", refusals.Known("", "", cure)))
        answer = own.ask("verify", PWD=place)
        results.check("git cgraph verify, asked from %r" % place, exactly(answer, 1, "refused verify 1\n", err))


def check_grafted(results, own, _other):
    """Beside an answer it is said that Git goes by other parents, and not beside a refusal."""
    own.put("commit-graph", HEADS["sha1"])
    grafts = os.path.join(own.objects, b"../info/grafts")
    with open(grafts, "w", encoding="ascii") as file:
        file.write(git(own.clone, own.folder, "rev-parse", "HEAD~1") + "\n")
    for line, status, beside in (("no", 1, True), ("refused verify 1", 1, False), ("unknown 1", 1, False), ("yes", 0, True)):
        own.clone.put_program("historytool", "echo '%s'\nexit %d\n" % (line, status))
        answer = own.ask("is-ancestor", "HEAD", "HEAD~1")
        right = answer.out == line + "\n" and ("gives commits other parents: Git answers by those" in answer.err) == beside
        results.check("git cgraph is-ancestor, with grafts, %s" % line, None if right else "it is %r" % (answer,))
    os.remove(grafts)


def quoted_for_git(path):
    """A path as an entry of a list of object folders."""
    return '"%s"' % os.fsdecode(path).replace('"', '\\"').replace("\n", "\\n")


def check_named(results, own, other):
    """An object folder may be named; options stand anywhere."""
    own.clone.put_program("graphtool", LISTS)
    own.put("commit-graph", HEADS["sha1"])
    other.put("commit-graph", HEADS["sha1"])
    path = os.fsdecode(other.objects)
    for words in (["--object-dir", path, "verify"], ["verify", "--object-dir=" + path], ["verify", "--object-dir", path]):
        asked(results, "an object folder that is named", own.ask(*words), ("verify", "info/commit-graph"), other.objects)
    words = ["verify", "-C", os.fsdecode(other.folder)]
    asked(results, "-C after the command", own.ask(*words), ("verify", "info/commit-graph"), other.objects)
    head = git(own.clone, own.folder, "rev-parse", "HEAD")
    for words in (["find", "--", "HEAD"], ["find", "HEAD", "--"]):
        asked(results, " ".join(words), own.ask(*words), ("find", "info/commit-graph", head), own.objects)
    answer = own.ask("find", "--", "-q")
    right = answer[:2] == (128, "") and "git cgraph: '-q' names no commit" in answer.err
    results.check("git cgraph find -- -q", None if right else "it is %r" % (answer,))


def check_quarantine(results, own, other):
    """In a hook that runs before objects are taken, they are in a folder of their own, which borrows from the repository's."""
    own.clone.put_program("graphtool", LISTS)
    own.put("commit-graph", HEADS["sha1"])
    quarantine = os.path.join(own.objects, b"incoming")
    os.mkdir(quarantine)
    variables = {"GIT_OBJECT_DIRECTORY": os.fsdecode(quarantine), "GIT_ALTERNATE_OBJECT_DIRECTORIES": os.fsdecode(own.objects)}
    asked(results, "in quarantine", own.ask("verify", **variables), ("verify", "info/commit-graph"), own.objects)
    os.rmdir(quarantine)


def check_refused(results, own, _other):
    """A commit-graph of the other kind of hash, and a chain whose lines end with CR and LF, are refused with no program."""
    own.clone.put_program("graphtool", "exit 9\n")
    rows, info = refusals.read_rows(), os.path.join(os.fsdecode(own.objects), "info")
    file = own.put("commit-graph", HEADS["sha256"])
    cause = "the ids of the commit-graph are of SHA-256, and those of the repository of SHA-1"
    known = refusals.Known("the file is '%s'" % os.fsdecode(file), "", anew(info, "commit-graph"), cause=cause)
    for word, status in (("verify", 1), ("distinct", 1), ("list", 128)):
        err = said(refusals.sentences(rows, "refused git 1", word, known))
        results.check("git cgraph %s, of the other hash" % word, exactly(own.ask(word), status, "refused git 1\n", err))
    own.clear()
    chain = own.put_chain(NAMES, "\r\n")
    for name in NAMES:
        own.put_layer(name)
    where = "the chain file is '%s'" % os.fsdecode(chain)
    known = refusals.Known(where, "", anew(info, "commit-graphs", "--split"))
    err = said(refusals.sentences(rows, "refused git 2 line 0", "verify", known))
    answer = own.ask("verify")
    results.check("git cgraph verify, of lines that end with CR", exactly(answer, 1, "refused git 2 line 0\n", err))


def check_quiet(results, own, _other):
    """With -q the status alone has the answer; what is wrong is said."""
    file = own.put("commit-graph", HEADS["sha1"])
    info = os.path.dirname(os.fsdecode(file))
    own.clone.put_program("historytool", "echo no\nexit 1\n")
    results.check("git cgraph is-ancestor -q", exactly(own.ask("is-ancestor", "-q", "HEAD", "HEAD~1"), 1, ""))
    own.clone.put_program("graphtool", "echo 'ok commits 2 longest 1'\n")
    results.check("git cgraph -q verify", exactly(own.ask("-q", "verify"), 0, ""))
    own.clone.put_program("graphtool", "echo 'refused verify 1'\nexit 1\n")
    known = refusals.Known("", "", anew(info, "commit-graph"))
    err = said(refusals.sentences(refusals.read_rows(), "refused verify 1", "verify", known))
    results.check("git cgraph verify --quiet, refused", exactly(own.ask("verify", "--quiet"), 1, "", err))


def check_written(results, own, _other):
    """A chain that is another one after its refusal is asked once more, three times in all."""
    chain = own.put_chain(NAMES[:1])
    own.put_layer(NAMES[0])
    count = 'printf x >>"$PWD/tries"\n'
    own.clone.put_program("graphtool", count + "echo 'refused verify 1'\necho %s >>'%s'\nexit 1\n" % (NAMES[0], os.fsdecode(chain)))
    answer = own.ask("verify")
    tries = os.path.join(own.objects, b"tries")
    line = "the commit-graph was written anew meanwhile"
    err = said([line, *refusals.sentences(refusals.read_rows(), line)])
    right = answer == (128, "", err) and os.path.getsize(tries) == 3
    results.check("git cgraph verify, written anew each time", None if right else "it is %r, not %r" % (answer, err))
    os.remove(tries)


def check_all_checks(results, own, _other):
    """`verify --all-checks` asks `distinct` and then `check`: the lines are those of `check`, or the first refusal."""
    own.put("commit-graph", HEADS["sha1"])
    info = os.path.join(os.fsdecode(own.objects), "info")
    right = "ok commits 2 longest 1\n"
    for distinct, check, word, status, out in (
        ("ok commits 2 longest 1", "ok commits 2 longest 1", "check", 0, right),
        ("refused verify 1", "ok commits 2 longest 1", "distinct", 1, "refused verify 1\n"),
        ("ok commits 2 longest 1", "refused filters 8 layer 0", "check", 1, "refused filters 8 layer 0\n"),
    ):
        for program, name, line in (("graphtool", "distinct", distinct), ("historytool", "check", check)):
            text = '[ "$1" = %s ] || exit 9\necho "%s"\nexit %d\n' % (name, line, line.startswith("refused"))
            own.clone.put_program(program, text)
        where = "the file is '%s/commit-graph'" % info if "layer" in out else ""
        known = refusals.Known(where, "", anew(info, "commit-graph"))
        err = said(refusals.sentences(refusals.read_rows(), out.strip(), word, known)) if status else ""
        answer = own.ask("verify", "--all-checks")
        results.check("git cgraph verify --all-checks, %r and %r" % (distinct, check), exactly(answer, status, out, err))
        results.check("git cgraph verify --all-checks -q", exactly(own.ask("verify", "--all-checks", "-q"), status, "", err))
