"""Checks `git cgraph show` around its program: the files of the layers, and what the commit-graph covers. Git is the real one,
and `historytool` a shell script that writes lines and ids.
"""

import os
import tempfile

import refusals
from wrappers.clone import Clone, exactly
from wrappers.json_answers import objects_in
from wrappers.questions import anew, ask, git, make_repository, said

PERSON = ("-c", "user.name=A", "-c", "user.email=a@example.com")
LAYER = "layer %d commits 2 hash sha1 bases %d dates yes filters none\nchecksum ab\nchunks OIDF 1024 OIDL 40\n"
WHOLE = "graph layers %d commits 2 generation 2\n"
GONE = "0" * 39 + "1"
LACKED = {
    1: "1 reachable commit is not in the commit-graph: Git has to read the commit itself",
    2: "2 reachable commits are not in the commit-graph: Git has to read the commits themselves",
}
WRITES = "git commit-graph write --reachable"
NAMES_TIPS = "git rev-list --no-walk --all | git commit-graph write --stdin-commits"
CHAIN = "commit-graphs/commit-graph-chain"


class Shown:
    """A repository of two commits, with a program that shows layers and lists ids."""

    def __init__(self, folder):
        self.clone = Clone(folder)
        self.folder = os.fsdecode(make_repository(self.clone, os.path.join(folder, "a repository").encode()))
        self.info = os.path.join(self.folder, ".git/objects/info")
        self.list = os.path.join(folder, "ids")
        self.put_ids(self.reachable())

    def git(self, *words):
        """What a git command writes there."""
        return git(self.clone, self.folder, *PERSON, *words)

    def reachable(self):
        """The ids of all reachable commits."""
        return self.git("rev-list", "--all").split()

    def put_ids(self, ids):
        """Lets the program list these ids."""
        with open(self.list, "w", encoding="ascii") as file:
            file.write("".join(commit + "\n" for commit in ids))

    def put(self, lines, status=0, also="", slow=":"):
        """Lets the program show these lines, and end with this status."""
        text = "case $1 in\nshow)\n%s\ncat <<'END'\n%sEND\nexit %d ;;\nids) %s; cat '%s' ;;\nesac\n"
        text %= (also, lines, status, slow, self.list)
        self.clone.put_program("historytool", text)

    def ask(self, *words):
        """The answer of `git cgraph show`."""
        return ask(self.clone, ["show", *words], self.folder)


def check_all(results):
    """The checks, in one repository."""
    with tempfile.TemporaryDirectory() as folder:
        shown = Shown(folder)
        for check in (check_files, check_lacking, check_more, check_refused, check_other_hash, check_unused, check_written, check_chain):
            check(results, shown)
        results.check("git cgraph show, nothing is left over", shown.clone.left_over())


def lines_of(path, last):
    """The lines of a commit-graph of one layer in a file, and what comes at last."""
    size = os.path.getsize(path)
    return LAYER % (0, 0) + "size %d file %s\n" % (size, path) + WHOLE % 1 + "size %d\n" % size + last


def covered(missing=0, gone=0, unreachable=0):
    """The lines on what is covered."""
    return "missing %d\ngone %d\nunreachable %d\n" % (missing, gone, unreachable)


def check_files(results, shown):
    """The file and its size stand after each layer, and the sizes together after the whole."""
    shown.put(LAYER % (0, 0) + WHOLE % 1 + "right\n")
    out = lines_of(os.path.join(shown.info, "commit-graph"), "right\n" + covered())
    results.check("git cgraph show", exactly(shown.ask(), 0, out))
    results.check("git cgraph show -q", exactly(shown.ask("-q"), 0, ""))
    results.check("git cgraph show --no-progress", exactly(shown.ask("--no-progress"), 0, out))
    shown.put(LAYER % (0, 0) + WHOLE % 1 + "right\n", slow="sleep 2.2")
    answer = shown.ask("--progress")
    right = answer[:2] == (0, out) and "\nComparing commits: 1 s\r" in answer.err and answer.err.endswith(" s, done.\n")
    results.check("git cgraph show --progress", None if right else "it is %r" % (answer,))
    shown.put(LAYER % (0, 0) + WHOLE % 1 + "right\n")


def check_lacking(results, shown):
    """Reachable commits that the commit-graph lacks are counted, and the command writes one that has them."""
    path = os.path.join(shown.info, "commit-graph")
    for number in (1, 2):
        shown.git("commit", "-q", "--allow-empty", "-m", "later %d" % number)
        out = lines_of(path, "right\n" + covered(missing=number))
        err = said([LACKED[number], "what to do: write it again:"]) + "    %s\n" % WRITES
        results.check("git cgraph show, of %d commits later" % number, exactly(shown.ask(), 0, out, err))
    shown.put_ids(shown.reachable())
    shown.git("checkout", "-q", "--detach")
    shown.git("commit", "-q", "--allow-empty", "-m", "of no branch")
    err = said([LACKED[1], "what to do: write it again:"]) + "    %s\n" % NAMES_TIPS
    answer = shown.ask()
    results.check("git cgraph show, of a commit of HEAD alone", exactly(answer, 0, lines_of(path, "right\n" + covered(1)), err))
    with open(path, "rb") as file:
        content = file.read()
    os.remove(path)
    shown.git("-c", "alias.x=!" + NAMES_TIPS, "x")
    complete = len(shown.reachable()) == 5 and os.path.getsize(path) > 1024 + 5 * 56
    results.check("the command writes a commit-graph of all commits", None if complete else "it wrote %d" % os.path.getsize(path))
    with open(path, "wb") as file:
        file.write(content)
    shown.put_ids(shown.reachable())


def check_more(results, shown):
    """Commits of the commit-graph that are gone, and those that nothing leads to."""
    path = os.path.join(shown.info, "commit-graph")
    tree = shown.git("rev-parse", "HEAD^{tree}")
    loose = shown.git("commit-tree", "-m", "of nothing", tree)
    shown.put_ids([*shown.reachable(), loose])
    results.check("git cgraph show, of an unreachable commit", exactly(shown.ask(), 0, lines_of(path, "right\n" + covered(0, 0, 1))))
    shown.put_ids([*shown.reachable(), loose, GONE, GONE])
    sentence = "1 commit of the commit-graph is gone, for which 'git commit-graph verify' refuses it"
    err = said([sentence, "what to do: write it again:"]) + "    %s\n" % WRITES.replace(WRITES, NAMES_TIPS)
    results.check("git cgraph show, of a commit that is gone", exactly(shown.ask(), 0, lines_of(path, "right\n" + covered(0, 1, 1)), err))
    shown.put_ids(shown.reachable())


def check_refused(results, shown):
    """A commit-graph that is refused is shown all the same, and the refusal comes at last."""
    path, rows = os.path.join(shown.info, "commit-graph"), refusals.read_rows()
    cure = [anew(shown.info, "commit-graph")[0], NAMES_TIPS]
    for line, status in (("refused verify 4 layer 0 fault 1", 1), ("refused filters 8 layer 0", 1), ("refused verify 10", 128)):
        shown.put(LAYER % (0, 0) + WHOLE % 1 + line + "\n", 1)
        known = refusals.Known("the file is '%s'" % path if "layer" in line else "", "", cure)
        err = said(refusals.sentences(rows, line, "show", known))
        results.check("git cgraph show, %s" % line, exactly(shown.ask(), status, lines_of(path, line + "\n"), err))
        results.check("git cgraph show -q, %s" % line, exactly(shown.ask("-q"), status, "", err))
    shown.put("refused open 5 layer 0 file 1\n", 1)
    known = refusals.Known("the file is '%s'" % path, "", cure)
    err = said(refusals.sentences(rows, "refused open 5 layer 0 file 1", "show", known))
    results.check("git cgraph show, of no layer", exactly(shown.ask(), 1, "refused open 5 layer 0 file 1\n", err))


def check_other_hash(results, shown):
    """A commit-graph of the other kind of hash is shown, and which hash it has and which the repository."""
    path, line = os.path.join(shown.info, "commit-graph"), "refused git 1"
    with open(path, "rb") as file:
        content = file.read()
    with open(path, "wb") as file:
        file.write(content.replace(b"CGPH\1\1", b"CGPH\1\2", 1))
    layer = LAYER.replace("sha1", "sha256") % (0, 0)
    cause = "the ids of the commit-graph are of SHA-256, and those of the repository of SHA-1"
    known = refusals.Known("the file is '%s'" % path, "", [anew(shown.info, "commit-graph")[0], NAMES_TIPS], cause=cause)
    err = said(refusals.sentences(refusals.read_rows(), line, "show", known))
    for verdict, status in (("right", 0), ("refused verify 1", 1)):
        shown.put(layer + WHOLE % 1 + verdict + "\n", status)
        out = lines_of(path, line + "\n").replace("sha1", "sha256")
        results.check("git cgraph show, of the other hash, %s" % verdict, exactly(shown.ask(), 1, out, err))
        results.check("git cgraph show -q, of the other hash, %s" % verdict, exactly(shown.ask("-q"), 1, "", err))
    (last,) = objects_in(shown.ask("--json").out)
    right = [layer["hash"] for layer in last["layers"]] == ["sha256"] and (last["error"], last["reason"]) == (line, cause)
    results.check("git cgraph show --json, of the other hash", None if right else "it is %r" % last)
    shown.put("refused open 5 layer 0 file 4\n", 1)
    results.check("git cgraph show, of the other hash, and no layer", exactly(shown.ask(), 1, line + "\n", err))
    with open(path, "wb") as file:
        file.write(content)


def check_unused(results, shown):
    """It is said where Git uses no commit-graph."""
    shown.put(LAYER % (0, 0) + WHOLE % 1 + "right\n")
    out = lines_of(os.path.join(shown.info, "commit-graph"), "right\n" + covered())
    shown.git("config", "core.commitGraph", "false")
    err = said(["Git uses no commit-graph here, since core.commitGraph is false"])
    results.check("git cgraph show, without core.commitGraph", exactly(shown.ask(), 0, out, err))
    shown.git("config", "--unset", "core.commitGraph")
    shown.git("replace", "HEAD", "HEAD~1")
    shown.put_ids(shown.git("--no-replace-objects", "rev-list", "--all").split())
    answer = shown.ask()
    right = answer.status == 0 and "since some commits are replaced (git replace)" in answer.err and answer.out.startswith("layer 0")
    results.check("git cgraph show, of replaced commits", None if right else "it is %r" % (answer,))
    shown.git("replace", "-d", "HEAD")
    shown.put_ids(shown.reachable())


def check_written(results, shown):
    """A commit-graph that is another one after each refusal is no answer, and nothing is shown."""
    chain = os.path.join(shown.info, CHAIN)
    os.makedirs(os.path.dirname(chain))
    os.rename(os.path.join(shown.info, "commit-graph"), os.path.join(shown.info, "aside"))
    with open(chain, "w", encoding="ascii") as file:
        file.write("ab\n")
    shown.put(LAYER % (0, 0) + WHOLE % 1 + "refused verify 1\n", 1, "echo ab >>'%s'" % chain)
    line = "the commit-graph was written anew meanwhile"
    err = said([line, *refusals.sentences(refusals.read_rows(), line)])
    results.check("git cgraph show, written anew each time", exactly(shown.ask(), 128, "", err))


def check_chain(results, shown):
    """Each layer of a chain has its own file."""
    with open(os.path.join(shown.info, CHAIN), "w", encoding="ascii") as file:
        file.write("aa\nbb\n")
    lines, whole = "", 0
    for number, name in enumerate(("aa", "bb")):
        path = os.path.join(shown.info, "commit-graphs/graph-%s.graph" % name)
        with open(path, "w", encoding="ascii") as file:
            file.write("CGPH" * (number + 1))
        lines += LAYER % (number, number) + "size %d file %s\n" % (4 * number + 4, path)
        whole += 4 * number + 4
    shown.put(LAYER % (0, 0) + LAYER % (1, 1) + WHOLE % 2 + "right\n")
    out = lines + WHOLE % 2 + "size %d\nright\n" % whole + covered()
    results.check("git cgraph show, of a chain", exactly(shown.ask(), 0, out))
    shown.put_ids([*shown.reachable(), GONE])
    answer = shown.ask()
    cure = "    rm -rf '%s/commit-graphs'\n    %s --split\n" % (shown.info, NAMES_TIPS)
    right = answer.status == 0 and answer.err.endswith(cure)
    results.check("git cgraph show, of a chain with a commit that is gone", None if right else "it is %r, not %r" % (answer, cure))
