"""Checks `git cgraph verify --objects` around its programs: what runs in a row, which failure is told, and the line on how far it
is. Git is the real one, and `historytool` a shell script that counts the commits that it is given.
"""

import os
import pty
import re
import shutil
import tempfile

import refusals
from wrappers.clone import Clone, exactly
from wrappers.json_answers import fields_of, objects_in
from wrappers.questions import anew, ask, git, make_repository, said

COUNT = 7
"""The commits of the repository."""

VERIFIED = "ok commits %d longest %d\nparents 0 commits 1\nparents 1 commits %d\n" % (COUNT, COUNT - 1, COUNT - 1)
RIGHT = VERIFIED + "objects commits %d\n" % COUNT

HISTORYTOOL = """
case $1 in
ids) {ids} sed -n "$(($3 + 1)),$4p" '{list}' ;;
objects)
    echo "$3 $4" >>'{parts}'
    commits=$(grep -ac '^[0-9a-f]* commit [1-9][0-9]*$')
    {objects}
    [ "$commits" -eq $(($4 - $3)) ] || exit 9
    echo "ok commits $commits"
    ;;
check) printf '{verified}dates none\\nfilters none\\n' ;;
esac
"""
"""The ids are the lines of a list. Each call of `objects` notes its part."""

REFUSED = {
    "refused objects 2 position 3": 128,
    "refused objects 5 position 3": 1,
    "refused objects 6 position 3": 1,
    "refused objects 7 position 3": 1,
    "refused objects 8 position 3": 1,
    "refused objects 9 position 3 index 1": 1,
    "refused objects 10 position 3": 1,
    "refused read 2": 128,
    "refused read 3": 128,
    "refused open 7": 128,
    "refused verify 10": 128,
}
"""What `objects` may answer, and the status of `git cgraph` then."""

DAMAGED = "see which objects are damaged, and take them from another copy of the repository"
LOST = (
    "the commit is missing, and has to come back: take it from another copy of the repository, and ask again. Keep the commit-graph, "
    "which may have the last record of its parents"
)
GONE = "no reference and no HEAD leads to the commit, so that Git removed it: write the commit-graph anew, without it"
PARTIAL = "this is a partial clone, in which the commit is not here, and nothing was fetched: let Git fetch it, and ask again"
SHALLOW = "this repository is shallow, and the commit lies past its end: fetch the whole history, and ask again"
WRITTEN = "the commit-graph was written anew meanwhile"


class Compared:
    """A repository of a few commits, with programs that this check makes."""

    def __init__(self, folder):
        self.clone = Clone(folder)
        for tool in ("env",):
            os.symlink(shutil.which(tool), os.path.join(self.clone.folder, "bin", tool))
        self.folder = os.fsdecode(make_repository(self.clone, os.path.join(folder, "own").encode()))
        person = ("-c", "user.name=A", "-c", "user.email=a@example.com")
        for number in range(COUNT - 2):
            git(self.clone, self.folder, *person, "commit", "-q", "--allow-empty", "-m", "commit %d" % number)
        self.ids = sorted(git(self.clone, self.folder, "rev-list", "HEAD").split())
        self.list, self.parts = os.path.join(folder, "ids"), os.path.join(folder, "parts")
        self.info = os.path.join(self.folder, ".git/objects/info")
        with open(self.list, "w", encoding="ascii") as file:
            file.write("".join(commit + "\n" for commit in self.ids))
        self.put()

    def put(self, ids="", objects=""):
        """Makes the programs, with commands of a shell before the ids are written, and before `objects` answers."""
        verified = VERIFIED.replace("\n", "\\n")
        text = HISTORYTOOL.format(ids=ids, objects=objects, list=self.list, parts=self.parts, verified=verified)
        self.clone.put_program("historytool", text)
        self.clone.put_program("graphtool", "printf '%s'\n" % verified)

    def ask(self, *words, shell=(), **streams):
        """The answer of `git cgraph verify --objects`."""
        if os.path.exists(self.parts):
            os.remove(self.parts)
        return ask(self.clone, ["verify", "--objects", *words], self.folder, shell, **streams)

    def asked(self):
        """The parts that were compared, in the order of positions."""
        with open(self.parts, encoding="ascii") as file:
            return sorted(tuple(map(int, line.split())) for line in file)

    def put_git(self, text):
        """Puts a script before Git's own `cat-file --batch`, or takes it away."""
        path = os.path.join(self.clone.folder, "bin", "git")
        os.remove(path)
        if text is None:
            os.symlink(shutil.which("git"), path)
            return
        script = '#!/bin/sh\ncase "$*" in\n*" cat-file --batch --buffer")\n%s\n;;\n*) exec "%s" "$@" ;;\nesac\n'
        self.clone.put("bin/git", script % (text.replace("GIT", shutil.which("git")), shutil.which("git")))


def check_all(results):
    """The checks of one repository."""
    with tempfile.TemporaryDirectory() as folder:
        compared = Compared(folder)
        for shell in (("sh",), ("dash",), ("bash", "--posix"), ("busybox", "sh")):
            if shutil.which(shell[0]):
                check_right(results, compared, shell)
        check_written_to(results, compared)
        check_refused(results, compared)
        check_parts(results, compared)
        check_failures(results, compared)
        check_means(results, compared)
        check_objects(results, compared)
        check_partial(results, compared)
        check_written(results, compared)
        check_replaced(results, compared)
        check_progress(results, compared)
        if os.access("/proc/self/io", os.R_OK):
            check_reading(results, compared)
        results.check("git cgraph verify --objects, nothing is left over", compared.clone.left_over())


def check_right(results, compared, shell):
    """Where all is right: the lines, and the parts, which lie side by side from the first position to the last."""
    compared.put()
    for jobs in (None, 1, 2, 3, COUNT, 99):
        words = [] if jobs is None else ["--jobs=%d" % jobs]
        answer, parts = compared.ask(*words, shell=shell), compared.asked()
        ends = [0] + [end for _, end in parts]
        complaint = exactly(answer, 0, RIGHT)
        if [start for start, _ in parts] != ends[:-1] or ends[-1] != COUNT or len(parts) != min(jobs or 1, COUNT):
            complaint = "the parts are %s" % parts
        results.check("%s git-cgraph verify --objects %s" % (" ".join(shell), " ".join(words)), complaint)
    answer = compared.ask("--all-checks", "-j", "2", shell=shell)
    out = VERIFIED + "dates none\nfilters none\nobjects commits %d\n" % COUNT
    results.check("%s git-cgraph verify --objects --all-checks" % " ".join(shell), exactly(answer, 0, out))
    answer = compared.ask("--json", "--all-checks", "-j2", shell=shell)
    repository = os.path.join(compared.folder, ".git")
    wanted = {"command": "verify", "status": 0, "repository": repository, "commit_graph": os.path.join(compared.info, "commit-graph")}
    right = objects_in(answer.out) == [{**wanted, **fields_of("verify", out)}] and answer[::2] == (0, "")
    results.check("%s git-cgraph verify --objects --json" % " ".join(shell), None if right else "it is %r" % (answer,))
    results.check("%s git-cgraph verify --objects -q" % " ".join(shell), exactly(compared.ask("-q", shell=shell), 0, ""))


def check_written_to(results, compared):
    """An answer that cannot be written."""
    rows, unwritten = refusals.read_rows(), "the answer could not be written"
    err = said([unwritten, *refusals.sentences(rows, unwritten)])
    with open("/dev/full", "wb") as full:
        results.check("git cgraph verify --objects, to a full device", exactly(compared.ask(stdout=full), 128, "", err))
    answer = compared.ask(shell=("sh",), preexec_fn=lambda: os.close(1))
    results.check("git cgraph verify --objects, output that is closed", exactly(answer, 128, "", err))


def check_refused(results, compared):
    """Each refusal is the only line, in sentences, with the commit and what to do."""
    rows = refusals.read_rows()
    for line, status in REFUSED.items():
        compared.put(objects="echo '%s'; exit 1" % line)
        commit, known = compared.ids[3], refusals.Known("", "", anew(compared.info, "commit-graph"))
        if line.startswith("refused objects 6"):
            known = refusals.Known("the object is '%s'" % loose(compared, commit), DAMAGED, ["git fsck"])
        sentences = refusals.sentences(rows, line, "verify", known)
        if " position " in line:
            sentences.insert(0, "the commit at position 3 is " + commit)
        answer = compared.ask("-j3")
        results.check("git cgraph verify --objects, answered %r" % line, exactly(answer, status, line + "\n", said(sentences)))
    compared.put()
    compared.clone.put_program("graphtool", "echo 'refused verify 1'\nexit 1\n")
    answer = compared.ask()
    right = answer[:2] == (1, "refused verify 1\n") and not os.path.exists(compared.parts)
    results.check("git cgraph verify --objects, of a commit-graph that is wrong", None if right else "it is %r" % (answer,))
    compared.clone.put_program("graphtool", "printf '%s'\n" % VERIFIED.replace("\n", "\\n"))
    compared.clone.put_program("historytool", "echo usage >&2\nexit 2\n")
    err = said(["the program does not take these words"])
    results.check("git cgraph verify --objects, of a program without it", exactly(compared.ask(), 128, "", err))


def loose(compared, commit):
    """The file of an object."""
    return os.path.join(os.path.dirname(compared.info), commit[:2], commit[2:])


def check_parts(results, compared):
    """Of several parts that are refused, the first counts, whichever ends first."""
    wait = '[ "$3" -gt 0 ] || sleep 0.3; echo "refused objects 8 position $3"; exit 1'
    compared.put(objects=wait)
    answer = compared.ask("-j", "3")
    right = answer[:2] == (1, "refused objects 8 position 0\n") and compared.ids[0] in answer.err
    results.check("git cgraph verify --objects, of three parts that are refused", None if right else "it is %r" % (answer,))


def check_failures(results, compared):
    """Whichever process of a row fails, that is told, and never taken for right."""
    rows, first = refusals.read_rows(), "head -n 2 | GIT \"$@\""
    ended = "ended by signal 9"
    signal = [ended, *refusals.sentences(rows, ended)]
    odd = "git cat-file ended with status 128"
    short = "refused objects 1 position 2"
    answered = "[ \"$commits\" -eq $(($4 - $3)) ] || { echo 'refused objects 1 position 2'; exit 1; }"
    by_ids = "historytool ids ended with status 2"
    told_of_ids = [by_ids, *refusals.sentences(rows, by_ids)]
    for title, ids, objects, script, expected in (
        ("objects is killed", "", "kill -9 $$", None, (137, "", signal)),
        ("ids is killed", 'head -n 2 "%s"; kill -9 $$;' % compared.list, answered, None, (137, "", signal)),
        ("ids cannot write", 'head -n 2 "%s"; exit 2;' % compared.list, answered, None, (128, "", told_of_ids)),
        ("Git is killed", "", answered, first + "; kill -9 $$", (137, "", signal)),
        ("Git fails at its end", "", "", 'GIT "$@"; exit 128', (128, "", [odd, *refusals.sentences(rows, odd)])),
        ("ids runs out of memory", "echo refused open 7; exit 1;", answered, None,
         (128, "refused open 7\n", refusals.sentences(rows, "refused open 7"))),
        ("Git fails midway", "", answered, first + "; exit 128",
         (128, short + "\n", ["the commit at position 2 is " + compared.ids[2], *refusals.sentences(rows, short)])),
    ):
        compared.put(ids=ids, objects=objects)
        compared.put_git(script)
        answer = compared.ask(shell=("sh",))
        compared.put_git(None)
        status, out, sentences = expected
        results.check("git cgraph verify --objects, %s" % title, exactly(answer, status, out, said(sentences)))


def check_means(results, compared):
    """Where Git lacks memory, also for the one commit, nothing is known of that."""
    rows, line, lack = refusals.read_rows(), "refused objects 1 position 0", "fatal: Out of memory, malloc failed"
    compared.put(objects="echo '%s'; exit 1" % line)
    os.remove(os.path.join(compared.clone.folder, "bin", "git"))
    git_path, script = shutil.which("git"), '#!/bin/sh\ncase "$*" in *cat-file*) echo "%s" >&2; exit 128 ;; *) exec "%s" "$@" ;; esac\n'
    compared.clone.put("bin/git", script % (lack, git_path))
    answer = compared.ask(shell=("sh",))
    os.remove(os.path.join(compared.clone.folder, "bin", "git"))
    os.symlink(git_path, os.path.join(compared.clone.folder, "bin", "git"))
    sentences = ["the commit at position 0 is " + compared.ids[0], *refusals.sentences(rows, line)]
    err = lack + "\n" + said(sentences)
    results.check("git cgraph verify --objects, Git lacks memory", exactly(answer, 128, line + "\n", err))


def check_objects(results, compared):
    """An object that is gone, and one that is damaged."""
    rows, commit = refusals.read_rows(), compared.ids[4]
    path, line = loose(compared, commit), "refused objects 4 position 4"
    start = ["the commit at position 4 is " + commit]
    compared.put(objects="echo '%s'; exit 1" % line)
    err = said(start + refusals.sentences(rows, line, "verify", refusals.Known("", "see what Git says, and ask again")))
    results.check("git cgraph verify --objects, an object that is there again", exactly(compared.ask(), 128, line + "\n", err))
    os.rename(path, path + " aside")
    known = refusals.Known("", LOST, ["git fsck"])
    err = said(start + refusals.sentences(rows, line, "verify", known))
    results.check("git cgraph verify --objects, an object that is lost", exactly(compared.ask(), 1, line + "\n", err))
    with open(path, "wb"):
        pass
    known = refusals.Known("the object is '%s'" % path, DAMAGED, ["git fsck"])
    answer = compared.ask()
    right = answer[:2] == (1, line + "\n") and answer.err.endswith(said(start + refusals.sentences(rows, line, "verify", known)))
    results.check("git cgraph verify --objects, an object that is empty", None if right else "it is %r" % (answer,))
    os.rename(path + " aside", path)
    check_gone(results, compared)


def check_gone(results, compared):
    """A commit to which nothing leads, and which is gone."""
    line, commit = "refused objects 4 position %d" % COUNT, "f" * 40
    with open(compared.list, "a", encoding="ascii") as file:
        file.write(commit + "\n")
    compared.put(objects="echo '%s'; exit 1" % line)
    answer = compared.ask()
    with open(compared.list, "w", encoding="ascii") as file:
        file.write("".join(commit + "\n" for commit in compared.ids))
    known = refusals.Known("", GONE, anew(compared.info, "commit-graph"))
    sentences = refusals.sentences(refusals.read_rows(), line, "verify", known)
    err = said(["the commit at position %d is %s" % (COUNT, commit), *sentences])
    results.check("git cgraph verify --objects, an object that is gone", exactly(answer, 1, line + "\n", err))


def check_partial(results, compared):
    """In a partial clone nothing is fetched, and a commit that is not there is no damage; nor is it in a shallow one."""
    rows, commit = refusals.read_rows(), compared.ids[4]
    path, line = loose(compared, commit), "refused objects 4 position 4"
    compared.put(objects="[ \"$commits\" -eq $(($4 - $3)) ] || { echo '%s'; exit 1; }" % line)
    git(compared.clone, compared.folder, "clone", "-q", "--bare", compared.folder, compared.folder + " whole.git")
    git(compared.clone, compared.folder + " whole.git", "config", "uploadpack.allowAnySHA1InWant", "true")
    for name, value in (("url", "file://%s whole.git" % compared.folder), ("promisor", "true"), ("partialclonefilter", "tree:0")):
        git(compared.clone, compared.folder, "config", "remote.origin." + name, value)
    os.rename(path, path + " aside")
    answer = compared.ask()
    known = refusals.Known("", PARTIAL, ["git cat-file -e " + commit])
    sentences = ["the commit at position 4 is " + commit, *refusals.sentences(rows, line, "verify", known)]
    packs = os.path.join(os.path.dirname(compared.info), "pack")
    fetched = [name for name in os.listdir(packs) if name.endswith(".pack")]
    right = answer[:2] == (128, line + "\n") and answer.err.endswith(said(sentences)) and not fetched
    results.check("git cgraph verify --objects, in a partial clone", None if right else "it is %r, with %s" % (answer, fetched))
    shallow = os.path.join(compared.folder, ".git/shallow")
    with open(shallow, "w", encoding="ascii") as file:
        file.write(git(compared.clone, compared.folder, "rev-parse", "HEAD") + "\n")
    answer = compared.ask()
    known = refusals.Known("", SHALLOW, ["git fetch --unshallow"])
    sentences = ["the commit at position 4 is " + commit, *refusals.sentences(rows, line, "verify", known)]
    right = answer[:2] == (128, line + "\n") and answer.err.endswith(said(sentences))
    results.check("git cgraph verify --objects, in a shallow clone", None if right else "it is %r" % (answer,))
    os.remove(shallow)
    git(compared.clone, compared.folder, "cat-file", "-e", commit)
    results.check("git cgraph verify --objects, after the commit was fetched", exactly(compared.ask(), 0, RIGHT))
    for name in os.listdir(packs):
        os.remove(os.path.join(packs, name))
    os.rename(path + " aside", path)
    git(compared.clone, compared.folder, "config", "--remove-section", "remote.origin")


def check_written(results, compared):
    """A commit-graph that is another one meanwhile is tried once more, and then told as that."""
    rows, once = refusals.read_rows(), os.path.join(compared.clone.folder, "once")
    err = said([WRITTEN, *refusals.sentences(rows, WRITTEN)])
    for line in ("refused objects 3 position 2", "refused objects 11", "refused open 2", "refused objects 1 position 2"):
        compared.put(objects="echo '%s'; exit 1" % line)
        answer, tries = compared.ask(), len(compared.asked())
        complaint = exactly(answer, 128, "", err) or (None if tries == 2 else "there were %d tries" % tries)
        results.check("git cgraph verify --objects, answered %r twice" % line, complaint)
        compared.put(objects="[ -e '%s' ] || { echo >'%s'; echo '%s'; exit 1; }" % (once, once, line))
        results.check("git cgraph verify --objects, answered %r once" % line, exactly(compared.ask(), 0, RIGHT))
        os.remove(once)


def check_replaced(results, compared):
    """A file that takes the place of the one that was checked is noticed also where its commits are right. A layer that comes on
    top changes nothing.
    """
    rows, path = refusals.read_rows(), os.path.join(compared.info, "commit-graph")
    err = said([WRITTEN, *refusals.sentences(rows, WRITTEN)])
    compared.put(objects="cp '%s' '%s.new'; mv '%s.new' '%s'" % ((path,) * 4))
    results.check("git cgraph verify --objects, a file that is replaced twice", exactly(compared.ask(), 128, "", err))
    os.rename(path, path + " aside")
    os.mkdir(path + "s")
    chain = os.path.join(path + "s", "commit-graph-chain")
    for title, script, expected in (
        ("on which a layer is put", "echo cc >>'%s'" % chain, (0, RIGHT, "")),
        ("which is replaced", "echo c$$ >'%s'" % chain, (128, "", err)),
    ):
        with open(chain, "w", encoding="ascii") as file:
            file.write("aa\nbb\n")
        compared.put(objects=script)
        results.check("git cgraph verify --objects, a chain %s meanwhile" % title, exactly(compared.ask(), *expected))
    shutil.rmtree(path + "s")
    os.rename(path + " aside", path)


def check_progress(results, compared):
    """The line on how far it is: where it is asked for or on a terminal, and else not."""
    compared.put()
    last = "Checking commits: 100%% (%d/%d), done.\n" % (COUNT, COUNT)
    first = "Checking commits:   0%% (0/%d)\r" % COUNT
    for words, asked in ((["--progress"], True), (["--progress", "-j2"], True), (["--no-progress"], False), (["-q", "--progress"], False)):
        answer = compared.ask(*words)
        shown = first in answer.err and answer.err.endswith("\r" + last) if asked else not answer.err
        right = shown and answer[:2] == (0, "" if "-q" in words else RIGHT)
        results.check("git cgraph verify --objects %s" % " ".join(words), None if right else "it is %r" % (answer,))
    answer = compared.ask("--progress", shell=("sh",), stderr=None, preexec_fn=lambda: os.close(2))
    results.check("git cgraph verify --objects --progress, with no standard error", exactly(answer, 0, RIGHT))
    compared.put(objects="sleep 1")
    for words, delay, asked in ((["-j2"], "0", True), ([], "30", False), (["--no-progress"], "0", False), (["-q"], "0", False)):
        shown = on_terminal(compared, words, delay)
        right = shown.replace("\r\n", "\n").endswith(last) if asked else shown == ""
        title = "git cgraph verify --objects %s, on a terminal, after %s s" % (" ".join(words), delay)
        results.check(title, None if right else "it shows %r" % shown)
    compared.clone.put_program("graphtool", "sleep 2.2\nprintf '%s'\n" % VERIFIED.replace("\n", "\\n"))
    answer = ask(compared.clone, ["verify", "--progress"], compared.folder)
    lines = answer.err.split("\r")
    right = answer[:2] == (0, VERIFIED) and "Checking commit-graph: 1 s" in lines
    right = right and re.fullmatch(r"Checking commit-graph: [1-9]\d* s, done\.\n", lines[-1])
    results.check("git cgraph verify --progress", None if right else "it is %r" % (answer,))


def check_reading(results, compared):
    """While a large file is read, how much of it that is: Linux tells what a process has read."""
    path = os.path.join(compared.info, "commit-graph")
    os.rename(path, path + " aside")
    with open(path, "wb") as file:
        file.truncate(10**9)
    compared.clone.put_program("graphtool", "sleep 1.2\nprintf '%s'\n" % VERIFIED.replace("\n", "\\n"))
    answer = ask(compared.clone, ["verify", "--progress"], compared.folder)
    right = answer[:2] == (0, VERIFIED) and "Reading commit-graph:   0%" in answer.err.split("\r")
    results.check("git cgraph verify --progress, of a large file", None if right else "it is %r" % (answer,))
    os.rename(path + " aside", path)


def on_terminal(compared, words, delay):
    """What is written to standard error where that is a terminal, after so many seconds."""
    ours, theirs = pty.openpty()
    surroundings = compared.clone.surroundings
    compared.clone.surroundings = lambda **more: {**surroundings(**more), "GIT_PROGRESS_DELAY": delay}
    try:
        compared.ask(*words, stderr=theirs)
    finally:
        compared.clone.surroundings = surroundings
        os.close(theirs)
    shown = b""
    try:
        while True:
            part = os.read(ours, 4096)
            if not part:
                break
            shown += part
    except OSError:
        pass
    os.close(ours)
    return shown.decode()
