"""Checks `git cgraph`: its words, what it asks the programs, its statuses, and how it ends."""

import os
import re
import shutil
import signal
import subprocess
import tempfile
import time

import refusals
from wrappers.clone import Clone, exactly, run
from wrappers.table import commands
from wrappers.tools import read

SHELLS = (("sh",), ("dash",), ("bash",), ("bash", "--posix"), ("busybox", "sh"))
ODD_NAME = b"a folder's \"$(name)\" \\ *\n\xff;"
ODD_REF = "odd';$(id)\"&|<>`\u00e9!#%"

ECHO = "printf '<%s>' \"$@\"\npwd -P >&2\n"
"""A program that writes its words, and says in which folder it is."""

SYNOPSIS = re.findall(r"^    (git cgraph (?:\[<options>\]|-h) .*)$", read("docs", "MANUAL.md"), re.MULTILINE)
REVISIONS = ("HEAD", "HEAD~1", "HEAD")
WORDS = {
    command.word: (command.program, REVISIONS[: command.least() + command.takes_more()])
    for command in commands()
    if command.by_git and command.word not in ("list", "show", "ask", "write")
}
"""The program that answers each word, and revisions after the word; `list`, `show`, `ask` and `write` are by themselves."""

ASKED = {"merge-base": "merge-base-ids"}
"""By which word a program is asked, where that is another."""

ABOUT_NEWER = ("is-ancestor", "walk", "merge-base")
"""The questions that are also about commits which the commit-graph lacks."""

WRONG = {
    "there is no command": [],
    "there is no command 'bogus'": ["bogus"],
    "there is no option '-x'": ["-x", "verify"],
    "after -C there has to be a folder": ["-C"],
    "'verify' takes no revision": ["verify", "HEAD"],
    "'list' takes no revision": ["list", "HEAD"],
    "'find' takes one revision": ["find"],
    "'walk' takes two revisions": ["walk", "HEAD"],
    "'is-ancestor' takes two revisions": ["is-ancestor", "HEAD", "HEAD", "HEAD"],
    "'merge-base' takes two revisions or more": ["merge-base", "HEAD"],
    "'find' has no option '-x'": ["find", "-x"],
    "'verify' has no option '-v'": ["verify", "-v"],
    "'find' has no option '--objects'": ["find", "--objects", "HEAD"],
    "'find' has no option '--unchecked'": ["find", "--unchecked", "HEAD"],
    "there is no option '--unchecked'": ["--unchecked", "is-ancestor", "HEAD", "HEAD"],
    "'find' has no option '--graph-only'": ["find", "--graph-only", "HEAD"],
    "'ask' has no option '--graph-only'": ["ask", "--graph-only"],
    "after -j there has to be a number": ["verify", "-j"],
    "'0' is no number of jobs from 1 to 99": ["verify", "--objects", "--jobs=0"],
    "'x' is no number of jobs from 1 to 99": ["verify", "--objects", "-jx"],
    "'--jobs' goes with '--objects'": ["verify", "--jobs", "2"],
    "'ask' takes no revision": ["ask", "HEAD"],
    "'write' takes no revision": ["write", "HEAD"],
    "'write' has no option '--changed-paths'": ["write", "--changed-paths"],
    "'verify' has no option '--split'": ["verify", "--split"],
    "'find' has no option '--if-exists'": ["find", "--if-exists", "HEAD"],
    "'write' has no option '--if-exists'": ["write", "--if-exists"],
    "there is no option '--if-exists'": ["--if-exists", "verify"],
    "'ask' has no option '--json': each answer is some lines, and an empty one": ["--json", "ask"],
    "'ask' has no option '--quiet': its answers are all that it is asked for": ["ask", "-q"],
    "'ask' has no option '--progress'": ["ask", "--progress"],
}
STATUSES = [
    *(("verify", "refused verify 1", 1, 1), ("check", "refused dates 6", 1, 128), ("distinct", "refused open 7", 1, 128)),
    *(("find", "none", 1, 1), ("is-ancestor", "no", 1, 1), ("walk", "none", 1, 1), ("merge-base", "none", 1, 1)),
    *(("verify", "refused verify 10", 1, 128), ("check", "refused filters 10", 1, 128), ("check", "refused filters 4 layer 0", 1, 1)),
    *(("is-ancestor", "yes", 0, 0), ("is-ancestor", "unknown 1", 1, 128), ("distinct", "refused verify 1", 1, 1)),
    *(("merge-base", "refused walk", 1, 128), ("walk", "refused verify 10", 1, 128), ("find", "refused id 1", 2, 128)),
]
"""A word, the line and the status of its program, and the status of `git cgraph`."""

TABLE = "".join(name + "\0" * 8 for name in ("OIDF", "OIDL", "CDAT", "\0\0\0\0"))
CONTENT = "CGPH\1\1\3\0" + TABLE
"""A header and a table of chunks, by which there are no filters."""

NEWER = "if the commit is newer than the commit-graph, write that again"
LACKED = "'%s' (%s) is not in the commit-graph"


def check_all(results):
    """The checks of `git cgraph`."""
    with tempfile.TemporaryDirectory() as folder:
        clone = Clone(folder)
        repository = make_repository(clone, os.path.join(folder.encode(), ODD_NAME))
        check_words(results, clone)
        check_told(results, clone)
        check_manual(results)
        for shell in SHELLS:
            if shutil.which(shell[0]):
                check_questions(results, clone, repository, shell)
        check_statuses(results, clone, repository)
        check_lacked(results, clone, repository)
        check_repeated(results, clone, repository)
        for shell in SHELLS:
            if shutil.which(shell[0]):
                check_reload(results, clone, repository, shell)
        check_asked(results, clone, repository)
        check_revisions(results, clone, repository)
        check_ends(results, clone, repository)
        results.check("git cgraph, nothing is left over", clone.left_over())


def make_repository(clone, path):
    """A repository of two commits in a folder of an odd name, with a file where its commit-graph stands."""
    os.mkdir(path)
    git(clone, path, "init", "-q")
    person = ("-c", "user.name=A", "-c", "user.email=a@example.com")
    for message in ("first", "second"):
        git(clone, path, *person, "commit", "-q", "--allow-empty", "-m", message)
    git(clone, path, "update-ref", "refs/heads/" + ODD_REF, "HEAD")
    git(clone, path, *person, "tag", "-a", "-m", "a commit", "annotated", "HEAD~1")
    git(clone, path, "tag", "tree", "HEAD^{tree}")
    os.mkdir(os.path.join(path, b"sub"))
    with open(os.path.join(path, b".git/objects/info/commit-graph"), "w", encoding="ascii") as file:
        file.write(CONTENT)
    return path


def git(clone, folder, *words):
    """What a git command writes in a folder, which has to succeed."""
    answer = run(["git", *words], clone.surroundings(), cwd=folder)
    if answer.status:
        raise RuntimeError("git %s: %s" % (" ".join(words), answer.err))
    return answer.out.rstrip("\n")


def ask(clone, words, folder, shell=(), **streams):
    """The answer of `git cgraph` in a folder, run by a shell, or by Git where none is given."""
    if shell:
        command = [shutil.which(shell[0]), *shell[1:], os.path.join(clone.folder, "git-cgraph"), *words]
        return run(command, clone.surroundings(), cwd=folder, **streams)
    variables = clone.surroundings()
    variables["PATH"] = clone.folder + ":" + variables["PATH"]
    return run(["git", "cgraph", *words], variables, cwd=folder, **streams)


def said(sentences):
    """What stands on standard error where these sentences are said."""
    return refusals.written("git cgraph", sentences)


def anew(folder, name, *options):
    """The commands that write the commit-graph of an info folder anew, where it has this name."""
    remove = "rm -rf" if name.endswith("s") else "rm -f"
    return ["%s '%s/%s'" % (remove, folder.replace("'", "'\\''"), name), " ".join(["git commit-graph write --reachable", *options])]


def check_words(results, clone):
    """Words that are no command end with the usage of the command that was begun, or of all, and status 129, and need no
    repository.
    """
    for sentence, words in WRONG.items():
        answer = ask(clone, words, clone.folder)
        begun = next((word for word in words if not word.startswith("-")), "")
        own = [line for line in SYNOPSIS if re.search(r" %s( |$)" % begun, line)]
        lines = SYNOPSIS if sentence.startswith(("there is no ", "after -C ")) else own
        complaint = exactly(answer, 129, "", said([sentence]) + "usage: " + "\n   or: ".join(lines) + "\n")
        results.check("git cgraph %s: %s" % (" ".join(words), sentence), complaint)


def check_manual(results):
    """The synopsis of the manual has the commands of the table, with as many revisions, and each has an item."""
    manual = read("docs", "MANUAL.md")
    synopsis = re.findall(r"^    git cgraph \[<options>\] (.*)$", manual, re.MULTILINE)
    said = {}
    for line in synopsis:
        words = re.sub(r"\[.*?\]", "", line).replace("|", " ").split()
        commits = sum(word.startswith("<commit>") for word in words)
        said.update({word: commits for word in words if not word.startswith("<")})
    listed = {command.word: command.least() for command in commands() if command.by_git}
    results.check("the synopsis of the manual is that of the table", None if said == listed else "it has %s" % said)
    items = {word.split()[0] for word in re.findall(r"^- `([^`]*)`: ", manual, re.MULTILINE)}
    missing = sorted(set(listed) - items)
    results.check("each command has an item in the manual", "there is none on %s" % missing if missing else None)


def check_told(results, clone):
    """Help and version, alone and after each word, and outside a repository."""
    version = "git-cgraph " + read("VERSION")
    manual = read("docs", "MANUAL.md")
    for word in (None, "list", "show", "ask", "write", *WORDS):
        before = [word] if word else []
        helps = [ask(clone, [*before, option], clone.folder, ("sh",)) for option in ("--help", "-h")]
        answer = helps[0]
        line = next(line for line in manual.split("\n") if line.startswith("    ") and " %s" % (word or "verify") in line)
        told = line.strip() in answer.out and (not word or len(answer.out.split("\n")) < 36)
        right = answer.status == 0 and answer.out.startswith(("usage: git cgraph", "git-cgraph: ")) and not answer.err
        title = " ".join(["git-cgraph", *before, "--help"])
        results.check(title, None if right and told and helps[0] == helps[1] else "they are %r" % (helps,))
        answer = ask(clone, [*before, "--version"], clone.folder)
        results.check(" ".join(["git cgraph", *before, "--version"]), exactly(answer, 0, version))


def check_questions(results, clone, repository, shell):
    """The words that the programs get, in the folder of the objects, wherever the shell stands."""
    objects = os.path.join(repository, b".git", b"objects").decode("utf-8", "surrogateescape")
    sub, outside = os.path.join(repository, b"sub"), os.path.dirname(repository)
    for program in ("graphtool", "historytool"):
        clone.put_program(program, ECHO + "exit 0\n")
    for word, (_, revisions) in WORDS.items():
        ids = [git(clone, repository, "rev-parse", revision) for revision in revisions]
        newer = ["--newer"] if word in ABOUT_NEWER else []
        written = "".join("<%s>" % part for part in [ASKED.get(word, word), *newer, "info/commit-graph", *ids])
        expected = (0, written, objects + "\n")
        ways = {
            "at the top": ask(clone, [word, *revisions], repository, shell),
            "in a subfolder": ask(clone, [word, *revisions], sub, shell),
            "with -C": ask(clone, ["-C", ODD_NAME, "-C", "sub", word, *revisions], outside, shell),
        }
        for way, answer in ways.items():
            complaint = None if answer == expected else "it is %r" % (answer,)
            results.check("%s git-cgraph %s %s" % (" ".join(shell), word, way), complaint)
    clone.put_program("graphtool", "tr '\\0\\1\\3' '013'\nprintf '<%s>' \"$@\"\n")
    answer = ask(clone, ["list"], sub, shell)
    content = "".join(str(ord(letter)) if letter < " " else letter for letter in CONTENT)
    results.check("%s git-cgraph list" % " ".join(shell), exactly(answer, 0, content + "<list>"))
    clone.put_program("historytool", "cat\nprintf '<%s>' \"$@\"\n")
    answer = ask(clone, ["ask", "--no-progress"], sub, shell, input=b"a question\n\nanother")
    results.check("%s git-cgraph ask" % " ".join(shell), exactly(answer, 0, "a question\n\nanother<ask><info>"))
    clone.put_program("historytool", "case $2 in info) echo 'refused open 2' ;; *) echo \"refused $2\" ;; esac\nexit 1\n")
    answer = ask(clone, ["ask"], sub, shell, input=b"a question\n")
    right = answer[:2] == (128, "refused info/commit-graph\n")
    results.check("%s git-cgraph ask, the file's own refusal" % " ".join(shell), None if right else "it is %r" % (answer,))


def check_statuses(results, clone, repository):
    """The status of `git cgraph` to each kind of answer, and the sentences after it."""
    rows = refusals.read_rows()
    folder = os.path.join(repository, b".git/objects/info").decode("utf-8", "surrogateescape")
    for word, line, status, expected in STATUSES:
        program, revisions = WORDS[word]
        clone.put_program(program, "echo '%s'\nexit %d\n" % (line, status))
        answer = ask(clone, [word, *(["--graph-only"] if line == "unknown 1" else []), *revisions], repository)
        cure = anew(folder, "commit-graph")
        where = "the file is '%s/commit-graph'" % folder if "layer" in line else ""
        known = refusals.Known(where, "", cure)
        if line == "unknown 1":
            cause = LACKED % (revisions[0], git(clone, repository, "rev-parse", revisions[0]))
            known = refusals.Known("", NEWER, cure[1:], cause=cause)
        sentences = refusals.sentences(rows, line, word, known) if line not in ("yes", "no", "none") else []
        results.check("git cgraph %s, answered %r" % (word, line), exactly(answer, expected, line + "\n", said(sentences)))
    clone.put_program("historytool", "echo \"$1\"\n")
    for words, out in (
        (["merge-base", "HEAD", "HEAD"], "merge-base-ids\n"),
        (["merge-base", "HEAD", "-v", "HEAD"], "merge-base\n"),
        (["merge-base", "--verbose", "HEAD", "HEAD"], "merge-base\n"),
    ):
        results.check("git cgraph " + " ".join(words), exactly(ask(clone, words, repository), 0, out))
    clone.put_program("historytool", "[ \"$3\" != --newer ] || path=\" $4\"\necho \"$1 $2 $3$path\"\n")
    for command in commands():
        if command.may_be_unchecked() and command.by_git:
            revisions, path = WORDS[command.word][1] if command.word in WORDS else [], "info/commit-graph"
            words = [command.word, *revisions[:1], "--unchecked", *revisions[1:]]
            given = ["--newer", path] if command.word in ABOUT_NEWER else [path if revisions else "info"]
            out = "%s\n" % " ".join([ASKED.get(command.word, command.word), "--unchecked", *given])
            results.check("git cgraph " + " ".join(words), exactly(ask(clone, words, repository), 0, out))
    clone.put_program("historytool", "echo 'usage: other words' >&2\nexit 2\n")
    answer = ask(clone, ["check"], repository)
    err = "usage: other words\n" + said(["the program does not take these words"])
    results.check("git cgraph check, of a program without it", exactly(answer, 128, "", err))


def check_lacked(results, clone, repository):
    """A commit that the commit-graph lacks is named by the word that the user has for it."""
    rows, cure = refusals.read_rows(), anew("", "commit-graph")[1:]
    head, before = (git(clone, repository, "rev-parse", name) for name in ("HEAD", "HEAD~1"))
    for words, number, cause in (
        ([ODD_REF, "HEAD"], 1, LACKED % (ODD_REF, head)),
        (["HEAD", "-q", "annotated"], 2, LACKED % ("annotated", before) + "; the commits named before it are"),
        (["--", ":/first", "HEAD"], 1, LACKED % (":/first", before)),
        (["HEAD", head], 2, "the commit %s is not in the commit-graph; the commits named before it are" % head),
    ):
        line = "unknown %d" % number
        clone.put_program("historytool", "echo '%s'\nexit 1\n" % line)
        err = said(refusals.sentences(rows, line, "walk", refusals.Known("", NEWER, cure, cause=cause)))
        answer = ask(clone, ["walk", "--graph-only", *words], repository)
        results.check("git cgraph walk %s, %s" % (" ".join(words), line), exactly(answer, 128, "" if "-q" in words else line + "\n", err))


def check_repeated(results, clone, repository):
    """After some answers of a chain of two layers or more, what is said where `distinct` finds a commit in two of them."""
    info = os.path.join(repository, b".git/objects/info")
    os.rename(os.path.join(info, b"commit-graph"), os.path.join(info, b"aside"))
    os.mkdir(os.path.join(info, b"commit-graphs"))
    chain = os.path.join(info, b"commit-graphs", b"commit-graph-chain")
    for layer in (b"aa", b"bb"):
        shutil.copy(os.path.join(info, b"aside"), os.path.join(info, b"commit-graphs/graph-%s.graph" % layer))
    folder, rows = info.decode("utf-8", "surrogateescape"), refusals.read_rows()
    differs = "the answer may differ from Git's"
    twice, right = "echo 'refused verify 11 position 3 earlier 1'\nexit 1\n", "echo 'ok commits 4 longest 2'\n"
    for word, line, layers, distinct, is_said in (
        *((word, line, "aa\nbb\n", twice, True) for word, line in (("is-ancestor", "no"), ("walk", "none"), ("merge-base", "none"))),
        *(("merge-base", "ab", "aa\nbb\n", twice, True), ("merge-base", "ab", "aa\nbb", twice, True)),
        ("merge-base -v", "base 3 ab", "aa\nbb\n", twice, True),
        *(("is-ancestor", "no", "aa\n", twice, False), ("is-ancestor", "no", "aa", twice, False)),
        *((word + " --unchecked", line, "aa\nbb\n", twice, False) for word, line in (("is-ancestor", "no"), ("merge-base", "none"))),
        *(("walk", "none", "aa\nbb\n", right, False), ("merge-base", "none", "aa\nbb\n", "exit 3\n", False)),
        *(("is-ancestor", "yes", "aa\nbb\n", twice, False), ("walk", "refused verify 10", "aa\nbb\n", twice, False)),
    ):
        with open(chain, "w", encoding="ascii") as file:
            file.write(layers)
        status = int(line.startswith(("no", "refused")))
        clone.put_program("historytool", "echo '%s'\nexit %d\n" % (line, status))
        clone.put_program("graphtool", '[ "$*" = "distinct info" ] || exit 9\n' + distinct)
        words = word.split()
        answer = ask(clone, [*words, *WORDS[words[0]][1]], repository)
        known = refusals.Known("", "", anew(folder, "commit-graphs", "--split"))
        err = said(refusals.sentences(rows, "", words[0], known, differs)) if is_said else ""
        if line.startswith("refused"):
            err = said(refusals.sentences(rows, line, words[0]))
        wanted = (128 if line.startswith("refused") else status, line + "\n", err)
        title = "git cgraph %s, answered %r of the chain %r, where distinct runs %r" % (word, line, layers, distinct)
        results.check(title, exactly(answer, *wanted))
    shutil.rmtree(os.path.join(info, b"commit-graphs"))
    os.rename(os.path.join(info, b"aside"), os.path.join(info, b"commit-graph"))


RELOADS = """
case $* in
*info/commit-graph) echo 'refused verify 4 layer 0 fault 1'; exit 1 ;;
esac
printf 'ok commits 2\\n\\n'
while read -r question; do
    case $question in
    gone) mv '{info}/commit-graph' '{info}/aside'; echo yes ;;
    *) echo "$question" ;;
    esac
    echo
done
"""
"""A program that answers each question by the question itself. By one of them the commit-graph goes away."""


def check_reload(results, clone, repository, shell):
    """Where `reload` is refused, that is told once, with the file and what is wrong with it by itself."""
    plain = os.path.join(os.path.dirname(repository), b"asked")
    os.rename(repository, plain)
    info = os.path.join(plain, b".git/objects/info").decode()
    clone.put_program("historytool", RELOADS.format(info=info))
    rows, refused, fault = refusals.read_rows(), "refused open 2", "refused verify 4 layer 0 fault 1"
    still = "the answer is '%s': the commit-graph that was read before still counts"
    by_itself = ["the file by itself gets '%s'" % fault]
    known = refusals.Known("the file is '%s/commit-graph'" % info, "", anew(info, "commit-graph"))
    wrong = by_itself + refusals.sentences(rows, fault, "ask", known)
    absent = "there is no commit-graph"
    none = [absent, *refusals.sentences(rows, absent, "ask", refusals.Known("", "have Git write one", anew(info, "commit-graph")[1:]))]
    for words, lines, err in (
        ([], ["yes", refused, "refused question", refused, "refused walk", "no"], [still % refused, *wrong]),
        ([], [refused, "ok commits 2", refused], [still % refused, *wrong] * 2),
        (["--unchecked"], [refused, refused, fault], ["the answer is '%s'" % refused, *wrong, "the answer is '%s'" % fault, *wrong[1:]]),
        ([], ["refused verify 10"], [still % "refused verify 10", *by_itself, *wrong[1:]]),
        ([], ["yes", "no", "refused question", "refused walk", "refused read 2"], []),
        ([], ["gone", refused, refused], [still % refused, *none]),
    ):
        answer = ask(clone, ["ask", *words], plain, shell, input="".join(line + "\n" for line in lines).encode())
        out = "".join(("yes" if line == "gone" else line) + "\n\n" for line in ["ok commits 2", *lines])
        title = "%s git-cgraph %s, answered %s" % (" ".join(shell), " ".join(["ask", *words]), ", ".join(lines))
        results.check(title, exactly(answer, 0, out, said(err)))
    os.rename(info + "/aside", info + "/commit-graph")
    os.rename(plain, repository)


def check_asked(results, clone, repository):
    """How `ask` ends where nobody reads the answers, where there is no room for them, and without standard error."""
    clone.put_program("historytool", "printf 'ok commits 2\\n\\n'\ncat\n")
    path, asked = os.path.join(clone.folder, "git-cgraph"), b"refused open 2\n\n" * 3
    unwritten = "the answer could not be written"
    err = said([unwritten, *refusals.sentences(refusals.read_rows(), unwritten)])
    reading, writing = os.pipe()
    os.close(reading)
    answer = run([path, "ask"], clone.surroundings(), cwd=repository, input=asked, stdout=writing)
    os.close(writing)
    results.check("git-cgraph ask, nobody reads", exactly(answer, 141, ""))
    with open("/dev/full", "wb") as full:
        answer = run([path, "ask"], clone.surroundings(), cwd=repository, input=asked, stdout=full)
    right = answer.status == 128 and answer.err.endswith(err)
    results.check("git-cgraph ask, to a full device", None if right else "it is %r" % (answer,))
    answer = run([path, "ask"], clone.surroundings(), cwd=repository, input=asked, stderr=None, preexec_fn=lambda: os.close(2))
    results.check("git-cgraph ask, with no standard error", exactly(answer, 0, "ok commits 2\n\n" + asked.decode()))


def check_revisions(results, clone, repository):
    """Names of commits, however odd, and names of anything else."""
    clone.put_program("graphtool", ECHO)
    head, before = (git(clone, repository, "rev-parse", name) for name in ("HEAD", "HEAD~1"))
    names = {ODD_REF: head, "annotated": before, "tags/annotated": before, ":/first": before, head[:12]: head, "@": head}
    for name, commit in names.items():
        answer = ask(clone, ["find", name], repository)
        complaint = None if answer[:2] == (0, "<find><info/commit-graph><%s>" % commit) else "it is %r" % (answer,)
        results.check("git cgraph find %a" % name, complaint)
    other = head[:12] + format(int(head[12], 16) ^ 1, "x")
    for name in ("tree", "HEAD^{tree}", "nothing", "HEAD~2", "", "HEAD..HEAD", "^HEAD", other, "$(id)"):
        answer = ask(clone, ["find", name], repository)
        right = answer[:2] == (128, "") and "git cgraph: '%s' " % name in answer.err
        results.check("git cgraph find %a, which is no commit" % name, None if right else "it is %r" % (answer,))
    path = os.path.join(repository, b".git/objects", before[:2].encode(), before[2:].encode())
    os.rename(path, path + b" aside")
    for name in ("annotated", "HEAD~1", before):
        answer = ask(clone, ["find", name], repository)
        said_so = "git cgraph: the object that '%s' names is missing, or cannot be read" % name in answer.err
        right = answer[:2] == (128, "") and said_so and answer.err.endswith(":\n    git fsck\n")
        results.check("git cgraph find %a, whose commit is missing" % name, None if right else "it is %r" % (answer,))
    os.rename(path + b" aside", path)
    answer = ask(clone, ["verify"], clone.folder)
    right = answer[:2] == (128, "") and "not a git repository" in answer.err
    results.check("git cgraph verify where there is no repository", None if right else "it is %r" % (answer,))


def check_ends(results, clone, repository):
    """Answers that cannot be written or that nobody reads, and signals."""
    rows = refusals.read_rows()
    unwritten = "the answer could not be written"
    sentences = said([unwritten, *refusals.sentences(rows, unwritten)])
    many = "n=0\nwhile [ $n -lt 20000 ]; do echo $n 0000000000; n=$((n + 1)); done\n"
    clone.put_program("graphtool", many)
    with open("/dev/full", "wb") as full:
        results.check("git cgraph, to a full device", exactly(ask(clone, ["verify"], repository, stdout=full), 128, "", sentences))
        for word in ("--version", "--help"):
            answer = ask(clone, [word], repository, ("sh",), stdout=full)
            results.check("git-cgraph %s, to a full device" % word, exactly(answer, 128, "", said([unwritten])))
    closed = ask(clone, ["verify"], repository, ("sh",), preexec_fn=lambda: os.close(1))
    results.check("git cgraph, output that is closed", exactly(closed, 128, "", sentences))
    for name, word in (("git-cgraph", "verify"), ("graphtool", "distinct")):
        script = '"$0" %s %s | head -n 1; exit "${PIPESTATUS[0]}"' % (word, "." if name == "graphtool" else "")
        path = os.path.join(clone.folder, name)
        answer = run([shutil.which("bash"), "-c", script, path], {**clone.surroundings(), "PATH": os.environ["PATH"]}, cwd=repository)
        err = sentences.replace("git cgraph", name)
        right = (141, "0 0000000000\n", "") if name == "git-cgraph" else (2, "0 0000000000\n", err)
        results.check("%s, nobody reads on" % name, None if answer == right else "it is %r" % (answer,))
    for number in (signal.SIGKILL, signal.SIGXFSZ, signal.SIGSEGV):
        clone.put_program("graphtool", "kill -%d $$\n" % number)
        ended = "ended by signal %d" % number
        answer = ask(clone, ["verify"], repository)
        sentences = said([ended, *refusals.sentences(rows, ended)])
        right = number.name in sentences and ("memory" in sentences) == (number == signal.SIGKILL)
        results.check("git cgraph, " + ended, exactly(answer, 128 + number, "", sentences) if right else "it is %r" % sentences)
    for number in (signal.SIGINT, signal.SIGTERM, signal.SIGHUP):
        results.check("git cgraph, sent %s" % number.name, interrupted(clone, repository, number))
    results.check("git cgraph, ended by itself", ended_alone(clone, repository))
    for word in ("verify", "list", "ask", "show"):
        for number in (signal.SIGINT, signal.SIGTERM, signal.SIGPIPE):
            complaint = git_ended(clone, repository, word, number)
            results.check("git cgraph %s, %s to the process git alone" % (word, number.name), complaint)


def interrupted(clone, repository, number):
    """A complaint where something runs on after a signal to all processes of `git cgraph`, as a terminal sends it.

    A shell starts a job in the background so that it ignores SIGINT, and so would all that it starts.
    """
    handler = signal.signal(number, signal.SIG_DFL)
    with start(clone, repository, "exec sleep 30") as running:
        since = time.monotonic()
        os.killpg(running.pid, number)
        out, err = running.communicate()
    signal.signal(number, handler)
    seconds = time.monotonic() - since
    right = running.returncode == -number and not out and not err and seconds < 25
    return None if right else "status %d, %r and %r after %.1f s" % (running.returncode, out, err, seconds)


def ended_alone(clone, repository):
    """A complaint where an answer comes after the script alone was ended by a signal."""
    with start(clone, repository, "sleep 1\necho late") as running:
        running.terminate()
        out, err = running.communicate()
    right = running.returncode == -signal.SIGTERM and not out and not err
    return None if right else "status %d, %r and %r" % (running.returncode, out, err)


def git_ended(clone, repository, word, number):
    """A complaint where something runs on, or is left over, after a signal to Git, of which the script is a child."""
    handlers = [(one, signal.signal(one, signal.SIG_DFL)) for one in (signal.SIGINT, signal.SIGPIPE)]
    lines = "echo $$ >'%s'\nexec sleep 30\n" % os.path.join(clone.folder, "process")
    with start(clone, repository, lines, ["git", "cgraph", word]) as running:
        while not os.path.exists(os.path.join(clone.folder, "process")):
            time.sleep(0.01)
        running.send_signal(number)
        out, err = running.communicate()
    for one, handler in handlers:
        signal.signal(one, handler)
    time.sleep(0.1)
    with open(os.path.join(clone.folder, "process"), encoding="ascii") as file:
        runs = is_running(file.read().strip())
    os.remove(os.path.join(clone.folder, "process"))
    right = running.returncode == -number and not out and not err and not runs and not clone.left_over()
    return None if right else "status %d, %r and %r, it runs: %s" % (running.returncode, out, err, runs)


def is_running(process):
    """Whether a process runs, and has not merely ended unnoticed."""
    try:
        with open("/proc/%s/stat" % process, encoding="ascii") as file:
            return file.read().rsplit(") ", 1)[1][0] not in "ZX"
    except OSError:
        return False


def start(clone, repository, lines, command=None):
    """A run of `git cgraph` whose program has started with some lines of a shell script."""
    started = os.path.join(clone.folder, "started")
    for program in ("graphtool", "historytool"):
        clone.put_program(program, "echo started >'%s'\n%s\n" % (started, lines))
    command = command or [os.path.join(clone.folder, "git-cgraph"), "verify"]
    variables = clone.surroundings()
    variables["PATH"] = clone.folder + ":" + variables["PATH"]
    quiet = {"stdin": subprocess.DEVNULL, "stdout": subprocess.PIPE, "stderr": subprocess.PIPE}
    running = subprocess.Popen(command, env=variables, cwd=repository, start_new_session=True, **quiet)
    while not os.path.exists(started):
        time.sleep(0.01)
    os.remove(started)
    return running
