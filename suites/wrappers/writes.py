"""Checks `git cgraph write` around its programs: its files, locks, rights and refusals. Git is the real one, and the programs are shell
scripts: a file has a header, a line for each commit, and twenty letters as its checksum.
"""

import os
import re
import shutil
import signal
import stat
import subprocess
import tempfile
import time

import refusals
from wrappers.clone import Clone, exactly, run
from wrappers.json_answers import objects_in
from wrappers.questions import SHELLS, ask, git, make_repository, said

PROGRAM = r"""
files() {
    if [ -f "$1" ]; then echo "$1"
    elif [ -f "$1/commit-graph-chain" ]; then sed "s|.*|$1/graph-&.graph|" "$1/commit-graph-chain"
    else files "$1/commit-graphs"
    fi
}
ids_of() { files "$1" | while read -r file; do grep -ax '[0-9a-f]\{40\}' "$file"; done; }
case $1 in
write)
    LINES
    ids=$(sed -n 's/^\([0-9a-f]\{40\}\) commit [0-9]*$/\1/p' | sort)
    [ -n "$ids" ] || { echo 'refused write 9' && exit 1; }
    printf 'CGPH\1\1\0\0\n%s\n%.20s' "$ids" "$ids"
    ;;
verify | check) CHECKS echo "ok commits $(ids_of "$2" | wc -l) longest 1" ;;
ids) if [ $# -gt 2 ]; then ids_of "$2" | sed -n "$(($3 + 1)),$4p"; else ids_of "$2"; fi ;;
show)
    files "$2" | while read -r file; do
        echo "layer 0 commits $(grep -acx '[0-9a-f]\{40\}' "$file") hash sha1 bases 0 dates yes filters none"
        echo "checksum $(tail -c 20 "$file" | od -An -v -tx1 | tr -d ' \n')"
    done
    echo right
    ;;
esac
"""
"""Both programs. LINES and CHECKS stand for what comes before."""

PERSON = ("-c", "user.name=A", "-c", "user.email=a@example.com")
CHAIN = "commit-graphs/commit-graph-chain"
NOTHING = "the commit-graph has all commits that references lead to: nothing is written"
LOCKED = "the commit-graph is locked"
WAIT = "wait for whoever writes it. If nobody does, a process was killed while it did: remove the lock, and ask again"
DAMAGED = "see which objects are damaged, and take them from another copy of the repository"
UNWRITTEN = "the commit-graph could not be written"

REFUSED = {
    "refused stream 2 entry 1": 128,
    "refused stream 5 entry 1": 1,
    "refused stream 6 entry 1": 1,
    "refused write 3 commit 1": 1,
    "refused write 4 commit 1": 1,
    "refused write 5 commit 1 earlier 0": 128,
    "refused write 10 limit 3": 128,
    "refused write 11": 128,
    "refused read 3": 128,
    "refused open 7": 128,
}
"""What `historytool write` may answer of two commits, and the status of `git cgraph` then."""

SHARED = ("umask", "group", "true", "all", "0640", "0660")


class Written:
    """A repository of two commits and a branch beside, whose programs are scripts."""

    def __init__(self, folder):
        self.clone = Clone(folder)
        self.put()
        self.folder = os.fsdecode(make_repository(self.clone, os.path.join(folder, "a repository's").encode()))
        self.info = os.path.join(self.folder, ".git/objects/info")
        os.remove(os.path.join(self.info, "commit-graph"))

    def put(self, lines="", checks=""):
        """Lets the programs run these lines before they write or check."""
        for name in ("graphtool", "historytool"):
            self.clone.put_program(name, PROGRAM.replace("LINES", lines).replace("CHECKS", checks))

    def git(self, *words):
        """What a git command writes there."""
        return git(self.clone, self.folder, *PERSON, *words)

    def commit(self, number=1):
        """Makes so many commits more."""
        for _ in range(number):
            self.git("commit", "-q", "--allow-empty", "-m", "later")

    def ids(self):
        """The ids that Git lists."""
        return self.git("-c", "core.commitGraph=false", "rev-list", "--glob=refs/*").split()

    def write(self, *words, shell=()):
        """The answer of `git cgraph write`."""
        return ask(self.clone, ["write", *words], self.folder, shell)

    def files(self):
        """What stands in the folder `info`, by path, with its bytes and its rights."""
        found = {}
        for folder, _, names in os.walk(self.info):
            for name in names:
                path = os.path.join(folder, name)
                with open(path, "rb") as file:
                    found[os.path.relpath(path, self.info)] = (file.read(), stat.S_IMODE(os.stat(path).st_mode))
        return found

    def layers(self):
        """The ids in each layer of the chain, the lowest first."""
        files = self.files()
        return [ids_in(files["commit-graphs/graph-%s.graph" % name][0]) for name in files[CHAIN][0].decode().split()]

    def clear(self):
        """Removes what was written."""
        for name in os.listdir(self.info):
            path = os.path.join(self.info, name)
            (shutil.rmtree if os.path.isdir(path) else os.remove)(path)


def ids_in(content):
    """The ids in a file, its checksum left out."""
    return content.decode("latin-1").split("\n")[1:-1]


def check_all(results):
    """The checks, in one repository."""
    with tempfile.TemporaryDirectory() as folder:
        written = Written(folder)
        for shell in SHELLS[1:]:
            if shutil.which(shell[0]) and "--posix" not in shell:
                check_file(results, written, shell)
                check_layers(results, written, shell)
                check_waiting(results, written, shell)
        for check in (check_told, check_locked, check_unused, check_refused, check_failures, check_objects, check_signals):
            written.clear()
            check(results, written)
        for check in (check_filters, check_rights, check_folders, check_empty):
            written.clear()
            check(results, written)
        results.check("git cgraph write, nothing is left over", written.clone.left_over())


def check_file(results, written, shell):
    """One file of the commits that references lead to, in the place of what stood there; a chain goes away."""
    title = "%s git-cgraph write" % " ".join(shell)
    written.clear()
    ids = written.ids()
    written.write("--split")
    for before in ("a chain", "a file"):
        answer = written.write(shell=shell)
        results.check("%s over %s" % (title, before), exactly(answer, 0, "ok commits %d\n" % len(ids)))
        files = written.files()
        right = list(files) == ["commit-graph"] and files["commit-graph"][1] == 0o444
        right = right and ids_in(files["commit-graph"][0]) == sorted(ids)
        results.check("%s over %s, the file" % (title, before), None if right else "there are %r" % files)


def check_waiting(results, written, shell):
    """After the commits were read, what is said each second until the file is written, in whatever way it ends."""
    title = "%s git-cgraph write --progress" % " ".join(shell)
    for lines, last in (("sleep 2.2", 0), ("sleep 2.2; echo 'refused write 11'; exit 1", 128)):
        written.clear()
        written.put(lines)
        answer = written.write("--progress", shell=shell)
        told = re.search(r"\nWriting commit-graph: 1 s\r(Writing commit-graph: \d s\r)*Writing commit-graph: \d s, done\.\n", answer.err)
        right = told and answer.status == last and answer.err.count("Writing") < 6
        results.check("%s, %s" % (title, lines), None if right else "it is %r" % (answer,))
    written.put()


def check_layers(results, written, shell):
    """Layers on top of one another, of which Git's rule takes some in; a file becomes the lowest."""
    title = "%s git-cgraph write --split" % " ".join(shell)
    written.clear()
    sizes = []
    for number in (3, 1, 0, 1, 4):
        written.commit(number)
        sizes, before = split(sizes, len(written.ids()) - sum(sizes)), sizes
        ids, answer = written.ids(), written.write("--split", shell=shell)
        if sizes == before:
            results.check(title + ", of nothing new", exactly(answer, 0, "ok commits 0\n", said([NOTHING])))
            continue
        results.check("%s, %s" % (title, sizes), exactly(answer, 0, "ok commits %d layers %d\n" % (sizes[-1], len(sizes))))
        stands, files = written.layers(), written.files()
        right = [len(layer) for layer in stands] == sizes and sorted(sum(stands, [])) == sorted(ids) and len(files) == len(sizes) + 1
        right = right and {mode for _, mode in files.values()} == {0o444}
        results.check("%s, the layers" % title, None if right else "they are %r" % files)
    written.write()
    before = ids_in(written.files()["commit-graph"][0])
    written.commit()
    answer = written.write("--split", shell=shell)
    results.check(title + " on a file", exactly(answer, 0, "ok commits 1 layers 2\n"))
    right = written.layers()[0] == before and "commit-graph" not in written.files()
    results.check(title + " on a file, which is the lowest layer", None if right else "there are %r" % written.files())


def split(sizes, number):
    """The sizes of the layers after so many commits more, by Git's rule."""
    if number == 0:
        return sizes
    while sizes and sizes[-1] <= 2 * number:
        sizes, number = sizes[:-1], number + sizes[-1]
    return [*sizes, number]


def check_told(results, written):
    """What is told with `--quiet` and with `--json`."""
    ids = written.ids()
    results.check("git cgraph write -q", exactly(written.write("-q"), 0, ""))
    path = os.path.join(written.info, "commit-graph")
    answer = written.write("--json")
    repository = os.path.join(written.folder, ".git")
    fields = {"command": "write", "status": 0, "repository": repository, "commit_graph": path, "commits": len(ids)}
    results.check("git cgraph write --json", None if objects_in(answer.out) == [fields] and not answer.err else "it is %r" % (answer,))
    answer = written.write("--json", "--split")
    fields = {**fields, "commits": 0, "warnings": [NOTHING]}
    results.check("git cgraph write --json --split", None if objects_in(answer.out) == [fields] else "it is %r" % (answer,))


def stands(results, written, title, before):
    """Notes whether all files are as before."""
    after = written.files()
    results.check("%s, all stands as it was" % title, None if after == before else "it was %r, and is %r" % (before, after))


def check_locked(results, written):
    """A lock that is there is named, and stays."""
    written.write("--split")
    single, chain = (os.path.join(written.info, name) for name in ("commit-graph.lock", CHAIN + ".lock"))
    for locks in ([single], [chain], [single, chain]):
        for path in locks:
            with open(path, "w", encoding="ascii") as file:
                file.write("of another process")
        before, words = written.files(), " ".join("'%s'" % path.replace("'", "'\\''") for path in locks)
        sentence = refusals.row_of(refusals.read_rows(), LOCKED).happened
        err = said([LOCKED, sentence, "the lock is " + words, "what to do: %s:" % WAIT]) + "    rm -f %s\n" % words
        for more in ([], ["--split"]):
            title = " ".join(["git cgraph write", *more]) + ", where there are %d locks" % len(locks)
            results.check(title, exactly(written.write(*more), 128, "", err))
            stands(results, written, title, before)
        for path in locks:
            os.remove(path)


def check_unused(results, written):
    """Where Git uses no commit-graph, none is written, and the command that is given writes one."""
    head, shallow = written.git("rev-parse", "HEAD"), os.path.join(written.folder, ".git/shallow")
    grafts = os.path.join(written.folder, ".git/info/grafts")
    os.makedirs(os.path.dirname(grafts), exist_ok=True)
    ways = {
        "core.commitGraph is false": (["config", "core.commitGraph", "false"], ["config", "--unset", "core.commitGraph"]),
        "some commits are replaced (git replace)": (["replace", head, head + "~1"], ["replace", "-d", head]),
        "'%s' gives commits other parents" % grafts: (grafts, ["replace", "-d", head]),
        "this repository is shallow": (shallow, None),
    }
    for reason, (way, back) in ways.items():
        if isinstance(way, list):
            written.git(*way)
        else:
            with open(way, "w", encoding="ascii") as file:
                file.write(head + "\n")
        title = "git cgraph write, where %s" % reason.split("'")[-1].strip()
        answer = written.write()
        right = answer[:2] == (128, "") and "git cgraph: the reason is that %s\n" % reason in answer.err and not written.files()
        results.check(title, None if right else "it is %r" % (answer,))
        cure = [line[4:] for line in answer.err.splitlines() if line.startswith("    ")]
        if way == shallow:
            results.check(title + ", the cure", None if cure == ["git fetch --unshallow", "git cgraph write"] else "it is %r" % cure)
            os.remove(shallow)
            continue
        variables = written.clone.surroundings(PATH=written.clone.folder + ":" + os.path.join(written.clone.folder, "bin"))
        cured = [run(["sh", "-c", command], variables, cwd=written.folder) for command in cure]
        right = cure and not any(answer.status for answer in cured) and list(written.files()) == ["commit-graph"]
        results.check(title + ", the cure", None if right else "of %r it is %r" % (cure, cured))
        if back:
            written.git(*back)
        if way == grafts and os.path.exists(grafts):
            os.remove(grafts)
        written.clear()


def check_refused(results, written):
    """What the program refuses: the status, the id of the commit, and what stood stands."""
    written.write()
    before, second = written.files(), written.ids()[1]
    for line, status in REFUSED.items():
        written.put("cat >'%s/stream'; echo '%s'; exit 1" % (written.clone.temporary, line))
        answer = written.write()
        os.remove(os.path.join(written.clone.temporary, "stream"))
        named = "git cgraph: the commit is %s\n" % second in answer.err
        sentence = refusals.sentences(refusals.read_rows(), line, "write")[0]
        right = answer[:2] == (status, line + "\n") and said([sentence]) in answer.err and named == (status == 1 or "stream" in line)
        results.check("git cgraph write, %s" % line, None if right else "it is %r" % (answer,))
        stands(results, written, "git cgraph write, %s" % line, before)
    written.put()


def check_failures(results, written):
    """Programs that fail, and files that are refused when they are read again: what stood stands."""
    written.write()
    written.commit()
    before = written.files()
    for lines, checks, status, sentence in (
        ("exit 2", "", 128, "could not be written to its end"),
        ("kill -9 $$", "", 137, "ended by signal 9"),
        ("", "[ $1 = check ] || { echo 'refused verify 1'; exit 1; };", 128, "what was written is refused: refused verify 1"),
        ("", "[ $1 = verify ] || { echo 'refused dates 1 layer 0'; exit 1; };", 128, "what was written is refused: refused dates 1 layer 0"),
        ("", "echo 'ok commits 1 longest 1'; exit 0;", 128, "what was written is refused"),
        ("sed '/^[0-9a-f]* commit/{x;s/^/x/;/xx/q;x}'; exit 0", "", 128, UNWRITTEN),
        ("exit 0", "", 128, UNWRITTEN),
    ):
        written.put(lines, checks)
        answer = written.write()
        right = answer[:2] == (status, "") and sentence in answer.err
        title = "git cgraph write, where programs run %r" % (lines + checks)
        results.check(title, None if right else "it is %r" % (answer,))
        stands(results, written, title, before)
    written.put()
    os.rename(os.path.join(written.info, "commit-graph"), os.path.join(written.info, "aside"))
    os.mkdir(os.path.join(written.info, "commit-graph"))
    answer = written.write()
    right = answer[:2] == (128, "") and "commit-graph' is a folder, not a file\n" in answer.err
    results.check("git cgraph write, where a folder has the name", None if right else "it is %r" % (answer,))
    os.rmdir(os.path.join(written.info, "commit-graph"))
    with open(os.path.join(written.info, "commit-graphs"), "w", encoding="ascii"):
        pass
    answer = written.write("--split")
    right = answer[:2] == (128, "") and "commit-graphs' cannot be made\n" in answer.err
    results.check("git cgraph write --split, where a file has the name", None if right else "it is %r" % (answer,))


def check_objects(results, written):
    """Commits that are missing or damaged, and references that lead nowhere, are named."""
    written.write()
    before, lost = written.files(), written.git("rev-parse", "HEAD~1")
    path = os.path.join(written.folder, ".git/objects", lost[:2], lost[2:])
    os.rename(path, path + "-aside")
    for damage, advice in ((None, "the commit is missing, and has to come back: take it from another copy of the repository"), ("no object", DAMAGED)):
        if damage:
            with open(path, "w", encoding="ascii") as file:
                file.write(damage)
        answer = written.write()
        right = answer[:2] == (1, "") and "git cgraph: the commit is %s\n" % lost in answer.err and advice in answer.err
        results.check("git cgraph write, of a commit that is %s" % (damage or "missing"), None if right else "it is %r" % (answer,))
        stands(results, written, "git cgraph write, of a lost commit", before)
    os.remove(path)
    os.rename(path + "-aside", path)
    broken = os.path.join(written.folder, ".git/refs/heads/broken")
    with open(broken, "w", encoding="ascii") as file:
        file.write("1" * 40 + "\n")
    answer = written.write()
    right = answer[:2] == (1, "") and "git cgraph: the commit is %s\n" % ("1" * 40) in answer.err
    results.check("git cgraph write, of a reference that leads nowhere", None if right else "it is %r" % (answer,))
    os.remove(broken)
    written.git("checkout", "-q", "--detach")
    written.commit()
    answer = written.write()
    results.check("git cgraph write, beside a commit of HEAD alone", exactly(answer, 0, "ok commits %d\n" % len(written.ids())))
    written.git("checkout", "-q", "-")


def check_signals(results, written):
    """A signal, to all processes or to the script alone, leaves no lock, and what stood stands."""
    written.write("--split")
    before, started = written.files(), os.path.join(written.clone.folder, "started")
    written.commit()
    for number, alone, more in (
        *((signal.SIGINT, False, []), (signal.SIGINT, True, ["--split"]), (signal.SIGTERM, False, ["--split"])),
        *((signal.SIGTERM, True, []), (signal.SIGHUP, False, [])),
    ):
        written.put("echo >'%s'; %s" % (started, "sleep 0.3" if alone else "exec sleep 30"))
        handler = signal.signal(number, signal.SIG_DFL)
        command = [os.path.join(written.clone.folder, "git-cgraph"), "write", *more]
        streams = {"stdin": subprocess.DEVNULL, "stdout": subprocess.PIPE, "stderr": subprocess.PIPE}
        running = subprocess.Popen(command, env=written.clone.surroundings(), cwd=written.folder, start_new_session=True, **streams)
        while not os.path.exists(started):
            time.sleep(0.01)
        os.remove(started)
        (os.kill if alone else os.killpg)(running.pid, number)
        out, err = running.communicate()
        signal.signal(number, handler)
        title = "git cgraph %s, sent %s%s" % (" ".join(command[1:]), number.name, " alone" if alone else "")
        right = running.returncode == -number and not out
        results.check(title, None if right else "status %d, %r and %r" % (running.returncode, out, err))
        stands(results, written, title, before)
    written.put()


def check_filters(results, written):
    """Filters are dropped, which is said, or kept by writing nothing."""
    path = os.path.join(written.info, "commit-graph")
    git_writes = "git commit-graph write --reachable%s --changed-paths"
    for more in ([], ["--split"]):
        written.write()
        os.chmod(path, 0o644)
        with open(path, "r+b") as file:
            content = file.read().replace(b"\0\0\n", b"\0\0BDAT\n", 1)
            file.seek(0)
            file.write(content)
        written.commit(4)
        before = written.files()
        answer = written.write("--keep-filters", *more)
        command = "    %s\n" % (git_writes % "".join(" " + option for option in more))
        right = answer[:2] == (128, "") and answer.err.startswith(said(["the commit-graph has changed-path filters"]))
        right = right and answer.err.endswith(said(["what to do: have Git write it, which keeps them:"]) + command)
        title = " ".join(["git cgraph write --keep-filters", *more])
        results.check(title, None if right else "it is %r" % (answer,))
        stands(results, written, title, before)
        answer = written.write(*more)
        command = "    %s\n" % (git_writes % (" --split=replace" if more else ""))
        right = answer.status == 0 and answer.err.endswith(said(["what to do: have Git write it again, with filters:"]) + command)
        results.check(" ".join(["git cgraph write, over filters", *more]), None if right else "it is %r" % (answer,))
    written.clear()
    answer = written.write("--keep-filters")
    results.check("git cgraph write --keep-filters, without filters", exactly(answer, 0, "ok commits %d\n" % len(written.ids())))


def check_rights(results, written):
    """Files and folders have the rights that Git gives them, by each value of core.sharedRepository."""
    for shared in SHARED:
        rights = []
        for command in (["commit-graph", "write", "--reachable"], ["cgraph", "write"]):
            for more in ([], ["--split"]):
                written.clear()
                os.rmdir(written.info)
                words = ["git", "-c", "core.sharedRepository=" + shared, *command, *more]
                variables = written.clone.surroundings(PATH=written.clone.folder + ":" + os.path.join(written.clone.folder, "bin"))
                run(words, variables, cwd=written.folder, preexec_fn=lambda: os.umask(0o027))
                rights.append(rights_below(written.info))
        right = rights[:2] == rights[2:] and all(len(found) > 1 for found in rights)
        results.check("git cgraph write, rights of %s" % shared, None if right else "they are %r, and Git's %r" % (rights[2:], rights[:2]))


def rights_below(folder):
    """The rights of a folder and of what it has, without the names that depend on contents."""
    found = [("", stat.S_IMODE(os.stat(folder).st_mode))]
    for at, folders, names in os.walk(folder):
        for name in folders + names:
            found.append((name if "graph-" not in name[:6] else "layer", stat.S_IMODE(os.stat(os.path.join(at, name)).st_mode)))
    return sorted(found)


def check_folders(results, written):
    """A folder that is named has to be one of the object folders."""
    answer = written.write("--object-dir", written.folder)
    cure = "    git cgraph write\n"
    right = answer[:2] == (128, "") and "is none of the object folders of this repository\n" in answer.err and answer.err.endswith(cure)
    results.check("git cgraph write, of a folder that is none", None if right else "it is %r" % (answer,))
    fork = os.path.join(os.path.dirname(written.folder), "fork")
    git(written.clone, written.folder, "clone", "-q", "-s", "-n", written.folder, fork)
    ids = written.ids()
    answer = ask(written.clone, ["write", "--object-dir", os.path.dirname(written.info)], fork)
    right = answer[:2] == (0, "ok commits %d\n" % len(ids)) and list(written.files()) == ["commit-graph"]
    results.check("git cgraph write, for the folder of a pool", None if right else "it is %r" % (answer,))
    answer = ask(written.clone, ["write"], fork)
    right = answer[:2] == (0, "ok commits %d\n" % len(ids)) and os.path.exists(os.path.join(fork, ".git/objects/info/commit-graph"))
    results.check("git cgraph write, of a fork", None if right else "it is %r" % (answer,))
    check_links(results, written, fork)


def check_links(results, written, fork):
    """A link to a file of the repository is followed, as Git follows it. One that leads out of it is not: nothing changes there."""
    inside, outside = (os.path.join(folder, "elsewhere") for folder in (os.path.dirname(written.info), written.folder))
    path = os.path.join(written.info, "commit-graph")
    os.rename(path, inside)
    os.symlink("../elsewhere", path)
    answer = written.write()
    right = answer.status == 0 and os.path.islink(path)
    results.check("git cgraph write, where the file is a link", None if right else "it is %r" % (answer,))
    os.remove(path)
    os.rename(inside, outside)
    os.symlink("../../../elsewhere", path)
    before, objects = os.stat(outside), os.path.dirname(written.info)
    asks = "ask whoever keeps '%s' to remove this link" % objects
    for folder, words, reason, advice in (
        (written.folder, [], "'%s' leads to '%s', which is not in this repository" % (path, outside), "remove the link, and write"),
        (written.folder, ["--split"], "which is not in this repository", "remove the link, and write"),
        (fork, ["--object-dir", objects], "'%s' leads to '%s', which is not in its repository" % (path, outside), asks),
    ):
        answer = ask(written.clone, ["write", *words], folder)
        right = answer[:2] == (128, "") and answer.err.startswith(said([UNWRITTEN])) and reason in answer.err
        right = right and advice in answer.err and os.stat(outside) == before and os.path.islink(path) and not os.path.exists(outside + ".lock")
        title = "git cgraph write %s, where a link leads out of the repository" % " ".join(words[:1])
        results.check(title, None if right else "it is %r" % (answer,))
    os.remove(path)
    os.remove(outside)


def check_empty(results, written):
    """Where no reference leads to a commit, nothing is written."""
    folder = os.path.join(os.path.dirname(written.folder), "empty")
    git(written.clone, written.folder, "init", "-q", folder)
    for more in ([], ["--split"]):
        answer = ask(written.clone, ["write", *more], folder)
        err = said(["no reference leads to a commit: nothing is written"])
        results.check(" ".join(["git cgraph write, without commits", *more]), exactly(answer, 0, "ok commits 0\n", err))
