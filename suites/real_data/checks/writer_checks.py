"""Checks `git cgraph write`, installed, beside `git commit-graph write --reachable` in a copy of the same repository: the files are
Git's, bit by bit, both find them right, and Git answers from them as before. Also two writers at once, and a folder without room.
"""

import os
import resource
import shutil
import signal
import threading

from checks.cgraph_checks import Installed, Way
from damage.odd_commits import AUTHOR
from histories import shapes
from histories.repository import read_bytes
from wrappers.clone import run

LOCKED = "git cgraph: the commit-graph is locked\n"
ROUNDS = 8
"""How often each of two writers writes."""

NOBODY = 65534
STEPS = ((20, ["--split"]), (21, ["--split"]), (60, ["--split"]), (61, []), (63, ["--split"]), (64, ["--split"]))
"""So many commits there are, and with these options all is written then."""


class Pair:
    """Two copies of one repository: in the first ours writes, and in the other Git does."""

    def __init__(self, installed, folders):
        self.installed, self.folders = installed, folders

    def infos(self):
        """The folders in which the commit-graphs are."""
        return [self.path("rev-parse", "--git-path", "objects/info", folder=folder) for folder in self.folders]

    def path(self, *words, folder):
        """The path that a command of Git names."""
        return os.path.join(folder, self.git(*words, folder=folder).strip())

    def git(self, *words, folder):
        """What Git writes there."""
        answer = self.installed.git(Way(folder), *words)
        if answer.status:
            raise RuntimeError("git %s: %s" % (" ".join(words), answer.err))
        return answer.out

    def write(self, *options):
        """Has both write, and answers what ours says, with a complaint where the files are not the same or not right."""
        ours, gits = self.folders
        graph = ("-c", "core.commitGraph=true", "commit-graph")
        self.installed.git(Way(gits), *graph, "write", "--reachable", "--no-progress", *options)
        answer = self.installed.ask(Way(ours), "write", *options)
        files = [files_below(info) for info in self.infos()]
        if answer.status or files[0] != files[1]:
            return answer, "it is %r, with %s, and Git has %s" % (answer, names(files[0]), names(files[1]))
        verdict = self.installed.git(Way(ours), *graph, "verify")
        if verdict.status or verdict.err:
            return answer, "Git says %r" % (verdict,)
        found = self.installed.ask(Way(ours), "verify", "--all-checks", "--objects")
        if found.status or found.err:
            return answer, "ours says %r" % (found,)
        return answer, self.other_answer()

    def other_answer(self):
        """A complaint where Git answers otherwise with the commit-graph than without."""
        tips = self.git("for-each-ref", "--format=%(objectname)", folder=self.folders[0]).split()
        for words in (["log", "--graph", "--all", "--format=%H"], ["merge-base", "--all", tips[0], tips[-1]]):
            answers = [self.installed.git(Way(self.folders[0]), "-c", "core.commitGraph=" + use, *words) for use in ("true", "false")]
            if answers[0] != answers[1]:
                return "git %s: %r" % (" ".join(words), answers)
        return None


def files_below(folder):
    """The files below a folder that have to do with commit-graphs, with their bytes."""
    found = {}
    for at, _, listed in os.walk(folder):
        for name in listed:
            if "graph" in name:
                found[os.path.relpath(os.path.join(at, name), folder)] = read_bytes(os.path.join(at, name))
    return found


def names(files):
    """The names of files and how large they are."""
    return sorted((name, len(content)) for name, content in files.items())


def check_kind(programs, results, folder, new):
    """The checks of one kind of hash."""
    repository = new("to be written")
    kind = repository.object_format
    installed = Installed(os.path.join(folder, "installed, " + kind), programs)
    shapes_of = {"merges": shapes.diamonds(12), "octopus merges": shapes.octopus(3, 4, 9, 2, 3), "tangled": shapes.tangled(300, seed=1)}
    for name, history in shapes_of.items():
        made = new("to be written, " + name)
        made.add(history)
        for options in ([], ["--split"]):
            answer, complaint = copied(installed, made, "%d" % len(options)).write(*options)
            text = "ok commits %d%s\n" % (len(history), " layers 1" if options else "")
            complaint = complaint or (None if answer == (0, text, "") else "it is %r" % (answer,))
            results.check(" ".join(["%s, %s, git cgraph write" % (kind, name), *options]), complaint)
    check_steps(installed, results, repository)
    check_places(installed, results, new("to be written, places"))
    check_pools(installed, results, new("to be written, a pool"))
    check_odd(installed, results, new("to be written, odd"))
    if kind == "sha1":
        check_writers(installed, results, new("to be written, twice"))
        check_room(installed, results, new("to be written, no room"))


def copied(installed, repository, name):
    """A pair of copies of a repository."""
    folders = ["%s, %s %s" % (repository.folder, who, name) for who in ("ours", "Git's")]
    for copy in folders:
        shutil.copytree(repository.folder, copy, symlinks=True)
    return Pair(installed, folders)


def check_steps(installed, results, repository):
    """Layers and files of a history that grows: of each layer, of which some are taken in, and of a file between."""
    history = shapes.tangled(64, seed=3)
    pair, done = copied(installed, repository, "steps"), 0
    for count, options in STEPS:
        repository.add(history[:count], done)
        done = count
        for copy in pair.folders:
            pair.git("fetch", "-q", repository.folder, "+refs/*:refs/*", folder=copy)
        title = "%s, git cgraph write %s, of %d commits" % (repository.object_format, " ".join(options), count)
        results.check(title, pair.write(*options)[1])


def check_places(installed, results, repository):
    """Clones with files and linked worktrees with references of their own, a partial clone, and commits that are gone."""
    ids = repository.add(shapes.diamonds(6))
    repository.git("symbolic-ref", "HEAD", "refs/heads/tip-%d" % (len(ids) - 1))
    repository.git("config", "uploadpack.allowFilter", "true")
    pairs = {}
    for name, options in (("a clone", []), ("a partial clone", ["--filter=tree:0", "--no-checkout"])):
        folders = ["%s, %s %s" % (repository.folder, who, name) for who in ("ours", "Git's")]
        for copy in folders:
            installed.git(Way(os.path.dirname(copy)), "clone", "-q", *options, "file://" + repository.folder, copy)
        pairs[name] = Pair(installed, folders)
    for copy in pairs["a clone"].folders:
        pairs["a clone"].git("worktree", "add", "-q", "--detach", copy + " linked", ids[4], folder=copy)
        pairs["a clone"].git("update-ref", "refs/bisect/bad", ids[7], folder=copy + " linked")
        pairs["a clone"].git("update-ref", "-d", "refs/heads/tip-%d" % (len(ids) - 1), folder=copy)
        pairs["a clone"].git("update-ref", "-d", "refs/remotes/origin/tip-%d" % (len(ids) - 1), folder=copy)
    pairs["a linked worktree"] = Pair(installed, [copy + " linked" for copy in pairs["a clone"].folders])
    for name, pair in pairs.items():
        for options in ([], ["--split"]):
            title = " ".join(["%s, git cgraph write in %s" % (repository.object_format, name), *options])
            results.check(title, pair.write(*options)[1])
    check_gone(installed, results, copied(installed, repository, "gone"), ids)
    shallow = repository.folder + ", shallow"
    installed.git(Way(os.path.dirname(shallow)), "clone", "-q", "--depth=1", "file://" + repository.folder, shallow)
    answer = installed.ask(Way(shallow), "write")
    right = answer[:2] == (128, "") and "the reason is that this repository is shallow\n" in answer.err
    results.check("%s, git cgraph write in a shallow clone" % repository.object_format, None if right else "it is %r" % (answer,))


def check_gone(installed, results, pair, ids):
    """Commits that are gone stay in a layer that is kept, and go out of one that is taken in."""
    kind = "sha1" if len(ids[0]) == 40 else "sha256"
    results.check("%s, git cgraph write --split, before commits go" % kind, pair.write("--split")[1])
    for copy in pair.folders:
        tips = pair.git("for-each-ref", "--format=%(refname)", folder=copy).split()
        for tip in tips:
            pair.git("update-ref", "-d", tip, folder=copy)
        add_commit(installed, copy, ids[5], 0)
        pair.git("repack", "-adq", folder=copy)
        pair.git("prune", "--expire=now", folder=copy)
    for number in range(1, 12):
        for copy in pair.folders:
            add_commit(installed, copy, "refs/heads/more", number)
    answer, complaint = pair.write("--split")
    right = answer[0] == 0 and complaint is None
    results.check("%s, git cgraph write --split, where commits are gone" % kind, None if right else "it is %r: %s" % (answer, complaint))


def add_commit(installed, folder, parent, number):
    """Puts the branch `more` of a repository on a commit with this parent, and a time by its number."""
    dates = dict.fromkeys(("GIT_COMMITTER_DATE", "GIT_AUTHOR_DATE"), "%d +0000" % (2000000000 + number))
    person = ("-c", "user.name=A", "-c", "user.email=a@example.com")
    made = installed.git(Way(folder, **dates), *person, "commit-tree", "-m", "more", "-p", parent, parent + "^{tree}")
    moved = installed.git(Way(folder), "update-ref", "refs/heads/more", made.out.strip())
    if made.status or moved.status:
        raise RuntimeError(made.err + moved.err)


def check_pools(installed, results, pool):
    """A fork writes on top of a chain of a pool, takes in a file of a pool, and may write for the folder of the pool."""
    kind, history = pool.object_format, shapes.tangled(30, seed=5)
    pool.add(history[:25])
    for before in (["--split"], []):
        shutil.rmtree(pool.chain_path(), ignore_errors=True)
        pool.git("commit-graph", "write", "--reachable", "--no-progress", *before)
        folders = ["%s, %s fork %d" % (pool.folder, who, len(before)) for who in ("our", "Git's")]
        for copy in folders:
            installed.git(Way(os.path.dirname(copy)), "clone", "-q", "--bare", "-s", pool.folder, copy)
            add_commit(installed, copy, "refs/heads/tip-24", 0)
        pair = Pair(installed, folders)
        for options in (["--split"], []):
            title = "%s, git cgraph write %s in a fork of a pool with a %s" % (kind, " ".join(options), "chain" if before else "file")
            results.check(title, pair.write(*options)[1])
    by_git = files_below(pool.info_path())
    answer = installed.ask(Way(folders[0]), "write", "--object-dir", os.path.dirname(pool.info_path()))
    shown = installed.ask(Way(pool.folder), "verify").out.split("\n")[0]
    right = answer.status == 0 and files_below(pool.info_path()) != by_git and shown.startswith("ok commits 26 ")
    results.check("%s, git cgraph write for the folder of a pool" % kind, None if right else "it is %r, then %r" % (answer, shown))


def check_odd(installed, results, repository):
    """A commit with a time past 34 bits, and one whose bytes are not those of its id: it is named, and what stood stands."""
    ids = repository.add(shapes.linear(4))
    repository.write_graph()
    before, tree = files_below(repository.info_path()), repository.git("rev-parse", ids[0] + "^{tree}").strip()
    late, damaged, other = (put_commit(repository, tree, time) for time in (2**34, 8, 9))
    for name, commit, line in (("of a time past 34 bits", late, "refused write 4 commit "), ("that is damaged", damaged, "refused stream 5 entry ")):
        repository.git("update-ref", "refs/heads/odd", commit)
        if commit == damaged:
            os.remove(loose(repository, damaged))
            shutil.copy(loose(repository, other), loose(repository, damaged))
        for options in ([], ["--split"]):
            answer = installed.ask(Way(repository.folder), "write", *options)
            right = answer.status == 1 and answer.out.startswith(line) and "git cgraph: the commit is %s\n" % commit in answer.err
            right = right and files_below(repository.info_path()) == before
            title = " ".join(["%s, git cgraph write, of a commit %s" % (repository.object_format, name), *options])
            results.check(title, None if right else "it is %r" % (answer,))


def put_commit(repository, tree, time):
    """The id of a new commit with this time, in a file of its own."""
    text = b"tree " + tree + b"\n" + AUTHOR + b"committer C <c@x> %d +0000\n\nmessage\n" % time
    return repository.git("hash-object", "-t", "commit", "-w", "--stdin", "--literally", stdin=text).decode().strip()


def loose(repository, commit):
    """The path of the file of an object."""
    return os.path.join(repository.folder, "objects", commit[:2], commit[2:])


def check_writers(installed, results, repository):
    """Two of ours at once, and Git's beside: one of them may say that the other has the lock, and all is right at the end."""
    repository.add(shapes.diamonds(30))
    answers = []

    def write(*words):
        for number in range(ROUNDS):
            command = installed.ask if words[0] == "write" else installed.git
            answers.append((words, command(Way(repository.folder), *words, *["--split"] * (number % 2))))

    for words in (["write"], ["commit-graph", "write", "--reachable"]):
        writers = [threading.Thread(target=write, args=given) for given in (["write"], words)]
        for writer in writers:
            writer.start()
        for writer in writers:
            writer.join()
        wrong = [pair for pair in answers if pair[1].status and ".lock" not in pair[1].err]
        verdicts = installed.ask(Way(repository.folder), "verify").status, repository.git_verdict()
        locks = [name for name in files_below(repository.info_path()) if name.endswith(".lock")]
        done = sum(not pair[1].status for pair in answers)
        right = not wrong and verdicts == (0, (0, False)) and not locks and done >= 2
        title = "git cgraph write beside %s" % " ".join(["git", *words])
        results.check(title, None if right else "%d ended well; %r, %r, %r" % (done, wrong[:1], verdicts, locks))


def check_room(installed, results, repository):
    """Where there is no room for the file, and where the folder may not be written: what stood stands, and no lock is left."""
    repository.add(shapes.diamonds(30))
    repository.write_graph()
    before, command = files_below(repository.info_path()), [os.path.join(installed.prefix, "bin", "git-cgraph"), "write"]
    for options in ([], ["--split"]):
        if options:
            os.remove(repository.graph_path())
            before = {}
        answer = run([*command, *options], installed.variables, cwd=repository.folder, preexec_fn=limit)
        right = answer[:2] == (128, "") and "could not be written to its end\n" in answer.err and files_below(repository.info_path()) == before
        results.check(" ".join(["git cgraph write, where a file has no room", *options]), None if right else "it is %r" % (answer,))
    info = repository.info_path()
    shutil.rmtree(repository.chain_path(), ignore_errors=True)
    os.chmod(info, 0o555)
    variables = {**installed.variables, "GIT_CONFIG_COUNT": "1", "GIT_CONFIG_KEY_0": "safe.directory", "GIT_CONFIG_VALUE_0": "*"}
    answer = run(command, variables, cwd=repository.folder, preexec_fn=lambda: os.geteuid() or os.setuid(NOBODY))
    os.chmod(info, 0o755)
    right = answer[:2] == (128, "") and "the folder '%s' may not be written\n" % os.path.realpath(info) in answer.err
    results.check("git cgraph write, where the folder may not be written", None if right else "it is %r" % (answer,))


def limit():
    """Lets no file become longer than the list of the ids is, and so no write of the commit-graph succeed to its end."""
    signal.signal(signal.SIGXFSZ, signal.SIG_IGN)
    resource.setrlimit(resource.RLIMIT_FSIZE, (5000, 5000))
