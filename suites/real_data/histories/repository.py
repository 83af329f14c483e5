"""A repository that the installed Git makes and answers for."""

import os
import subprocess
from typing import NamedTuple, Tuple

ID_LENGTH = {"sha1": 20, "sha256": 32}
"""The length of an id in bytes, by the name of the object format."""

class Verdict(NamedTuple):
    """How `git commit-graph verify` ended: its status, negative where it crashed, and whether it warned."""

    status: int
    warned: bool


PERSON = "A Committer <committer@example.com>"


class Words(NamedTuple):
    """What Git says of a commit; ids are in hexadecimal."""

    parents: Tuple[str, ...]
    tree: str
    time: int


class Repository:
    """A new bare repository in a folder, made with no settings of the machine or the user."""

    def __init__(self, folder, object_format):
        self.folder = folder
        self.object_format = object_format
        self.surroundings = {
            "PATH": os.environ["PATH"],
            "HOME": folder,
            "GIT_DIR": folder,
            "GIT_CONFIG_GLOBAL": os.devnull,
            "GIT_CONFIG_SYSTEM": os.devnull,
            "GIT_CONFIG_NOSYSTEM": "1",
            "LC_ALL": "C",
        }
        self.git("init", "--quiet", "--bare", "--template=", "--object-format=" + object_format, folder)

    def git(self, *words, stdin=b""):
        """What a git command writes. A command that fails is an error with what it said."""
        command = ("git",) + words
        run = subprocess.run(command, input=stdin, env=self.surroundings, capture_output=True, check=False)
        if run.returncode != 0:
            raise RuntimeError("git %s: %s" % (" ".join(words), run.stderr.decode()))
        return run.stdout

    def add(self, history, start=0, every=1):
        """Makes the commits of a history, with a branch at each that has no child; answers their ids.

        Those before a start were made by an earlier call. One in so many writes a file, which takes most of the time.
        """
        marks = os.path.join(self.folder, "marks")
        files = ("--import-marks-if-exists=" + marks, "--export-marks=" + marks)
        self.git("fast-import", "--quiet", "--force", *files, stdin=import_stream(history, start, every))
        with open(marks, encoding="ascii") as lines:
            named = dict(line.split() for line in lines)
        return [named[":%d" % (place + 1)] for place in range(len(history))]

    def words(self):
        """What Git says of each commit, by id, read from the objects and from no commit-graph."""
        plain = ("-c", "core.commitGraph=false")
        lines = self.git(*plain, "rev-list", "--all", "--topo-order", "--reverse", "--parents").decode().splitlines()
        ids = "".join(line.split()[0] + "\n" for line in lines).encode()
        bodies = commit_texts(self.git(*plain, "cat-file", "--batch", stdin=ids))
        return {
            commit: Words(tuple(parents), *tree_and_time(body))
            for (commit, *parents), body in zip(map(str.split, lines), bodies)
        }

    def write_graph(self, *flags, generation_version=2, filter_version=1, tips=None):
        """Writes a commit-graph of all commits, or of those that lead to the tips.

        Releases of Git that know one version of filters alone write that.
        """
        settings = "commitGraph.generationVersion=%d", "commitGraph.changedPathsVersion=%d"
        versions = [word % number for word, number in zip(settings, (generation_version, filter_version))]
        start = "--reachable" if tips is None else "--stdin-commits"
        listed = "".join(tip + "\n" for tip in tips or []).encode()
        words = ("-c", versions[0], "-c", versions[1], "commit-graph", "write", "--no-progress", start)
        self.git(*words, *flags, stdin=listed)

    def changed_paths(self, commit, parents):
        """The paths that a commit changes against its first parent, or all of its paths where it has none."""
        pair = (parents[0], commit) if parents else ("--root", "--no-commit-id", commit)
        return self.git("diff-tree", "-r", "-z", "--name-only", "--no-renames", *pair).split(b"\0")[:-1]

    def git_verdict(self):
        """What `git commit-graph verify` says of the graph that stands here."""
        command = ("git", "commit-graph", "verify", "--no-progress")
        run = subprocess.run(command, env=self.surroundings, capture_output=True, check=False)
        return Verdict(run.returncode, bool(run.stderr))

    def reaches(self, first, second, graph="false"):
        """Whether Git says that a commit has another among its ancestors, or is that one: without commit-graphs or with."""
        command = ("git", "-c", "core.commitGraph=" + graph, "merge-base", "--is-ancestor", second, first)
        run = subprocess.run(command, env=self.surroundings, capture_output=True, check=False)
        if run.returncode not in (0, 1):
            raise RuntimeError("git merge-base: " + run.stderr.decode())
        return run.returncode == 0

    def merge_bases(self, first, *others):
        """The merge bases that Git names of a commit and others, in its own order."""
        command = ("git", "-c", "core.commitGraph=false", "merge-base", "--all", first, *others)
        run = subprocess.run(command, env=self.surroundings, capture_output=True, check=False)
        if run.returncode not in (0, 1):
            raise RuntimeError("git merge-base: " + run.stderr.decode())
        return run.stdout.decode().split()

    def divergence(self, first, *others):
        """How many commits Git counts that one commit leads to and none of the others does, and the other way round."""
        count = ("-c", "core.commitGraph=false", "rev-list", "--count")
        if len(others) == 1:
            words = self.git(*count, "--left-right", "%s...%s" % (first, others[0])).split()
            return int(words[0]), int(words[1])
        ahead = self.git(*count, first, *["^" + other for other in others])
        return int(ahead), int(self.git(*count, *others, "^" + first))

    def info_path(self):
        """The folder in which Git looks for commit-graphs."""
        return os.path.join(self.folder, "objects", "info")

    def graph_path(self):
        """Where Git writes a commit-graph of a single file."""
        return os.path.join(self.info_path(), "commit-graph")

    def chain_path(self):
        """The folder in which Git writes the files of a chain."""
        return os.path.join(self.info_path(), "commit-graphs")

    def new_graph(self, *flags, generation_version=2, filter_version=1):
        """The bytes of the single-file commit-graph that Git writes from nothing."""
        if os.path.exists(self.graph_path()):
            os.remove(self.graph_path())
        self.write_graph(*flags, generation_version=generation_version, filter_version=filter_version)
        return read_bytes(self.graph_path())

    def chain(self):
        """The layers of a split commit-graph, lowest first: each one's checksum and bytes."""
        folder = self.chain_path()
        sums = read_bytes(os.path.join(folder, "commit-graph-chain")).decode().split()
        return [(checksum, read_bytes(os.path.join(folder, "graph-%s.graph" % checksum))) for checksum in sums]


def read_bytes(path):
    """All bytes of a file."""
    with open(path, "rb") as file:
        return file.read()


def write_bytes(path, content):
    """Makes a file of these bytes at a path. It replaces one that is there, even one that is read-only."""
    if os.path.exists(path):
        os.remove(path)
    with open(path, "wb") as file:
        file.write(content)


def import_stream(history, start, every):
    """The history from a start on as git fast-import reads it, where one commit in so many writes a file."""
    childless = set(range(len(history))) - {parent for commit in history for parent in commit.parents}
    stream = [commit_command(place, commit, place % every == 0) for place, commit in list(enumerate(history))[start:]]
    stream += ["reset refs/heads/tip-%d\nfrom :%d\n\n" % (place, place + 1) for place in sorted(childless)]
    return "".join(stream).encode()


def commit_command(place, commit, writes):
    """One commit for git fast-import. If it writes, it does so to one of a few files, so that trees recur and differ."""
    joins = ["%s :%d\n" % ("merge" if which else "from", parent + 1) for which, parent in enumerate(commit.parents)]
    message = "commit %d\n" % place
    content = "%d\n" % (place // 3)
    written = "M 100644 inline folder-%d/file\ndata %d\n%s\n" % (place % 4, len(content), content)
    return "".join(
        [
            "" if joins else "reset refs/heads/work\n\n",
            "commit refs/heads/work\nmark :%d\n" % (place + 1),
            "committer %s %d +0000\n" % (PERSON, commit.time),
            "data %d\n%s" % (len(message), message),
            *joins,
            written if writes else "\n",
        ]
    )


def commit_texts(batch):
    """The commits' own texts, from what git cat-file --batch writes."""
    start = 0
    while start < len(batch):
        stop = batch.index(b"\n", start)
        size = int(batch[start:stop].split()[2])
        yield batch[stop + 1 : stop + 1 + size].decode()
        start = stop + 1 + size + 1


def tree_and_time(body):
    """The root tree and the committer's time in a commit's text."""
    headers = dict(line.split(" ", 1) for line in body.split("\n\n", 1)[0].splitlines())
    return headers["tree"], int(headers["committer"].split()[-2])
