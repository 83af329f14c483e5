"""A million commits of topic branches, long lines that merge each other and merges of several at once, as Git makes them."""

import os
import random
import subprocess
import sys

TOP = os.path.dirname(os.path.dirname(os.path.abspath(__file__)))
sys.path.insert(0, os.path.join(TOP, "suites", "real_data"))

from histories import repository, shapes

COMMITS = 1_000_000
LAYERS = 10
SELDOM = 1 / 1400
"""Of the topics of two histories so many begin elsewhere than the others. It makes one of some 20,000 commits."""
BACK = 300_000
"""So many commits before it a topic begins then."""
PAIRS = {"any": 100, "newest": 1000, "same": 1000}
"""How many pairs of each kind are asked for: of all commits, of the newest ones, and of a commit with itself."""
NEWEST = 2000
"""The pairs of the second kind are of so many commits."""


class OldBranches(shapes.Topics):
    """Topics, of which some begin far back."""

    def begin(self):
        """A topic begins."""
        if self.chance.random() < SELDOM:
            self.topics.append(self.commit(max(0, len(self.commits) - BACK)))
        else:
            super().begin()


HISTORIES = {
    "topics": lambda: shapes.Topics(seed=9, disorder=0.01, roots=0),
    "roots": lambda: shapes.Topics(seed=9, disorder=0.01, roots=SELDOM),
    "old branches": lambda: OldBranches(seed=9, disorder=0.01, roots=0),
}
"""The histories by their names: topics alone, topics of which some have a root of their own, and some that begin far back."""


class Made:
    """The repository of the commits of a history, its commit-graphs, and the pairs that are asked for."""

    def __init__(self, folder, history="topics"):
        if history != "topics":
            folder = os.path.join(folder, history.replace(" ", "_"))
            os.makedirs(folder, exist_ok=True)
        self.history = history
        self.folder = os.path.join(folder, "topics.git")
        self.pairs = [os.path.join(folder, kind) for kind in ("any", "newest", "same")]
        ids_path = os.path.join(folder, "ids")
        if not os.path.exists(ids_path):
            self.write(ids_path)
        with open(ids_path) as file:
            self.ids = file.read().split()
        chance, newest = random.Random(9), self.ids[-NEWEST:]
        same = [commit for commit in chance.sample(self.ids, PAIRS["same"]) for _ in range(2)]
        asked = (chance.choices(self.ids, k=2 * PAIRS["any"]), chance.choices(newest, k=2 * PAIRS["newest"]), same)
        for path, ids in zip(self.pairs, asked):
            with open(path, "wb") as file:
                file.write(bytes.fromhex("".join(ids)))

    def write(self, ids_path):
        """Makes the repository, with the layer and with the chain."""
        made, history = repository.Repository(self.folder, "sha1"), grown(HISTORIES[self.history]())
        marks = os.path.join(self.folder, "marks")
        load = ["git", "-C", self.folder, "fast-import", "--quiet", "--export-marks=" + marks]
        with subprocess.Popen(load, stdin=subprocess.PIPE) as run:
            for place, commit in enumerate(history):
                run.stdin.write(commit_command(place, commit))
            run.stdin.close()
        with open(marks) as file:
            names = dict(line.split() for line in file)
        ids = [names[":%d" % (place + 1)] for place in range(COMMITS)]
        for layer in range(1, LAYERS + 1):
            made.write_graph("--split=no-merge", tips=ids[: layer * COMMITS // LAYERS])
        os.rename(made.chain_path(), self.folder + ".chain")
        made.write_graph(tips=ids)
        with open(ids_path, "w") as file:
            file.write("\n".join(ids))

    def layer(self):
        """The path of the single file."""
        return [os.path.join(self.folder, "objects", "info", "commit-graph")]

    def chain(self):
        """The paths of the chain's files, the lowest first."""
        with open(os.path.join(self.folder + ".chain", "commit-graph-chain")) as file:
            return [os.path.join(self.folder + ".chain", "graph-%s.graph" % name) for name in file.read().split()]


def grown(topics):
    """The commits of topics that have grown."""
    while len(topics.commits) < COMMITS:
        topics.grow()
    return topics.commits[:COMMITS]


def commit_command(place, commit):
    """The lines from which `git fast-import` makes a commit of no files."""
    lines = [] if commit.parents else ["reset refs/heads/work", ""]
    lines += ["commit refs/heads/work", "mark :%d" % (place + 1), "committer a <a> %d +0000" % commit.time, "data 0"]
    for number, parent in enumerate(commit.parents):
        lines.append("%s :%d" % ("merge" if number else "from", parent + 1))
    return "\n".join(lines + ["", ""]).encode()
