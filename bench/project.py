"""A million commits of a project, with messages and people as those of real histories, as Git packs them.

Messages are short or long, many have trailers, and some are those of merges, of tools that write the same text again and
again, and of reverts: so Git finds delta chains of commits. Each commit has a tree of its own, of one file, since nobody
reads the trees here.
"""

import os
import random
import subprocess
import sys
from itertools import accumulate

TOP = os.path.dirname(os.path.dirname(os.path.abspath(__file__)))
sys.path.insert(0, os.path.join(TOP, "suites", "real_data"))

from histories import repository, shapes

COMMITS = 1_000_000
SEED = 11
PEOPLE = 3000
BRANCHES = 200
"""Commits are made on so many branches, whose names are used again."""
SYLLABLES = "ba co de fi ga hu in jo ke lu ma no or pe qui re sa te un vo wa xi yo ze".split()


class Made:
    """The repository of the commits and its commit-graph."""

    def __init__(self, folder, commits=COMMITS):
        self.folder = os.path.join(folder, "project.git")
        marks = os.path.join(folder, "project-marks")
        if not os.path.exists(marks):
            self.write(marks, commits)

    def write(self, marks, commits):
        """Makes the repository and the layer."""
        made, history = repository.Repository(self.folder, "sha1"), shapes.topics(commits, seed=SEED, disorder=0.01, roots=0)
        words = ["--quiet", "--force", "--active-branches=%d" % BRANCHES, "--export-marks=" + marks + ".part"]
        with subprocess.Popen(["git", "-C", self.folder, "fast-import", *words], stdin=subprocess.PIPE) as run:
            for command in Project(history).commands():
                run.stdin.write(command)
            run.stdin.write(tips(history))
            run.stdin.close()
        if run.returncode != 0:
            raise RuntimeError("git fast-import ended with %d" % run.returncode)
        made.write_graph()
        os.rename(marks + ".part", marks)

    def layer(self):
        """The path of the single file."""
        return [os.path.join(self.folder, "objects", "info", "commit-graph")]


class Words:
    """Words, people and texts, some of which are seldom and some frequent."""

    def __init__(self, chance):
        self.chance = chance
        self.words = ["".join(chance.choices(SYLLABLES, k=chance.choice((1, 2, 2, 3, 3, 4)))) for _ in range(4000)]
        self.weights = list(accumulate(1 / (place + 3) for place in range(len(self.words))))
        self.people = [self.person() for _ in range(PEOPLE)]
        self.shares = list(accumulate(1 / (place + 5) for place in range(PEOPLE)))

    def person(self):
        """A name with its address."""
        names = [word.capitalize() for word in self.some(2)]
        host = "%s.%s" % (self.some(1)[0], self.chance.choice(("org", "com", "example")))
        return "%s <%s@%s>" % (" ".join(names), ".".join(names).lower(), host)

    def some(self, count):
        """So many words."""
        return self.chance.choices(self.words, cum_weights=self.weights, k=count)

    def someone(self):
        """One of the people."""
        return self.chance.choices(self.people, cum_weights=self.shares)[0]

    def line(self, count):
        """A line of so many words."""
        return " ".join(self.some(count))

    def paragraph(self):
        """Some lines, and an empty one before them."""
        return "\n" + "".join(self.line(self.chance.randint(8, 12)) + "\n" for _ in range(self.chance.randint(1, 7)))


class Project:
    """The commands by which `git fast-import` makes a history, with a message and a tree for each commit."""

    def __init__(self, history):
        self.history, self.chance = history, random.Random(SEED)
        self.words = Words(self.chance)
        self.branch_of, self.tips, self.next = {}, [None] * BRANCHES, 0

    def commands(self):
        """The commands, those of one commit after another."""
        for place, commit in enumerate(self.history):
            yield self.command(place, commit)

    def command(self, place, commit):
        """The commands of one commit."""
        author = self.words.someone()
        committer = self.words.people[place // 5000 % 7] if self.chance.random() < 0.6 else author
        message, wrote = self.message(place, commit, author, committer), commit.time - self.chance.randrange(100_000)
        goes_on, start = self.start(place, commit)
        lines = [*start, "author %s %d %s" % (author, wrote, self.zone(author))]
        lines += ["committer %s %d %s" % (committer, commit.time, self.zone(committer)), *data(message)]
        words = [("merge" if number else "from", parent) for number, parent in enumerate(commit.parents)]
        lines += ["%s :%d" % (word, parent + 1) for word, parent in words[goes_on:]]
        return "\n".join([*lines, "deleteall", "M 100644 inline file-%d" % place, *data(""), ""]).encode()

    def start(self, place, commit):
        """Whether a branch goes on, since the first parent is its tip; and the lines of the branch and of the mark."""
        parent = commit.parents[0] if commit.parents else None
        branch = self.branch_of.get(parent)
        goes_on = branch is not None and self.tips[branch] == parent
        if not goes_on:
            branch, self.next = self.next, (self.next + 1) % BRANCHES
        self.branch_of[place], self.tips[branch] = branch, place
        reset = [] if commit.parents else ["reset refs/heads/line-%d" % branch, ""]
        return goes_on, [*reset, "commit refs/heads/line-%d" % branch, "mark :%d" % (place + 1)]

    def zone(self, person):
        """The time zone of a person."""
        return "%+03d00" % (len(person) % 24 - 11)

    def message(self, place, commit, author, committer):
        """A message: that of a merge, of a tool, of a revert, or one that someone wrote."""
        some, kind = self.words, self.chance.random()
        if len(commit.parents) > 1:
            return "Merge branch '%s' into %s\n" % (some.line(2).replace(" ", "-"), some.words[place // 100_000])
        if kind < 0.06:
            name, number = some.words[self.chance.randrange(40)], self.chance.randrange(60)
            return tool_message(name, number)
        if kind < 0.08:
            return 'Revert "%s"\n\nThis reverts commit %040x.\n' % (some.line(5), self.chance.getrandbits(160))
        text = "%s: %s\n" % (some.some(1)[0], some.line(self.chance.randint(3, 8)))
        text += "".join(some.paragraph() for _ in range(self.chance.choice((0, 0, 0, 1, 1, 2, 3))))
        if self.chance.random() < 0.6:
            signers = dict.fromkeys([author, *(some.someone() for _ in range(self.chance.choice((0, 0, 1, 2)))), committer])
            text += "\n" + "".join("Signed-off-by: %s\n" % signer for signer in signers)
        return text


def data(text):
    """The lines that give a text."""
    return ["data %d" % len(text), text]


def tips(history):
    """The commands that make a branch at each commit without a child."""
    childless = set(range(len(history))) - {parent for commit in history for parent in commit.parents}
    return "".join("reset refs/heads/tip-%d\nfrom :%d\n\n" % (place, place + 1) for place in sorted(childless)).encode()


def tool_message(name, number):
    """What a tool writes that knows of a new release of a library."""
    words = (name, number, number + 1)
    return (
        "build: bump %s from 1.%d.0 to 1.%d.0\n\n" % words
        + "Bumps %s from 1.%d.0 to 1.%d.0.\n" % words
        + "- [Release notes](https://example.org/%s/releases)\n" % name
        + "- [Changelog](https://example.org/%s/blob/main/CHANGELOG.md)\n" % name
        + "- [Commits](https://example.org/%s/compare/v1.%d.0...v1.%d.0)\n\n" % words
        + "---\nupdated-dependencies:\n- dependency-name: %s\n" % name
        + "  dependency-type: direct:production\n  update-type: version-update:semver-minor\n...\n\n"
        + "Signed-off-by: library-bot <bot@example.org>\n"
    )
