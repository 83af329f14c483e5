"""Histories to be made in real repositories: what their commits' parents and times are."""

import random
from typing import NamedTuple, Tuple

START = 1_500_000_000
"""The time of a first commit, where a history has nothing to say of times."""


class Commit(NamedTuple):
    """A commit to be made. Its parents are places in the history, all before its own."""

    parents: Tuple[int, ...]
    time: int


def ticking(parent_lists):
    """A history in which each commit is a minute younger than the one before."""
    return [Commit(tuple(parents), START + 60 * place) for place, parents in enumerate(parent_lists)]


def linear(count):
    """A root, and each further commit on the one before."""
    return ticking([[]] + [[place] for place in range(count - 1)])


def diamonds(count):
    """Diamonds on one another: each is two commits on one, and their merge."""
    parents = [[]]
    for base in range(0, 3 * count, 3):
        parents += [[base], [base], [base + 1, base + 2]]
    return ticking(parents)


def octopus(*widths):
    """A root, and for each width so many commits on the last tip, which one merge joins again."""
    parents = [[]]
    for width in widths:
        tip = len(parents) - 1
        parents += [[tip]] * width
        parents.append(list(range(tip + 1, tip + 1 + width)))
    return ticking(parents)


def islands(count):
    """Roots alone, no two of them joined."""
    return ticking([[] for _ in range(count)])


def odd_times():
    """A line whose times stand at the edges of 32, 33 and 34 bits, in no order, and one past them."""
    times = [0, 1, 2**31 - 1, 2**31, 2**32 - 1, 2**32, 2**32 + 1, 2**33, 2**34 - 1, 2**34 + 5, 7, 0]
    return [Commit((place - 1,) if place else (), time) for place, time in enumerate(times)]


def tangled(count, seed):
    """A history with up to five parents a commit, several roots, and times that go back and forth."""
    chance = random.Random(seed)
    return [
        Commit(tuple(chance.sample(range(place), chance.randint(0, min(place, 5)))), chance.randrange(2**34))
        for place in range(count)
    ]


class Topics:
    """A history that grows: a main line, two long lines beside it that merge it and are merged, and topics that the main
    line merges, one or several at once. Some topics begin with an old merge, and so many in one with a root of their own. Of
    so many commits in one the time lies in the past.
    """

    def __init__(self, seed, disorder, roots):
        self.chance, self.disorder, self.roots, self.commits = random.Random(seed), disorder, roots, []
        self.lines, self.topics, self.merges = [self.commit()] * 3, [], [0]

    def commit(self, *parents):
        """Makes a commit, and answers its place."""
        past = self.chance.randrange(10_000_000) if self.chance.random() < self.disorder else 0
        self.commits.append(Commit(tuple(dict.fromkeys(parents)), START + 300 * len(self.commits) - past))
        return len(self.commits) - 1

    def grow(self):
        """Makes the next commit, or the next two."""
        steps = {self.go_on: 42, self.begin: 7, self.work: 38, self.merge: 5, self.cross: 2, self.update: 3}
        self.chance.choices(list(steps), list(steps.values()))[0]()

    def go_on(self):
        """One of the lines goes on, most often the main one."""
        line = self.chance.choice((0, 0, 0, 1, 2))
        self.lines[line] = self.commit(self.lines[line])

    def begin(self):
        """A topic begins."""
        base = self.lines[0] if self.chance.random() < 0.8 else self.chance.choice(self.merges[-200:])
        self.topics.append(self.commit(*([] if self.chance.random() < self.roots else [base])))

    def work(self):
        """A topic goes on."""
        if self.topics:
            topic = self.chance.randrange(len(self.topics))
            self.topics[topic] = self.commit(self.topics[topic])

    def merge(self):
        """The main line merges the oldest topic, or several at once."""
        count = self.chance.choice((1, 1, 1, 2, 4))
        self.lines[0] = self.commit(self.lines[0], *self.topics[:count])
        self.merges.append(self.lines[0])
        del self.topics[:count]

    def cross(self):
        """The main line and a line beside it merge each other; or one of these merges the other."""
        line = self.chance.choice((1, 2, 0))
        if line:
            main, beside = self.lines[0], self.lines[line]
            self.lines[0], self.lines[line] = self.commit(main, beside), self.commit(beside, main)
        else:
            self.lines[1] = self.commit(self.lines[1], self.lines[2])

    def update(self):
        """A topic merges the main line."""
        if self.topics:
            topic = self.chance.randrange(len(self.topics))
            self.topics[topic] = self.commit(self.topics[topic], self.lines[0])


def topics(count, seed, disorder=0.0, roots=0.02):
    """A history of topics with so many commits."""
    grown = Topics(seed, disorder, roots)
    while len(grown.commits) < count:
        grown.grow()
    return grown.commits[:count]


ALL = {
    "one commit": linear(1),
    "linear": linear(40),
    "merges": diamonds(12),
    "octopus merges of 3, 4 and 9": octopus(3, 4, 9, 2, 3),
    "roots alone": islands(5),
    "times of every size": odd_times(),
    "tangled": tangled(300, seed=1),
}
