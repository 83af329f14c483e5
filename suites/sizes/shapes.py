"""The shapes of histories that are asked about, each with what is known of it by its plan."""

import os
from functools import partial

from sizes import planned
from sizes.planned import Plan

MANY = 100
"""So many ids one question has beside the first, and so many pairs are asked about at once."""


class Shape:
    """A history in files, and what there is to ask of it.

    `plan` has one layer more than the commit-graph that is asked: its commits are those that are written on top of the layers
    below it. `walk` has the numbers of the commits on the only shortest walk between its ends, `apart` two commits of which the
    second does not lead to the first, and `first`, `others`, `bases`, `ahead` and `behind` what `merge-base` has to tell."""

    def __init__(self, name, plan, walk, apart, compared, shown=None):
        self.name, self.plan, self.kind = name, plan, plan.kind
        self.walk, self.apart = walk, apart
        self.first, self.others, bases, self.ahead, self.behind = compared
        self.bases = sorted(bases, key=plan.positions.__getitem__)
        self.layers = plan.layers[:-1] if shown is None else plan.layers[:shown]
        self.count = sum(self.layers)
        self.top = self.layers[-1]
        self.new = range(plan.starts[-2], plan.starts[-1])

    def title(self):
        """The name of the shape, with its kind of hash."""
        return "%s, %s" % (self.name, self.kind)

    def lay_out(self, folder):
        """Writes the files into a folder, and those on which the new layer is written."""
        size, files = self.plan.size, list(self.plan.files())
        self.folder, self.contents, below = folder, files[: len(self.layers)], files[:-1]
        self.path, self.files = planned.lay_out(os.path.join(folder, "graph"), self.contents, size)
        self.file_bytes = sum(map(len, self.contents))
        self.below, self.below_files = self.path, self.files[: len(below)]
        if len(below) < len(self.files):
            self.below, _ = planned.lay_out(os.path.join(folder, "below"), below, size)
        plain = self.plan.in_layers(self.plan.layers)
        self.written = plain.sealed(len(below), [content[-size:] for content in below])

    def one_file(self, filters=None):
        """The bytes of one file with all commits that are asked about, and these filters."""
        plan = self.plan
        if len(self.layers) == 1 and filters == plan.filters and not plan.padding and not plan.shared:
            return self.contents[0]
        return next(self.plan.in_layers([self.count], filters).files())

    def order(self):
        """The numbers of the commits that are asked about, by their positions."""
        return self.plan.numbers[: self.count]

    def for_rust(self):
        """A folder with what `test_calls` opens: the graph, the one below the new layer, and that layer."""
        folder = os.path.join(self.folder, "calls")
        if not os.path.exists(folder):
            os.mkdir(folder)
            planned.write(folder, "upper", self.written)
            for name, path in (("chain", self.path), ("lower", self.below)):
                os.symlink(path, os.path.join(folder, name))
        return folder

    def stream(self, name, numbers):
        """The path of a file with the commits of these numbers, as Git writes them to be read by a program."""
        path = os.path.join(self.folder, name)
        if not os.path.exists(path):
            with open(path, "wb") as file:
                file.writelines(map(self.plan.entry, numbers))
        return path


def long(kind, trunk=100_020, arm=100_010):
    """A line of commits, and two lines on its last commit, each of `arm` commits. The last commits of both are merged on top."""
    left, right = trunk, trunk + arm
    parents = [(), *((number - 1,) for number in range(1, trunk + 2 * arm))]
    parents[right] = (trunk - 1,)
    tips = right - 1, right + arm - 1
    plan = Plan(kind, [*parents, tips], [trunk + 2 * arm, 1])
    walk = [*range(tips[1], right - 1, -1), *range(trunk - 1, -1, -1)]
    return Shape("long", plan, walk, (left, right), (tips[0], [tips[1]], [trunk - 1], arm, arm))


def octopus(kind, arms=2000, others=MANY):
    """A root, `arms` commits on it, and a commit that has all of these as its parents; and another such one on top. So many `others` are
    compared with the last of them."""
    middle = range(1, arms + 1)
    plan = Plan(kind, [(), *((0,) for _ in middle), tuple(middle), (arms + 1, *middle)], [arms + 2, 1])
    others = [*middle[: min(others, arms - 1)]]
    return Shape("octopus", plan, [arms + 1, arms], (1, 2), (arms, others, [0], 1, len(others)))


def small(kind, name, **said):
    """A root, two commits on it, and their merge; and one on top."""
    plan = Plan(kind, [(), (0,), (0,), (1, 2), (3,)], [4, 1], **said)
    return Shape(name, plan, [2, 0], (1, 2), (1, [2], [0], 1, 1))


def big(kind, length=20_000_000):
    """Commits of which one, and the one on top, have a message of 20 MB, with line feeds and without."""
    line = b"a line of a message that is long\n"
    bodies = {2: line * (length // len(line)), 4: b"m" * length}
    return small(kind, "big", message=partial(one_of, bodies, planned.message_of))


def one_of(special, usual, number):
    """What stands in a commit: what is special about it, or what is usual."""
    return special[number] if number in special else usual(number)


def wide(kind, length=100 * 1024):
    """Commits of which one has a filter of 100 KiB, one a small one in which each path may be, and one an empty one."""
    return small(kind, "wide", filters={0: b"\xff" * 2, 1: b"\0\xff" * (length // 2), 3: b"\0"})


def padded(kind, length=100 * 2**20):
    """A file of more than 100 MB, of which nearly all is a chunk that nothing reads."""
    return small(kind, "padded", padding=length)


def chain(kind, layers=256, each=4, others=MANY, ids=None):
    """A chain of layers with `each` commits in each: a line, in which the last commit of each layer but the first has one of the layer
    before as its second parent, and the first commit but one as its third. It is compared with the first ones of the last layers."""
    parents = [()] + [(number - 1,) for number in range(1, layers * each)]
    for last in range(2 * each - 1, layers * each, each):
        parents[last] = (last - 1, last - each - 1, 1)
    plan = Plan(kind, parents, [each] * layers, ids=ids)
    tip = layers * each - 1
    others = [number * each for number in range(layers - others, layers)]
    walk = [tip, 1, 0]
    return Shape("chain", plan, walk, (tip, 0), (tip, others, [others[-1]], tip - others[-1], 0), shown=layers)


ALL = (long, octopus, big, wide, chain, padded)
"""Each shape, by a function of the kind of hash."""
