"""Checks `objects` and `write` on commits of all shapes, one at a time: their ids, trees, parents and times, or that they are none.

The program reads a commit rightly where it passes a graph that says the same of it, and refuses those that say something else. What
`write` makes of a commit has its time as a new Git reads it.
"""

import hashlib
import os
from bisect import bisect_left
from functools import partial

from checks.program import processor_seconds
from checks.runs import check_runs
from damage.built import Commit, file_of
from damage.examples import EMPTY_TREES
from damage.git_commits import AUTHOR, LARGE, PEOPLE, READABLE, SMALL, TIMES, TREELESS, UNREADABLE, spelled
from expected import judge, objects
from expected.objects import DIGITS
from histories.repository import write_bytes

MANY = 100_000
"""So many parents has a commit that takes no longer than its bytes."""

MOST_SECONDS = 20
"""A reading that goes over all of its bytes for each parent would take some hundred times as long."""


class Place:
    """A folder for graphs with ids of one kind."""

    def __init__(self, folder, kind):
        self.folder, self.kind, self.tree = os.path.join(folder, kind), kind, EMPTY_TREES[kind].encode()
        self.count = 0
        os.makedirs(self.folder)

    def contents(self, text):
        """The bytes of a commit of the empty tree."""
        return b"tree %s\n" % self.tree + spelled(self.kind, text)

    def id(self, contents):
        """The id of a commit of these bytes."""
        return hashlib.new(self.kind, b"commit %d\0" % len(contents) + contents).hexdigest()

    def entry(self, contents):
        """What `git cat-file --batch` writes of it."""
        return b"%s commit %d\n%s\n" % (self.id(contents).encode(), len(contents), contents)

    def graph(self, contents, parents="", time=0, tree=None):
        """The path of a graph of this commit and of roots, whose ids consist of one digit each, and the place of the commit."""
        size = DIGITS[self.kind]
        roots, own = sorted({parent * size for parent in parents}), self.id(contents)
        at, ids = bisect_left(roots, own), sorted([*roots, own])
        places, self.count = tuple(ids.index(parent * size) for parent in parents), self.count + 1
        tree = bytes.fromhex((tree or self.tree).decode())
        commits = [Commit(bytes.fromhex(name), (), 1) for name in ids]
        commits[at] = Commit(bytes.fromhex(own), places, 1 + bool(places), time, tree)
        path = os.path.join(self.folder, str(self.count))
        write_bytes(path, file_of(self.kind, commits))
        return path, at

    def run(self, histories, contents, text, *parents, **said):
        """The run of `objects` on such a graph and this commit, and the judge of the answer. A text is `ok`, or a refusal at the
        commit, in which `@` stands for its place."""
        path, at = self.graph(contents, *parents, **said)
        text = "ok commits 1\n" if text == "ok" else text.replace("@", str(at)) + "\n"
        return partial(histories.objects, path, self.entry(contents), at, at + 1), partial(judge.verdict, text)


def check_all(programs, results, folder):
    """The checks for both kinds of hash."""
    histories = programs[1]
    for kind in DIGITS:
        place = Place(folder, kind)
        for name, runs in (
            ("commits of all shapes", readable(histories, place)),
            ("times of commits", timed(histories, place)),
            ("times that no record holds", late(histories, place)),
            ("broken lines", unreadable(histories, place)),
            ("each beginning of a commit", beginnings(histories, place)),
        ):
            check_runs(results, "%s, %s" % (kind, name), list(runs))
        check_written(programs, results, place)
        check_many(histories, results, place)


def readable(histories, place):
    """Each commit beside graphs that say what it says, and that say another tree, another time, a parent more and one less."""
    for _, text, parents, time in READABLE:
        contents, count = place.contents(text), len(parents)
        yield place.run(histories, contents, "ok", parents, time=time)
        yield place.run(histories, contents, "refused objects 8 position @", parents, time=time, tree=b"e" * len(place.tree))
        yield place.run(histories, contents, "refused objects 10 position @", parents, time=time + 1)
        yield place.run(histories, contents, "refused objects 9 position @ index %d" % count, parents + "c", time=time)
        if parents:
            fewer = "refused objects 9 position @ index %d" % (count - 1)
            yield place.run(histories, contents, fewer, parents[:-1], time=time)
            yield place.run(histories, contents, "refused objects 9 position @ index 0", "c" + parents[1:], time=time)


def timed(histories, place):
    """Each commit beside graphs with both of its times, and with others."""
    for text, *times in TIMES:
        for time in {*times, 0, 1, 5, 66, times[0] - 1, times[0] + 1}:
            if 0 <= time < 2**34:
                said = "ok" if time in times else "refused objects 10 position @"
                yield place.run(histories, place.contents(text), said, time=time)


def late(histories, place):
    """A late time is none that a record can have: it is not in a graph, and is not written."""
    for number in LARGE:
        contents = place.contents(AUTHOR + b"committer C <c> %s +0000\n\nm\n" % number)
        for time in (0, 1, 5, 2**34 - 5, 2**34 - 1):
            yield place.run(histories, contents, "refused objects 10 position @", time=time)
        yield partial(histories.write, place.entry(contents)), partial(judge.verdict, "refused write 4 commit 0\n")


def unreadable(histories, place):
    """Bytes that are no commit, and those of a commit with ids of the other kind."""
    other = next(kind for kind in DIGITS if kind != place.kind)
    foreign = b"tree %s\n" % EMPTY_TREES[other].encode() + PEOPLE
    treeless = [spelled(place.kind, text) for text in TREELESS]
    for contents in (*(place.contents(text) for _, text in UNREADABLE), *treeless, foreign):
        yield place.run(histories, contents, "refused objects 7 position @")


def beginnings(histories, place):
    """Git 2.39.5 refuses a beginning that is within the line of the tree or ends with it, and the one that ends with the line of the
    parent. It reads the others, those between without a parent. Here those that end within the line of the parent, behind its word,
    are unreadable."""
    whole, first = place.contents(SMALL), len(place.contents(b""))
    word, second = first + len("parent"), len(place.contents(b"{1}"))
    for length in range(len(whole) + 1):
        contents = whole[:length]
        parents, rest = ("1", contents[second:]) if length > second else ("", contents[first:])
        said = "ok" if first < length <= word or length > second else "refused objects 7 position @"
        yield place.run(histories, contents, said, parents, time=max(objects.times(rest)))


def check_written(programs, results, place):
    """What `write` makes of each commit has the time as a new Git reads it."""
    program, histories = programs
    wrong = []
    for text, time, _ in TIMES:
        contents = place.contents(text)
        written = histories.write(place.entry(contents))
        line = "0 %s %s 1 %d -\n" % (place.id(contents), place.tree.decode(), time)
        listing = "layer %s bases 0 commits 1\n%s" % (place.kind, line)
        complaint = judge.same(listing, program.list(written.out))
        wrong += ["%r: %s" % (text, complaint)] if complaint else []
    results.check("%s, times of written commits (%d runs)" % (place.kind, len(TIMES)), wrong[0] if wrong else None)


def check_many(histories, results, place):
    """A commit with the same parent very often takes no longer than its bytes."""
    contents, started = place.contents(b"{1}" * MANY + PEOPLE + b"\nm\n"), processor_seconds()
    answer, right = place.run(histories, contents, "ok", "1" * MANY, time=5)
    complaint, seconds = right(answer()), processor_seconds() - started
    late_answer = "it took %.1f s" % seconds if seconds > MOST_SECONDS else None
    results.check("%s, a commit of %d parents" % (place.kind, MANY), complaint or late_answer)
