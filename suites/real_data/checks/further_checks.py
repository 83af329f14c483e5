"""Checks `check`: corrected commit dates and changed-path filters that Git writes, and a file of shared lists."""

import hashlib
import itertools
import os
from collections import Counter

from checks import filter_runs
from checks.program import processor_seconds
from damage.built import NO_PARENT, TOP_BIT
from damage.layer import big_endian, with_chunks
from expected import judge
from expected.facts import verified
from histories import shapes
from histories.repository import PERSON, read_bytes, write_bytes
from histories.shapes import Commit

FAR = 2**34
SHARED = 100_000
"""So many commits share a list of as many parents."""

SHORT = 4
"""A check of that file takes no longer than so many seconds of processor."""


def check_kind(histories, asker, results, new):
    """The checks of further chunks; a new repository comes from a function of its name."""
    programs = histories, asker
    check_times(histories, results, new("further, times"))
    check_chain(programs, results, new("further, a chain"))
    check_filters(programs, results, new("further, filters"))
    check_long_time(histories, results, new("further, a long time"))


def check_right(histories, results, repository, name, dates, filters):
    """A graph that Git wrote, with dates of all commits or none, and so many filters or none."""
    words = repository.words()
    said = ["none" if count is None else "commits %d" % count for count in (len(words) if dates else None, filters)]
    text = verified(words) + "dates %s\nfilters %s\n" % tuple(said)
    complaint = judge.exactly(0, text, "", histories.check(repository.info_path()))
    title = "%s, check, %s" % (repository.object_format, name)
    results.check(title, complaint)
    results.check(title + ", passed by Git", complaint_of((0, False), repository.git_verdict()))


def check_times(histories, results, repository):
    """Times that go back, times 0, offsets of more than 31 bits and times of 34 bits."""
    times = [2000, 1000, 0, 0, FAR // 2, 5, 5, FAR - 1, FAR - 1, 0, 7, FAR - 1, 0, 0]
    repository.add([Commit((place - 1,) if place % 4 else (), time) for place, time in enumerate(times)])
    for version in (1, 2):
        repository.new_graph(generation_version=version)
        check_right(histories, results, repository, "times of every kind, version %d" % version, version == 2, None)


def check_chain(programs, results, repository):
    """Three layers with dates, then one more without, and then all of them merged, with some filters and with all."""
    histories, asker = programs
    history, size = shapes.tangled(24, seed=9), 6
    for number, start in enumerate(range(0, len(history), size)):
        repository.add(history[: start + size], start)
        last = start + size == len(history)
        flags = ["--changed-paths"] if number % 2 else ["--no-changed-paths"]
        repository.write_graph("--split=no-merge", *flags, generation_version=1 if last else 2)
        filters = size * ((number + 1) // 2) or None
        check_right(histories, results, repository, "%d layers" % (number + 1), not last, filters)
        layers = [layer for _, layer in repository.chain()]
        filter_runs.check_filters(asker, results, repository, "%d layers" % len(layers), layers)
    for more, filters in ((["--max-new-filters=2"], size * 2 + 2), ([], len(history))):
        name = "layers merged, with filters of %d" % filters
        repository.write_graph("--split=replace", "--changed-paths", *more)
        check_right(histories, results, repository, name, True, filters)
        filter_runs.check_filters(asker, results, repository, name, [layer for _, layer in repository.chain()])


class Change:
    """A commit to be made: its time, the places of its parents, the paths that it changes, and those that it removes."""

    def __init__(self, when, parents, paths, removed=()):
        self.time, self.parents, self.paths, self.removed = when, parents, paths, removed


def add_changes(repository, changes):
    """Makes commits, with a branch at the last, and answers their ids."""
    stream = b""
    for place, change in enumerate(changes):
        message = b"commit %d\n" % place
        stream += b"commit refs/heads/tip\nmark :%d\n" % (place + 1)
        stream += b"committer %s %d +0000\ndata %d\n%s" % (PERSON.encode(), change.time, len(message), message)
        for which, parent in enumerate(change.parents):
            stream += b"%s :%d\n" % (b"merge" if which else b"from", parent + 1)
        stream += b"".join(b'D "%s"\n' % quoted(path) for path in change.removed)
        for path in change.paths:
            stream += b'M 100644 inline "%s"\ndata %d\n%s\n' % (quoted(path), len(message), message)
        stream += b"\n"
    repository.git("fast-import", "--quiet", "--force", "--export-marks=" + repository.folder + "/marks", stdin=stream)
    marks = dict(line.split() for line in read_bytes(repository.folder + "/marks").decode().splitlines())
    return [marks[":%d" % (place + 1)] for place in range(len(changes))]


def quoted(path):
    """A path as git fast-import reads it between quotes."""
    return b"".join(b"\\%03o" % byte if byte > 126 else bytes([byte]) for byte in path)


def many_paths():
    """Commits that change no path, many and too many, with and without folders; paths of odd bytes; and removed ones."""
    names = [b"file-%d-%%d" % place for place in range(7)] + [b"folder/file-%d", b"a/b/c/file-%d", b"a/b/c/d-%d/e"]
    counts = [0, 1, 511, 512, 513, 0, 3, 511, 510, 300]
    lists = [[name % number for number in range(count)] for name, count in zip(names, counts)]
    lists += [[bytes([byte, 200]) for byte in range(128, 256)], [bytes(range(255, 200 - size, -1)) for size in range(9)]]
    changes = [Change(1000 + place, (place - 1,) if place else (), paths) for place, paths in enumerate(lists)]
    last = len(changes) - 1
    removal = Change(3000, (last,), [b"folder", b"a/b/c/d-0/e/f"], [b"folder/file-1", b"folder", b"a/b/c/d-0/e"])
    return changes + [removal, Change(4000, (last + 1, last), [], [b"a"])]


def check_filters(programs, results, repository):
    """Filters of many paths and of too many, of odd bytes and of no change, and some that are not computed."""
    histories, asker = programs
    count = len(add_changes(repository, many_paths()))
    for most, computed in ((3, 3), (count, count)):
        repository.write_graph("--changed-paths", "--max-new-filters=%d" % most)
        name = "filters, at most %d new ones" % most
        check_right(histories, results, repository, name, True, computed)
        filter_runs.check_filters(asker, results, repository, name, [read_bytes(repository.graph_path())])
    for version in (1, 2):
        name = "filters of version %d, where Git writes them" % version
        layer = repository.new_graph("--changed-paths", filter_version=version)
        check_right(histories, results, repository, name, True, count)
        filter_runs.check_filters(asker, results, repository, name, [layer])


def check_long_time(histories, results, repository):
    """A time of more than 34 bits between two others, which nobody damaged: Git then denies an ancestor."""
    root, middle, tip = repository.add([Commit((), 10**9), Commit((0,), FAR + 5), Commit((1,), 10**9 + 9)])
    repository.write_graph()
    position = sorted([root, middle, tip]).index(middle)
    refusal = "refused dates 5 position %d expected %d\n" % (position, 10**9 + 1)
    title = "%s, check, a time of more than 34 bits" % repository.object_format
    results.check(title, judge.exactly(1, refusal, "", histories.check(repository.graph_path())))
    seen = (repository.reaches(tip, root), repository.reaches(tip, root, "true"))
    results.check(title + ", what Git says without the graph and with it", complaint_of((True, False), seen))


def check_all(histories, results, folder):
    """A file of many commits that all have one long list of parents: to go over it for each would take very long."""
    path = os.path.join(folder, "shared")
    write_bytes(path, shared_list(SHARED))
    started = processor_seconds()
    answer = histories.check(path)
    seconds = processor_seconds() - started
    counts = "ok commits %d longest 1\nparents 0 commits 1\nparents %d commits %d\n" % (SHARED + 1, SHARED + 1, SHARED)
    text = counts + "dates commits %d\nfilters none\n" % (SHARED + 1)
    slow = "it takes %.1f seconds of processor" % seconds if seconds > SHORT else None
    results.check("check, a list of parents that many commits share", judge.exactly(0, text, "", answer) or slow)


def shared_list(count):
    """A file of a root, and of so many commits whose parents are the root, and the root so many times in one list."""
    ids = sorted(hashlib.sha1(b"%d" % number).digest() for number in range(count + 1))
    heads = Counter(commit[0] for commit in ids)
    fan = b"".join(big_endian(number, 4) for number in itertools.accumulate(heads[byte] for byte in range(256)))
    tree, seven = b"\x99" * 20, big_endian(7, 4)
    root = tree + 2 * big_endian(NO_PARENT, 4) + big_endian(1 << 2, 4) + seven
    other = tree + bytes(4) + big_endian(TOP_BIT, 4) + big_endian(2 << 2, 4) + seven
    chunks = [
        (b"OIDF", fan),
        (b"OIDL", b"".join(ids)),
        (b"CDAT", root + count * other),
        (b"EDGE", bytes(4 * count - 4) + big_endian(TOP_BIT, 4)),
        (b"GDA2", bytes(4) + count * big_endian(1, 4)),
    ]
    return with_chunks(b"CGPH\x01\x01" + bytes(2), "sha1", chunks)


def complaint_of(expected, seen):
    """A complaint where something else is seen than is expected, or None."""
    return None if seen == expected else "%s, expected %s" % (seen, expected)
