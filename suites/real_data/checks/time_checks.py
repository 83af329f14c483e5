"""Checks that checks, walks and merge bases take no longer than they have to: where two lines of commits share one long list of
parents, where a commit has many parents, where a chain is opened anew of which one layer is another, and where a branch begins with
a root of its own.
"""

import hashlib
import os
import re
import time
from functools import partial

from checks.ask_checks import Asking
from checks.program import processor_seconds
from damage import examples, trees
from damage.built import NO_PARENT, TOP_BIT, Commit, file_of
from damage.layer import big_endian, with_chunks
from expected import judge

SHORT = 10
"""So many seconds of processor such a question may take, where the list is gone over once; else it takes minutes."""

ROOTS = 100
"""So many commits without parents come first."""

LINE = 25_000
"""So many commits each line has, and those of both come in turns. The first of each has the first root as its first parent, and each
other one the commit before it in its line."""

COUNT = ROOTS + 2 * LINE

WORDS = 800_000
"""So many words the list has, which name one root after another over and over. The further parents of commit i are listed from word i
on up to the last word, which names the first root. So each commit of a line has all roots as parents."""

MANY = 120
"""So many parents the last commit of a small graph has. They come after two roots, and have the first as their parent."""

TIMES = 20_000
"""So often each question about it is asked."""

BEFORE = 12_000
"""So many commits are in a line, before a branch of three that begins with a root of its own and is then merged."""


def check_all(programs, results, folder):
    """The checks, whose files stand in a folder of their own."""
    histories = programs[1]
    lower, path = two_lines(), os.path.join(folder, "lines")
    with open(path, "wb") as file:
        file.write(lower)
    for name, run, right in questions(histories, path):
        started = processor_seconds()
        complaint = right(run())
        seconds = processor_seconds() - started
        slow = "it takes %.1f seconds of processor" % seconds if seconds > SHORT else None
        results.check("two lines of commits that share a list of parents, %s" % name, complaint or slow)
    title = "a chain of which one layer is another is opened anew in less time than its check takes"
    results.check(title, opened_anew(histories, os.path.join(folder, "chain"), lower))
    results.check("a walk takes about as long as a search", walks(histories, os.path.join(folder, "wide")))
    check_branch(histories, results, os.path.join(folder, "branch"))


def id_of(place):
    """The digits of the id of a commit of the two lines: the numbers from 1 on, in the first four bytes."""
    return (big_endian(place + 1, 4) + bytes(16)).hex()


def two_lines():
    """The file of the two lines."""
    records = [fields(place) for place in range(COUNT)]
    words = [place % ROOTS for place in range(WORDS - 1)] + [TOP_BIT]
    chunks = [
        (b"OIDF", 256 * big_endian(COUNT, 4)),
        (b"OIDL", b"".join(bytes.fromhex(id_of(place)) for place in range(COUNT))),
        (b"CDAT", b"".join(b"\x99" * 20 + b"".join(big_endian(number, 4) for number in record) + bytes(4) for record in records)),
        (b"EDGE", b"".join(big_endian(word, 4) for word in words)),
    ]
    return with_chunks(b"CGPH\x01\x01" + bytes(2), "sha1", chunks)


def fields(place):
    """Both parent fields of a commit, and its generation number before the time, which is 0."""
    if place < ROOTS:
        return NO_PARENT, NO_PARENT, 1 << 2
    return place - 2 if place >= ROOTS + 2 else 0, TOP_BIT + place, (2 + (place - ROOTS) // 2) << 2


def questions(histories, path):
    """Names, runs, and the judges of their answers."""
    last, other, before, first = COUNT - 1, COUNT - 2, COUNT - 3, ROOTS + 1
    counts = sorted([(0, ROOTS)] + [(WORDS - place + 1, 1) for place in range(ROOTS, COUNT)])
    lines = "".join("parents %d commits %d\n" % count for count in counts)
    found = "ok commits %d longest %d\n%sdates none\nfilters none\n" % (COUNT, LINE, lines)
    walk = "".join(id_of(place) + "\n" for place in range(last, ROOTS, -2))
    roots = "".join("base %d %s\n" % (place, id_of(place)) for place in range(ROOTS))
    apart = "%sahead %d behind %d\nvisits %d\n" % (roots, LINE, LINE, COUNT)
    yield "check", partial(histories.check, path), partial(judge.exactly, 0, found, "")
    yield "walk", partial(histories.walk, path, id_of(last), id_of(first)), partial(judge.exactly, 0, walk, "")
    told = partial(histories.is_ancestor, path, id_of(first), id_of(last))
    yield "is-ancestor", told, partial(judge.exactly, 0, "yes\n", "")
    for one, two in ((last, other), (other, last)):
        yield "merge-base", partial(histories.merge_base, path, id_of(one), id_of(two)), partial(judge.exactly, 0, apart, "")
    near = partial(histories.merge_base_ids, path, id_of(last), id_of(before))
    yield "merge-base-ids of two near commits", near, partial(judge.exactly, 0, id_of(before) + "\n", "")


def opened_anew(histories, folder, lower):
    """A complaint where opening a chain anew, of which the upper layer is another one, takes as long as the first check. The commits
    of the lower one are compared and counted then, and not checked.
    """
    upper = [file_of("sha1", [Commit(bytes([byte]) * 20, (), 1)], [lower[-20:]]) for byte in (0x33, 0x44)]
    chains = [trees.chain([trees.Layer(layer[-20:].hex(), layer) for layer in (lower, above)]) for above in upper]
    os.mkdir(folder)
    trees.lay_out(folder, chains[0])
    started = time.monotonic()
    with Asking([histories.path, "ask", folder]) as run:
        told = [run.answer()]
        checked, anew = time.monotonic() - started, []
        for chain in (chains[1], chains[0], chains[1]):
            trees.lay_out(folder, chain)
            started = time.monotonic()
            told.append(run.ask("reload"))
            anew.append(time.monotonic() - started)
        told += [run.ask("find " + "44" * 20), run.end()]
    opened = "ok commits %d\n\n" % (COUNT + 1)
    right = [opened] * 4 + ["position %d generation 1 time 7\n\n" % COUNT, 0]
    if told != right:
        return "it tells %r" % told
    return None if min(anew) < checked else "%.2f s, and the first check %.2f s" % (min(anew), checked)


def walks(histories, path):
    """A complaint where looking for a walk from a commit of many parents takes much longer than asking whether there is one: a walk
    that reads many commits ahead at each, and uses one, takes forty times as long.
    """
    commits = [Commit(bytes([1 + place]) * 20, *said) for place, said in enumerate(wide())]
    with open(path, "wb") as file:
        file.write(file_of("sha1", commits))
    first, last = commits[1].id.hex(), commits[-1].id.hex()
    seconds = []
    for question, answer in (("walk %s %s" % (last, first), "none"), ("is-ancestor %s %s" % (first, last), "no")):
        started = processor_seconds()
        said = histories.run("ask", path, input=(TIMES * (question + "\n")).encode())
        seconds.append(processor_seconds() - started)
        complaint = judge.exactly(0, "ok commits %d\n\n" % len(commits) + TIMES * (answer + "\n\n"), "", said)
        if complaint:
            return complaint
    return None if seconds[0] < 8 * seconds[1] else "%.2f s, and the search %.2f s" % tuple(seconds)


def wide():
    """The parents and the generation numbers of two roots, of many commits on the first, and of their merge."""
    return [((), 1)] * 2 + [((0,), 2)] * MANY + [(tuple(range(2, 2 + MANY)), 3)]


def check_branch(histories, results, path):
    """Checks how many commits a search for merge bases takes, by dates and without, in a checked graph and in a trusted one, and with a
    newer commit on top of each of both that are compared. Of the branch's commits the generation numbers are low and the dates late, so
    by generation numbers the whole line comes before them.
    """
    few, many = range(20), range(BEFORE, 3 * BEFORE)
    ends = id_of(BEFORE + 4), id_of(BEFORE + 5)
    newer, entries = children(ends)
    offsets = [0] * (BEFORE + 6)
    late = [*offsets[: BEFORE - 1], 1, *offsets[BEFORE:]]
    for name, further, checked, trusted in (
        ("right dates", [examples.dates(offsets)], few, few),
        ("a date that is a second late", [examples.dates(late)], many, few),
        ("no dates", [], many, many),
    ):
        with open(path, "wb") as file:
            file.write(examples.dated(branch(), *further))
        for how, ask, visits in (("", histories.merge_base, checked), (" --unchecked", histories.merge_base_unchecked, trusted)):
            results.check("a branch with a root of its own, %s: merge-base%s" % (name, how), of_branch(visits, ask(path, *ends)))
        for options, visits in ((["--newer"], checked), (["--unchecked", "--newer"], many)):
            said = histories.run("merge-base", *options, path, *newer, input=entries)
            title = "a branch with a root of its own, %s: merge-base %s" % (name, " ".join(options))
            results.check(title, of_branch(visits, said, newer))


def children(parents):
    """The ids of a commit that each of these is the parent of, and the entries of all of them."""
    contents = [b"tree %s\nparent %s\nauthor A <a@b> 5 +0000\ncommitter A <a@b> 5 +0000\n\n" % (b"99" * 20, it.encode()) for it in parents]
    ids = [hashlib.sha1(b"commit %d\0%s" % (len(content), content)).hexdigest() for content in contents]
    return ids, b"".join(b"%s commit %d\n%s\n" % (it.encode(), len(content), content) for it, content in zip(ids, contents))


def branch():
    """The generation numbers, times and parents of the line, of the branch, of their merge, of its child, and of a child of the
    line's last commit."""
    line = [(place + 1, 1000 + place, (place - 1,) if place else ()) for place in range(BEFORE)]
    branch = [(place + 1, 1000 + BEFORE + place, (BEFORE + place - 1,) if place else ()) for place in range(3)]
    above = (BEFORE - 1, BEFORE + 2), (BEFORE + 3,), (BEFORE - 1,)
    levels = BEFORE + 1, BEFORE + 2, BEFORE + 1
    return line + branch + [(level, 1003 + BEFORE + place, parents) for place, (level, parents) in enumerate(zip(levels, above))]


def of_branch(visits, said, newer=()):
    """A complaint where the answer is another than that the line's last commit is the base, or where it took fewer or more visits than
    a range has. These newer commits are asked for, of which each side has one.
    """
    asked = "".join(it + "\n" for it in newer) + "\n" if newer else ""
    apart = (6, 2) if newer else (5, 1)
    told = asked + "base %d %s\nahead %d behind %d\nvisits " % (BEFORE - 1, id_of(BEFORE - 1), *apart)
    found = re.fullmatch(re.escape(told) + r"(\d+)\n", said.out.decode())
    if said.status or said.err or not found:
        return "it tells %r" % (said,)
    return None if int(found[1]) in visits else "%s visits" % found[1]
