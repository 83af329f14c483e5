"""What `ids` and `objects` have to say of a graph and of a stream of commits, by a plain reading of both.

It is written from the documents of Git: `git-cat-file`, "BATCH OUTPUT", for the stream; "Git Objects" and `git-commit-tree` for the
object; and, for a commit's time, from what Git 2.39.5 was seen to read and from the sources of Git from 2.41 on. It shares nothing
with the program.
"""

import hashlib
import re

from expected import reading

DIGITS = {"sha1": 40, "sha256": 64}
"""The digits of an id."""

LONGEST_LINE = 64 + len(" commit ") + 20 + 1
"""The bytes of the longest line: 64 digits, a type, a size of 64 bits, and a line end."""

TYPES = rb"commit|tree|blob|tag"
NEWER_DATE = rb"[\t\n\r ]*(-?[0-9]+)"
"""The number of a date behind what Git itself takes for blanks: a digit or a minus sign is first."""

OLDER_DATE = rb"[\t\n\v\f\r ]*([-+]?[0-9]+)"
"""The number of a date as C's strtoumax finds it."""


class Graph:
    """The ids and the records of right layers, the lowest first."""

    def __init__(self, layers):
        self.ids, self.records = [], []
        for layer in map(reading.read, layers):
            self.kind = layer.kind
            self.ids += [commit.hex() for commit in layer.ids]
            for record in layer.records:
                tree = record[: len(layer.checksum)].hex()
                self.records.append((tree, reading.parents_of(layer, record), reading.generation_and_time(layer, record)[1]))

    def parents(self, position):
        """The ids of a commit's parents."""
        return [self.ids[parent] for parent in self.records[position][1]]


def listed(layers, part=None):
    """The text of `ids`."""
    ids = Graph(layers).ids
    start, stop = part or (0, len(ids))
    if not start <= stop <= len(ids):
        return "refused range commits %d\n" % len(ids)
    return "".join(commit + "\n" for commit in ids[start:stop])


def compared(graph, stream, part=None):
    """The text of `objects`."""
    start, stop = part or (0, len(graph.ids))
    if not start <= stop <= len(graph.ids):
        return "refused range commits %d\n" % len(graph.ids)
    at = 0
    for position in range(start, stop):
        said, at = entry(graph, position, stream, at)
        if said:
            number, *more = said
            return "refused objects %s\n" % " ".join(map(str, [number, "position", position, *more]))
    return "refused objects 11\n" if at < len(stream) else "ok commits %d\n" % (stop - start)


def entry(graph, position, stream, at):
    """What is wrong with the entry of a position, which begins here, and where the next one begins."""
    digits = DIGITS[graph.kind]
    end = stream.find(b"\n", at, at + LONGEST_LINE)
    if end < 0:
        return ((2,) if len(stream) - at >= LONGEST_LINE else (1,)), at
    form = rb"([0-9a-f]{%d}) (?:missing|(%s) (0|[1-9][0-9]*))" % (digits, TYPES)
    match = re.fullmatch(form, stream[at:end])
    if not match or match[3] and int(match[3]) >= 2**64:
        return (2,), at
    if match[1].decode() != graph.ids[position]:
        return (3,), at
    if not match[2]:
        return (4,), at
    if match[2] != b"commit":
        return (5,), at
    start, stop = end + 1, end + 1 + int(match[3])
    if stop >= len(stream):
        return (1,), at
    if stream[stop : stop + 1] != b"\n":
        return (2,), at
    return differs(graph, position, stream[start:stop]), stop + 1


def has_two_times(kind, stream):
    """Whether a stream of commits has one whose time the two readings differ in."""
    at = 0
    while at < len(stream):
        end = stream.index(b"\n", at)
        stop = end + 1 + int(stream[at:end].split()[2])
        if len(times(read(kind, stream[end + 1 : stop])[2])) > 1:
            return True
        at = stop + 1
    return False


def differs(graph, position, contents):
    """In what a commit is not as the graph has it, or None."""
    head = b"commit %d\0" % len(contents)
    if hashlib.new(graph.kind, head + contents).hexdigest() != graph.ids[position]:
        return (6,)
    said = read(graph.kind, contents)
    if not said:
        return (7,)
    tree, parents, rest = said
    if tree != graph.records[position][0]:
        return (8,)
    known = graph.parents(position)
    for index in range(max(len(known), len(parents))):
        if known[index : index + 1] != parents[index : index + 1]:
            return 9, "index", index
    return None if graph.records[position][2] in times(rest) else (10,)


def read(kind, contents):
    """The tree, the parents and the rest of a commit, or None where it is not of its form."""
    line = rb"%%s ([0-9a-fA-F]{%d})\n" % DIGITS[kind]
    match = re.match(line % b"tree", contents)
    if not match:
        return None
    tree, parents, rest = match[1].decode().lower(), [], contents[match.end() :]
    while rest.startswith(b"parent "):
        match = re.match(line % b"parent", rest)
        if not match:
            return None
        parents.append(match[1].decode().lower())
        rest = rest[match.end() :]
    return (tree, parents, rest) if rest else None


def times(rest):
    """The times that Git from 2.41 on, and Git before, reads in what follows the parents."""
    author, end, below = rest.partition(b"\n")
    if not author.startswith(b"author") or not end or not below.startswith(b"committer"):
        return {0}
    return {newer_time(below), older_time(below)}


def newer_time(below):
    """The number behind the last `>` of the committer's line."""
    line, end, _ = below.partition(b"\n")
    if not end or b">" not in line:
        return 0
    return number(re.match(NEWER_DATE, line[line.rindex(b">") + 1 :]))


def older_time(below):
    """The number behind the first `>`, wherever that is, if a line ends behind it and is not the last byte."""
    if b">" not in below:
        return 0
    behind = below[below.index(b">") + 1 :]
    end = behind.find(b"\n")
    if end < 0 or end == len(behind) - 1:
        return 0
    return number(re.match(OLDER_DATE, behind))


def number(match):
    """What C's strtoumax makes of a number that was found: its remainder, and the greatest one where 64 bits do not hold it."""
    value = int(match[1]) if match else 0
    return value % 2**64 if abs(value) < 2**64 else 2**64 - 1
