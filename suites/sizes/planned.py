"""Histories by plan, and the files of their commit-graphs, written from the format alone.

A plan says the parents of each commit, by their numbers in the order of time. All else follows: the contents of each commit, its id,
which is the digest of these, its generation number, its corrected date and its place in the file.
"""

import hashlib
import itertools
import os
import struct

ID_SIZE = {"sha1": 20, "sha256": 32}
START = 1_500_000_000
NO_PARENT, TOP_BIT = 0x70000000, 0x80000000
FILTER_SETTINGS = (1, 7, 10)
"""The version of the hash of filters, the number of hashes, and the bits for a path."""


def time_of(number):
    """The time of a commit: a minute after the one before, but for some that are earlier than their parents."""
    return START + 60 * number - (5000 if number % 97 == 96 else 0)


def message_of(number):
    """The message of a commit, by which it is unlike all others."""
    return b"%d\n" % number


def person_of(_number):
    """Who wrote a commit."""
    return b"A <a@b>"


class Plan:
    """A history. `parents` has for each commit the numbers of its parents, all of them lower; `layers` the number of commits of
    each layer, the lowest first. `person` and `message` give what stands in a commit of a number, and `ids` its id where it is not to
    be the digest of the commit. `filters` has for each commit the bytes of its filter, where there are any, and `padding` is the size of
    a chunk that nothing reads, in the lowest layer. `shared` are parents that stand once in the list of further parents of the lowest
    layer: each commit with more than two parents has some of the last of them behind its first. `trees` gives the contents of the root
    tree of a commit, where it is to have one that there is."""

    def __init__(
        self, kind, parents, layers, person=person_of, message=message_of, ids=None, filters=None, padding=0, shared=(), trees=None
    ):
        self.trees = trees
        self.kind, self.size, self.count = kind, ID_SIZE[kind], len(parents)
        self.parents, self.layers, self.shared = parents, layers, shared
        self.person, self.message, self.filters, self.padding = person, message, filters, padding
        self.times = [time_of(number) for number in range(self.count)]
        self.ids = [ids(number) for number in range(self.count)] if ids else self.digests()
        self.generations, self.dates = self.levels()
        self.starts = [0, *itertools.accumulate(self.layers)]
        self.numbers, self.positions = self.in_order()

    def contents(self, number):
        """The contents of a commit, as `git cat-file commit` writes them."""
        tree = b"tree " + self.tree(number).hex().encode()
        parents = b"".join(b"\nparent " + self.ids[parent].hex().encode() for parent in self.parents[number])
        said = b"%s %d +0000" % (self.person(number), self.times[number])
        return b"%s%s\nauthor %s\ncommitter %s\n\n%s" % (tree, parents, said, said, self.message(number))

    def digests(self):
        """The ids of all commits."""
        self.ids, digest = [], getattr(hashlib, self.kind)
        for number in range(self.count):
            contents = self.contents(number)
            self.ids.append(digest(b"commit %d\0" % len(contents) + contents).digest())
        return self.ids

    def tree(self, number):
        """The id of a commit's root tree."""
        if not self.trees:
            return (number + 1).to_bytes(self.size, "big")
        contents = self.trees(number)
        return getattr(hashlib, self.kind)(b"tree %d\0" % len(contents) + contents).digest()

    def tree_entry(self, number):
        """What `git cat-file --batch` writes of a commit's root tree, also where there is none."""
        if not self.trees:
            return b"%s missing\n" % self.tree(number).hex().encode()
        contents = self.trees(number)
        return b"%s tree %d\n%s\n" % (self.tree(number).hex().encode(), len(contents), contents)

    def levels(self):
        """The generation numbers and the corrected dates."""
        generations, dates = [], []
        for parents, time in zip(self.parents, self.times):
            generations.append(1 + max((generations[parent] for parent in parents), default=0))
            dates.append(max(time, 1 + max((dates[parent] for parent in parents), default=0)))
        return generations, dates

    def in_order(self):
        """The commits in the order of their positions, and the positions of the commits."""
        numbers = []
        for start, end in zip(self.starts, self.starts[1:]):
            numbers += sorted(range(start, end), key=self.ids.__getitem__)
        positions = [0] * self.count
        for position, number in enumerate(numbers):
            positions[number] = position
        return numbers, positions

    def hex(self, number):
        """The id of a commit, in digits."""
        return self.ids[number].hex()

    def in_layers(self, layers, filters=None):
        """The first of the commits in other layers, whose files have these filters, no padding and no shared list."""
        other = object.__new__(Plan)
        other.__dict__.update(self.__dict__, layers=layers, count=sum(layers), filters=filters, padding=0, shared=())
        other.starts = [0, *itertools.accumulate(layers)]
        other.numbers, other.positions = other.in_order()
        return other

    def records(self, layer):
        """The records of a layer, and the words of its list of further parents."""
        words, records = listed(self.positions[parent] for parent in (() if layer else self.shared)), []
        for number in self.numbers[self.starts[layer] : self.starts[layer + 1]]:
            first, *others = [self.positions[parent] for parent in self.parents[number]] or [NO_PARENT]
            second = others[0] if others else NO_PARENT
            if len(others) > 1:
                if layer or not self.shared:
                    words += listed(others)
                second = TOP_BIT + len(words) - len(others)
            fields = struct.pack(">2IQ", first, second, self.generations[number] << 34 | self.times[number])
            records.append(self.tree(number) + fields)
        return b"".join(records), words

    def chunks(self, layer, bases):
        """The chunks of a layer on some base layers, in Git's order."""
        numbers = self.numbers[self.starts[layer] : self.starts[layer + 1]]
        ids, (records, words) = [self.ids[number] for number in numbers], self.records(layer)
        offsets = [self.dates[number] - self.times[number] for number in numbers]
        chunks = [(b"OIDF", fan(ids)), (b"OIDL", b"".join(ids)), (b"CDAT", records), (b"GDA2", in_words(offsets))]
        chunks += [(b"EDGE", in_words(words))] if words else []
        chunks += self.filter_chunks(numbers) if self.filters else []
        chunks += [(b"BASE", b"".join(bases))] if bases else []
        return chunks + ([(b"XPAD", bytes(self.padding))] if self.padding and layer == 0 else [])

    def filter_chunks(self, numbers):
        """The chunks of the filters of some commits."""
        filters = [self.filters.get(number, b"") for number in numbers]
        ends = itertools.accumulate(map(len, filters))
        return [(b"BIDX", in_words(list(ends))), (b"BDAT", in_words(FILTER_SETTINGS) + b"".join(filters))]

    def file(self, layer, bases):
        """The bytes of a layer's file on some base layers, without its checksum."""
        chunks = self.chunks(layer, bases)
        ends = itertools.accumulate((len(content) for _, content in chunks), initial=8 + 12 * (len(chunks) + 1))
        table = [name + struct.pack(">Q", start) for name, start in zip([*(name for name, _ in chunks), bytes(4)], ends)]
        head = b"CGPH\1" + bytes([1 if self.kind == "sha1" else 2, len(chunks), len(bases)])
        return b"".join([head, *table, *(content for _, content in chunks)])

    def sealed(self, layer, bases):
        """The bytes of a layer's file on some base layers."""
        body = self.file(layer, bases)
        return body + getattr(hashlib, self.kind)(body).digest()

    def files(self):
        """The bytes of the files of all layers, the lowest first."""
        bases = []
        for layer in range(len(self.layers)):
            content = self.sealed(layer, bases)
            bases.append(content[-self.size :])
            yield content

    def entry(self, number):
        """What `git cat-file --batch` writes of a commit."""
        contents = self.contents(number)
        return b"%s commit %d\n%s\n" % (self.ids[number].hex().encode(), len(contents), contents)


def listed(positions):
    """The words of a list of further parents: the last has its highest bit."""
    *words, last = [*positions] or [0]
    return [*words, TOP_BIT + last] if words else []


def fan(ids):
    """The chunk that counts, for each byte, the ids whose first byte is at most that."""
    counts = [0] * 256
    for commit in ids:
        counts[commit[0]] += 1
    return in_words(list(itertools.accumulate(counts)))


def in_words(numbers):
    """Numbers of four bytes each."""
    return struct.pack(">%dI" % len(numbers), *numbers)


def lay_out(folder, files, size):
    """Writes the file of one layer, or a chain of several, whose checksums have `size` bytes, into a new folder. Answers the path by
    which it is opened, and those of the files, the lowest first."""
    os.makedirs(folder)
    if len(files) == 1:
        path = write(folder, "commit-graph", files[0])
        return path, [path]
    names = [content[-size:].hex() for content in files]
    write(folder, "commit-graph-chain", "".join(name + "\n" for name in names).encode())
    return folder, [write(folder, "graph-%s.graph" % name, content) for name, content in zip(names, files)]


def write(folder, name, content):
    """Writes a file, and answers its path."""
    path = os.path.join(folder, name)
    with open(path, "wb") as file:
        file.write(content)
    return path
