"""What calls write into each field of each struct, as `fields.c` prints it: what it has to be, by Git and by calculation."""
import collections
import hashlib
import struct

WORD = struct.Struct(">I")
CLOSED = [2] + 9 * [0]
"""The fields of a verdict where no graph is open."""
BASE_ID, CHECKSUM = 303, 341
"""The numbers of a wrong base id and of a wrong checksum."""


class History:
    """The commits of a repository's branch, each with its parents, and how many commits it leads to."""

    def __init__(self, lines):
        self.parents = {commit: rest for commit, *rest in (line.split() for line in lines)}
        self.ids = sorted(self.parents)

    def reached(self, commit):
        """Each commit that one leads to, with the least number of steps."""
        found, rest = {commit: 0}, collections.deque([commit])
        while rest:
            last = rest.popleft()
            for parent in self.parents[last]:
                if parent not in found:
                    found[parent] = found[last] + 1
                    rest.append(parent)
        return found

    def generation(self, commit):
        return 1 + max(map(self.generation, self.parents[commit]), default=0)

    def date(self, commit):
        """The corrected date of a commit, where all are of one time: a second for each step of its longest walk is added."""
        return 999999999 + self.generation(commit)

    def verdict(self):
        longest = longest_of(self) - 1
        kinds = len(set(map(len, self.parents.values())))
        return [0, len(self.ids), longest, 1, 0, 0, len(self.ids), 0, 0, kinds]

    def lines(self):
        """All that is printed of a right graph of one layer, but for numbers of visits."""
        yield ["error", 0, 0, 1, 1]
        yield ["verdict", *self.verdict()]
        counts = collections.Counter(map(len, self.parents.values()))
        yield from (["count", *count] for count in sorted(counts.items()))
        yield ["layer", 0, len(self.ids), 0, 1]
        yield ["alone", 0, len(self.ids), 1, longest_of(self), max(map(len, self.parents.values())), 0, 0]
        yield ["block", len(self.ids), sum(map(len, self.parents.values()))]
        for commit in self.ids:
            parents = len(self.parents[commit])
            yield ["commit", 1000000000, self.generation(commit), 0, parents, 0, parents]
        yield ["dates", 0, 0, 0, 0, len(self.ids)]
        yield from (["date", self.date(commit)] for commit in self.ids)
        yield ["probed", 4, 0, 0, 0, 1, 2, 0xAA]
        yield ["checked", 0, 0, 1, 1]
        for first, one in enumerate(self.ids):
            for second, other in enumerate(self.ids):
                yield ["asked", first, second]
                yield from self.answers(one, self.reached(one), other, self.reached(other))
        last = len(self.ids) - 1
        yield ["written", 0, 0, 0, 0, 0, 0, 1, 1, 1]
        yield ["written", 706, last, 1, 0, 0, 0, 0, 0, 0]
        yield ["written", 705, 0, 2, 0, 0, 0, 0, 0, 0]
        yield ["missing", 22, 0, 2, ord("o"), ord("a")]
        yield ["line", 1, 3, 5]

    def answers(self, first, one, other, two):
        """What is asked of a commit and another: what each leads to."""
        common = set(one) & set(two)
        below = {it for commit in common for it in self.reached(commit) if it != commit}
        yield ["reached", 0, one.get(other, -1) + 1]
        yield ["leads", 0, int(other in one)]
        yield ["answered", 4, 2, int(other in one), int(first in two), 0xAA]
        apart = len(set(one) - set(two)), len(set(two) - set(one))
        yield ["bases", 0, *apart, len(common - below)]
        yield ["compared", 4, 1, len(common - below), *apart, 0xAAAAAAAA]


def longest_of(history):
    """The number of commits of the longest walk."""
    return max(map(history.generation, history.ids))


def alone(verdict, layers):
    """What is told of layers alone by their check, where the verdict on their graph names a fault of one: else `None`. A base id
    is changed with no new checksum, and a layer alone is held against that and not against the layers below."""
    code, position, other, layer = verdict[0], verdict[4], verdict[5], verdict[7]
    if code == BASE_ID:
        return layer, [CHECKSUM, 0, 0, 0, 0, 0, 0]
    if not 341 <= code <= 364:
        return None
    at = layer if code <= 343 else max(number for number, told in enumerate(layers) if told[0] <= position)
    return at, [code, 0, 0, 0, 0, position - layers[at][0] if code > 343 else 0, other]


def without_visits(lines):
    """The printed lines as lists, without the numbers of visits, and those numbers."""
    rows = [[word if word.isalpha() else int(word) for word in line.split()] for line in lines]
    visits = [row.pop({"reached": 2, "bases": 4}[row[0]]) for row in rows if row[0] in ("reached", "bases")]
    return rows, visits


def chunk(data, name):
    """Where a chunk of a commit-graph file begins."""
    entries = [data[8 + 12 * number:20 + 12 * number] for number in range(data[6])]
    return next(int.from_bytes(entry[4:], "big") for entry in entries if entry[:4] == name)


def changed(data, at, number, whole=True):
    """A file of SHA-1 with another word at a place, and, where it is to be whole, with the checksum of its bytes."""
    data = data[:at] + WORD.pack(number) + data[at + 4:]
    return data[:-20] + hashlib.sha1(data[:-20]).digest() if whole else data


def word(data, at):
    return WORD.unpack_from(data, at)[0]


def verdict(code, position=0, other=0, called=0, layer=0, index=0):
    return [code, 0, 0, 0, position, other, called, layer, index, 0]


def faults(data, history):
    """Changed files of one layer, each with its verdict and the parents that are told of the merge."""
    merge = next(pos for pos, commit in enumerate(history.ids) if len(history.parents[commit]) == 3)
    records, edges, count = chunk(data, b"CDAT"), chunk(data, b"EDGE"), len(history.ids)
    record = records + 36 * merge
    tree = data
    for place in range(record, record + 20, 4):
        tree = changed(tree, place, 0)
    generation = history.generation(history.ids[merge])
    stored = word(data, record + 28)
    yield "tree", tree, verdict(353, merge, 0, merge), [0, 3]
    yield "edges", changed(data, edges + 4, word(data, edges + 4) & 0x7fffffff), verdict(364, merge, 0, merge), [364, 3]
    yield "parent", changed(data, record + 20, count + 5), verdict(307, merge, count + 5, merge), [0, 3]
    yield "number", changed(data, record + 28, stored ^ 0x40), verdict(308, merge, generation, merge), [0, 3]


def date_faults(data, history):
    """Files of one layer with another date of the merge, each with what is told of the dates."""
    merge = next(pos for pos, commit in enumerate(history.ids) if len(history.parents[commit]) == 3)
    place = chunk(data, b"GDA2") + 4 * merge
    yield "a later date", changed(data, place, 1000), [405, merge, 0, history.date(history.ids[merge]), 0]
    yield "no such date", changed(data, place, 1 << 31), [403, merge, 0, 0, 0]


def layers_of(files):
    """What is told of each layer of a chain of SHA-1: where it begins, its commits, its base ids, and 1."""
    counts = [word(data, chunk(data, b"OIDF") + 4 * 255) for data in files]
    return [[sum(counts[:number]), count, number, 1] for number, count in enumerate(counts)]


def layered(layers):
    """Changed chains of four layers, or of the lowest two, each with its error and its verdict."""
    sizes = [word(layer, chunk(layer, b"OIDF") + 4 * 255) for layer in layers]
    table_end = changed(layers[1], 8 + 12 * layers[1][6], 0x41424344, whole=False)
    bases = chunk(layers[2], b"BASE")
    base_id = changed(layers[2], bases + 20, 1 ^ word(layers[2], bases + 20), whole=False)
    fan = chunk(layers[1], b"OIDF")
    byte = next(it for it in range(255) if word(layers[1], fan + 4 * it) < word(layers[1], fan + 4 * it + 4))
    counts = changed(layers[1], fan + 4 * byte, word(layers[1], fan + 4 * byte) + 1)
    opened = [0, 0, 1, 1]
    yield "table", [layers[0], table_end, *layers[2:]], [157, 1, 0, 0], CLOSED
    yield "base", [*layers[:2], base_id, layers[3]], opened, verdict(BASE_ID, called=sum(sizes[:2]), layer=2, index=1)
    yield "fan", [layers[0], counts], opened, verdict(343, other=byte, called=sizes[0], layer=1)
