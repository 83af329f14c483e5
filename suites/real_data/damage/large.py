"""A file of many commits, with corrected dates and changed-path filters, and the same file with faults in its last tenth.

The history grows by blocks of ten commits. Seven are in a line on the block before; two more, a topic, are in a line on the
fourth; and a merge joins both lines. In one block of a thousand the merge has the second commit as its third parent. The
positions are in no order of time, so that parents stand far away.
"""

import itertools
import random
import struct
from typing import NamedTuple

from damage.built import NO_PARENT, TOP_BIT, table
from damage.layer import HEADER, big_endian, sealed

COUNT = 300_000
BLOCK = 10
FORK, LINE_END, TOPIC, TOPIC_END, MERGE = 3, 6, 7, 8, 9
"""Which commit of a block the topic begins on, the last of the line, the topic, and the merge."""

WIDE = 1000
"""In one of so many blocks the merge has three parents."""

KIND, ID_SIZE = "sha1", 20
RECORD = ID_SIZE + 16
TREE = b"\x99" * ID_SIZE
START = 1_500_000_000
SETTINGS = (1, 7, 10)


def parents_of(number):
    """The parents of a commit, by the order of time."""
    block, place = divmod(number, BLOCK)
    first = block * BLOCK
    if place == TOPIC:
        return (first + FORK,)
    if place < MERGE:
        return (number - 1,) if number else ()
    return (first + LINE_END, first + TOPIC_END) + ((first + 1,) if block % WIDE == WIDE - 1 else ())


class Large:
    """What the file is to say: of each commit, by the order of time, its parents, generation number, time and date."""

    def __init__(self, count=COUNT):
        self.count = count
        self.parents = [parents_of(number) for number in range(count)]
        self.times = [START + 60 * number - (5000 if number % 97 == 0 else 0) for number in range(count)]
        self.generations, self.dates = [], []
        for parents, time in zip(self.parents, self.times):
            self.generations.append(1 + max((self.generations[parent] for parent in parents), default=0))
            self.dates.append(max([time] + [self.dates[parent] + 1 for parent in parents]))
        self.numbers = list(range(count))
        random.Random(count).shuffle(self.numbers)
        self.positions = [0] * count
        for position, number in enumerate(self.numbers):
            self.positions[number] = position
        self.sizes = [(0, 1, 2)[position % 3] for position in range(count)]
        self.ends = list(itertools.accumulate(self.sizes))
        self.starts, self.content = self.written()

    def id_at(self, position):
        """The id at a position, or past it by a little where the position is no whole number."""
        return big_endian(int((position + 1) * (2**64 // (self.count + 2))), 8) + b"\x5a" * (ID_SIZE - 8)

    def hex_of(self, number):
        """The id of a commit."""
        return self.id_at(self.positions[number]).hex()

    def chunks(self):
        """The chunks in Git's order."""
        fan = [0] * 256
        ids = [self.id_at(position) for position in range(self.count)]
        for commit in ids:
            fan[commit[0]] += 1
        records, words, offsets, overflow = [], [], [], []
        for position, number in enumerate(self.numbers):
            fields = [self.positions[parent] for parent in self.parents[number]]
            if len(fields) > 2:
                fields, listed = [fields[0], TOP_BIT + len(words)], fields[1:]
                words += [*listed[:-1], TOP_BIT + listed[-1]]
            first, second = (fields + [NO_PARENT, NO_PARENT])[:2]
            low = self.generations[number] << 34 | self.times[number]
            records.append(struct.pack(">20sIIQ", TREE, first, second, low))
            offset = self.dates[number] - self.times[number]
            offsets.append(TOP_BIT + len(overflow) if position % WIDE == WIDE - 1 else offset)
            overflow += [offset] if position % WIDE == WIDE - 1 else []
        return [
            (b"OIDF", struct.pack(">256I", *itertools.accumulate(fan))),
            (b"OIDL", b"".join(ids)),
            (b"CDAT", b"".join(records)),
            (b"GDA2", struct.pack(">%dI" % len(offsets), *offsets)),
            (b"GDO2", struct.pack(">%dQ" % len(overflow), *overflow)),
            (b"EDGE", struct.pack(">%dI" % len(words), *words)),
            (b"BIDX", struct.pack(">%dI" % self.count, *self.ends)),
            (b"BDAT", struct.pack(">3I", *SETTINGS) + bytes(self.ends[-1])),
        ]

    def written(self):
        """Where each chunk begins, and the bytes of the file."""
        chunks = self.chunks()
        head = b"CGPH\x01\x01" + bytes([len(chunks), 0]) + table(chunks)
        ends = itertools.accumulate((len(content) for _, content in chunks), initial=len(head))
        body = head + b"".join(content for _, content in chunks)
        return dict(zip((name for name, _ in chunks), ends)), sealed(body + bytes(ID_SIZE), KIND)

    def with_number(self, chunk, at, value, size):
        """The file with another number in a chunk, so many bytes from its beginning."""
        start = self.starts[chunk] + at
        return sealed(self.content[:start] + big_endian(value, size) + self.content[start + size :], KIND)


class Fault(NamedTuple):
    """A file with one fault, what is wrong in it, the line that refuses it, and whether `verify` looks for it."""

    title: str
    content: bytes
    line: str
    is_verified: bool


def faults(large):
    """Files with one fault each, at a position in the last tenth, before which no other commit is wrong for it."""
    children = [[] for _ in range(large.count)]
    for number, parents in enumerate(large.parents):
        for parent in parents:
            children[parent].append(large.positions[number])
    late = range(large.count - 2, large.count - large.count // 10, -1)
    first = [position for position in late if all(child > position for child in children[large.numbers[position]])]
    place = next(position for position in first if large.sizes[position] == 1 and position % WIDE != WIDE - 1)
    listed = next(position for position in late if position % WIDE == WIDE - 1)
    number = large.numbers[place]
    generation, time, date = large.generations[number], large.times[number], large.dates[number]
    word, again = generation + 1 << 34 | time, int.from_bytes(large.id_at(place - 1), "big")
    field = place * RECORD + ID_SIZE
    rows = [
        ("generation number", (b"CDAT", field + 8, word, 8), "verify 8 position %d expected %d" % (place, generation)),
        ("id", (b"OIDL", place * ID_SIZE, again, ID_SIZE), "verify 5 position %d fault 2" % place),
        ("parent", (b"CDAT", field, large.count, 4), "verify 7 position %d parent %d" % (place, large.count)),
        ("date", (b"GDA2", 4 * place, date - time + 1, 4), "dates 5 position %d expected %d" % (place, date)),
        ("word of the overflow list", (b"GDA2", 4 * place, 2**32 - 1, 4), "dates 3 position %d" % place),
        ("number of the overflow list", (b"GDO2", listed // WIDE * 8, 2**63 - 1, 8), "dates 4 position %d" % listed),
        ("end of a filter", (b"BIDX", 4 * place, large.ends[place - 1] - 1, 4), "filters 6 position %d" % place),
        ("end of a filter past all", (b"BIDX", 4 * place, 2**31, 4), "filters 7 position %d" % place),
    ]
    for title, edit, line in rows:
        yield Fault(title, large.with_number(*edit), "refused %s\n" % line, line.startswith("verify"))
