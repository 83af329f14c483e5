"""A slow reading of one file: what the program has to answer to any bytes.

It is written from Git's commit-graph format and from the order in which the program names what is wrong,
condition by condition, and shares nothing with the program. `listed` and `verified` are the whole texts;
`found` is the set of texts that may come.
"""

import hashlib
import struct
from typing import Dict, List, NamedTuple, Optional, Tuple

from expected.facts import summary
from expected.listing import GREATEST_GENERATION

LEAST_SIZE = 1100
NO_PARENT = 0x70000000
TOP_BIT = 0x80000000
MOST_WORDS = 4294967294


class Refused(Exception):
    """The bytes are no layer, with the condition that refuses them as `list` writes it."""


class Layer(NamedTuple):
    """What a file says."""

    kind: str
    bases: List[bytes]
    fan: Tuple[int, ...]
    ids: List[bytes]
    records: List[bytes]
    edges: Optional[bytes]
    body: bytes
    checksum: bytes


def refuse(condition, holds):
    """Ends the reading where a condition holds."""
    if holds:
        raise Refused(condition)


def read(content):
    """The layer that the bytes are a file of."""
    refuse("1", len(content) < LEAST_SIZE)
    refuse("2", content[:4] != b"CGPH")
    refuse("3", content[4] != 1)
    refuse("4", content[5] not in (1, 2))
    kind, size = ("sha1", 20) if content[5] == 1 else ("sha256", 32)
    chunks, end = read_table(content, content[6])
    check_sizes(chunks, size, content[7])
    refuse("15", len(content) - end != size)
    refuse("16", content[7] > 0 and b"BASE" not in chunks)
    fan = struct.unpack(">256I", chunks[b"OIDF"])
    refuse("17", any(fan[at] < fan[at - 1] for at in range(1, 256)))
    refuse("18", len(chunks[b"OIDL"]) != fan[255] * size)
    refuse("19", len(chunks[b"CDAT"]) != fan[255] * (size + 16))
    bases, ids = pieces(chunks.get(b"BASE", b""), size), pieces(chunks[b"OIDL"], size)
    records = pieces(chunks[b"CDAT"], size + 16)
    return Layer(kind, bases, fan, ids, records, chunks.get(b"EDGE"), content[:-size], content[-size:])


def read_table(content, count):
    """The chunks by their ids, and where the last one ends."""
    refuse("5 chunk 1", count == 0)
    refuse("5 chunk 2", 8 + 12 * (count + 1) > len(content))
    entries = [struct.unpack_from(">4sQ", content, 8 + 12 * number) for number in range(count + 1)]
    seen, before = set(), 0
    for name, offset in entries[:-1]:
        refuse("5 chunk 3", name == bytes(4))
        refuse("5 chunk 4", name in seen)
        refuse("5 chunk 5", offset > len(content))
        refuse("5 chunk 6", offset < before)
        seen.add(name)
        before = offset
    last, end = entries[-1]
    refuse("5 chunk 5", end > len(content))
    refuse("5 chunk 6", end < before)
    refuse("5 chunk 7", last != bytes(4))
    stops = [offset for _, offset in entries[1:]]
    return {name: content[start:stop] for (name, start), stop in zip(entries, stops)}, end


def check_sizes(chunks: Dict[bytes, bytes], size, bases):
    """Refuses chunks that lack, and chunks of a wrong length."""
    base_length = len(chunks.get(b"BASE", b""))
    refuse("6", base_length % size != 0)
    refuse("7", b"BASE" in chunks and base_length != bases * size)
    refuse("8", b"CDAT" not in chunks)
    refuse("9", len(chunks[b"CDAT"]) % (size + 16) != 0)
    refuse("10", b"OIDF" not in chunks)
    refuse("11", len(chunks[b"OIDF"]) != 1024)
    refuse("12", b"OIDL" not in chunks)
    refuse("13", len(chunks[b"OIDL"]) % size != 0)
    refuse("14", len(chunks.get(b"EDGE", b"")) // 4 > MOST_WORDS)


def pieces(content, size):
    """The whole pieces of some bytes."""
    return [content[at : at + size] for at in range(0, len(content) - size + 1, size)]


def parents_of(layer, record):
    """The items of a record's parents: positions, and at the end the number of an error, negated."""
    size = len(layer.checksum)
    first, second = struct.unpack_from(">II", record, size)
    if first == NO_PARENT:
        return [] if second == NO_PARENT else [-1]
    if first & TOP_BIT:
        return [-2]
    if second == NO_PARENT:
        return [first]
    if not second & TOP_BIT:
        return [first, second]
    return [first, *edges_from(layer.edges, second - TOP_BIT)]


def edges_from(edges, start):
    """The items that the extra edge list has from a word on."""
    if edges is None:
        return [-3]
    items = []
    for at in range(4 * start, len(edges) - 3, 4):
        word = int.from_bytes(edges[at : at + 4], "big")
        items.append(word & ~TOP_BIT)
        if word & TOP_BIT:
            return items
    return items + [-4]


def generation_and_time(layer, record):
    """The generation number and the committer's time of a record."""
    date = int.from_bytes(record[len(layer.checksum) + 8 :], "big")
    return date >> 34, date % 2**34


def listed(content):
    """The text of `list` for these bytes."""
    try:
        layer = read(content)
    except Refused as refusal:
        return "refused file %s\n" % refusal
    lines = ["layer %s bases %d commits %d" % (layer.kind, len(layer.bases), len(layer.ids))]
    lines += ["base " + base.hex() for base in layer.bases]
    for position, (commit, record) in enumerate(zip(layer.ids, layer.records)):
        items = parents_of(layer, record)
        parents = ",".join("!%d" % -item if item < 0 else str(item) for item in items) or "-"
        tree = record[: len(layer.checksum)].hex()
        lines.append("%d %s %s %d %d %s" % (position, commit.hex(), tree, *generation_and_time(layer, record), parents))
    return "".join(line + "\n" for line in lines)


def verified(content):
    """The text of `verify` for a file of these bytes whose name is that of no layer of a chain."""
    try:
        layer = read(content)
    except Refused as refusal:
        return "refused open 5 layer 0 file %s\n" % refusal
    fault = layer_fault(layer) or first_commit_fault(layer)
    if fault:
        return "refused verify %s\n" % fault
    counts = [len(parents_of(layer, record)) for record in layer.records]
    if not counts:
        return "ok commits 0 longest 0\n"
    return summary(counts, [generation_and_time(layer, record)[0] for record in layer.records])


def layer_fault(layer):
    """What is wrong with the layer as a whole, as the only one of a graph."""
    if layer.bases:
        return "2 layer 0"
    if hashlib.new(layer.kind, layer.body).digest() != layer.checksum:
        return "4 layer 0 fault 1"
    for byte, count in enumerate(layer.fan):
        if count != sum(commit[0] <= byte for commit in layer.ids):
            return "4 layer 0 fault 3 byte %d" % byte
    return None


def first_commit_fault(layer):
    """What is wrong with the first commit with which something is wrong."""
    null = bytes(len(layer.checksum))
    generations = [generation_and_time(layer, record)[0] for record in layer.records]
    for position, (commit, record) in enumerate(zip(layer.ids, layer.records)):
        if commit == null:
            return "5 position %d fault 1" % position
        if position > 0 and commit <= layer.ids[position - 1]:
            return "5 position %d fault 2" % position
        if record.startswith(null):
            return "5 position %d fault 3" % position
        parents = parents_of(layer, record)
        for item in parents:
            if item < 0:
                return "6 position %d error %d" % (position, -item)
            if item >= len(layer.ids):
                return "7 position %d parent %d" % (position, item)
        expected = min(1 + max((generations[item] for item in parents), default=0), GREATEST_GENERATION)
        if generations[position] != expected:
            return "8 position %d expected %d" % (position, expected)
    return None


def found(content, commit):
    """The texts that `find` may write of an id, given as bytes, in a file of these bytes.

    Where the ids ascend and the fan counts them, the only one is that of a plain scan.
    """
    try:
        layer = read(content)
    except Refused as refusal:
        return {"refused open 5 layer 0 file %s\n" % refusal}
    texts = [
        "position %d generation %d time %d\n" % (position, *generation_and_time(layer, layer.records[position]))
        for position, other in enumerate(layer.ids)
        if other == commit
    ]
    exact = all(count == sum(other[0] <= byte for other in layer.ids) for byte, count in enumerate(layer.fan))
    ordered = all(before < after for before, after in zip(layer.ids, layer.ids[1:]))
    if exact and ordered:
        return {texts[0] if texts else "none\n"}
    return {*texts, "none\n"}
