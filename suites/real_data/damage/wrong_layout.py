"""Files in which the header, the chunk table, the fan, an id or a tree is wrong.

They are made from the same right file as those of named.py.
"""

from damage import named
from damage.layer import contents, exact_fan, with_chunks
from damage.original import CHUNKS
from damage.wrong import passed, unopened, unverified

MISSING_CHUNKS = {"OIDF": 10, "OIDL": 12, "CDAT": 8}
"""The conditions by which a file is refused that lacks a chunk."""

MOVED_CHUNKS = {"OIDF": 11, "OIDL": 11, "CDAT": 9, "EDGE": 9, "end": 15}
"""The conditions by which a file is refused in which a chunk begins some bytes off."""


def all_wrong(file):
    """All such files that are made from a right one."""
    return [wrong for maker in (headers, tables, sizes, fans, ids, trees) for wrong in maker(file)]


def headers(file):
    """Damages of the header, and others by which a file does not open."""
    commits, size = len(file.parents), file.outline.id_length
    other = 52 - size
    other_kind = "9" if commits * (size + 16) % (other + 16) else "13" if commits * size % other else "15"
    return [unopened(*damage) for damage in named.refused(file)] + [
        unopened("version 0", file.patched((4, b"\x00")), 3),
        unopened("hash 0", file.patched((5, b"\x00")), 4),
        unopened("the other hash", file.patched((5, bytes([3 - file.layer[5]]))), other_kind),
        unopened("a chunk count of one more", file.patched((6, bytes([len(CHUNKS)]))), "5 chunk 3"),
        unopened("a chunk count of one less", file.patched((6, bytes([len(CHUNKS) - 2]))), "5 chunk 7"),
    ]


def tables(file):
    """Damages of each entry of the chunk table."""
    found = []
    for number, chunk in enumerate(CHUNKS):
        start = file.number_at(file.entry(chunk) + 4, 8)
        past, zero = len(file.layer) + 1 - start, -start
        found += [
            unopened("%s past the file" % chunk, file.with_offsets(**{chunk: past}), "5 chunk 5"),
            unopened("%s at 0" % chunk, file.with_offsets(**{chunk: zero}), "5 chunk 6" if number else 11),
            unopened("%s four bytes later" % chunk, file.with_offsets(**{chunk: 4}), MOVED_CHUNKS[chunk]),
            unopened("%s four bytes earlier" % chunk, file.with_offsets(**{chunk: -4}), MOVED_CHUNKS[chunk]),
        ]
    for number, chunk in enumerate(CHUNKS[:-1]):
        unknown, twin = file.with_id(chunk, b"ZZZZ"), CHUNKS[number - 1 if number else 1].encode()
        found.append(unopened("%s with the id 0" % chunk, file.with_id(chunk, bytes(4)), "5 chunk 3"))
        found.append(unopened("%s with another's id" % chunk, file.with_id(chunk, twin), "5 chunk 4"))
        if chunk in MISSING_CHUNKS:
            found.append(unopened("%s with an unknown id" % chunk, unknown, MISSING_CHUNKS[chunk]))
    first = min(file.with_parents_of_number(3), file.with_parents_of_number(4))
    missing = unverified("EDGE with an unknown id", file.with_id("EDGE", b"ZZZZ"), 6, "position", first, "error", 3)
    return found + [missing]


def sizes(file):
    """Chunks with something more at their ends, in a right layout, and bases that nothing counts."""
    size = file.outline.id_length
    record, commit = b"\x5a" * (size + 16), b"\xff" * size
    return [
        unopened(name, longer(file, chunk, more), condition)
        for name, chunk, more, condition in (
            ("a fan of more than 1024 bytes", "OIDF", bytes(4), 11),
            ("a record too many", "CDAT", record, 19),
            ("a part of a record too many", "CDAT", record[:-1], 9),
            ("an id too many", "OIDL", commit, 18),
            ("a part of an id too many", "OIDL", commit[:-1], 13),
            ("a base id in a single file", "BASE", commit, 7),
            ("a part of a base id in a single file", "BASE", commit[:-1], 6),
        )
    ]


def longer(file, chunk, more):
    """A file with more bytes at the end of a chunk, or with a new chunk of these bytes."""
    chunks = dict(contents(file.layer, file.object_format))
    chunks[chunk.encode()] = chunks.get(chunk.encode(), b"") + more
    return with_chunks(file.layer, file.object_format, list(chunks.items()))


def fans(file):
    """Damages of entries of the fan, by which it falls or counts ids wrongly."""
    fan = exact_fan([file.id_at(position) for position in range(len(file.parents))])
    steps = [byte for byte in range(1, 255) if fan[byte - 1] < fan[byte]]
    rises = {"the first": steps[0], "a middle": steps[len(steps) // 2], "the last": steps[-1]}
    found = []
    for name, byte in rises.items():
        late = "%s id later in the fan" % name
        found.append(fan_fault(late, file.with_fan(byte, fan[byte] - 1), byte))
        early = "%s id earlier in the fan" % name
        found.append(fan_fault(early, file.with_fan(byte - 1, fan[byte - 1] + 1), byte - 1))
        found.append(unopened("a fan that falls after %s id" % name, file.with_fan(byte, len(file.parents) + 1), 17))
    return found


def fan_fault(name, layer, byte):
    """A file whose fan counts wrongly at a byte first."""
    return unverified(name, layer, 4, "layer 0 fault 3 byte", byte)


def ids(file):
    """Damages of ids. But for the last two, the fan counts the ids that are there."""
    last, size = len(file.parents) - 1, file.outline.id_length
    here, near, end = (file.id_at(position) for position in (4, 5, last))
    backward = {position: file.id_at(last - position) for position in range(last + 1)}
    far = bytes([here[0] ^ 0x80]) + here[1:]
    moved = file.patched((file.outline.chunks["OIDL"].start + 4 * size, far))
    return [
        unverified("two ids exchanged", file.with_ids({4: near, 5: here}), 5, "position 5 fault 2"),
        unverified("an id twice", file.with_ids({5: here}), 5, "position 5 fault 2"),
        unverified("ids that descend", file.with_ids(backward), 5, "position 1 fault 2"),
        unverified("a first id of zeros", file.with_ids({0: bytes(size)}), 5, "position 0 fault 1"),
        unverified("a later id of zeros", file.with_ids({5: bytes(size)}), 5, "position 5 fault 1"),
        passed(file, "an id that no commit has", file.with_ids({last: end[:-1] + bytes([end[-1] ^ 1])})),
        fan_fault("an id that the fan does not count", moved, min(here[0], far[0])),
    ]


def trees(file):
    """Damages of root trees."""
    last, size = len(file.parents) - 1, file.outline.id_length
    return [
        unverified("a first tree of zeros", file.with_tree(0, bytes(size)), 5, "position 0 fault 3"),
        unverified("a last tree of zeros", file.with_tree(last, bytes(size)), 5, "position", last, "fault 3"),
        passed(file, "another tree than the commit's", file.with_tree(2, b"\x5a" * size)),
    ]
