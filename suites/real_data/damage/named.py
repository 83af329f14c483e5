"""Files with one thing wrong, each with its name and the exact answer to it.

They are made from a file that Git wrote of merges of 2, 3 and 4 parents, whose chunks are OIDF, OIDL,
CDAT and EDGE in this order. The rules are those of Git's commit-graph format.
"""

from damage.original import GENERATION, NO_PARENT, PARENTS, TIME, TOP_BIT

GREATEST = {GENERATION: str(2**30 - 1), TIME: str(2**34 - 1)}
"""What a record says whose last eight bytes have all bits set."""


def refused(file):
    """Damages that are refused: name, bytes and condition, the lowest first."""
    size = file.outline.id_length
    commits = len(file.parents)
    edges_as_bases = "7" if len(file.outline.chunks["EDGE"]) % size == 0 else "6"
    return [
        ("another signature", file.patched((0, b"CGPX")), "2"),
        ("version 2", file.patched((4, b"\x02")), "3"),
        ("hash 3", file.patched((5, b"\x03")), "4"),
        ("no chunks", file.patched((6, b"\x00")), "5 chunk 1"),
        ("more chunks than bytes", file.patched((6, b"\xff")), "5 chunk 2"),
        ("a chunk with the id 0", file.with_id("OIDL", bytes(4)), "5 chunk 3"),
        ("a chunk twice", file.with_id("EDGE", b"OIDF"), "5 chunk 4"),
        ("an end past the file", file.with_offsets(end=size + 1), "5 chunk 5"),
        ("chunks that fall", file.with_offsets(OIDL=-1025), "5 chunk 6"),
        ("a table with no end", file.with_id("end", b"LAST"), "5 chunk 7"),
        ("bases that nothing counts", file.with_id("EDGE", b"BASE"), edges_as_bases),
        ("no commit data", file.with_id("CDAT", b"NONE"), "8"),
        ("a byte less of commit data", file.with_offsets(EDGE=-1), "9"),
        ("no fan", file.with_id("OIDF", b"NONE"), "10"),
        ("a byte more of fan", file.with_offsets(OIDL=1), "11"),
        ("no ids", file.with_id("OIDL", b"NONE"), "12"),
        ("a byte more of ids", file.with_offsets(CDAT=1, EDGE=1), "13"),
        ("a byte more of trailer", file.with_offsets(end=-1), "15"),
        ("a base with no chunk of bases", file.patched((7, b"\x01")), "16"),
        ("a fan that falls", file.with_fan(254, commits + 1), "17"),
        ("a fan that counts one more", file.with_fan(255, commits + 1), "18"),
        ("a commit less in the commit data", file.with_offsets(EDGE=-size - 16), "19"),
    ]


def listed(file):
    """Damages that are listed: name, bytes and what changes in the listing, by position and column."""
    by_count = {len(parents): position for position, parents in enumerate(file.parents)}
    root, merge = file.parents.index(["-"]), by_count[2]
    first, last = sorted((by_count[3], by_count[4]))
    words = len(file.outline.chunks["EDGE"]) // 4

    def parents(position, *items):
        return {position: {PARENTS: ",".join(items)}}

    def only_first(position, *items):
        return parents(position, file.parents[position][0], *items)

    endless = parents(last, *file.parents[last], "!4")
    none_as_edge = parents(first, file.parents[first][0], str(NO_PARENT), *file.parents[first][2:])
    return [
        ("as it is", file.layer, {}),
        ("a second parent of a root", file.with_parent(root, 1, 0), parents(root, "!1")),
        ("a second parent alone", file.with_parent(merge, 0, NO_PARENT), parents(merge, "!1")),
        ("an index as first parent", file.with_parent(merge, 0, TOP_BIT), parents(merge, "!2")),
        ("no second parent", file.with_parent(merge, 1, NO_PARENT), only_first(merge)),
        ("a parent out of range", file.with_parent(merge, 1, TOP_BIT - 1), only_first(merge, str(TOP_BIT - 1))),
        ("an index out of range", file.with_parent(merge, 1, TOP_BIT + words), only_first(merge, "!4")),
        ("no edges", file.with_id("EDGE", b"NONE"), {**only_first(first, "!3"), **only_first(last, "!3")}),
        ("an edge that ends a list", file.with_edge(0, lambda _: TOP_BIT + 7), only_first(first, "7")),
        ("a list with no end", file.with_edge(-1, lambda word: word - TOP_BIT), endless),
        ("the field of no parent as an edge", file.with_edge(0, lambda _: NO_PARENT), none_as_edge),
        ("the greatest generation and time", file.with_date(root, b"\xff" * 8), {root: GREATEST}),
    ]
