"""The files and folders of which the tables of cases speak, in a folder for each table.

A folder has, by their paths, the bytes of files; of a graph of several layers, the lowest first, the files of its folder, with a
chain file; and None for a folder with nothing in it. A commit of a row has one byte as its id, as often as an id has bytes; the
positions of its parents, and its generation number. Its time is 7.
"""

import os

from damage import built
from damage.built import NO_PARENT, TOP_BIT, Commit
from damage.layer import big_endian, contents, sealed, with_chunks
from expected.listing import GREATEST_GENERATION
from histories.repository import ID_LENGTH, write_bytes

DIAMOND = ((0x11, (), 1), (0x22, (0,), 2), (0x33, (0,), 2), (0x44, (1, 2), 3))
"""A root, two commits on it, and their merge."""

OCTOPUS = ((0x11, (), 1), (0x22, (0,), 2), (0x33, (1,), 3), (0x44, (0, 0, 2), 4))
"""Three commits in a line, and a merge of the first, the first again and the third."""

TWO_WAYS = ((0x11, (), 1), (0x22, (0,), 2), (0x33, (1,), 3), (0xCC, (2, 0), 4), (0xDD, (), 1))
"""Two ways from the fourth commit to the first, one of them of a single step."""

CRISS_CROSS = (
    *((0x11, (), 1), (0x22, (0,), 2), (0x33, (0,), 2)),
    *((0x44, (1, 2), 3), (0x55, (2, 1), 3), (0x66, (3,), 4), (0x77, (4,), 4)),
)
"""Two lines that merge each other, and a commit on each merge."""

REPEATED = (
    ((0x11, (), 1), (0x33, (0,), 2)),
    ((0x33, (), 1), (0x44, (0,), 2), (0x55, (1,), 3)),
    ((0x22, (4,), 4), (0x44, (), 1)),
)
"""Layers in which 0x33 and 0x44 stand twice."""

FIRST, LAST = "1" * 40, "c" * 40
"""The first and the last commit of several graphs."""

ASKED = (
    *("parents " + LAST, "is-ancestor %s %s" % (FIRST, LAST), "walk %s %s" % (LAST, FIRST)),
    *("merge-base %s %s" % (LAST, FIRST), "find " + LAST.upper(), "parents " + "e" * 40),
    *("nonsense", "reload", "parents " + LAST),
)
"""What `ask` is asked about them: of each kind a question."""

SMALL = bytes(1099)
"""Fewer bytes than any file has."""


def lay_out(folder, tree):
    """Puts a tree into a new folder."""
    for path, content in tree.items():
        whole = os.path.join(folder, path)
        os.makedirs(whole if content is None else os.path.dirname(whole), exist_ok=True)
        if content is not None:
            write_bytes(whole, content)


def file(*rows, kind="sha1", bases=()):
    """The file of the commits of these rows, over some base layers."""
    return built.file_of(kind, [built.row(byte, ID_LENGTH[kind], *said) for byte, *said in rows], bases)


def layers_of(layers):
    """The files of layers with these rows, the lowest first."""
    files = []
    for rows in layers:
        files.append(file(*rows, bases=[below[-20:] for below in files]))
    return files


def chain(folder, *layers):
    """The files of a folder with a chain of these layers."""
    return chain_of(folder, layers_of(layers))


def chain_of(folder, files):
    """The files of a folder with a chain of these files with SHA-1 ids, the lowest first."""
    names = [content[-20:].hex() for content in files]
    tree = {"%s/graph-%s.graph" % (folder, name): content for name, content in zip(names, files)}
    return {**tree, folder + "/commit-graph-chain": "".join(name + "\n" for name in names).encode()}


def graphtool():
    """For the commands of `graphtool`: right and wrong graphs, those of info folders, and what is no graph."""
    return {
        "diamond": file(*DIAMOND),
        "empty": file(),
        "octopus": file(*OCTOPUS),
        "cycle": file((0x11, (0,), GREATEST_GENERATION)),
        "ring": file(*((byte, (parent,), GREATEST_GENERATION) for byte, parent in ((0x11, 2), (0x22, 0), (0x33, 1)))),
        "wrong": file((0x11, (), 1), (0x22, (0,), 3)),
        "letters": file((0xAB, (), 9)),
        "graph-00.graph": file(*DIAMOND),
        **chain("repeated", *REPEATED),
        **chain("distinct", ((0x11, (), 1), (0x22, (0,), 2)), ((0x15, (1,), 3), (0x33, (1,), 3), (0x44, (), 1))),
        # An id of the upper layer is not above the one before, and stands in the lower layer too.
        **chain("falling", ((0x11, (), 1), (0x22, (0,), 2)), ((0x33, (), 1), (0x11, (), 1), (0x44, (), 1))),
        # Info folders: with a chain alone, with a file beside it, and with a damaged one.
        **chain("chained/commit-graphs", *REPEATED),
        **chain("filed/commit-graphs", *REPEATED),
        "filed/commit-graph": file(*DIAMOND),
        **chain("damaged/commit-graphs", *REPEATED),
        "damaged/commit-graph": SMALL,
        "small": SMALL,
        "bare": None,
        "missing/commit-graph-chain": b"ab",
        "no-text/commit-graph-chain": b"\xff\n",
    }


def graphs():
    """For `verify`, `distinct` and `find`: graphs that show one thing each."""
    return {**right_files(), **wrong_files(), **layered(), **named_lines()}


LINE_WITH_A_LIST = ((0x11, (), 1), (0x22, (0,), 2), (0x33, (1, 0, 1), 3), (0x44, (2,), 4))
"""Four commits, each on the one before. The third has two words in the extra edge list: the parent 0, and the last parent 1."""

THIRD_FIELD, FOURTH_FIELD, LIST_AT = 1268, 1304, 1316
"""Where the second parent fields of the last two of them stand, and the list."""


def with_list(third, fourth, *numbers):
    """The file of these four with other words in the second parent fields of the last two, and in the list."""
    return changed(file(*LINE_WITH_A_LIST), (THIRD_FIELD, words([third])), (FOURTH_FIELD, words([fourth])), (LIST_AT, words(numbers)))


def right_files():
    """Files that are right, one after another in the names that Git gives and in others."""
    greatest, checksum = GREATEST_GENERATION, file(*DIAMOND)[-20:].hex()
    return {
        "parent-above": file((0x11, (1,), 2), (0x22, (), 1)),
        "line-of-ten": file(*[(0x11 * place, (place - 2,) if place > 1 else (), place) for place in range(1, 11)]),
        "cycle-of-two": file((0x11, (1,), greatest), (0x22, (0,), greatest)),
        "cycle-and-root": file((0x11, (0,), greatest), (0x22, (0,), greatest), (0x33, (), 1)),
        # Two commits share the list: all of it, and its second word, by either of them.
        "shared-list": with_list(TOP_BIT, TOP_BIT, 0, TOP_BIT + 1),
        "shared-end": with_list(TOP_BIT, TOP_BIT + 1, 0, TOP_BIT + 1),
        "shared-end-first": with_list(TOP_BIT + 1, TOP_BIT, 0, TOP_BIT + 1),
        "graph-ab": file(*DIAMOND),
        "graph-%s.graph" % checksum: file(*DIAMOND),
        "graph-%s.graph" % checksum.upper(): file(*DIAMOND),
    }


def wrong_files():
    """Files that a check refuses."""
    diamond, greatest = file(*DIAMOND), GREATEST_GENERATION
    return {
        "graph-.graph": diamond,
        "wrong-checksum": diamond[:-1] + bytes([diamond[-1] ^ 1]),
        "base-in-a-file": file((0x11, (), 1), bases=[b"\x33" * 20]),
        "fan-without-0x11": changed(diamond, (124, bytes(4))),
        "fan-of-the-last-byte": changed(diamond, (124, bytes(952))),
        "null-id": file((0, (), 1)),
        "second-null-id": file((0x11, (), 1), (0, (), 1)),
        "id-twice": file((0x11, (), 1), (0x11, (), 1)),
        "null-tree": changed(diamond, (1232, bytes(20))),
        "root-with-a-second": changed(diamond, (1180, b"\x70\0\0\0\0\0\0\x07")),
        "merge-without-a-first": changed(diamond, (1288, b"\x70\0\0\0\0\0\0\x02")),
        "merge-by-an-index": changed(diamond, (1288, b"\x80\0\0\0\x70\0\0\0")),
        "merge-without-a-list": changed(diamond, (1288, b"\0\0\0\x01\x80\0\0\0")),
        # Lists that two commits share. A position is too great, the list runs out, or both.
        "outside-at-the-end": with_list(TOP_BIT, TOP_BIT, 0, TOP_BIT + 9),
        "outside-before-the-end": with_list(TOP_BIT + 1, TOP_BIT, 9, TOP_BIT + 1),
        "outside-and-endless": with_list(TOP_BIT, TOP_BIT, 9, 1),
        "endless-and-outside": with_list(TOP_BIT, TOP_BIT, 1, 9),
        "endless": with_list(TOP_BIT, TOP_BIT, 0, 1),
        "endless-end": with_list(TOP_BIT, TOP_BIT + 1, TOP_BIT, 1),
        "past-the-list": with_list(TOP_BIT, TOP_BIT + 2, 0, TOP_BIT + 1),
        # Its parent is itself.
        "word-of-its-own": with_list(TOP_BIT + 1, TOP_BIT, 3, TOP_BIT + 1),
        # Generation numbers that are too low, none, that of a cycle, and too high.
        "octopus-too-low": file(*OCTOPUS[:3], (0x44, (0, 0, 2), 2)),
        "root-of-0": file((0x11, (), 0)),
        "cycle-of-1": file((0x11, (0,), 1)),
        "cycle-below-the-greatest": file((0x11, (1,), greatest), (0x22, (0,), greatest - 1)),
        "cycle-of-5": file((0x11, (1,), 5), (0x22, (0,), 5)),
        "root-of-the-greatest": file((0x11, (), greatest)),
    }


def layered():
    """Chains of layers, in which ids, parents and layers stand in every way."""
    ends = ((), ((0x11, 0), (0x11, 2)), (), ((0x11, 2), (0x11, 3), (0x33, 4)))
    lower = file((0x11, (), 1), (0x22, (0,), 2))
    again = file((0x22, (), 1), (0x33, (2,), 2), (0x44, (), 1), bases=[lower[-20:]])
    return {
        # An id begins with the first byte and ends with the second. Two layers have no commits, and one id stands twice.
        **of_ends("ends", ends),
        **of_ends("two-empty-layers", ((), ())),
        **chain("256-layers", *[()] * 256),
        **chain_of("257-layers", [*layers_of([()] * 256), file()]),
        **chain("parent-in-a-later-layer", ((0x11, (1,), 2),), ((0x22, (), 1),)),
        **chain("in-any-order", ((0x33, (1,), 2), (0x44, (), 1)), ((0x11, (4,), 4), (0x22, (0, 2, 4), 5), (0x55, (0,), 3))),
        **chain_of("another-base", [file(), file(bases=[b"\x33" * 20])]),
        # The id of the second position stands once more: in the next layer, with a null tree, and in the last of five layers.
        **chain_of("again", [lower, again]),
        **chain_of("again-and-null-tree", [lower, changed(again, (RECORDS_OF_THREE_ON_A_BASE, bytes(20)))]),
        **chain("far-apart", ((0x11, (), 1), (0x22, (0,), 2)), ((0x33, (), 1),), (), ((0x44, (), 1),), ((0x22, (), 1),)),
    }


RECORDS_OF_THREE_ON_A_BASE = 8 + 5 * 12 + 1024 + 3 * 20
"""Where the records of a file of three commits with bases and without an extra edge list begin."""


def of_ends(folder, layers):
    """The files of a folder with a chain of layers of roots, whose ids begin and end with these bytes."""
    files = []
    for ends in layers:
        commits = [Commit(bytes([first]) * 19 + bytes([last]), (), 1) for first, last in ends]
        files.append(built.file_of("sha1", commits, [below[-20:] for below in files]))
    return chain_of(folder, files)


def named_lines():
    """Folders with chain files, beside the same layers: of one commit each, an empty one of the other kind of hash, and one that is
    too short. Their names are no checksums."""
    layers = {"aa": file((0x33, (), 1)), "": file((0x22, (), 1)), "bb": file((0x11, (), 1)), "a\r": file((0x44, (), 1))}
    layers.update({"sha256": file(kind="sha256"), "short": SMALL})
    tree = {}
    for folder, lines in LINES.items():
        tree[folder + "/commit-graph-chain"] = lines
        tree.update({"%s/graph-%s.graph" % (folder, name): content for name, content in layers.items()})
    return tree


LINES = {
    "line-ends": b"aa\r\n\nbb",
    "last-carriage-return": b"a\r",
    "other-order": b"bb\naa\n",
    "no-lines": b"",
    "short-first": b"short\naa\n",
    "short-last": b"aa\nbb\nshort",
    "missing-last": b"aa\nmissing\n",
    "no-text-last": b"aa\nbb\n\xff\n",
    "other-kind-second": b"aa\nsha256\n",
    "other-kind-third": b"aa\nbb\nsha256\naa\n",
}
"""Chain files."""


def histories():
    """For the questions of `historytool`."""
    return {
        "file": file(*TWO_WAYS),
        **chain("chain", TWO_WAYS[:2], TWO_WAYS[2:]),
        "criss-cross": file(*CRISS_CROSS),
        # A line of four commits, and two on its end, one of which merges the root once more.
        "above-a-line": file(*OCTOPUS[:3], (0x44, (2,), 4), (0x55, (3, 0), 5), (0x66, (3,), 5)),
        "cycle": file(*((byte, (0,), GREATEST_GENERATION) for byte in (0x11, 0x22, 0x33))),
        "sha256": file((0x11, (), 1), (0xCC, (0,), 2), kind="sha256"),
        # The second generation number is not one more than the first.
        "wrong": file((0x11, (), 1), (0xCC, (0,), 3)),
        # The parent of the second commit is no commit of the graph.
        "outside": file((0x11, (), 1), (0xCC, (7,), 2)),
        "bytes": b"bytes",
        "asked": "\n".join(ASKED).encode(),
        # The space before the second line's end belongs to the question.
        "asked-with-carriage-returns": b"parents %s\r\nparents %s \r\n" % (2 * (b"1" * 40,)),
    }


def changed(content, *changes):
    """A file with SHA-1 ids in which other bytes stand at some places, and its right checksum."""
    for at, text in changes:
        content = content[:at] + text + content[at + len(text) :]
    return sealed(content, "sha1")


def of_parts(header, entries, *parts):
    """A file of a header, the entries of its table, by the names and the places of the chunks, and what follows."""
    table = b"".join(name + big_endian(at, 8) for name, at in entries)
    return b"CGPH\x01" + bytes(header) + table + b"".join(parts)


END = bytes(4)
"""The name of the entry that ends a table of chunks."""

THREE_CHUNKS = ((b"OIDF", 56), (b"OIDL", 1080), (b"CDAT", 1080), (END, 1080))
WITH_EDGES = ((b"OIDF", 68), (b"OIDL", 1092), (b"CDAT", 1092), (b"EDGE", 1092), (END, 1092))
FROM_THE_HEADER_ON = ((b"OIDL", 0), (b"CDAT", 0), (b"XTRA", 0), (b"OIDF", 68), (END, 1092))
EDGES_FROM_THE_HEADER_ON = ((b"EDGE", 0), (b"OIDF", 68), (b"OIDL", 1092), (b"CDAT", 1112), (END, 1148))
FAN_OF_0X11 = bytes(68) + b"\0\0\0\1" * 239


def listed():
    """For `list`: files without commits, of one commit, and with fields of every kind."""
    one, six = (0x11, (), 1), ((0x11, (5, 3, 2), 1), (0x12, (5,), 1), (0x13, (), 1), (0x14, (), 2), (0x15, (5, 4), 1), (0x16, (5,), 1))
    on_a_base = Commit(b"\x11" * 32, (), 1, tree=b"\xee" * 32)
    return {
        "small": SMALL,
        "one": file(one),
        "second-without-first": changed(file(one), (1124, b"\x80\0\0\0")),
        "no-edge-list": changed(file((0x11, (5,), 1)), (1124, b"\x80\0\0\0")),
        # An extra edge list of two words, and a field of each kind.
        "six": changed(
            file(*six),
            (1240, b"\0\0\0\x07\xff\xff\xff\xff"),
            (1268, b"\0\0\0\x05\x80\0\0\x02" + b"\xff" * 8),
            (1304, b"\x70\0\0\0\x80\0\0\0"),
            (1340, b"\x80\0\0\0\x70\0\0\0"),
        ),
        "empty-sha256": of_parts((2, 3, 0), THREE_CHUNKS, bytes(1056)),
        "empty-edge-list": of_parts((1, 4, 0), WITH_EDGES, bytes(1044)),
        "chunks-in-the-header": of_parts((1, 4, 0), FROM_THE_HEADER_ON, bytes(1044)),
        "empty": of_parts((1, 3, 0), THREE_CHUNKS, bytes(1044)),
        "on-a-base": built.file_of("sha256", [on_a_base], [b"\xab" * 32]),
        "on-two-bases": file((0x11, (5,), 1), bases=[b"\xab" * 20, b"\xcd" * 20]),
        # The parents are the position 5, and the words from the table's last entry on.
        "edges-in-the-table": of_parts(
            *((1, 4, 0), EDGES_FROM_THE_HEADER_ON, FAN_OF_0X11, b"\x11" * 20, b"\x22" * 20),
            *(b"\0\0\0\x05\x80\0\0\x0f\0\0\0\x04\0\0\0\0", bytes(20)),
        ),
    }


def layers():
    """For `list`: files that show one thing each."""
    unknown = of_parts((1, 4, 0), (*WITH_EDGES[:3], (b"XTRA", 1092), (END, 1100)), bytes(1052))
    return {"unknown-chunk": unknown, **{name: of_one(*said) for name, said in FIELDS.items()}, **unopened()}


def of_one(first, second, date, edges=None):
    """The file of one commit with these parent fields and these last eight bytes, and an extra edge list or a chunk of another name."""
    edges_at, name = 1148, b"XTRA" if edges is None else b"EDGE"
    entries = (*EDGES_FROM_THE_HEADER_ON[1:4], (name, edges_at), (END, edges_at + len(edges or b"")))
    fields = words([first, second]) + date
    return of_parts((1, 4, 0), entries, FAN_OF_0X11, b"\x11" * 20, b"\x22" * 20, fields, edges or b"", bytes(20))


DATE = b"\0\0\0\x04\0\0\0\0"
"""The last bytes of a commit with the generation number 1 and the time 0."""

FIELDS = {
    "greatest-time": (NO_PARENT, NO_PARENT, b"\0\0\0\x07\xff\xff\xff\xff"),
    "second-generation": (NO_PARENT, NO_PARENT, b"\0\0\0\x08\0\0\0\0"),
    "greatest-date": (NO_PARENT, NO_PARENT, b"\xff" * 8),
    "neither": (NO_PARENT, NO_PARENT, DATE),
    "first-alone": (5, NO_PARENT, DATE),
    "both": (5, 7, DATE),
    "second-alone": (NO_PARENT, 7, DATE),
    "index-alone": (NO_PARENT, TOP_BIT, DATE, b""),
    "index-first": (TOP_BIT, NO_PARENT, DATE),
    "two-words": (5, TOP_BIT, DATE, b"\0\0\0\x03\x80\0\0\x02"),
    # The word that stands for no parent in a record is a position in the list.
    "word-of-no-parent": (5, TOP_BIT, DATE, b"\x70\0\0\0\x80\0\0\x01"),
    "no-list": (5, TOP_BIT, DATE),
    "past-two-words": (5, TOP_BIT + 2, DATE, b"\0\0\0\x03\x80\0\0\x02"),
    "three-bytes": (5, TOP_BIT, DATE, b"\0\0\0"),
    "no-words": (5, TOP_BIT, DATE, b""),
}
"""Of commits the parent fields and the last bytes of their records, and the extra edge lists of their files."""


def unopened():
    """Files that are refused, each for the first condition that holds."""
    empty = of_parts((1, 3, 0), THREE_CHUNKS, bytes(1044))
    tree = {
        "another-signature": b"CGPX" + empty[4:],
        "version-2": empty[:4] + b"\2" + empty[5:],
        "falling-fan": changed(file(*DIAMOND), (72, b"\0\0\0\2")),
    }
    tree.update({name: of_parts(header, entries, bytes(zeros)) for name, (header, entries, zeros) in UNOPENED.items()})
    return tree


def entries(*places, names=(b"OIDF", b"OIDL", b"CDAT", END)):
    """A table of chunks: each name and its place."""
    return tuple(zip(names, places))


BASES = (b"OIDF", b"OIDL", b"CDAT", b"BASE", END)
PLAIN = (1, 3, 0)

UNOPENED = {
    "hash-3": ((3, 3, 0), THREE_CHUNKS, 1044),
    "base-without-its-id": ((1, 3, 1), THREE_CHUNKS, 1044),
    "trailer-of-the-other-kind": ((2, 3, 0), THREE_CHUNKS, 1044),
    # The table: no chunks, more than there is room for, and what is wrong in an entry, or in two, of which the first is told.
    "no-chunks": ((1, 0, 0), THREE_CHUNKS, 1044),
    "table-too-long": ((1, 255, 0), THREE_CHUNKS, 1044),
    "end-first": (PLAIN, entries(56, 1080, 1080, 1080, names=(END, b"OIDL", b"CDAT", END)), 1044),
    "end-second": (PLAIN, entries(56, 1080, 1080, 1080, names=(b"OIDF", END, b"CDAT", END)), 1044),
    "chunk-twice": (PLAIN, entries(56, 1080, 1080, 1080, names=(b"OIDF", b"OIDL", b"OIDL", END)), 1044),
    "chunk-twice-and-falling": (PLAIN, entries(56, 0, 1080, 1080, names=(b"OIDF", b"OIDF", b"CDAT", END)), 1044),
    "first-past-the-end": (PLAIN, entries(1101, 1080, 1080, 1080), 1044),
    "first-far-past-the-end": (PLAIN, entries(2**56, 1080, 1080, 1080), 1044),
    "last-past-the-end": (PLAIN, entries(56, 1080, 1080, 1101), 1044),
    "chunks-that-fall": (PLAIN, entries(56, 1080, 1079, 1080), 1044),
    "end-that-falls": (PLAIN, entries(56, 1080, 1080, 1079), 1044),
    "no-end": (PLAIN, entries(56, 1080, 1080, 1080, names=(b"OIDF", b"OIDL", b"CDAT", b"XTRA")), 1044),
    "no-end-but-1": (PLAIN, entries(56, 1080, 1080, 1080, names=(b"OIDF", b"OIDL", b"CDAT", b"\0\0\0\1")), 1044),
    "chunk-twice-at-the-end": (PLAIN, entries(56, 1080, 1080, 1080, names=(b"OIDF", b"OIDL", b"CDAT", b"OIDF")), 1044),
    "no-end-past-the-end": (PLAIN, entries(56, 1080, 1080, 1101, names=(b"OIDF", b"OIDL", b"CDAT", b"OIDF")), 1044),
    # Chunks that are missing.
    "no-commit-data": (PLAIN, entries(56, 1080, 1080, 1080, names=(b"OIDF", b"OIDL", b"XTRA", END)), 1044),
    "no-fan": (PLAIN, entries(56, 1080, 1080, 1080, names=(b"XTRA", b"OIDL", b"CDAT", END)), 1044),
    "no-ids": (PLAIN, entries(56, 1080, 1080, 1080, names=(b"OIDF", b"XTRA", b"CDAT", END)), 1044),
    # Chunks and a trailer of wrong sizes, and base ids that are too few.
    "35-bytes-of-commit-data": (PLAIN, entries(56, 1080, 1080, 1115), 1079),
    "1025-bytes-of-fan": (PLAIN, entries(56, 1081, 1081, 1081), 1045),
    "19-bytes-of-ids": (PLAIN, entries(56, 1080, 1099, 1099), 1063),
    "21-bytes-of-trailer": (PLAIN, THREE_CHUNKS, 1045),
    "an-id-too-many": (PLAIN, entries(56, 1080, 1100, 1100), 1064),
    "a-record-too-many": (PLAIN, entries(56, 1080, 1080, 1116), 1080),
    "19-bytes-of-base-ids": ((1, 4, 1), entries(68, 1092, 1092, 1092, 1111, names=BASES), 1063),
    "a-base-id-too-few": ((1, 4, 2), entries(68, 1092, 1092, 1092, 1112, names=BASES), 1064),
    # The fan is the table, whose numbers fall at once.
    "fan-over-the-table": (PLAIN, entries(8, 1032, 1092, 1092), 1056),
}
"""Headers, tables of chunks, and how many zeros follow."""


SIZES = {"one": 1156, "second-without-first": 1156, "no-edge-list": 1156, "six": 1456, "empty-sha256": 1112}
SIZES.update({"empty-edge-list": 1112, "chunks-in-the-header": 1112, "empty": 1100, "on-a-base": 1236, "on-two-bases": 1208})
SIZES["edges-in-the-table"] = 1168
"""How many bytes these files have."""


def words(numbers):
    """Numbers of four bytes each."""
    return b"".join(big_endian(number, 4) for number in numbers)


def dated(commits, *further):
    """The file of some commits, each given with its generation number, its time and its parents, and of further chunks, pairs of a
    name and bytes."""
    named = enumerate(commits, 1)
    commits = [Commit(big_endian(place, 4) + bytes(16), parents, level, time) for place, (level, time, parents) in named]
    return further_chunks(built.file_of("sha1", commits), *further)


def further_chunks(content, *further):
    """A file with further chunks."""
    return with_chunks(content, "sha1", [*contents(content, "sha1"), *further])


FIVE = ((4, 2500, (4, 2)), (2, 1000, (3,)), (2, 3000, (3,)), (1, 2000, ()), (3, 1500, (1,)))
"""Five commits, with their generation numbers, times and parents."""

RIGHT, TOO_LATE, ELSEWHERE = ((501, 1001, 0, word, 502) for word in (0, 5000, TOP_BIT))
"""The words of `GDA2` with which their dates are right, and others."""

INDEX, FALLING = (1, 2, 2, 3, 4), (1, 2, 1, 3, 4)
"""The words of `BIDX` of five filters, one of them of no bytes, and others that fall."""

FOUR_FILTERS = b"\xff\x00\xff\x00"


def dates(numbers):
    """The chunk of these words of dates."""
    return b"GDA2", words(numbers)


def overflow(content):
    """The chunk of dates that have no room in their words."""
    return b"GDO2", content


def filters(index, settings, content):
    """The chunks of filters that end there, with their version, number of hashes and bits per entry, of these bytes."""
    return (b"BIDX", words(index)), (b"BDAT", words(settings) + content)


def checked():
    """For `check`: graphs with dates and filters, right and wrong."""
    newer = filters(INDEX, (3, 7, 10), FOUR_FILTERS)
    return {
        **{name: content for name, content in histories().items() if name in ("file", "sha256", "wrong", "bytes")},
        **chain("chain", TWO_WAYS[:2], TWO_WAYS[2:]),
        "neither": dated(FIVE),
        "dates": dated(FIVE, dates(RIGHT)),
        "dates-and-half-of-filters": dated(FIVE, dates(ELSEWHERE), overflow(bytes(8)), filters((), (1, 7, 10), FOUR_FILTERS)[1]),
        "filters": dated(FIVE, *filters(INDEX, (1, 7, 10), FOUR_FILTERS)),
        "dates-of-four": dated(FIVE, dates(RIGHT[1:])),
        "overflow-of-7-bytes": dated(FIVE, dates(RIGHT), overflow(bytes(7))),
        "no-overflow": dated(FIVE, dates(ELSEWHERE)),
        "large-overflow": dated(FIVE, dates(ELSEWHERE), overflow(b"\x7f" * 8)),
        "largest-overflow": dated(FIVE, dates(ELSEWHERE), overflow(b"\xff" * 8)),
        "too-late-and-version-3": dated(FIVE, dates(TOO_LATE), *newer),
        "version-3": dated(FIVE, dates(RIGHT), *newer),
        "falling": dated(FIVE, *filters(FALLING, (1, 7, 10), FOUR_FILTERS)),
        "wrong-and-too-late": dated((*FIVE[:2], (3, 3000, (3,)), *FIVE[3:]), dates(TOO_LATE)),
        # Three roots, and a commit with all of them as its parents.
        "octopus": octopus_dated(26),
        "octopus-too-early": octopus_dated(16),
        **dated_chain("read-before-compared", (0,), dates((TOP_BIT,))),
        **dated_chain("upper-without-a-date", (1,), dates(())),
        **dated_chain("upper-overflow-of-4-bytes", (1,), dates((0,)), overflow(bytes(4))),
        **dated_chain("upper-without-overflow", (1,), dates((TOP_BIT,))),
        **dated_chain("upper-too-large", (1,), dates((TOP_BIT,)), overflow(big_endian(2**63, 8))),
        **dated_chain("upper-too-late", (1,), dates((1,))),
    }


def octopus_dated(offset):
    """A commit on three roots, with this word of `GDA2`."""
    return dated(((2, 5, (1, 2, 3)), (1, 10, ()), (1, 30, ()), (1, 20, ())), dates((offset, 0, 0, 0)))


def dated_chain(folder, offsets, *further):
    """The files of a chain: a root of time 0 with this word of `GDA2`, and a commit of time 7 on it with these chunks."""
    lower = further_chunks(built.file_of("sha1", [Commit(b"\x11" * 20, (), 1, 0)]), dates(offsets))
    upper = built.file_of("sha1", [Commit(b"\x22" * 20, (0,), 2)], [lower[-20:]])
    return chain_of(folder, [lower, further_chunks(upper, *further)])


LAYERS = {
    "none": (),
    "seven": ((1, 1), (1, 7, 10), b"\x00"),
    "wider": ((1, 3), (1, 7, 11), b"\xff\xff\xff"),
    "three": ((1, 1), (1, 3, 10), b"\x00"),
    "newer": ((1, 1), (2, 7, 10), b"\x00"),
    "left-over": ((1, 1), (1, 3, 10), b"\x00\x00"),
    "falling": ((1, 0), (1, 7, 10), b"\x00"),
    "past-the-end": ((2, 0), (1, 7, 10), b"\x00"),
    "version-3": ((1, 1), (3, 7, 10), b"\x00"),
}
"""Layers of two commits: of their filters the index, the settings, and the bytes."""

CHAINS = (
    *("none+seven+none+wider", "seven+three", "three+none+seven+seven", "none+newer+seven", "seven+newer", "seven+left-over"),
    *("left-over+falling", "seven+three+falling", "none+seven+falling", "wider+past-the-end", "seven+version-3", "none+none"),
)
"""The layers of chains, the lowest first. A layer stands in a chain, which is named after all of them."""

ALONE = {
    "filters-of-3-bytes": ((2, 3), (1, 7, 10), bytes(3)),
    "index-of-three": ((2, 3, 3), (), b""),
    "two-settings": ((2, 3), (3, 0), b""),
    "version-3": ((2, 3), (3, 0, 0), b""),
    "no-hashes": ((2, 3), (2, 0, 0), b""),
    "65536-hashes": ((2, 3), (2, 65536, 0), b""),
    "no-bits": ((2, 3), (2, 65535, 0), b""),
    "falling": ((2, 1), (2, 7, 10), bytes(3)),
    "past-the-end": ((4, 3), (2, 7, 10), bytes(3)),
    "left-over": ((2, 3), (2, 7, 10), bytes(4)),
}
"""The same of files of one layer."""

OF_GIT = b"\x5c\xc5\x06\x15\xad"
"""The filter that Git 2.39.5 wrote, in version 1, for the first four of the paths below."""

PATHS_OF_GIT = (b"a", b"folder", b"folder/caf\xc3\xa9", b"folder/\xff\xfe\xfd\xfc\xfb", b"b", b"folder/a", b"caf\xc3\xa9")


def roots(*numbers):
    """So many commits without parents, as they are given for `dated`."""
    return [(1, number, ()) for number in numbers]


def filtered():
    """For filters: what Git's own tests have, files of one layer, and chains. Beside the folder of a chain stand its layers, each
    as a file that is named after its place."""
    pair = filters((1,), (2, 7, 10), b"\xff")
    tree = {
        # The filters of Git's own tests, and the paths that are asked there: of no bytes, and a space.
        "of-gits-tests": dated(roots(*range(5)), *filters((0, 1, 2, 4, 6), (1, 7, 10), b"\x00\xff\x11\x11\x51\x55")),
        "no-bytes-and-a-space": b"\n20\n",
        "of-git": dated(roots(7), *filters((5,), (1, 7, 10), OF_GIT)),
        "of-git-as-version-2": dated(roots(7), *filters((5,), (2, 7, 10), OF_GIT)),
        "paths-of-git": b"".join(path.hex().encode() + b"\n" for path in PATHS_OF_GIT),
        "folder-file": b"folder/file".hex().encode() + b"\n",
        "both-chunks": dated(roots(5), *pair),
        "index-alone": dated(roots(5), pair[0]),
    }
    tree.update({name: dated(roots(7, 8), *filters(*said)) for name, said in ALONE.items()})
    for names in CHAINS:
        files = []
        for name in names.split("+"):
            commits = [Commit(bytes([0x11 * (2 * len(files) + own)]) * 20, (), 1) for own in (1, 2)]
            plain = built.file_of("sha1", commits, [below[-20:] for below in files])
            files.append(further_chunks(plain, *(filters(*LAYERS[name]) if LAYERS[name] else ())))
        tree.update(chain_of(names, files))
        tree.update({"%s.%d" % (names, number): content for number, content in enumerate(files)})
    return tree


def shown():
    """For `show`."""
    one = built.file_of("sha1", [Commit(b"\x11" * 20, (), 1)])
    return {
        "diamond": file(*DIAMOND),
        "octopus": file(*OCTOPUS),
        "sha256": built.file_of("sha256", [built.row(0x11, 32, (), 1), built.row(0xCC, 32, (0,), 2)]),
        **chain("chain", DIAMOND[:2], DIAMOND[2:]),
        "filter": further_chunks(one, dates((0,)), *filters((1,), (1, 7, 10), b"\xff")),
        "version-3": further_chunks(one, *filters((1,), (3, 8, 10), b"\xff")),
        "short": further_chunks(one, *filters((1,), (1, 7), b"\xff\xff\xff")),
        "wrong": file((0x11, (), 1), (0xCC, (0,), 3)),
        "bytes": b"bytes",
    }


ROOT, SECOND, THIRD = (
    *("340d65f7f976e355a43a7fd53f072439a67cff76", "36a1aced2dd3e73e95c83ce58e8780d015359403"),
    "b2d63e1788e7e62011a25244a02bb1fdd5294efd",
)
"""Three commits that Git made: a root, one on it, and one on both."""

THIRD_OF_SHA256, ROOT_OF_SHA256, SECOND_OF_SHA256 = (
    "00e84f37e6587b967b9c4fcb12c52a6adfd43b72bb0a7e66ffbc8615ae7d9e3b",
    "305942368e41a3efbe36343a7f6ee5269651435d6de9d55c3f0722e80e6022dd",
    "5a9562d5391a1e2161eeb0ca344a421ec075e2a2849c1f884eccb4bd942bfcfe",
)
"""The same three in a repository with SHA-256 ids."""

OTHER = "3cffb60786e7da2208160c4f4b915999386b64a2"
"""The id of the object of a commit whose contents are `abc`."""

EMPTY_TREES = {
    "sha1": "4b825dc642cb6eb9a060e54bf8d69288fbee4904",
    "sha256": "6ef19b41225c5369f1c104d45d8d85efa9b057b53b14b4b9b939dd74decc5321",
}
"""The ids of the tree without entries."""


def of_objects(*rows, kind="sha1", tree=None, bases=()):
    """The file of commits, each given with its id, its parents, its generation number and its time."""
    tree = bytes.fromhex(tree or EMPTY_TREES[kind])
    return built.file_of(kind, [Commit(bytes.fromhex(name), *said, tree) for name, *said in rows], bases)


def entry(kind, name, time, message, *parents):
    """What `git cat-file --batch` writes of a commit."""
    lines = ["tree " + EMPTY_TREES[kind], *("parent " + parent for parent in parents)]
    lines += ["%s A <a@b> %d +0000" % (who, time) for who in ("author", "committer")]
    contents = "".join(line + "\n" for line in [*lines, "", message])
    return ("%s commit %d\n%s\n" % (name, len(contents), contents)).encode()


def compared():
    """For `ids` and `objects`: graphs of commits that Git made, and the streams of these, as Git 2.39.5 writes them."""
    root, second, third = (ROOT, (), 1, 5), (SECOND, (0,), 2, 6), (THIRD, (1, 0), 3, 7)
    lower = of_objects(root, second)
    entries = {
        "root": entry("sha1", ROOT, 5, "a"),
        "second": entry("sha1", SECOND, 6, "b", ROOT),
        "third": entry("sha1", THIRD, 7, "c", SECOND, ROOT),
    }
    return {
        "file": of_objects(root, second, third),
        "empty": of_objects(),
        # The third generation number is not one more than the greatest of the parents'.
        "wrong": of_objects(root, second, (THIRD, (1, 0), 2, 7)),
        # The records say another tree; another parent of the second commit; another second parent of the third; and another time.
        "tree": of_objects(root, second, third, tree=ROOT),
        "parent": of_objects(root, (SECOND, (), 1, 6), (THIRD, (1, 0), 2, 7)),
        "order": of_objects(root, second, (THIRD, (1, 1), 3, 7)),
        "time": of_objects(root, second, (THIRD, (1, 0), 3, 8)),
        "unreadable": of_objects((OTHER, (), 1, 5)),
        "sha256": of_objects(
            *((THIRD_OF_SHA256, (2, 1), 3, 7), (ROOT_OF_SHA256, (), 1, 5), (SECOND_OF_SHA256, (1,), 2, 6)),
            kind="sha256",
        ),
        # The root stands in both layers.
        **chain_of("chain", [lower, of_objects(root, (THIRD, (1, 2), 3, 7), bases=[lower[-20:]])]),
        **entries,
        "all-of-sha256": entry("sha256", THIRD_OF_SHA256, 7, "c", SECOND_OF_SHA256, ROOT_OF_SHA256)
        + entry("sha256", ROOT_OF_SHA256, 5, "a")
        + entry("sha256", SECOND_OF_SHA256, 6, "b", ROOT_OF_SHA256),
        "front-of-second": entries["second"][:90],
        "fatal": b"fatal: no\n",
        "missing": SECOND.encode() + b" missing\n",
        "a-tree": SECOND.encode() + b" tree 0\n\n",
        "other-bytes": SECOND.encode() + b" commit 3\nabc\n",
        "abc": OTHER.encode() + b" commit 3\nabc\n",
        "line-feed": b"\n",
    }


def worded():
    """For the words of `historytool`."""
    return {"file": file(*TWO_WAYS)}


def in_a_line(count, kind="sha1", joined=True):
    """The file of so many commits, each on the one before, or each without parents. The id of each begins with its place, counted
    from 1."""
    parents = [(place - 1,) if place and joined else () for place in range(count)]
    commits = [Commit(big_endian(place + 1, 4) + bytes(16), said, 1 + joined * place) for place, said in enumerate(parents)]
    return built.file_of(kind, commits)
