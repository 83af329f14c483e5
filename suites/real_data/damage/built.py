"""Files of small layers, put together from what they are to say."""

import hashlib
from typing import NamedTuple, Sequence, Tuple

from damage.layer import ENTRY, HEADER, big_endian, exact_fan
from histories.repository import ID_LENGTH

NO_PARENT = 0x70000000
TOP_BIT = 0x80000000


class Commit(NamedTuple):
    """A commit of a file: its id, the positions of its parents, its generation number, its time and, or any, its tree."""

    id: bytes
    parents: Tuple[int, ...]
    generation: int
    time: int = 7
    tree: bytes = b""


def row(byte, size, parents, generation):
    """A commit whose id is one byte, as often as an id has bytes."""
    return Commit(bytes([byte]) * size, parents, generation)


def file_of(kind, commits: Sequence[Commit], bases: Sequence[bytes] = ()):
    """The bytes of a file of these commits over these bases. Chunks follow one another in Git's order."""
    words = []
    records = b"".join([record(commit, words) for commit in commits])
    chunks = [
        (b"OIDF", b"".join(big_endian(count, 4) for count in exact_fan([commit.id for commit in commits]))),
        (b"OIDL", b"".join(commit.id for commit in commits)),
        (b"CDAT", records),
    ]
    chunks += [(b"EDGE", b"".join(big_endian(word, 4) for word in words))] if words else []
    chunks += [(b"BASE", b"".join(bases))] if bases else []
    header = b"CGPH\x01" + bytes([1 if kind == "sha1" else 2, len(chunks), len(bases)])
    body = header + table(chunks) + b"".join(content for _, content in chunks)
    return body + hashlib.new(kind, body).digest()


def record(commit, words):
    """A commit's record. Its parents from the second on join the words where they are more than one."""
    first, *others = commit.parents or (NO_PARENT,)
    second = others[0] if others else NO_PARENT
    if len(others) > 1:
        second = TOP_BIT + len(words)
        words += [*others[:-1], TOP_BIT + others[-1]]
    tree = commit.tree or b"\x99" * len(commit.id)
    return tree + big_endian(first, 4) + big_endian(second, 4) + big_endian(commit.generation * 2**34 + commit.time, 8)


def table(chunks):
    """The table of chunks, and the entry that ends it."""
    at, entries = HEADER + ENTRY * (len(chunks) + 1), b""
    for name, content in chunks:
        entries += name + big_endian(at, 8)
        at += len(content)
    return entries + bytes(4) + big_endian(at, 8)


def line(kind, count):
    """So many commits in a line, each on the one before, with ids that Git might give."""
    ids = sorted(hashlib.new(kind, b"%d" % number).digest() for number in range(count))
    parents = [()] + [(number,) for number in range(count - 1)]
    return file_of(kind, [Commit(ids[number], parents[number], number + 1) for number in range(count)])


def diamond(kind="sha1"):
    """A root, two commits on it, and their merge."""
    rows = ((0x11, (), 1), (0x22, (0,), 2), (0x33, (0,), 2), (0x44, (1, 2), 3))
    return file_of(kind, [row(byte, ID_LENGTH[kind], *said) for byte, *said in rows])


def octopus(kind="sha1"):
    """Three commits in a line, and a merge of the first, the first again and the third."""
    rows = ((0x11, (), 1), (0x22, (0,), 2), (0x33, (1,), 3), (0x44, (0, 0, 2), 4))
    return file_of(kind, [row(byte, ID_LENGTH[kind], *said) for byte, *said in rows])


def root_on_a_base(kind="sha256"):
    """One root over one base layer."""
    size = ID_LENGTH[kind]
    return file_of(kind, [row(0x11, size, (), 1)], [b"\xab" * size])
