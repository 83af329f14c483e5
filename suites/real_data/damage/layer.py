"""The outline of a commit-graph file that Git wrote, and the parts of a file that follow from others."""

import hashlib

from histories.repository import ID_LENGTH

HEADER = 8
ENTRY = 12
LEAST_SIZE = 1100
"""The size of a SHA-1 file with no commits: no right file is smaller."""


class Outline:
    """Where the parts of a file are. The file is assumed to be right."""

    def __init__(self, layer, object_format):
        self.count = layer[6]
        self.table_end = HEADER + ENTRY * (self.count + 1)
        table = [layer[at : at + ENTRY] for at in range(HEADER, self.table_end, ENTRY)]
        starts = [int.from_bytes(entry[4:], "big") for entry in table]
        names = [entry[:4].decode("ascii") for entry in table[:-1]]
        self.chunks = {name: range(*bounds) for name, bounds in zip(names, zip(starts, starts[1:]))}
        self.end = starts[-1]
        self.id_length = ID_LENGTH[object_format]


def big_endian(value, size):
    """The bytes of a number."""
    return value.to_bytes(size, "big")


def exact_fan(ids):
    """For each byte, the number of ids whose first byte is at most that."""
    return [sum(commit[0] <= byte for commit in ids) for byte in range(256)]


def sealed(layer, object_format):
    """The file with the digest of all bytes before its trailer as the trailer."""
    body = layer[: -ID_LENGTH[object_format]]
    return body + hashlib.new(object_format, body).digest()


def contents(layer, object_format):
    """The chunks of a right file in their order, as pairs of a name and bytes."""
    places = Outline(layer, object_format).chunks
    return [(name.encode(), layer[place.start : place.stop]) for name, place in places.items()]


def with_chunks(layer, object_format, chunks):
    """A right file with other chunks, given as pairs of a name and bytes, or in another order."""
    start = HEADER + ENTRY * (len(chunks) + 1)
    table, content = b"", b""
    for name, text in chunks:
        table += name + big_endian(start + len(content), 8)
        content += text
    table += bytes(4) + big_endian(start + len(content), 8)
    file = layer[:6] + bytes([len(chunks), layer[7]]) + table + content
    return sealed(file + bytes(ID_LENGTH[object_format]), object_format)
