"""The changed-path filters that a layer has, those that the changed paths of its commits give, and what filters answer.

The rules are those of Git's commit-graph format, "Bloom Filter Index" and "Bloom Filter Data".
"""

import functools
import itertools

from damage.layer import big_endian, contents, with_chunks
from expected.further import numbers
from histories.repository import ID_LENGTH

MOST_PATHS = 512
"""The filter of a commit with more paths, the folders among them, is one byte that has all bits."""

SEEDS = (0x293AE76F, 0x7E646E2C)
"""The seeds of the hash for the first probe of a path, and for the step from one probe to the next."""

WORD = 2**32


def stored(layer, kind):
    """The filters of a layer by the ids of their commits, with the version, the number of hashes and the bits per entry.

    A filter of no bytes was not computed. A layer without filters has such ones alone, and no settings.
    """
    chunks, size = dict(contents(layer, kind)), ID_LENGTH[kind]
    ids = [chunks[b"OIDL"][at : at + size].hex() for at in range(0, len(chunks[b"OIDL"]), size)]
    if b"BIDX" not in chunks:
        return dict.fromkeys(ids, b""), None
    ends, filters = numbers(chunks[b"BIDX"], 4), chunks[b"BDAT"][12:]
    parts = [filters[start:end] for start, end in zip([0, *ends], ends)]
    return dict(zip(ids, parts)), numbers(chunks[b"BDAT"][:12], 4)


def with_filters(layer, kind, filters, settings):
    """The layer with other filters and settings."""
    chunks, ends = dict(contents(layer, kind)), itertools.accumulate(map(len, filters))
    chunks[b"BIDX"] = b"".join(big_endian(end, 4) for end in ends)
    chunks[b"BDAT"] = b"".join(big_endian(number, 4) for number in settings) + b"".join(filters)
    return with_chunks(layer, kind, list(chunks.items()))


def entries(paths):
    """What Git puts into the filter of a commit that changes these paths: them, and each folder that leads there."""
    return {path[:end] for path in paths for end in [len(path), *slashes(path)]}


def made(paths, settings, signed):
    """The filter of a commit that changes these paths, whose bytes are read as signed numbers or as unsigned ones."""
    _, hashes, bits = settings
    put = entries(paths)
    if len(put) > MOST_PATHS:
        return b"\xff"
    size = max(1, -(-bits * len(put) // 8))
    filter_bits = 0
    for probe in itertools.chain.from_iterable(probes(entry, hashes, signed) for entry in put):
        filter_bits |= 1 << probe % (8 * size)
    return filter_bits.to_bytes(size, "little")


def answer(own, settings, path):
    """What a filter says of a path. By version 1 it is absent where it is in both readings of its bytes."""
    if not own:
        return "NotComputed"
    version, hashes, _ = settings
    readings = (True, False) if version == 1 else (False,)
    return "Possible" if any(hits(own, probes(path, hashes, signed)) for signed in readings) else "Absent"


def hits(own, places):
    """Whether each of some probes hits a bit of a filter that is set."""
    bits = int.from_bytes(own, "little")
    return all(bits >> probe % (8 * len(own)) & 1 for probe in places)


@functools.lru_cache(maxsize=None)
def probes(path, hashes, signed):
    """The probes of a path."""
    first, step = (murmur3(seed, path, signed) for seed in SEEDS)
    return [(first + number * step) % WORD for number in range(hashes)]


def slashes(path):
    """Where the slashes of a path stand."""
    return [place for place, byte in enumerate(path) if byte == ord("/")]


def murmur3(seed, text, signed):
    """The 32-bit murmur3 hash of bytes, which are read as signed numbers or as unsigned ones."""
    read = [byte - 256 if signed and byte > 127 else byte for byte in text]
    value, whole = seed, len(text) // 4 * 4
    for at in range(0, whole, 4):
        word = 0
        for place in range(4):
            word |= read[at + place] << 8 * place
        value = (rotated(value ^ scrambled(word), 13) * 5 + 0xE6546B64) % WORD
    last = 0
    for place, byte in enumerate(read[whole:]):
        last ^= byte << 8 * place
    value ^= scrambled(last) ^ len(text)
    value = (value ^ value >> 16) * 0x85EBCA6B % WORD
    value = (value ^ value >> 13) * 0xC2B2AE35 % WORD
    return value ^ value >> 16


def scrambled(word):
    """A word as it goes into the hash."""
    return rotated(word * 0xCC9E2D51 % WORD, 15) * 0x1B873593 % WORD


def rotated(word, bits):
    """A word with its upper bits moved to its lower end."""
    return (word << bits | word >> 32 - bits) % WORD
