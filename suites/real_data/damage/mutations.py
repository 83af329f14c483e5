"""Families of damaged files, and how the program may answer each.

A family of damages is a list of pairs: the bytes, and the judge of the answer to them.
"""

import random
from functools import partial

from damage.layer import HEADER, LEAST_SIZE, Outline
from expected import judge

LISTED = ("OIDL", "CDAT", "EDGE", "BASE")
"""The chunks whose bytes a listing shows; opening does not depend on those bytes."""


def truncations(layer, object_format):
    """Every proper prefix of a file: too small, or a chunk ends past it, or with a part of its trailer."""
    end = Outline(layer, object_format).end

    def condition(length):
        if length < LEAST_SIZE:
            return 1
        return "5 chunk 5" if length < end else 15

    return [(layer[:length], refusal(condition(length))) for length in range(len(layer))]


def extensions(layer):
    """Bytes after the end of a file, which make its trailer too long."""
    return [(layer + bytes(more), refusal(15)) for more in range(1, 70)]


def edits(layer, object_format, listing, mask):
    """Each byte of a file changed in the bits of the mask, one at a time."""
    outline = Outline(layer, object_format)
    family = []
    for at, byte in enumerate(layer):
        changed = byte ^ mask
        edited = layer[:at] + bytes([changed]) + layer[at + 1 :]
        family.append((edited, judge_of_edit(outline, listing, at, changed)))
    return family


def judge_of_edit(outline, listing, at, changed):
    """The judge for a right file in which the byte at an offset has changed."""
    if at < HEADER:
        return judge_of_header(outline, at, changed)
    if at < outline.table_end:
        return judge.in_form
    if at in outline.chunks["OIDF"]:
        return partial(judge.refused_or_same, (17, 18), listing)
    if any(at in outline.chunks.get(name, ()) for name in LISTED):
        return partial(judge.differs_in_one_line, listing)
    return partial(judge.same, listing)


def judge_of_header(outline, at, changed):
    """The judge for a right file in which a byte of the header has changed."""
    if at == 5 and changed in (1, 2):
        return judge.in_form
    table_faults = ("5 chunk 1", "5 chunk 2", "5 chunk 3", "5 chunk 7")
    base_fault = 7 if "BASE" in outline.chunks else 16
    return refusal(*{4: (3,), 5: (4,), 6: table_faults, 7: (base_fault,)}.get(at, (2,)))


def scribbles(layer, count, seed):
    """A file with up to eight bytes replaced by random ones."""
    chance = random.Random(seed)
    family = []
    for _ in range(count):
        edited = bytearray(layer)
        for _ in range(chance.randint(1, 8)):
            edited[chance.randrange(len(edited))] = chance.randrange(256)
        family.append((bytes(edited), judge.in_form))
    return family


def shuffled_tables(layer, object_format, count, seed):
    """A file whose chunk table has its own offsets in other places, some of them moved a little."""
    chance = random.Random(seed)
    table = range(HEADER, Outline(layer, object_format).table_end, 12)
    offsets = [int.from_bytes(layer[at + 4 : at + 12], "big") for at in table]
    family = []
    for _ in range(count):
        edited = bytearray(layer)
        chosen = sorted(chance.choices(offsets, k=len(offsets)))
        for at, offset in zip(table, chosen):
            moved = max(0, offset + chance.choice((0, 0, 0, 0, -1, 1, 4, 20)))
            edited[at + 4 : at + 12] = moved.to_bytes(8, "big")
        family.append((bytes(edited), judge.in_form))
    return family


def noise(count, seed):
    """Random bytes, of sizes around that of the smallest file."""
    chance = random.Random(seed)
    sizes = [chance.randrange(2 * LEAST_SIZE) for _ in range(count)]
    texts = [bytes(chance.randrange(256) for _ in range(size)) for size in sizes]
    return [(text, refusal(1 if len(text) < LEAST_SIZE else 2)) for text in texts]


def refusal(*conditions):
    """The judge that wants the refusal by one of these conditions."""
    return partial(judge.refused_by, conditions)
