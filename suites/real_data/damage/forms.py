"""Right files in other forms than Git's, and files with a wrong part that no check looks at."""

from functools import partial

from damage.layer import Outline, contents, sealed, with_chunks
from damage.wrong import CHECKSUM
from expected import judge


def right(layer, object_format):
    """Right files in forms that Git does not write, each with its name."""
    chunks = contents(layer, object_format)
    other_chunks = {
        "chunks in another order": chunks[::-1],
        "an unknown chunk": [*chunks, (b"ZZZZ", b"twelve bytes")],
        "an empty chunk, unknown": [(b"ZZZZ", b""), *chunks],
    }
    return [(name, with_chunks(layer, object_format, other)) for name, other in other_chunks.items()]


def wrong_trailers(layer, object_format):
    """Files whose trailer alone is wrong, each with its name."""
    end = Outline(layer, object_format).end
    return [
        ("a bit of the trailer's first byte", flipped(layer, end, 0x80)),
        ("a bit of the trailer's last byte", flipped(layer, len(layer) - 1, 0x01)),
        ("a trailer of zeros", layer[:end] + bytes(len(layer) - end)),
    ]


def wrong_chunks_aside(layer, object_format):
    """Files in which a chunk that no check looks at is wrong, each with its name."""
    places = Outline(layer, object_format).chunks
    dates, filters = places["GDA2"], places["BDAT"]
    return [
        (name, sealed(edited, object_format))
        for name, edited in (
            ("a corrected date that says it is elsewhere", flipped(layer, dates.start, 0x80)),
            ("a corrected date that is too high", flipped(layer, dates.start, 0x40)),
            ("a filter of changed paths", flipped(layer, filters.stop - 1, 0xFF)),
        )
    ]


def flipped(layer, at, mask):
    """The file with one byte changed in the bits of the mask."""
    return layer[:at] + bytes([layer[at] ^ mask]) + layer[at + 1 :]


def some_bytes(layer, object_format):
    """Each fifth byte of a file changed in its lowest bit, and the judge of what `verify` says then."""
    outline = Outline(layer, object_format)
    for at in range(0, len(layer), 5):
        conditions = range(1, 20) if at < outline.table_end else (17, 18) if at in outline.chunks["OIDF"] else ()
        yield flipped(layer, at, 0x01), partial(judge.refused_in_checks, conditions, CHECKSUM)
