"""What `check` has to say of corrected commit dates and changed-path filters, by a plain reading of the layers.

The rules are those of Git's commit-graph format, "Generation Data", "Generation Data Overflow", "Bloom Filter
Index" and "Bloom Filter Data", and the order of refusals is that of docs/REFUSALS.md.
"""

from expected import reading
from histories.repository import ID_LENGTH

TIME_BITS = 34
NO_PARENT = 0x70000000
TOP_BIT = 0x80000000


class Refused(Exception):
    """What stands in the line of a refusal after `refused`."""


def checked(verified, layers, kind):
    """The text of `check` for the bytes of some layers, the lowest first, of which `verify` says this."""
    said = verified if verified.startswith("refused") else told(layers, kind)
    return said if said.startswith("refused") else verified + said


def checked_file(content):
    """The text of `check` for a file of any bytes whose name is that of no layer of a chain."""
    return checked(reading.verified(content), [content], "sha256" if content[5:6] == b"\x02" else "sha1")


def told(layers, kind):
    """The lines of `check` on dates and filters for the bytes of some layers, or its refusal."""
    layers = [Layer(reading.read_table(layer, layer[6])[0], kind) for layer in layers]
    try:
        return "dates %s\nfilters %s\n" % (dates_told(layers), filters_told(layers))
    except Refused as refused:
        return "refused %s\n" % refused


def numbers(content, size):
    """The numbers of so many bytes each."""
    return [int.from_bytes(content[at : at + size], "big") for at in range(0, len(content) - size + 1, size)]


class Layer:
    """The chunks of a layer, with the times and the parents of its commits."""

    def __init__(self, chunks, kind):
        self.chunks = chunks
        size = ID_LENGTH[kind]
        records = chunks[b"CDAT"]
        rows = [records[at + size : at + size + 16] for at in range(0, len(records), size + 16)]
        self.times = [int.from_bytes(row[8:], "big") % 2**TIME_BITS for row in rows]
        self.edges = numbers(chunks.get(b"EDGE", b""), 4)
        self.parents = [self.parents_in(*numbers(row[:8], 4)) for row in rows]

    def parents_in(self, first, second):
        """The positions of the parents that two fields give."""
        if first == NO_PARENT:
            return []
        if second == NO_PARENT:
            return [first]
        if second < TOP_BIT:
            return [first, second]
        listed = self.edges[second - TOP_BIT :]
        last = next(place for place, word in enumerate(listed) if word >= TOP_BIT)
        return [first, *listed[:last], listed[last] - TOP_BIT]


def starts(layers):
    """Each layer with its number and the number of commits before it."""
    before = 0
    for number, layer in enumerate(layers):
        yield number, before, layer
        before += len(layer.times)


def dates_told(layers):
    """What is told of the dates."""
    if any(b"GDA2" not in layer.chunks for layer in layers):
        return "none"
    dates = [date for number, before, layer in starts(layers) for date in stored_dates(number, before, layer)]
    for _, before, layer in starts(layers):
        for place, (time, parents) in enumerate(zip(layer.times, layer.parents)):
            expected = max([time, 1] + [dates[parent] + 1 for parent in parents])
            if dates[before + place] != expected:
                raise Refused("dates 5 position %d expected %d" % (before + place, expected))
    return "commits %d" % len(dates)


def stored_dates(number, before, layer):
    """The dates of one layer."""
    offsets, overflow = layer.chunks[b"GDA2"], layer.chunks.get(b"GDO2", b"")
    if len(offsets) != 4 * len(layer.times):
        raise Refused("dates 1 layer %d" % number)
    if len(overflow) % 8:
        raise Refused("dates 2 layer %d" % number)
    further, dates = numbers(overflow, 8), []
    for place, word in enumerate(numbers(offsets, 4)):
        if word >= TOP_BIT and word - TOP_BIT >= len(further):
            raise Refused("dates 3 position %d" % (before + place))
        dates.append(layer.times[place] + (further[word - TOP_BIT] if word >= TOP_BIT else word))
        if dates[-1] >= 2**63:
            raise Refused("dates 4 position %d" % (before + place))
    return dates


def filters_told(layers):
    """What is told of the filters."""
    settings, computed = None, 0
    for number, before, layer in starts(layers):
        if b"BIDX" not in layer.chunks or b"BDAT" not in layer.chunks:
            continue
        own, sizes = stored_filters(number, before, layer)
        settings = settings or own
        if own != settings:
            raise Refused("filters 9 layer %d" % number)
        computed += sum(size > 0 for size in sizes)
    return "none" if settings is None else "commits %d" % computed


def stored_filters(number, before, layer):
    """The version and the number of hashes of the filters of one layer, and how many bytes each filter has."""
    index, body = layer.chunks[b"BIDX"], layer.chunks[b"BDAT"]
    head = numbers(body[:12], 4)
    for condition, wrong in (
        ("1 layer %d" % number, lambda: len(index) != 4 * len(layer.times)),
        ("2 layer %d" % number, lambda: len(body) < 12),
        ("3 layer %d version %d" % (number, (head or [0])[0]), lambda: head[0] not in (1, 2)),
        ("4 layer %d" % number, lambda: not 0 < head[1] <= 65535),
        ("5 layer %d" % number, lambda: head[2] == 0),
    ):
        if wrong():
            raise Refused("filters " + condition)
    ends = numbers(index, 4)
    for place, (start, end) in enumerate(zip([0, *ends], ends)):
        if end < start:
            raise Refused("filters 6 position %d" % (before + place))
        if end > len(body) - 12:
            raise Refused("filters 7 position %d" % (before + place))
    if [0, *ends][-1] < len(body) - 12:
        raise Refused("filters 8 layer %d" % number)
    return head[:2], [end - start for start, end in zip([0, *ends], ends)]
