"""What `show` has to say of the bytes of some layers, by a plain reading of their tables of chunks."""

from expected import further, reading
from histories.repository import ID_LENGTH

NAMES = (b"OIDF", b"OIDL", b"CDAT", b"GDA2", b"GDO2", b"EDGE", b"BIDX", b"BDAT", b"BASE")
"""The chunks of the format, in the order in which they are shown."""


def layer_lines(number, content, kind):
    """The lines of a layer, which has this number."""
    chunks, end = reading.read_table(content, content[6])
    made = "none"
    if b"BIDX" in chunks and len(chunks.get(b"BDAT", b"")) >= 12:
        made = "version %d hashes %d bits %d" % tuple(further.numbers(chunks[b"BDAT"][:12], 4))
    commits = len(chunks[b"OIDL"]) // ID_LENGTH[kind]
    dates = "yes" if b"GDA2" in chunks else "no"
    first = "layer %d commits %d hash %s bases %d dates %s filters %s\n" % (number, commits, kind, content[7], dates, made)
    sizes = "".join(" %s %d" % (name.decode(), len(chunks[name])) for name in NAMES if name in chunks)
    return first + "checksum %s\nchunks%s\n" % (content[end:].hex(), sizes)


def greatest_generation(content, kind):
    """The greatest generation number in a layer."""
    records, size = reading.read_table(content, content[6])[0][b"CDAT"], ID_LENGTH[kind] + 16
    fields = [int.from_bytes(records[at + size - 8 : at + size - 4], "big") for at in range(0, len(records), size)]
    return max((field >> 2 for field in fields), default=0)


def shown(verified, layers, kind, more=None):
    """The text of `show` for the bytes of some layers, the lowest first, of which `verify` says this. After the lines of each
    layer come those that `more` has for it, and after the whole its last ones."""
    more = more or [""] * (len(layers) + 1)
    lines = "".join(layer_lines(number, layer, kind) + more[number] for number, layer in enumerate(layers))
    commits = sum(len(reading.read_table(layer, layer[6])[0][b"OIDL"]) for layer in layers) // ID_LENGTH[kind]
    greatest = max(greatest_generation(layer, kind) for layer in layers)
    checked = further.checked(verified, layers, kind)
    verdict = checked if checked.startswith("refused") else "right\n"
    return lines + "graph layers %d commits %d generation %d\n" % (len(layers), commits, greatest) + more[-1] + verdict
