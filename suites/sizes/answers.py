"""What the commands have to answer of a shape, by its plan."""

import collections
import re

VISITS = re.compile(rb"(?m)^visits (\d+)$")
"""The line of how many commits were visited, which no plan says: it lies within bounds."""


def lines(texts):
    """The text of some lines."""
    return "".join(text + "\n" for text in texts)


def verified(shape):
    """What `verify` and `distinct` write."""
    plan, counts = shape.plan, collections.Counter(len(parents) for parents in shape.plan.parents[: shape.count])
    head = "ok commits %d longest %d" % (shape.count, max(plan.generations[: shape.count]) - 1)
    return lines([head, *("parents %d commits %d" % count for count in sorted(counts.items()))])


def checked(shape):
    """What `check` writes."""
    filters = shape.plan.filters and sum(bool(shape.plan.filters.get(number)) for number in range(shape.count))
    return verified(shape) + lines(["dates commits %d" % shape.count, "filters " + ("commits %d" % filters if filters else "none")])


def listed(shape, layer):
    """What `list` writes of a layer."""
    plan, start = shape.plan, shape.plan.starts[layer]
    size = shape.layers[layer]
    yield "layer %s bases %d commits %d\n" % (plan.kind, layer, size)
    checksums = [content[-plan.size :].hex() for content in shape.contents]
    yield from ("base %s\n" % checksum for checksum in checksums[:layer])
    for place, number in enumerate(plan.numbers[start : start + size]):
        parents = ",".join(str(plan.positions[parent]) for parent in plan.parents[number]) or "-"
        said = (place, plan.hex(number), plan.tree(number).hex(), plan.generations[number], plan.times[number], parents)
        yield "%d %s %s %d %d %s\n" % said


def shown(shape):
    """What `show` writes."""
    for layer, content in enumerate(shape.contents):
        filters = "version %d hashes %d bits %d" % FILTERS if shape.plan.filters else "none"
        said = (layer, shape.layers[layer], shape.kind, layer, filters)
        yield "layer %d commits %d hash %s bases %d dates yes filters %s" % said
        yield "checksum " + content[-shape.plan.size :].hex()
        yield "chunks " + " ".join(chunk_sizes(content))
    yield "graph layers %d commits %d generation %d" % (len(shape.layers), shape.count, max(shape.plan.generations[: shape.count]))
    yield "right"


FILTERS = (1, 7, 10)
"""The settings of all filters."""


def chunk_sizes(content):
    """The name and the bytes of each chunk of a file that Git's format names: not of the padding."""
    table = [content[at : at + 12] for at in range(8, 8 + 12 * (content[6] + 1), 12)]
    starts = [int.from_bytes(entry[4:], "big") for entry in table]
    names = [entry[:4].decode() for entry in table]
    return ("%s %d" % (name, end - start) for name, start, end in zip(names, starts, starts[1:]) if name != "XPAD")


def found(shape, number):
    """What `find` writes of a commit."""
    plan = shape.plan
    return "position %d generation %d time %d\n" % (plan.positions[number], plan.generations[number], plan.times[number])


def ids(shape, numbers):
    """A line for the id of each commit."""
    return lines(map(shape.plan.hex, numbers))


def walk_of_positions(shape):
    """What `ancestor` writes of the walk."""
    walk = " ".join(str(shape.plan.positions[number]) for number in shape.walk)
    return "walk %s\nvisits %d-%d\n" % (walk, len(shape.walk) - 1, shape.count)


def compared(shape):
    """What `merge-base` writes."""
    bases = ["base %d %s" % (shape.plan.positions[number], shape.plan.hex(number)) for number in shape.bases]
    least = shape.ahead + shape.behind + len(shape.bases)
    return lines([*bases, "ahead %d behind %d" % (shape.ahead, shape.behind), "visits %d-%d" % (least, 3 * shape.count)])


def common(shape):
    """What the last commit and all commits have in common: that commit, and all but those that lead to it are behind it."""
    left = {shape.order()[-1]}
    led = set(left)
    while left:
        left = {parent for number in left for parent in shape.plan.parents[number]}.difference(led)
        led.update(left)
    return "Ok([Position(%d)])\nOk(Divergence { ahead: 0, behind: %d })" % (shape.count - 1, shape.count - len(led))


def parents(shape, number):
    """What the question for the parents of a commit gets."""
    return " ".join(["parents", *map(shape.plan.hex, shape.plan.parents[number])]) + "\n"


def status(wanted):
    """The exit status of a command that answers these bytes: 1 after `no` and `none`, and after a refusal."""
    last = wanted.rpartition(b"\n")[0].rpartition(b"\n")[2]
    return 1 if last in (b"no", b"none") or last.startswith(b"refused ") else 0


def complaint(wanted, status, told):
    """What is wrong with the exit status and the bytes that were written, or None. A line `visits 3-9` of what is wanted stands for all
    numbers from 3 to 9."""
    if told[0] != status:
        return "status %s: %r" % (told[0], told[1][-200:])
    bounds = re.search(rb"(?m)^visits (\d+)-(\d+)$", wanted) if len(wanted) < 2**26 else None
    seen = VISITS.search(told[1]) if bounds else None
    if seen and int(bounds[1]) <= int(seen[1]) <= int(bounds[2]):
        wanted = wanted.replace(bounds[0], seen[0])
    if told[1] == wanted:
        return None
    at = next((place for place, (one, other) in enumerate(zip(told[1], wanted)) if one != other), min(len(told[1]), len(wanted)))
    return "at byte %d of %d: %r, and not %r" % (at, len(wanted), told[1][at : at + 60], wanted[at : at + 60])
