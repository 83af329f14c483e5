"""The shapes of histories that are made to do harm, each of a size that can be doubled."""

from functools import partial

from sizes import planned
from sizes.planned import ID_SIZE, Plan
from sizes.shapes import Shape, chain, long, octopus, one_of, small

KIND = "sha1"


def lines(size):
    """Two lines of `size` commits on another one."""
    return long(KIND, size, size)


def layers(size):
    """A chain of `size` layers."""
    return chain(KIND, size, 4, others=16)


def alike(size):
    """A chain of `size` layers, in which all ids begin with the same byte, so that each is looked for in each layer. They rise with the
    layers: how many ids of a layer are read before one is not found does not depend on which one it is."""
    return chain(KIND, size, 4, others=16, ids=rising)


def parents(size):
    """A commit with `size` parents, and as many others in one question."""
    return octopus(KIND, size, others=size)


def lists(size):
    """Commits without parents, as many as `size`, and two lines on them that share one list of them: each commit of a line has the one
    before it as its first parent, and then all on the list from some place on. So the lists are nested, and together far longer than the
    file."""
    roots, count = range(size), 2 * (size - 2)
    above = [(size + place - 2 if place > 1 else 0, *roots[place // 2 :]) for place in range(count)]
    tips = size + count - 2, size + count - 1
    plan = Plan(KIND, [*((),) * size, *above, tips], [size + count, 1], shared=roots)
    return Shape("lists", plan, range(tips[1], size, -2), tips, (*tips[:1], tips[1:], [*roots], size - 2, size - 2))


def prefix(size):
    """A line of commits whose ids begin with the same sixteen bytes."""
    return line_of("prefix", size, partial(with_front, b"\x77" * 16))


def steps(size):
    """A line of commits whose ids stand close to each other but for a few, so that a share of the ids says nothing of where one is."""
    return line_of("steps", size, uneven)


def with_front(front, number):
    """An id with these bytes at its front."""
    return front + (number * 2_654_435_761 % 2**32).to_bytes(4, "big") + bytes(ID_SIZE[KIND] - len(front) - 4)


def rising(number):
    """An id that is above those of all numbers before."""
    return b"\x77" + (number + 1).to_bytes(ID_SIZE[KIND] - 1, "big")


def uneven(number):
    """An id in the same bucket as all others: the numbers behind its first byte are squares."""
    return b"\x55" + (1 + number * number * 7).to_bytes(8, "big")[-6:] + bytes(ID_SIZE[KIND] - 7)


def line_of(name, size, ids):
    """A line of so many commits with such ids, and one on top."""
    plan = Plan(KIND, [(), *((number,) for number in range(size))], [size, 1], ids=ids)
    half = size // 2
    return Shape(name, plan, range(size - 1, half - 1, -1), (size - 1, half), (size - 1, [half], [half], size - 1 - half, 0))


def tower(size):
    """A line of `size` commits in one layer, and a layer of one commit on it."""
    plan = Plan(KIND, [(), *((number,) for number in range(size))], [size, 1])
    return Shape("tower", plan, [size, size - 1], (size, 0), (size, [size - 1], [size - 1], 1, 0), shown=2)


def marks(size):
    """A commit of whose author and committer the names have `size` marks like those that end an address."""
    return small(KIND, "marks", person=partial(one_of, {3: b"A " + b">" * size + b" <a@b>"}, planned.person_of))


def message(size):
    """A commit with a message of `size` bytes."""
    return small(KIND, "message", message=partial(one_of, {3: b"line\n" * (size // 5)}, planned.message_of))


def padding(size):
    """A file with a chunk of `size` bytes that nothing reads."""
    return small(KIND, "padding", padding=size)


def trees(size):
    """A line of `size` commits, each of which changes one of eight files, with the filters that Git writes of them."""
    written = partial(eight_files, size=ID_SIZE[KIND])
    filters = {number: OF_ONE[number % 8] if number else OF_EIGHT for number in range(size)}
    plan = Plan(KIND, [(), *((number,) for number in range(size))], [size, 1], filters=filters, trees=written)
    return Shape("trees", plan, range(size - 1, -1, -1), (size - 1, 0), (size - 1, [0], [0], size - 1, 0))


OF_EIGHT = bytes.fromhex("925be2b829343bdac633")
OF_ONE = tuple(map(bytes.fromhex, ("a8aa", "249b", "2222", "1111", "aa54", "f803", "c718", "a552")))
"""The filters that Git writes where files `f0` up to `f7` are changed, and one of them: of version 1, with 7 hashes and 10 bits for each."""


def eight_files(number, size):
    """A tree of files `f0` up to `f7`, of which that at the number, modulo 8, has the number as its id, and those before it the ones
    before."""
    latest = [(max(0, (number - place) // 8 * 8 + place) + 1).to_bytes(size, "big") for place in range(8)]
    return b"".join(b"100644 f%d\0%s" % (place, name) for place, name in enumerate(latest))


def filters(size):
    """Commits of which one has a filter of `size` bytes."""
    return small(KIND, "filters", filters={1: b"\0\xff" * (size // 2), 2: b"\xff"})
