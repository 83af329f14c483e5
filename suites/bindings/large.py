"""A graph of 300,000 commits, written here, and what each call has to tell of it, by its plan: a line of blocks of three
commits, each two commits on the merge before them, and their merge."""
import array
import hashlib
import itertools
import fields
import random
import struct

COMMITS = 300_000
STRIDE, FIRST = 7, 5
"""Commit k of the line stands at position STRIDE k + FIRST, in a circle."""
BACK = pow(STRIDE, -1, COMMITS)
TIME = 1_000_000_000
NONE = 0x70000000
"""Where there is no parent."""
SPREAD = 2**32 // COMMITS
"""By so much the first words of ids ascend."""
RECORD = struct.Struct(">20s4I")
CHUNKS = (b"OIDF", b"OIDL", b"CDAT", b"GDA2", b"BIDX", b"BDAT")
PAIRS, OTHERS = 1000, 100


def position(number):
    return (STRIDE * number + FIRST) % COMMITS


def numbers():
    """The commits, in the order of their positions."""
    return ((place - FIRST) * BACK % COMMITS for place in range(COMMITS))


def parents(number):
    """The parents of a commit, by their positions: of a merge the two before it, and of these the merge before."""
    block, place = divmod(number, 3)
    if place == 2:
        return [position(number - 2), position(number - 1)]
    return [position(3 * block - 1)] if block else []


def generation(number):
    return 2 * (number // 3) + (2 if number % 3 == 2 else 1)


def id_at(place):
    return (SPREAD * place).to_bytes(4, "big") + 16 * b"\x2a"


def tree_at(place):
    return place.to_bytes(4, "big") + 16 * b"\x17"


def filter_at(place):
    """The filter of a commit: none, or one of a byte, in which each path is possible, or none is."""
    return b"" if place % 5 == 0 else b"\xff" if place % 2 else b"\0"


def record(place, number):
    first, second = (*parents(number), NONE, NONE)[:2]
    return RECORD.pack(tree_at(place), first, second, generation(number) << 2, TIME)


def words(items):
    return struct.pack(f">{COMMITS}I", *items)


def graph():
    """The bytes of the file, of SHA-1."""
    fan = [min(COMMITS, -(-((byte + 1) << 24) // SPREAD)) for byte in range(256)]
    filters = [filter_at(place) for place in range(COMMITS)]
    bodies = (
        struct.pack(">256I", *fan),
        b"".join(map(id_at, range(COMMITS))),
        b"".join(map(record, range(COMMITS), numbers())),
        words(generation(number) - 1 for number in numbers()),
        words(itertools.accumulate(map(len, filters))),
        struct.pack(">3I", 2, 7, 10) + b"".join(filters),
    )
    starts = itertools.accumulate(map(len, bodies), initial=8 + 12 * (len(bodies) + 1))
    table = b"".join(struct.pack(">4sQ", name, start) for name, start in zip((*CHUNKS, bytes(4)), starts))
    data = b"CGPH\1\1" + bytes([len(bodies), 0]) + table + b"".join(bodies)
    return data + hashlib.sha1(data).digest()


def leads(number, other):
    """Whether a commit leads to another: to itself, to all of the blocks below, and a merge to all of its own block."""
    return number == other or number // 3 > other // 3 or (number // 3 == other // 3 and number % 3 == 2)


def asked():
    """The pairs, most of them near each other, the first from the last commit to the first one; a commit, and others."""
    chance = random.Random(7)
    pairs = [(COMMITS - 1, 0)]
    while len(pairs) < PAIRS:
        number = chance.randrange(1000, COMMITS)
        pairs.append((number, min(COMMITS - 1, number + chance.randrange(-300, 30))))
    return pairs, COMMITS - 3, [chance.randrange(COMMITS // 2, COMMITS - 3) for _ in range(OTHERS - 1)] + [COMMITS - 2]


def questions():
    """The same as numbers of 32 bits, by positions; of a pair first the one that may be an ancestor."""
    pairs, first, others = asked()
    flat = [number for pair in pairs for number in reversed(pair)]
    return array.array("I", [PAIRS, *map(position, flat), position(first), OTHERS, *map(position, others)]).tobytes()


def verdict():
    """Of the right graph: its longest walk goes through all blocks, and 2 commits have no parent."""
    blocks = COMMITS // 3
    yield ["verdict", 0, COMMITS, 2 * blocks - 1, 1, 0, 0, COMMITS, 0, 0, 3]
    yield from (["count", 0, 2], ["count", 1, 2 * blocks - 2], ["count", 2, blocks])


def rows():
    """All that is printed of the right graph. The commit that is compared, and the last other one, are those of the last block:
    each leads to itself, and to all of the blocks below."""
    yield from (["error", 0, 0, 1], ["checked", 0, 0, 1])
    yield from [*verdict()] * 3
    yield ["block", COMMITS, sum(len(parents(number)) for number in range(COMMITS))]
    yield ["dates", 0, 0, 0, 0, COMMITS]
    yield ["probed", 4, 0, 0, 0, COMMITS]
    yield ["reached", 0, 2 * COMMITS // 3]
    yield from (["answered", 0, PAIRS], ["answered", 4, PAIRS - 1])
    yield from (["bases", 0, 1, 1, 1], ["bases", 4, 0, 0, 0], ["bases", 0, COMMITS - 2, 0, 0])


def answers():
    """All that is written, but for the walk: what comes before it, and what comes after."""
    order = list(numbers())
    above = [parents(number) for number in order]
    pairs, _, _ = asked()
    before = (
        array.array("Q", [TIME]) * COMMITS,
        array.array("I", map(generation, order)),
        b"".join(map(id_at, range(COMMITS))),
        b"".join(map(tree_at, range(COMMITS))),
        array.array("Q", map(len, above)),
        array.array("I", itertools.chain(*above)),
        array.array("Q", (TIME - 1 + generation(number) for number in order)),
        bytes({b"": 2, b"\xff": 1, b"\0": 0}[filter_at(place)] for place in range(COMMITS)),
    )
    after = (bytes(leads(*pair) for pair in pairs), array.array("I", [position(COMMITS - 4)]))
    return b"".join(map(bytes, before)), b"".join(map(bytes, after))


def is_walk(data):
    """Whether positions are those of a walk from the last commit to the first one."""
    walk = [(place - FIRST) * BACK % COMMITS for place in array.array("I", data)]
    steps = all(position(below) in parents(number) for number, below in zip(walk, walk[1:]))
    return steps and (walk[0], walk[-1]) == (COMMITS - 1, 0)


def faults(data):
    """Files with a fault at the last commit, which stands at the last position but one; each with rows that are printed of it."""
    last = position(COMMITS - 1)
    at = fields.chunk(data, b"CDAT") + RECORD.size * last
    dates, index = (fields.chunk(data, name) + 4 * last for name in (b"GDA2", b"BIDX"))
    number = generation(COMMITS - 1)
    tree = data
    for place in range(at, at + 20, 4):
        tree = fields.changed(tree, place, 0)
    checks = (
        ("tree", tree, fields.verdict(353, last, 0, last)),
        ("parent", fields.changed(data, at + 20, COMMITS), fields.verdict(307, last, COMMITS, last)),
        ("number", fields.changed(data, at + 28, (number + 1) << 2), fields.verdict(308, last, number, last)),
        ("checksum", data[:-1] + bytes([data[-1] ^ 1]), fields.verdict(341)),
    )
    for fault, changed, told in checks:
        yield fault, changed, [["checked", told[0], 0, 0], ["verdict", *told]]
    yield "date", fields.changed(data, dates, number), [["dates", 405, last, 0, TIME - 1 + number, 0]]
    yield "filter", fields.changed(data, index, 0), [["probed", 506, last, 0, 0, 0]]
    yield "cut", data[:-1], [["error", 115, 0, 0]]
