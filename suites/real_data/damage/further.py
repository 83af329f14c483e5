"""Graphs at random with corrected dates and changed-path filters, some of them damaged.

Most are right but for what is done to their further chunks, to which several things may be done at once. Commits share extra
edge lists, a layer may have no commits or no further chunks, and some commits lie on cycles.
"""

import hashlib
import itertools
from typing import List, NamedTuple

from damage.built import NO_PARENT, TOP_BIT
from damage.layer import big_endian, exact_fan, with_chunks
from expected.facts import summary
from expected.further import numbers
from expected.listing import GREATEST_GENERATION
from histories.repository import ID_LENGTH

TIMES = (0, 0, 1, 7, 1000, 1001, 2**31, 2**32 - 1, 2**33, 2**34 - 1)

FURTHER = (b"GDA2", b"GDO2", b"BIDX", b"BDAT")


class Graph(NamedTuple):
    """The files of a graph, the lowest layer first, and what `verify` says of them."""

    kind: str
    layers: List[bytes]
    verified: str


class Layer(NamedTuple):
    """The commits of a layer: where their positions begin, their times and parents, and the dates that the rule gives."""

    start: int
    times: List[int]
    parents: List[tuple]
    dates: List[int]


def graph(chance):
    """A graph of one layer or up to four."""
    kind = chance.choice(list(ID_LENGTH))
    sizes = [chance.choice((0, 1, 2, 3, 5, 8, 13)) for _ in range(chance.choice((1, 1, 2, 3, 4)))]
    starts = list(itertools.accumulate([0, *sizes]))
    wild = 0.3 if chance.random() < 0.1 else 0
    parents, times = history(starts, chance, wild), [chance.choice(TIMES) for _ in range(starts[-1])]
    generations, dates = settled(parents, [1] * starts[-1]), settled(parents, [max(time, 1) for time in times])
    generations = [min(level, GREATEST_GENERATION) if level <= len(parents) else GREATEST_GENERATION for level in generations]
    if generations and chance.random() < 0.03:
        generations[chance.randrange(len(generations))] += chance.choice((-1, -1, -2))
        generations = [max(level, 0) for level in generations]
    bounds = [slice(*pair) for pair in zip(starts, starts[1:])]
    layers = [Layer(part.start, times[part], parents[part], dates[part]) for part in bounds]
    files = []
    for layer, part, chunks in zip(layers, bounds, further_chunks(layers, chance)):
        files.append(file_of(kind, layer, generations[part], chunks, files, chance))
    return Graph(kind, files, verified(parents, generations))


def some_files(count, chance):
    """Files of so many graphs of one layer."""
    graphs = (graph(chance) for _ in itertools.count())
    return [found.layers[0] for found in itertools.islice((found for found in graphs if len(found.layers) == 1), count)]


def history(starts, chance, wild):
    """The parents of each commit: earlier ones in some order, among them the ends of lists of others; and of so many commits
    in one any parent more."""
    parents = [()] * starts[-1]
    for start, stop in zip(starts, starts[1:]):
        before, lists = list(range(start)), []
        for commit in chance.sample(range(start, stop), stop - start):
            count = min(len(before), chance.choice((0, 1, 1, 1, 2, 2, 3, 4, 6)))
            chosen = chance.choices(before, k=count) if count else []
            if lists and count > 1 and chance.random() < 0.5:
                shared = chance.choice(lists)
                chosen[1:] = shared[chance.randrange(len(shared)) :]
            if len(chosen) > 2:
                lists.append(chosen[1:])
            before.append(commit)
            if wild and chance.random() < wild:
                chosen.append(chance.randrange(stop))
            parents[commit] = tuple(chosen)
    return parents


def settled(parents, least):
    """For each commit the least number that it may have, or one more than the greatest of its parents, if that is more.

    Where a walk leads into a cycle there is no such number, and one comes that is greater than the number of commits.
    """
    found = least
    for _ in range(len(parents) + 1):
        found = [max([own] + [1 + found[parent] for parent in said]) for own, said in zip(least, parents)]
    return found


def verified(parents, generations):
    """What `verify` says of commits with these parents and generation numbers."""
    for position, (said, level) in enumerate(zip(parents, generations)):
        expected = min(1 + max([generations[parent] for parent in said], default=0), GREATEST_GENERATION)
        if level != expected:
            return "refused verify 8 position %d expected %d\n" % (position, expected)
    return summary([len(said) for said in parents], generations) if parents else "ok commits 0 longest 0\n"


def further_chunks(layers, chance):
    """The further chunks of each layer, some of them damaged."""
    settings = [chance.choice((1, 2)), chance.choice((1, 7, 7, 65535)), 10]
    dates, filters = (chance.choice((0.0, 0.7, 1.0, 1.0, 1.0)) for _ in range(2))
    chunks = []
    for layer in layers:
        own = right_dates(layer, chance) if chance.random() < dates else {}
        own.update(right_filters(layer, settings, chance) if chance.random() < filters else {})
        chunks.append(own)
    for _ in range(chance.choice((0, 0, 1, 1, 2, 3, 5))):
        place = chance.randrange(len(layers))
        chance.choice((other_number, other_number, other_number, cut, longer, emptied, dropped, added))(
            chunks[place], layers[place], chance
        )
    return chunks


def right_dates(layer, chance):
    """The chunks of right dates. Some of the numbers stand in the overflow list though they need not."""
    words, far = [], []
    for time, date in zip(layer.times, layer.dates):
        if date - time >= TOP_BIT or chance.random() < 0.1:
            far.append(date - time)
        words.append(TOP_BIT + len(far) - 1 if date - time >= TOP_BIT or far and far[-1] == date - time else date - time)
    chunks = {b"GDA2": joined(words, 4), b"GDO2": joined(far, 8)}
    return chunks if far or chance.random() < 0.1 else {b"GDA2": chunks[b"GDA2"]}


def right_filters(layer, settings, chance):
    """The chunks of filters of some bytes each; now and then of other settings."""
    version, hashes, bits = settings
    if chance.random() < 0.1:
        version, hashes, bits = chance.choice(((3 - version, hashes, bits), (version, 3, bits), (version, hashes, 11)))
    sizes = [chance.choice((0, 0, 1, 1, 2, 5)) for _ in layer.times]
    body = chance.getrandbits(8 * 5 * 13).to_bytes(5 * 13, "big")[: sum(sizes)]
    return {b"BIDX": joined(itertools.accumulate(sizes), 4), b"BDAT": joined((version, hashes, bits), 4) + body}


def joined(values, size):
    """Numbers of so many bytes each."""
    return b"".join(big_endian(value, size) for value in values)


def other_number(chunks, layer, chance):
    """Another number in a chunk: one at which something changes, or one that is near."""
    name = chance.choice(FURTHER)
    size = 8 if name == b"GDO2" else 4
    own = numbers(chunks.get(name, b""), size)[: 3 if name == b"BDAT" else None]
    if own:
        place, edge = chance.randrange(len(own)), 2**63 - chance.choice(layer.times or [0])
        words = {b"GDA2": (0, TOP_BIT - 1, TOP_BIT, TOP_BIT + 1, 2**32 - 1), b"GDO2": (0, edge - 1, edge, 2**64 - 1)}
        far = words.get(name, (0, 1, 2, 3, 7, 65535, 65536, 2**32 - 1))
        value = chance.choice((*far, own[place] - 1, own[place] + 1, own[place] + 1000)) % 2 ** (8 * size)
        chunks[name] = chunks[name][: size * place] + big_endian(value, size) + chunks[name][size * (place + 1) :]


def cut(chunks, _, chance):
    """The last bytes of a chunk less."""
    name = chance.choice(FURTHER)
    if name in chunks:
        chunks[name] = chunks[name][: -chance.choice((1, 2, 4, 8))]


def longer(chunks, _, chance):
    """Some bytes more at the end of a chunk."""
    name = chance.choice(FURTHER)
    if name in chunks:
        chunks[name] += bytes(chance.choice((1, 4, 4, 8)))


def emptied(chunks, _, chance):
    """A chunk of no bytes."""
    chunks[chance.choice(FURTHER)] = b""


def dropped(chunks, _, chance):
    """A chunk less."""
    chunks.pop(chance.choice(FURTHER), None)


def added(chunks, _, chance):
    """A chunk that Git does not write there."""
    chunks.setdefault(chance.choice((*FURTHER, b"GDAT", b"GDOV")), bytes(chance.choice((4, 8, 12, 16))))


def file_of(kind, layer, generations, further, below, chance):
    """The file of a layer over the files of those below it, its further chunks in some order."""
    size = ID_LENGTH[kind]
    ids = sorted(chance.getrandbits(8 * size).to_bytes(size, "big") for _ in layer.times)
    words, places, records = [], {}, b""
    for said, level, time in zip(layer.parents, generations, layer.times):
        first, *others = said or (NO_PARENT,)
        second = second_field(tuple(others), words, places)
        records += b"\x99" * size + joined((first, second), 4) + big_endian((level << 34) + time, 8)
    chunks = [(b"OIDF", joined(exact_fan(ids), 4)), (b"OIDL", b"".join(ids)), (b"CDAT", records)]
    chunks += [(b"EDGE", joined(words, 4))] if words or chance.random() < 0.1 else []
    chunks += [(b"BASE", b"".join(file[-size:] for file in below))] if below else []
    chunks += chance.sample(list(further.items()), len(further))
    return with_chunks(b"CGPH\x01" + bytes([1 if kind == "sha1" else 2, 0, len(below)]), kind, chunks)


def second_field(others, words, places):
    """The second field of a commit by its parents from the second on, which join the words unless they stand there."""
    if not others:
        return NO_PARENT
    if len(others) == 1 and others not in places:
        return others[0]
    if others not in places:
        places.update({others[skip:]: len(words) + skip for skip in range(len(others))})
        words += [*others[:-1], TOP_BIT + others[-1]]
    return TOP_BIT + places[others]
