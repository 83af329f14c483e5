"""What `merge` has to answer of right layers, by a plain reading of them and a plain writing of one file.

It is written from Git's commit-graph format, and shares nothing with the program.
"""

import itertools

from damage.built import NO_PARENT, TOP_BIT
from damage.layer import big_endian, exact_fan, with_chunks
from expected import further, reading
from expected.listing import GREATEST_GENERATION
from expected.objects import Graph

FAR = 2**31
"""An offset of so much or more stands among the large ones."""


def refusal(graph):
    """The line by which the commits of right layers are refused, with a star for a number that may be one of several, or
    None."""
    if not graph.ids:
        return "refused write 9\n"
    first = {}
    for position, commit in enumerate(graph.ids):
        if commit in first:
            return "refused write 5 commit %d earlier %d\n" % (position, first[commit])
        first[commit] = position
    return "refused write 8 commit *\n" if on_cycles(parents_of(graph)) else None


def parents_of(graph):
    """The positions of each commit's parents."""
    return [record[1] for record in graph.records]


def below(parents, commit):
    """The commits to which a walk of at least one step leads from one."""
    found, ahead = set(), list(parents[commit])
    while ahead:
        parent = ahead.pop()
        if parent not in found:
            found.add(parent)
            ahead += parents[parent]
    return found


def on_cycles(parents):
    """The commits from which a walk leads back to them."""
    return {commit for commit in range(len(parents)) if commit in below(parents, commit)}


def in_order(parents):
    """The commits, each after its parents."""
    done, order = set(), []
    ahead = list(range(len(parents)))
    while ahead:
        commit = ahead[-1]
        waiting = [parent for parent in parents[commit] if parent not in done]
        if waiting and commit not in done:
            ahead += waiting
            continue
        ahead.pop()
        if commit not in done:
            done.add(commit)
            order.append(commit)
    return order


def filter_chunks(layers, kind, order):
    """The chunks of filters of one file with the commits of right layers, which stand there in this order: the filters of all
    layers, where all have filters, and nothing refuses them, behind the three numbers of the highest layer."""
    layers = [further.Layer(reading.read_table(layer, layer[6])[0], kind) for layer in layers]
    if not all(b"BIDX" in layer.chunks and b"BDAT" in layer.chunks for layer in layers):
        return {}
    try:
        further.filters_told(layers)
    except further.Refused:
        return {}
    filters = [part for layer in layers for part in filters_in(layer)]
    ends = itertools.accumulate(len(filters[commit]) for commit in order)
    return {
        b"BIDX": b"".join(big_endian(end, 4) for end in ends),
        b"BDAT": layers[-1].chunks[b"BDAT"][:12] + b"".join(filters[commit] for commit in order),
    }


def filters_in(layer):
    """The filters of a layer, which are right."""
    ends, body = further.numbers(layer.chunks[b"BIDX"], 4), layer.chunks[b"BDAT"][12:]
    return [body[start:end] for start, end in zip([0, *ends], ends)]


def file_of(layers):
    """The file of one layer with the commits of right layers, in which no id stands twice and no commit is on a cycle."""
    graph = Graph(layers)
    parents, levels, dates = parents_of(graph), {}, {}
    for commit in in_order(parents):
        levels[commit] = min(1 + max([levels[parent] for parent in parents[commit]], default=0), GREATEST_GENERATION)
        dates[commit] = max(graph.records[commit][2], 1 + max([dates[parent] for parent in parents[commit]], default=0))
    order = sorted(range(len(graph.ids)), key=lambda commit: graph.ids[commit])
    place = {commit: number for number, commit in enumerate(order)}
    records, words, offsets, far = b"", [], b"", []
    for commit in order:
        tree, _, time = graph.records[commit]
        first, *others = [place[parent] for parent in parents[commit]] or [NO_PARENT]
        second = others[0] if others else NO_PARENT
        if len(others) > 1:
            second = TOP_BIT + len(words)
            words += [*others[:-1], TOP_BIT + others[-1]]
        records += bytes.fromhex(tree) + big_endian(first, 4) + big_endian(second, 4)
        records += big_endian((levels[commit] << 34) + time, 8)
        offset = dates[commit] - time
        offsets += big_endian(TOP_BIT + len(far) if offset >= FAR else offset, 4)
        far += [offset] if offset >= FAR else []
    ids = [bytes.fromhex(graph.ids[commit]) for commit in order]
    chunks = {
        b"OIDF": b"".join(big_endian(count, 4) for count in exact_fan(ids)),
        b"OIDL": b"".join(ids),
        b"CDAT": records,
        b"GDA2": offsets,
        b"GDO2": b"".join(big_endian(offset, 8) for offset in far),
        b"EDGE": b"".join(big_endian(word, 4) for word in words),
        **filter_chunks(layers, graph.kind, order),
    }
    header = b"CGPH\x01" + bytes([1 if graph.kind == "sha1" else 2, 0, 0])
    return with_chunks(header, graph.kind, [(name, content) for name, content in chunks.items() if content])
