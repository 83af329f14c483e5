"""Graphs with corrected dates and changed-path filters and without, right and wrong, for the library; and what has to be told
of their dates and filters, by the plain reading of suites/real_data."""
import functools
import itertools
import random

import real
from checks import damaged_checks, further_checks, late_checks
from damage import examples, further
from expected import reading
from expected.filters import SEEDS, WORD, murmur3
from expected.further import Layer, Refused, dates_told, filters_told, numbers, starts, stored_dates
from histories import shapes
from histories.repository import ID_LENGTH, Repository
from histories.shapes import Commit

TIMES = (2000, 1000, 0, 0, 2**33, 5, 5, 2**34 - 1, 2**34 - 1, 0, 7)
"""The times of a history: some go back, and some have 34 bits."""
AT_RANDOM = 60
"""So many graphs at random, some of them damaged, and some refused by their check."""


@functools.lru_cache(maxsize=None)
def graphs(folder, kind):
    """All of them, for a kind of hash: each with its name, its path and its layers, the lowest first."""
    found = []
    for number, (name, layers) in enumerate(all_layers(folder, kind)):
        path = laid_out(folder / f"{kind} graph {number}", layers, ID_LENGTH[kind])
        found.append((f"{kind}, {name}", path, layers))
    return found


def all_layers(folder, kind):
    """The layers of each graph, the lowest first."""
    repository = Repository(str(folder / f"{kind} times"), kind)
    repository.add([Commit((place - 1,) if place % 4 else (), time) for place, time in enumerate(TIMES)])
    for version in (1, 2):
        yield f"generation version {version}", [repository.new_graph(generation_version=version)]
    repository, history = Repository(str(folder / f"{kind} chain"), kind), shapes.tangled(24, seed=9)
    for start in range(0, len(history), 6):
        repository.add(history[: start + 6], start)
        last = start + 6 == len(history)
        repository.write_graph("--split=no-merge", generation_version=1 if last else 2)
        yield f"{start // 6 + 1} layers", [layer for _, layer in repository.chain()]
    repository = Repository(str(folder / f"{kind} damaged dates"), kind)
    further_checks.add_changes(repository, damaged_checks.FIVE)
    layer = repository.new_graph("--changed-paths")
    for name, _, edits in damaged_checks.damages(layer, kind):
        yield name, damaged_checks.edited([layer], kind, [edits])
    yield from zip(BY_HAND, layers_by_hand()) if kind == "sha1" else ()
    chance = random.Random(4)
    found = filter(lambda graph: graph.kind == kind, (further.graph(chance) for _ in itertools.count()))
    for number, graph in enumerate(itertools.islice(found, AT_RANDOM)):
        yield f"graph {number} at random", graph.layers


BY_HAND = {
    "five commits by hand": (3001, 2001, 3000, 2000, 2002),
    "a commit on three roots by hand": (31, 10, 30, 20),
    "600 commits by hand": range(9000, 9600),
    "600 commits in three layers by hand": range(9000, 9600),
}
"""The dates of some graphs, as they were worked out by hand."""


def layers_by_hand():
    """The layers of these graphs."""
    files = examples.checked()
    yield from ([files["dates"]], [files["octopus"]])
    for stops in late_checks.STOPS:
        yield late_checks.of_layers(stops, functools.partial(late_checks.dates, {}))[0]


def laid_out(folder, layers, size):
    """The path of the chain of some layers, in a folder of its own."""
    folder.mkdir()
    names = [layer[-size:].hex() for layer in layers]
    for name, layer in zip(names, layers):
        (folder / f"graph-{name}.graph").write_bytes(layer)
    (folder / "commit-graph-chain").write_text("".join(name + "\n" for name in names))
    return folder / "commit-graph-chain"


def read_layers(layers):
    """The chunks of some layers."""
    kind = "sha256" if layers[0][5] == 2 else "sha1"
    return [Layer(reading.read_table(layer, layer[6])[0], kind) for layer in layers]


def wanted_dates(title, layers):
    """What is told of the dates of a graph: those that were worked out by hand, or those of a plain reading."""
    dates = BY_HAND.get(title.partition(", ")[2])
    return told_dates(layers) if dates is None else f"dates commits {len(dates)}\n" + "".join(f"{date}\n" for date in dates)


def told_dates(layers):
    """The line of the dates of some layers, and a line for each date; or the line of the refusal."""
    read = read_layers(layers)
    try:
        said = dates_told(read)
    except Refused as refused:
        return f"refused {refused}\n"
    dates = [date for place in starts(read) for date in stored_dates(*place)] if said != "none" else []
    return f"dates {said}\n" + "".join(f"{date}\n" for date in dates)


def told_filters(layers, path):
    """For each commit of some layers a line with what its filter says of a path; or the line of the refusal."""
    read = read_layers(layers)
    try:
        filters_told(read)
    except Refused as refused:
        return f"refused {refused}\n"
    return "".join(f"{answer}\n" for layer in read for answer in answers(layer, path))


def answers(layer, path):
    """What the filters of a layer say of a path: 0 where it is absent, 1 where it is possible, and 2 where there is none."""
    if b"BIDX" not in layer.chunks or b"BDAT" not in layer.chunks:
        return [2] * len(layer.times)
    ends, data = numbers(layer.chunks[b"BIDX"], 4), layer.chunks[b"BDAT"]
    version, hashes = numbers(data[:8], 4)
    parts = [data[12 + start : 12 + end] for start, end in zip([0, *ends], ends)]
    return [answer(part, hashes, path, (True, False) if version == 1 else (False,)) if part else 2 for part in parts]


def answer(part, hashes, path, readings):
    """Whether all bits of a path are set in a filter, its bytes read as signed numbers or not."""
    bits = int.from_bytes(part, "little")
    for signed in readings:
        first, step = (murmur3(seed, path, signed) for seed in SEEDS)
        if all(bits >> (first + number * step) % WORD % (8 * len(part)) & 1 for number in range(hashes)):
            return 1
    return 0
