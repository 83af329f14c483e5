"""The graphs and the damaged files of suites/real_data, for the library: each with its name, its path and some ids."""
import functools
import pathlib
import sys

sys.path.insert(0, str(pathlib.Path(__file__).resolve().parent.parent / "real_data"))

from damage import built, forms, mutations, wrong_commits, wrong_layout
from damage.layer import sealed
from damage.original import Original
from expected.listing import listing
from histories import shapes
from histories.repository import ID_LENGTH, Repository

CHAINS = {
    "a chain of 3 layers": (shapes.octopus(3, 4, 2)[:12], 4),
    "a chain of 20 layers": (shapes.tangled(40, seed=6), 2),
}
"""Histories, and how many commits each layer has."""
MOST_IDS = 40
"""Of a history with more commits, some are asked about."""


@functools.lru_cache(maxsize=None)
def graphs(folder, kind):
    """A graph of each history, of a file or of a chain, as Git writes it."""
    found = []
    for name, history in shapes.ALL.items():
        repository = Repository(str(folder / f"{kind} {name}"), kind)
        ids = repository.add(history)
        repository.new_graph()
        found.append((f"{kind}, {name}", pathlib.Path(repository.graph_path()), some(ids)))
    for name, (history, size) in CHAINS.items():
        repository = Repository(str(folder / f"{kind} {name}"), kind)
        for start in range(0, len(history), size):
            ids = repository.add(history[: start + size], start)
            repository.write_graph("--split=no-merge")
        found.append((f"{kind}, {name}", pathlib.Path(repository.chain_path()) / "commit-graph-chain", some(ids)))
    return found


def some(ids):
    return ids[:: 1 + len(ids) // MOST_IDS]


def fronted(folder, kind, fronts):
    """The files of two layers of one commit each. The first eight bytes of their ids are these, and the others differ."""
    size, paths, checksums = ID_LENGTH[kind], [], []
    for number, front in enumerate(fronts):
        commit = built.Commit(bytes([front]) * 8 + bytes([number + 1]) * (size - 8), (), 1)
        paths.append(folder / f"{kind} front {number}")
        paths[-1].write_bytes(built.file_of(kind, [commit], checksums))
        checksums.append(paths[-1].read_bytes()[-size:])
    return paths


@functools.lru_cache(maxsize=None)
def damaged(folder, kind):
    """Files with one thing wrong and a right checksum, in other forms than Git's, changed at random, and cut."""
    repository = Repository(str(folder / f"{kind} damaged"), kind)
    ids = repository.add(shapes.octopus(3, 4, 2))
    layer, words = repository.new_graph(generation_version=1), repository.words()
    file = Original(layer, kind, listing(kind, words, [list(words)], []))
    found = []
    for number, (name, data) in enumerate(all_damaged(file, kind)):
        path = folder / f"{kind} damaged" / f"{number}"
        path.write_bytes(data)
        found.append((f"{kind}, {name}", path, ids[:: len(ids) - 1]))
    return found


def all_damaged(file, kind):
    """The damaged files, each with its name."""
    layer = file.layer
    for name, data, _ in wrong_layout.all_wrong(file) + wrong_commits.all_wrong(file):
        yield name, sealed(data, kind)
    yield from forms.right(layer, kind) + forms.wrong_trailers(layer, kind)
    for number, (data, _) in enumerate(mutations.scribbles(layer, 30, seed=8)):
        yield f"random bytes {number}", sealed(data, kind)
    for number, (data, _) in enumerate(mutations.shuffled_tables(layer, kind, 30, seed=9)):
        yield f"offsets in other places {number}", sealed(data, kind)
    for at in range(0, len(layer), len(layer) // 20):
        yield f"byte {at} changed", layer[:at] + bytes([layer[at] ^ 0x41]) + layer[at + 1 :]
        yield f"cut at {at}", layer[:at]
