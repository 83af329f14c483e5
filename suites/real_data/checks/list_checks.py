"""Checks `list`: whole layers that Git wrote, layers of a chain, and damaged ones."""

import os
from functools import partial

from checks.runs import check_runs
from damage import mutations, named
from damage.layer import Outline
from damage.original import Original
from expected import judge
from expected.listing import listing
from histories import shapes


def check_kind(program, results, new):
    """The checks of all that `list` reads; a new repository comes from a function of its name."""
    check_empty(new("empty"), results)
    for name, history in shapes.ALL.items():
        check_history(program, results, new(name), name, history)
    check_chain(program, results, new("chain"))
    check_named_damage(program, results, new("named damage"))
    check_damage(program, results, new("damage"))


def check_empty(repository, results):
    """Git writes no commit-graph of no commits, so there is none to list."""
    repository.write_graph()
    complaint = "there is one" if os.path.exists(repository.graph_path()) else None
    results.check("%s, no commits: Git writes no file" % repository.object_format, complaint)


def check_history(program, results, repository, name, history):
    """The listing of a history, as each version of generation data and Bloom filters surround it."""
    repository.add(history)
    words = repository.words()
    expected = listing(repository.object_format, words, [list(words)], [])
    for version in (1, 2):
        for flags in ([], ["--changed-paths"]):
            layer = repository.new_graph(*flags, generation_version=version)
            kinds = expected_chunks(history, version, flags)
            complaint = other_chunks(layer, repository, kinds) or judge.same(expected, program.list(layer))
            title = [repository.object_format, name, "generation version %d" % version] + flags
            results.check(", ".join(title), complaint)


def expected_chunks(history, version, flags):
    """The chunks that Git has to write, so that a check is on the file that it speaks of."""
    octopus = any(len(commit.parents) > 2 for commit in history)
    return (
        {"OIDF", "OIDL", "CDAT"}
        | ({"EDGE"} if octopus else set())
        | ({"GDA2"} if version == 2 else set())
        | ({"BIDX", "BDAT"} if flags else set())
    )


def other_chunks(layer, repository, expected):
    """None where a file has the expected chunks, and beside them at most dates that overflowed."""
    found = set(Outline(layer, repository.object_format).chunks) - {"GDO2"}
    return None if found == expected else "chunks %s, expected %s" % (sorted(found), sorted(expected))


def check_chain(program, results, repository):
    """The listing of each layer of a split commit-graph, and the answers to a damaged one."""
    ids = repository.add(shapes.tangled(90, seed=3))
    parts = [ids[:20], ids[20:22], ids[22:70], ids[70:]]
    for part in parts:
        repository.write_graph("--split=no-merge", tips=part)
    kind, words, layers = repository.object_format, repository.words(), repository.chain()
    sums = [checksum for checksum, _ in layers]
    texts = [listing(kind, words, parts[: number + 1], sums[:number]) for number in range(len(layers))]
    results.check("%s, a chain" % kind, None if len(layers) == len(parts) else "it has %d layers" % len(layers))
    for number, ((_, layer), text) in enumerate(zip(layers, texts)):
        results.check("%s, layer %d of a chain" % (kind, number), judge.same(text, program.list(layer)))
    family = mutations.edits(layers[1][1], kind, texts[1], 0xFF)
    check_family(program, results, "%s, a layer of a chain with all bits of each byte changed" % kind, family)


def check_named_damage(program, results, repository):
    """The exact answers to a file in which one thing is wrong."""
    repository.add(shapes.octopus(3, 4, 2))
    kind, words = repository.object_format, repository.words()
    text = listing(kind, words, [list(words)], [])
    original = Original(repository.new_graph(generation_version=1), kind, text)
    for name, layer, condition in named.refused(original):
        complaint = judge.refused_by([condition], program.list(layer))
        results.check("%s, %s: refused by %s" % (kind, name, condition), complaint)
    for name, layer, changes in named.listed(original):
        complaint = judge.same(original.relisted(changes), program.list(layer))
        results.check("%s, %s: listed" % (kind, name), complaint)


def check_damage(program, results, repository):
    """The answers to a small file that is cut or changed in every place, or at random."""
    repository.add(shapes.octopus(3, 4))
    kind, words = repository.object_format, repository.words()
    layer = repository.new_graph()
    text = listing(kind, words, [list(words)], [])
    families = {
        "every prefix of a file": mutations.truncations(layer, kind),
        "a file and more bytes": mutations.extensions(layer),
        "a file with each byte's lowest bit changed": mutations.edits(layer, kind, text, 0x01),
        "a file with each byte's highest bit changed": mutations.edits(layer, kind, text, 0x80),
        "a file with all bits of each byte changed": mutations.edits(layer, kind, text, 0xFF),
        "a file with some random bytes": mutations.scribbles(layer, 500, seed=4),
        "a file with offsets in other places": mutations.shuffled_tables(layer, kind, 500, seed=5),
    }
    for name, family in families.items():
        check_family(program, results, "%s, %s" % (kind, name), family)


def check_family(program, results, name, family):
    """One check of all runs of a family of damaged files."""
    check_runs(results, name, [(partial(program.list, layer), right) for layer, right in family])
