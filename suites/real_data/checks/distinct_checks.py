"""Checks `distinct`: chains that Git writes, and chains into which an id was put again, beside `verify`."""

from bisect import bisect
from itertools import combinations

from damage import trees
from damage.layer import Outline, big_endian, exact_fan
from damage.wrong_trees import Right
from expected import judge
from expected.facts import summary, verified
from expected.listing import generations
from histories import shapes

LAYER_SIZE = 5
LAYERS = 4


def check_kind(program, results, new, differences):
    """The checks of chains of layers; a new repository comes from a function of its name."""
    repository = new("distinct ids")
    chain, text = right_chain(repository)
    check_answers(program, results, repository, "a right chain", text, text)
    for lower, upper in combinations(range(LAYERS), 2):
        tree, places = with_id_of(chain, lower, [upper])
        name = "an id of layer %d in layer %d too" % (lower, upper)
        trees.lay_out(repository.info_path(), tree)
        check_answers(program, results, repository, name, text, duplicate(places))
    tree, places = with_id_of(chain, 0, range(1, LAYERS))
    trees.lay_out(repository.info_path(), tree)
    check_answers(program, results, repository, "an id in all layers", text, duplicate(places))
    check_commit_again(program, results, repository, chain, differences)


def check_answers(program, results, repository, name, text, distinct_text):
    """What `verify` and `distinct` say of the chain that is there."""
    path, title = repository.info_path(), "%s, %s" % (repository.object_format, name)
    results.check(title + ", verified", judge.verdict(text, program.verify(path)))
    results.check(title + ", its ids distinct", judge.verdict(distinct_text, program.distinct(path)))


def check_commit_again(program, results, repository, chain, differences):
    """A commit of a lower layer in the place of a tip of the last one, with all that the file says of it."""
    words, number = repository.words(), LAYERS - 1
    ids, start = ids_of(chain, number), chain.starts[number]
    place, again = next(pair for pair in movable(chain, words) if len(words[pair[1][0].hex()].parents) <= 2)
    commit, lower, at = again
    layer = with_ids(chain, number, ids[:place] + [commit] + ids[place + 1 :])
    records, size = [Outline(it.content, chain.object_format).chunks["CDAT"] for it in chain.layers], len(commit) + 16
    record = chain.layers[lower].content[records[lower].start + at * size :][:size]
    at_place = records[number].start + place * size
    layer = layer[:at_place] + record + layer[at_place + size :]
    trees.lay_out(repository.info_path(), trees.chain(chain.rebuilt_layers(number, layer)))
    kept = [other for other in words if other != ids[place].hex()] + [commit.hex()]
    levels = generations(words)
    text = summary([len(words[other].parents) for other in kept], [levels[other] for other in kept])
    name = "a commit in two layers"
    check_answers(program, results, repository, name, text, duplicate([chain.starts[lower] + at, start + place]))
    differences.compare(name, program.verify(repository.info_path()), repository.git_verdict())
    differences.compare(name + ", for distinct", program.distinct(repository.info_path()), repository.git_verdict())


def movable(chain, words):
    """Places of tips in the last layer, each with a commit of a lower layer whose id would stand there.

    The commit comes as its id, the number of its layer and its place there.
    """
    parents = {parent for said in words.values() for parent in said.parents}
    ids = ids_of(chain, LAYERS - 1)
    for place, tip in enumerate(ids):
        rest = ids[:place] + ids[place + 1 :]
        for lower in range(LAYERS - 1):
            for at, commit in enumerate(ids_of(chain, lower)):
                if tip.hex() not in parents and bisect(rest, commit) == place:
                    yield place, (commit, lower, at)


def duplicate(places):
    """The refusal of an id that stands at these positions, in ascending order."""
    return "refused verify 11 position %d earlier %d\n" % (places[1], places[0])


def right_chain(repository):
    """A chain of some layers, of one size, and the text of `verify` for it."""
    ids = repository.add(shapes.tangled(LAYERS * LAYER_SIZE, seed=9))
    for stop in range(LAYER_SIZE, len(ids) + 1, LAYER_SIZE):
        repository.write_graph("--split=no-merge", tips=ids[:stop], generation_version=1)
    layers = [trees.Layer(checksum, content) for checksum, content in repository.chain()]
    return Right(repository.object_format, layers, [], (None, None)), verified(repository.words())


def with_id_of(chain, lower, uppers):
    """A chain with an id of a lower layer in upper ones too, in its order there, and all positions of the id.

    Where the id comes to stand, another id of the layer goes.
    """
    twice, places = ids_of(chain, lower)[2], [chain.starts[lower] + 2]
    for upper in uppers:
        ids = ids_of(chain, upper)
        place = min(bisect(ids, twice), len(ids) - 1)
        ids[place] = twice
        places.append(chain.starts[upper] + place)
        layers = chain.rebuilt_layers(upper, with_ids(chain, upper, ids))
        chain = Right(chain.object_format, layers, [], (None, None))
    return chain.tree, places


def ids_of(chain, number):
    """The ids of a layer."""
    layer = chain.layers[number].content
    outline = Outline(layer, chain.object_format)
    return [layer[at : at + outline.id_length] for at in outline.chunks["OIDL"][:: outline.id_length]]


def with_ids(chain, number, ids):
    """The bytes of a layer with other ids, and their fan."""
    layer, kind = chain.layers[number], chain.object_format
    chunks = Outline(layer.content, kind).chunks
    fan = b"".join(big_endian(count, 4) for count in exact_fan(ids))
    return layer.edited(chunks["OIDF"].start, fan).edited(chunks["OIDL"].start, b"".join(ids)).content
