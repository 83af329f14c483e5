"""Checks `check` on damaged corrected commit dates and changed-path filters, and beside it what Git then answers.

Where `check` passes a graph, `git merge-base --is-ancestor`, `git log` and `git log -- PATH` have to answer over it
what they answer without.
"""

import itertools
import os

from checks import filter_runs
from checks.further_checks import Change, add_changes, complaint_of
from damage import trees
from damage.layer import big_endian, contents, with_chunks
from expected import judge
from expected.facts import verified
from expected.further import Layer, checked, told
from histories.repository import ID_LENGTH

PATHS = (b"file", b"folder/file", b"folder/\xc3\xa9\xff")
"""Paths that the commits change, the last with bytes from 128 on."""

FIVE = [
    Change(2000, (), PATHS[:1]),
    Change(1000, (0,), PATHS[1:2]),
    Change(1500, (1,), PATHS[2:]),
    Change(3000, (0,), PATHS[:1]),
    Change(2500, (2, 3), PATHS[1:2]),
]
"""The five commits of all these graphs."""

BOTH = "dates commits 5\nfilters commits 5\n"
"""What is told of dates and filters that are right."""


def check_kind(histories, asker, results, new):
    """The checks of damaged graphs; a new repository comes from a function of its name."""
    check_one_layer(histories, asker, results, new("further, damaged"))
    check_two_layers(histories, results, new("further, damaged layers"))


def check_one_layer(histories, asker, results, repository):
    """A file of five commits with something else in its further chunks."""
    add_changes(repository, FIVE)
    layer = repository.new_graph("--changed-paths")
    filter_runs.check_filters(asker, results, repository, "five commits", [layer])
    rows = [(name, said, [edits]) for name, said, edits in damages(layer, repository.object_format)]
    check_rows(histories, results, repository, [layer], rows)


def check_two_layers(histories, results, repository):
    """Two layers of the five commits with something else in their further chunks."""
    ids = add_changes(repository, FIVE)
    for tip in (ids[2], ids[4]):
        repository.write_graph("--split=no-merge", "--changed-paths", tips=[tip])
    layers = [layer for _, layer in repository.chain()]
    check_rows(histories, results, repository, layers, damages_of_two(layers, repository.object_format))


def check_rows(histories, results, repository, layers, rows):
    """What `check` and Git say of the layers with each row's chunks in place of their own."""
    kind, words = repository.object_format, repository.words()
    plain = answers(repository, words, "false")
    for name, said, edits in rows:
        files = edited(layers, kind, edits)
        tree = trees.chain([trees.Layer("", file).renamed(kind) for file in files])
        trees.lay_out(repository.info_path(), tree if len(files) > 1 else {trees.FILE: files[0]})
        title, expected = "%s, check, %s" % (kind, name), told(files, kind)
        results.check(title + ", by the rules", complaint_of(True, expected.startswith(said)))
        answer = histories.check(repository.info_path())
        results.check(title, judge.verdict(checked(verified(words), files, kind), answer))
        check_git(results, title, expected.startswith("refused"), plain, answers(repository, words, "true"))


def edited(layers, kind, edits):
    """The files of layers with other chunks, or without those for which there is None. Each names those below it."""
    files = []
    for layer, own in zip(layers, edits):
        chunks = {**dict(contents(layer, kind)), **own}
        if files:
            chunks[b"BASE"] = b"".join(file[-ID_LENGTH[kind] :] for file in files)
        files.append(with_chunks(layer, kind, [(key, content) for key, content in chunks.items() if content is not None]))
    return files


def check_git(results, title, refused, plain, seen):
    """What Git answers over a graph, beside what it answers without: the same, but where the graph is refused."""
    said = ["%s %s" % (name, "as without" if seen[name] == plain[name] else "otherwise") for name in plain]
    said = ["%s, some not at all" % text if None in seen[name] else text for text, name in zip(said, plain)]
    results.check("%s; over it Git answers: %s" % (title, "; ".join(said)), None if refused else complaint_of(plain, seen))


def answers(repository, words, graph):
    """What Git answers of each pair of commits, of the history and of each path, with the commit-graph or without; None where
    it ends with an error or dies."""
    log = ("-c", "core.commitGraph=" + graph, "log", "--format=%H", "refs/heads/tip")
    return {
        "ancestors": [answer(repository.reaches, *pair, graph) for pair in itertools.permutations(words, 2)],
        "log": [answer(repository.git, *log)],
        "log of paths": [answer(repository.git, *log, "--", os.fsdecode(path)) for path in PATHS],
    }


def answer(ask, *words):
    """What Git answers, or None."""
    try:
        return ask(*words)
    except RuntimeError:
        return None


class Chunks:
    """The further chunks of a layer, to be edited. Each edit is the chunks in place of those that Git wrote."""

    def __init__(self, layer, kind):
        chunks = dict(contents(layer, kind))
        self.times = Layer(chunks, kind).times
        self.dates, self.index, self.data = chunks[b"GDA2"], chunks[b"BIDX"], chunks[b"BDAT"]

    def offset(self, time, word, *overflow):
        """Another offset of the commit of a time, and an overflow list, if one is given."""
        edits = {b"GDA2": with_word(self.dates, self.times.index(time), word)}
        return {**edits, b"GDO2": overflow[0]} if overflow else edits

    def end(self, place, number):
        """Another end of the filter of a commit."""
        return {b"BIDX": with_word(self.index, place, number)}

    def header(self, place, number):
        """Another version, number of hashes or number of bits."""
        return {b"BDAT": with_word(self.data, place, number)}


def with_word(content, place, number):
    """Words with another number at a place."""
    return content[: 4 * place] + big_endian(number, 4) + content[4 * place + 4 :]


def damages(layer, kind):
    """Names, the beginnings of the lines that have to come, and the chunks in place of those that Git wrote."""
    own, top, latest = Chunks(layer, kind), 2**31, 2**63 - 2000
    root = " position %d\n" % own.times.index(2000)
    return [
        ("as Git wrote it", BOTH, {}),
        ("no dates", "dates none\nfilters commits 5\n", {b"GDA2": None}),
        ("no filters", "dates commits 5\nfilters none\n", {b"BDAT": None}),
        ("dates too few", "refused dates 1 layer 0\n", {b"GDA2": own.dates[:-4]}),
        ("an overflow list cut", "refused dates 2 layer 0\n", own.offset(2000, top, bytes(12))),
        ("no overflow list", "refused dates 3" + root, own.offset(2000, top)),
        ("past the overflow list", "refused dates 3" + root, own.offset(2000, top + 1, bytes(8))),
        ("an overflow list", BOTH, own.offset(2000, top, bytes(8))),
        ("a date too large", "refused dates 4" + root, own.offset(2000, top, big_endian(latest, 8))),
        ("the largest date", "refused dates 5 ", own.offset(2000, top, big_endian(latest - 1, 8))),
        ("a date too late", "refused dates 5 ", own.offset(2000, 5000)),
        ("a date too early", "refused dates 5 ", own.offset(1000, 0)),
        ("the last date too early", "refused dates 5 ", own.offset(2500, 0)),
        ("all offsets 0", "refused dates 5 ", {b"GDA2": bytes(len(own.dates))}),
        ("an index too short", "refused filters 1 layer 0\n", {b"BIDX": own.index[:-4]}),
        ("no header", "refused filters 2 layer 0\n", {b"BDAT": own.data[:11]}),
        ("version 3", "refused filters 3 layer 0 version 3\n", own.header(0, 3)),
        ("no hashes", "refused filters 4 layer 0\n", own.header(1, 0)),
        ("65,536 hashes", "refused filters 4 layer 0\n", own.header(1, 65536)),
        ("no bits", "refused filters 5 layer 0\n", own.header(2, 0)),
        ("an index that falls", "refused filters 6 position 1\n", own.end(1, 0)),
        ("an index past the end", "refused filters 7 position 2\n", own.end(2, len(own.data))),
        ("filters left over", "refused filters 8 layer 0\n", {b"BDAT": own.data + b"\0"}),
        ("filters too short", "refused filters 7 position 4\n", {b"BDAT": own.data[:-1]}),
    ]


def damages_of_two(layers, kind):
    """The same, with the chunks of each layer."""
    lower, upper = [Chunks(layer, kind) for layer in layers]
    none, short = {b"GDA2": None}, {b"GDA2": upper.dates[:-4]}
    no_dates, settings = "dates none\nfilters commits 5\n", "refused filters 9 layer 1\n"
    return [
        ("two layers as Git wrote them", BOTH, ({}, {})),
        ("a layer with dates too few above wrong ones", "refused dates 1 layer 1\n", (lower.offset(1000, 0), short)),
        ("a layer without dates below wrong ones", no_dates, (none, {b"GDA2": bytes(8)})),
        ("a layer without dates above wrong ones", no_dates, (lower.offset(1000, 0), none)),
        ("a date too late in the lower layer", "refused dates 5 ", (lower.offset(2000, 5000), {})),
        ("a date too early in the upper layer", "refused dates 5 ", ({}, upper.offset(2500, 0))),
        ("a layer without filters below", "dates commits 5\nfilters commits 2\n", ({b"BIDX": None}, {})),
        ("3 hashes above 7", settings, ({}, upper.header(1, 3))),
        ("14 hashes above 7", settings, ({}, upper.header(1, 14))),
        ("version 2 above 1", settings, ({}, upper.header(0, 2))),
        ("another number of bits above", BOTH, ({}, upper.header(2, 11))),
        ("a falling index in both layers", "refused filters 6 position 1\n", (lower.end(1, 0), upper.end(1, 0))),
        ("filters too short in the upper layer", "refused filters 7 position 4\n", ({}, {b"BDAT": upper.data[:-1]})),
    ]
