"""Checks changed-path filters that Git writes: their bits, and what they answer of paths, each beside `git diff-tree`.

The crate's own answers come through the program of `test_calls`.
"""

import os

from expected import filters
from expected.judge import exactly
from histories.repository import write_bytes

OTHERS = (b"", b"a", b"none", b"fil", b"file/", b"/file", b"folder/none", b"folder\xe9", bytes(range(128, 256)))
"""Paths that no commit changes, or few."""

FORMS = (("version 1 of a machine whose bytes are unsigned", 1), ("version 2", 2))
"""What Git of another machine, or a later one, writes in place of the filters: its name, and the version of the hash."""


def check_filters(asker, results, repository, name, layers):
    """The checks of the filters of a graph that Git wrote, of which these are the layers, the lowest first."""
    kind, words = repository.object_format, repository.words()
    changes = {commit: repository.changed_paths(commit, said.parents) for commit, said in words.items()}
    title = "%s, %%s, %s" % (kind, name)
    check_bits(results, title % "bits", [filters.stored(layer, kind) for layer in layers], changes)
    check_answers(asker, results, title % "answers", repository, layers, changes)
    for form, version in FORMS:
        others = [written_anew(layer, kind, version, changes) for layer in layers]
        check_answers(asker, results, title % "answers" + ", by " + form, repository, others, changes)


def check_bits(results, title, layers, changes):
    """Each filter that was computed has the bits of the paths that its commit changes, and no others."""
    differ = []
    for stored, settings in layers:
        for commit, own in stored.items():
            if own and own != filters.made(changes[commit], settings, signed=settings[0] == 1):
                differ.append("%s is %s" % (commit, own.hex()))
    results.check(title, "; ".join(differ[:3]) or None)


def written_anew(layer, kind, version, changes):
    """The layer with filters of a version for the same commits, the bytes of whose paths are read as unsigned numbers."""
    stored, settings = filters.stored(layer, kind)
    if settings is None:
        return layer
    own = [version, *settings[1:]]
    made = [filter and filters.made(changes[commit], own, signed=False) for commit, filter in stored.items()]
    return filters.with_filters(layer, kind, made, own)


def check_answers(asker, results, title, repository, layers, changes):
    """Each filter answers of each path what its bits say; and each path that its commit changes is possible."""
    paths = sorted(filters.entries(path for changed in changes.values() for path in changed).union(OTHERS))
    stored = [filters.stored(layer, repository.object_format) for layer in layers]
    asked = [(commit, own, settings) for layer, settings in stored for commit, own in layer.items()]
    rows = [[filters.answer(own, settings, path) for _, own, settings in asked] for path in paths]
    files = [os.path.join(repository.folder, "layer-%d" % number) for number in range(len(layers))]
    for path, layer in zip(files, layers):
        write_bytes(path, layer)
    complaint = exactly(0, "".join(word + "\n" for row in rows for word in row), "", asker.ask(files, paths))
    results.check(title, complaint or missed(paths, [commit for commit, _, _ in asked], rows, changes))


def missed(paths, commits, rows, changes):
    """A complaint where a path that a commit changes, or a folder that leads there, is absent from its filter."""
    put = {commit: filters.entries(changes[commit]) for commit in commits}
    answers = ((path, commit, word) for path, row in zip(paths, rows) for commit, word in zip(commits, row))
    wrong = ["%r from that of %s" % (path, commit) for path, commit, word in answers if word == "Absent" and path in put[commit]]
    return "absent: " + "; ".join(wrong[:3]) if wrong else None
