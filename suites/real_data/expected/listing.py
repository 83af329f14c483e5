"""The listing that a layer of commits has to have, made from Git's words alone."""

TIME_BITS = 34
"""A commit-graph keeps the low 34 bits of a time."""

GREATEST_GENERATION = 2**30 - 1
"""A generation has 30 bits; a higher one is kept as this."""


def generations(words):
    """The generation of each commit: 1 for a root, else 1 more than its parents' greatest.

    The words are in an order in which parents come first.
    """
    found = {}
    for commit, said in words.items():
        above = max((found[parent] for parent in said.parents), default=0)
        found[commit] = min(above + 1, GREATEST_GENERATION)
    return found


def corrected_dates(words):
    """The corrected date of each commit: its time, or 1 more than its parents' greatest date, if that is later.

    The words are in an order in which parents come first.
    """
    found = {}
    for commit, said in words.items():
        found[commit] = max(said.time, 1 + max((found[parent] for parent in said.parents), default=0))
    return found


def places(layers):
    """The place of each commit among those of all layers, one layer after the other, in the order of ids."""
    order = [commit for layer in layers for commit in sorted(layer)]
    return {commit: number for number, commit in enumerate(order)}


def listing(object_format, words, layers, bases):
    """The text of the last of some layers, each given as its commits' ids, the lowest layer first.

    A layer's commits stand in the order of their ids. A parent is named by its place among the
    commits of all layers, one layer after the other. The bases are the lower layers' checksums.
    """
    place = places(layers)
    generation = generations(words)
    own = sorted(layers[-1])
    lines = ["layer %s bases %d commits %d" % (object_format, len(bases), len(own))]
    lines += ["base " + base for base in bases]
    for number, commit in enumerate(own):
        said = words[commit]
        parents = ",".join(str(place[parent]) for parent in said.parents) or "-"
        time = said.time % 2**TIME_BITS
        lines.append("%d %s %s %d %d %s" % (number, commit, said.tree, generation[commit], time, parents))
    return "".join(line + "\n" for line in lines)


def first_difference(actual, expected):
    """None where two texts are the same, else the first line in which they differ."""
    if actual == expected:
        return None
    left, right = actual.split("\n"), expected.split("\n")
    for number in range(max(len(left), len(right))):
        pair = [lines[number] if number < len(lines) else "(no line)" for lines in (left, right)]
        if pair[0] != pair[1]:
            return "line %d is %r, expected %r" % (number + 1, pair[0], pair[1])
    return "the texts differ"
