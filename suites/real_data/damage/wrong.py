"""A file with one thing wrong, its name, and what `verify` has to say of it.

Each answer is that to the file with a right checksum as its trailer. The rules are those of Git's
commit-graph format: the conditions of opening come first, then for the layer its checksum and its fan,
and then for each commit in turn its id, its tree, its parents and its generation.
"""

from typing import NamedTuple

from expected.facts import summary
from expected.listing import GREATEST_GENERATION

CHECKSUM = "refused verify 4 layer 0 fault 1\n"
"""The answer to a file that opens, with a checksum that is not right."""


class Wrong(NamedTuple):
    """A damaged file, and the text that `verify` has to write once it is sealed."""

    name: str
    layer: bytes
    answer: str


def unopened(name, layer, condition):
    """A file that is refused by a condition of opening."""
    return Wrong(name, layer, "refused open 5 layer 0 file %s\n" % condition)


def unverified(name, layer, *words):
    """A file that opens, in which a check then finds something wrong."""
    return Wrong(name, layer, "refused verify %s\n" % " ".join(map(str, words)))


def passed(file, name, layer):
    """A file that says of parents and generations what the right one says."""
    return Wrong(name, layer, judged(file.parent_places(), file.generations))


def judged(places, generations):
    """The text for a file with these parents and generations, in which nothing else is wrong.

    The first generation is named that is not one more than the greatest among the parents'.
    """
    for position, (parents, stored) in enumerate(zip(places, generations)):
        right = min(1 + max((generations[parent] for parent in parents), default=0), GREATEST_GENERATION)
        if stored != right:
            return "refused verify 8 position %d expected %d\n" % (position, right)
    return summary([len(parents) for parents in places], generations)
