"""What `verify` and `find` have to say of right graphs, made from Git's words alone."""

from collections import Counter

from expected.listing import GREATEST_GENERATION, TIME_BITS, generations, places


def verified(words):
    """The text of `verify` for a graph of all these commits."""
    return summary([len(said.parents) for said in words.values()], generations(words).values())


def summary(parent_counts, levels):
    """The text of `verify` for a graph whose commits have so many parents, and these generations.

    A longest path along parents has as many edges as the greatest generation, less one. It is not
    known where a generation is the greatest number that there is.
    """
    longest = "none" if max(levels) == GREATEST_GENERATION else max(levels) - 1
    lines = ["ok commits %d longest %s" % (len(parent_counts), longest)]
    lines += ["parents %d commits %d" % pair for pair in sorted(Counter(parent_counts).items())]
    return "".join(line + "\n" for line in lines)


def found(words, layers):
    """The line of `find` for each commit of some layers, each given as its commits' ids, the lowest first."""
    generation = generations(words)
    return {
        commit: "position %d generation %d time %d\n"
        % (place, generation[commit], words[commit].time % 2**TIME_BITS)
        for commit, place in places(layers).items()
    }
