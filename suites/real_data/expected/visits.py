"""How many commits `merge-base` may visit, made from the parents and the ranks alone: the numbers by which the search goes.

These are the generation numbers, or the corrected dates. No fewer than there are on one side alone, and merge bases. Where no
commit that is asked for is at the greatest generation number, no more than are reached at or above the edge: the lowest rank
of the commits that are asked for and of the parents of those on one side alone. Otherwise each commit that is reached may be
visited three times.
"""

from expected.listing import GREATEST_GENERATION

MOST_TIMES = 3


class Visits:
    """The bounds for sets of commits of a history, each with its parents, its rank and all that it leads to.

    Commits are numbers from 0 on, and sets of them the bits of a number. Dates have no cap.
    """

    def __init__(self, parents, ranks, reached, cap=GREATEST_GENERATION):
        self.ranks, self.reached, self.cap = ranks, reached, cap
        self.lowest = [min((ranks[it] for it in said), default=None) for said in parents]

    def bounds(self, first, others, bases):
        """The least and the greatest number of visits where so many merge bases are there."""
        ahead, behind = self.reached[first], 0
        for other in others:
            behind |= self.reached[other]
        one_side, starts = members(ahead ^ behind), [self.ranks[start] for start in (first, *others)]
        edge = min([*starts, *(self.lowest[commit] for commit in one_side if self.lowest[commit] is not None)])
        all_reached = members(ahead | behind)
        if max(starts) == self.cap:
            return 0, MOST_TIMES * len(all_reached)
        return len(one_side) + bases, sum(self.ranks[commit] >= edge for commit in all_reached)


def members(bits):
    """The numbers whose bits are set."""
    return [number for number, bit in enumerate(bin(bits)[:1:-1]) if bit == "1"]
