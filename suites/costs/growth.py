"""How costs may grow: what is allowed, and whether three sizes keep to it, each twice the one before."""

from typing import NamedTuple


class Growth(NamedTuple):
    """A kind of growth: what it goes with, and how much steeper than that it may be between the second and the third size than between the
    first and the second. `most` is the most that each byte which is read or written may cost, where that is told."""

    name: str
    goes_with: str = ""
    steeper: float = 0.0
    most: float = 0.0

    def __str__(self):
        return self.name + (", at most %g for each byte" % self.most if self.most else "")

    def is_kept(self, measures, costs, chance):
        """Whether the costs of three sizes keep to it. `measures` has, for each thing that a growth can go with, how much of it there is at
        each size; and so much of a growth as `chance` may come by chance."""
        first, second = steps(costs)
        if not self.goes_with:
            return first <= chance and second <= chance
        before, after = steps(measures[self.goes_with])
        if second > self.steeper * max(first, 0) * after / before + chance:
            return False
        return not self.most or first + second <= self.most * sum(steps(measures["bytes"])) + chance

    def at_most(self, number):
        """The same growth, of at most so much for each byte."""
        return self._replace(most=number)


def steps(numbers):
    """By how much the second of three numbers is above the first, and the third above the second."""
    return numbers[1] - numbers[0], numbers[2] - numbers[1]


CONSTANT = Growth("constant")
LOGARITHMIC = Growth("logarithmic", "doublings", 1.4)
LINEAR = Growth("linear", "size", 1.15)
N_LOG_N = Growth("n log n", "size", 1.25)
SQUARE = Growth("square", "squares", 1.15)
BY_BYTES = Growth("linear in the bytes that are read and written", "bytes", 1.15)
IN_STEPS = Growth("in the steps of a buffer that doubles", "size", 8)
BY_PARENTS = Growth("linear in the parents that all commits have", "parents", 1.15)
