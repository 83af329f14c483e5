"""Merge bases over a line of commits and a branch that begins with a root of its own: how many commits the calls of the library visit for
them, with right dates, with one that is wrong, and with none. Of the branch's commits the generation numbers are low and the dates late, so
that by generation numbers the whole line comes before them.
"""
import ctypes
import pathlib
import sys

TOP = pathlib.Path(__file__).resolve().parent.parent.parent
sys.path[:0] = [str(TOP / room) for room in ("suites", "suites/real_data")]

from damage import examples
from sizes.library import EVERYTHING, Library, told

BEFORE = 12_000
"""So many commits are in the line."""

FIRST, OTHER, BASE = BEFORE + 4, BEFORE + 5, BEFORE - 1
"""The child of the merge of the branch, a child of the line's last commit, and that commit, which is their merge base."""

AHEAD, BEHIND = 5, 1
"""The branch's three commits, the merge and its child; and the child of the line's last commit."""

FEW, MANY = range(1, 20), range(BEFORE, 3 * BEFORE)
"""How many commits are visited in the order of the dates, and of the generation numbers."""


def commits():
    """The generation number, the time and the parents of each commit: of the line, of the branch of three, of their merge, of its child, and
    of a child of the line's last commit."""
    line = [(place + 1, 1000 + place, (place - 1,) if place else ()) for place in range(BEFORE)]
    branch = [(place + 1, 1000 + BEFORE + place, (BEFORE + place - 1,) if place else ()) for place in range(3)]
    above = ((BEFORE + 1, (BASE, BEFORE + 2)), (BEFORE + 2, (BEFORE + 3,)), (BEFORE + 1, (BASE,)))
    return line + branch + [(level, 1003 + BEFORE + place, parents) for place, (level, parents) in enumerate(above)]


def graphs():
    """Each graph with its name, its bytes, and how many visits the calls without a limit make."""
    offsets = [0] * (BEFORE + 6)
    late = [*offsets[:BASE], 1, *offsets[BEFORE:]]
    yield "right dates", examples.dated(commits(), examples.dates(offsets)), FEW
    yield "a date that is a second late", examples.dated(commits(), examples.dates(late)), MANY
    yield "no dates", examples.dated(commits()), MANY


class Asked:
    """A graph that the library has opened and checked."""

    def __init__(self, library, content):
        self.library, self.content, self.graph = library, content, library.types["cg_graph"]()
        file, verdict = library.room("cg_file", 1), library.types["cg_verdict"]()
        file[0].bytes, file[0].len = ctypes.cast(content, ctypes.c_void_p), len(content)
        taken = file, 1, True, ctypes.byref(verdict), None, 0, ctypes.byref(self.graph)
        self.error = told(library.cg_open_checked(*taken))

    def alone(self):
        """The answer on the pair, and the merge base."""
        others, out = (ctypes.c_uint32 * 1)(OTHER), (ctypes.c_uint32 * 1)()
        return told(self.library.cg_merge_bases(self.graph, FIRST, others, 1, out, 1)), out[0]

    def within(self):
        """The same by a search with a limit that it does not come to."""
        others, out, limit = (ctypes.c_uint32 * 1)(OTHER), (ctypes.c_uint32 * 1)(), self.library.types["cg_limit"]()
        limit.visits = EVERYTHING
        return told(self.library.cg_merge_bases_within(self.graph, FIRST, others, 1, limit, out, 1)), out[0]

    def among_two(self):
        """The same where the pair is the second of two."""
        pairs, answers, out = self.library.room("cg_two", 2), self.library.room("cg_bases", 2), (ctypes.c_uint32 * 2)()
        for pair, (first, other) in zip(pairs, ((0, 0), (FIRST, OTHER))):
            pair.first, pair.other = first, other
        seen = told(self.library.cg_merge_bases_of(self.graph, pairs, 2, answers, 2, out, 2))
        return told(answers[1]) if seen == (0, 2, 2) else seen, out[1]

    def close(self):
        return self.library.cg_close(ctypes.byref(self.graph))


def checks(path):
    """The name of each check with what was answered, and whether it is right. The first call of a graph finds its dates, and the next one
    finds them kept."""
    library = Library(str(path))
    for name, content, few in graphs():
        asked = Asked(library, content)
        yield "%s: it is opened" % name, asked.error, asked.error == (0, 0)
        for call, visits in ((asked.alone, few), (asked.alone, few), (asked.among_two, few), (asked.within, MANY)):
            seen, base = call()
            right = len(seen) == 5 and (*seen[:3], seen[4], base) == (0, AHEAD, BEHIND, 1, BASE) and seen[3] in visits
            yield "%s: %s" % (name, call.__name__), (seen, base), right
        asked = Asked(library, content)
        seen, base = asked.among_two()
        yield "%s: many pairs first" % name, (seen, base), len(seen) == 5 and seen[3] in few and base == BASE
        yield "%s: it is closed" % name, asked, asked.close()
