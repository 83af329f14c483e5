"""Where the verdict of `graphtool verify` differs from that of `git commit-graph verify`."""

import subprocess

RECORDED_OF = "git version 2.39."
"""The releases of Git that the list is of. What differs from another release is printed alone."""

FINDS = "found here alone"
WARNED = "found here, warned of by Git"
MISSES = "found by Git alone"

OBJECTS = "Git reads the commits too; here the commit-graph alone is read"
ASIDE = "corrected dates stand in a chunk that is ignored here"
LONG_TIMES = "34 bits of a time are kept, so Git refuses the file that it wrote; here times are not checked"
HIDDEN = "where the file does not open, the chain is the graph here; Git refuses the file, and checks no chain"
LEAST_GENERATION = "Git asks only that a generation number is above the parents'"
DATES_INSTEAD = "where a file has corrected dates, Git checks those and no generation number"
NO_GENERATIONS = "Git takes 0 for a generation number that was not computed"
AT_THE_END = "Git takes the file's last bytes for the checksum"
SECOND_ALONE = "Git reads no second parent then"
UNCOUNTED = "Git looks at the list of bases only above other layers"
NOTHING = "Git has nothing to check then"
IN_PART = "Git warns, checks the layers below, or none, and ends with the status 0"
UNASKED = "Git compares the base ids that the layers below call for, not their number or the list's end"
BY_SIZE = "Git divides the file's size by the length of a line with an id, and reads no line beyond that number"
BY_BASES = "Git knows a layer by the base ids of the layers above, and none is above the last"
OWN_TRAILER = "past the end of its list Git finds the file's checksum, and that is the base id it looks for"
LENGTHS = "Git does not check the lengths of these chunks"
TWICE = "the format lets an id stand in two layers; `distinct` alone asks for it"
ELSEWHERE = "Git looks into the alternates too; here all layers are read from the chain's own folder"

LISTED = {
    **dict.fromkeys(
        [
            "another tree than the commit's",
            "another time than the commit's",
            "a layer with another time",
            "an id that no commit has",
            "a commit with a second parent",
            "a merge with one parent",
            "a merge with a parent twice",
            "a merge with a parent of a low generation",
            "a merge with its parents exchanged",
            "a cycle of the greatest generations",
            "an edge that ends a list",
            "two edges exchanged",
        ],
        (MISSES, OBJECTS),
    ),
    "a corrected date that is too high": (MISSES, ASIDE),
    "a corrected date that says it is elsewhere": (MISSES, ASIDE),
    "times of every size": (MISSES, LONG_TIMES),
    "a file that does not open beside a chain": (MISSES, HIDDEN),
    "an empty file beside a chain": (MISSES, HIDDEN),
    "a folder for the file beside a chain": (MISSES, HIDDEN),
    "a tip's generation one too high": (FINDS, LEAST_GENERATION),
    "a layer with a high generation": (FINDS, DATES_INSTEAD),
    "generations of the greatest number": (FINDS, LEAST_GENERATION),
    "generations of 0": (FINDS, NO_GENERATIONS),
    "a root's generation of 0": (FINDS, NO_GENERATIONS),
    "a byte more of trailer": (FINDS, AT_THE_END),
    "end four bytes earlier": (FINDS, AT_THE_END),
    "a second parent of a root": (FINDS, SECOND_ALONE),
    "a base with no chunk of bases": (FINDS, UNCOUNTED),
    "a chain over an alternate": (FINDS, ELSEWHERE),
    "no graphs at all": (FINDS, NOTHING),
    "an empty chain file": (FINDS, NOTHING),
    "a folder for the chain file": (FINDS, NOTHING),
    "a chain without its chain file": (FINDS, NOTHING),
    **dict.fromkeys(
        [
            "a chain that lacks a layer",
            "a layer that does not open",
            "a layer of the other hash",
            "a layer under another name",
            "a layer with wrong bases",
            "a line that names no file",
            "a line twice",
            "a line that is no text",
        ],
        (WARNED, IN_PART),
    ),
    "a commit in two layers, for distinct": (FINDS, TWICE),
    "a layer with a wrong number of bases": (FINDS, UNASKED),
    "a layer with a list of bases that is too long": (FINDS, UNASKED),
    "the last layer under another name": (FINDS, BY_BASES),
    "the last line twice": (FINDS, OWN_TRAILER),
    "short lines after the last layer's": (FINDS, BY_SIZE),
    "a chain file cut short": (FINDS, BY_SIZE),
    "a fan of more than 1024 bytes": (FINDS, LENGTHS),
    "a record too many": (FINDS, LENGTHS),
    "a part of a record too many": (FINDS, LENGTHS),
    "a part of an id too many": (FINDS, LENGTHS),
    "a base id in a single file": (FINDS, UNCOUNTED),
    "a part of a base id in a single file": (FINDS, UNCOUNTED),
    "a low generation beside dates": (FINDS, DATES_INSTEAD),
    "a high generation beside dates": (FINDS, DATES_INSTEAD),
    "no generation beside dates": (FINDS, DATES_INSTEAD),
}
"""What differs, by the name of the damage: who finds it, and why."""


class Differences:
    """The differences that were seen, by the name of the damage, with who finds it; and what Git crashes on."""

    def __init__(self):
        self.seen = {}
        self.crashes = set()

    def compare(self, name, answer, git):
        """Notes a difference where one of an answer and Git's verdict accepts what the other refuses."""
        if (answer.status == 0) != (git.status == 0):
            finder = MISSES if answer.status == 0 else WARNED if git.warned else FINDS
            self.seen.setdefault(name, set()).add(finder)
        if git.status < 0:
            self.crashes.add(name)

    def add(self, other):
        """Notes what was seen elsewhere."""
        for name, finders in other.seen.items():
            self.seen.setdefault(name, set()).update(finders)
        self.crashes |= other.crashes

    def check(self, results):
        """Prints the differences, and checks that they are the listed ones."""
        release = subprocess.check_output(["git", "--version"], text=True).strip()
        print("\nDifferences from the verdict of `git commit-graph verify`, %s:" % release)
        for name, finders in sorted(self.seen.items(), key=lambda pair: (sorted(pair[1]), pair[0])):
            reason = LISTED.get(name, (None, "NOT LISTED"))[1]
            print("| %s | %s | %s |" % (name, " and ".join(sorted(finders)), reason))
        print("Git crashes on: %s\n" % ("; ".join(sorted(self.crashes)) or "none"), flush=True)
        if release.startswith(RECORDED_OF):
            listed = {(name, finder) for name, (finder, _) in LISTED.items()}
            seen = {(name, finder) for name, finders in self.seen.items() for finder in finders}
            results.check("each difference from Git's verdict is listed", first_of(seen - listed))
            results.check("each listed difference from Git's verdict shows", first_of(listed - seen))


def first_of(pairs):
    """None where there are no pairs, else the first of them."""
    return "%d, first %s: %s" % ((len(pairs),) + min(pairs)) if pairs else None
