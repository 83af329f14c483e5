"""Checks `merge-base`, and what `ask` tells of walks, on small histories at random, most with cycles of parents, beside all walks
that there are.

A commit of Git's is never among its own ancestors; in a file one may be, if its generation number is at the cap. So the
files are put together here, in one layer or up to three, and what is expected is found from the parents alone, as the
definitions have it. Some have corrected dates, of times in any order, some of them equal or of more than 32 bits. Where a
layer has none, or one of them is wrong by a second, the search goes by generation numbers. Some have many roots.
"""

import itertools
import os
import random
import tempfile
from typing import List, NamedTuple, Optional

from checks import many
from checks.base_checks import complaint_of
from checks.program import Answer
from damage import further, trees
from damage.layer import contents
from expected.listing import GREATEST_GENERATION
from expected.visits import Visits
from histories.repository import ID_LENGTH

HISTORIES = 4000
PART = 250
"""Histories that one process makes and tries before it takes the next."""

SETS = 5
"""So many questions are asked of each history."""

PAIRS = 6
"""Of so many pairs `ask` tells whether there is a walk, and one."""

LAYERS = (1, 1, 2, 3)
"""A history has as many layers as one of these says."""

ROOTS = 40
"""So many commits of some histories have no parents."""

SELDOM = 0.03
"""Such a part of all histories has so many roots."""

DATES = ("none", "right", "right", "one wrong", "one layer without")
"""What may be done about the dates of a history."""

KINDS = {"nothing in common", "one base", "more bases"}
KINDS |= {kind + way for kind in KINDS for way in (", at the cap", ", by dates")} | {"in common, and no base, at the cap"}
"""All that has to come up. At the cap is the generation number of one of the commits that are asked for. Where the search goes
by dates, that is said in its place: no history with right dates has a cycle."""


class History(NamedTuple):
    """The parents of each commit, the commits to which a walk of one step or more leads from it, the generation numbers, the
    corrected dates or None where they are not all right, and the ids."""

    parents: List[tuple]
    below: List[set]
    levels: List[int]
    dates: Optional[List[int]]
    ids: List[str]


def check_all(histories, results):
    """The checks of some histories, always the same ones."""
    parts = [(histories.path, start, min(PART, HISTORIES - start)) for start in range(0, HISTORIES, PART)]
    answers = many.in_processes(try_part, parts)
    complaints, cyclic = [complaint for complaint, _, _ in answers if complaint], sum(count for _, count, _ in answers)
    title = "merge-base, %d histories at random, %d with cycles" % (HISTORIES, cyclic)
    results.check("%s (%d runs)" % (title, HISTORIES * (SETS + 1)), complaints[0] if complaints else None)
    odd = sorted(KINDS.symmetric_difference(set().union(*(kinds for _, _, kinds in answers))))
    results.check("merge-base, histories at random, each kind of answer", "none or one has %s" % odd if odd else None)


def try_part(program, start, count):
    """Tries some histories: a complaint or None, how many of them have cycles, and the kinds of answers that had to come."""
    kinds, cyclic = set(), 0
    with tempfile.TemporaryDirectory() as folder:
        bench, info = many.Bench(program, folder), os.path.join(folder, "info")
        for number in range(start, start + count):
            chance = random.Random("cycles %d" % number)
            history = written(info, chance)
            cyclic += any(commit in below for commit, below in enumerate(history.below))
            for _ in range(SETS):
                commits = chance.choices(range(len(history.parents)), k=chance.choice((2, 2, 3, 4)))
                complaint, kind = question(bench, info, history, commits)
                kinds.add(kind)
                if complaint:
                    return "history %d, %s: %s" % (number, commits, complaint), cyclic, kinds
            complaint = walks_complaint(bench, info, history, chance)
            if complaint:
                return "history %d, ask: %s" % (number, complaint), cyclic, kinds
    return None, cyclic, kinds


def written(info, chance):
    """Makes a history at random, and lays out the file of it or the chain."""
    kind = chance.choice(list(ID_LENGTH))
    has_roots = chance.random() < SELDOM
    sizes = [chance.randint(1, 12) + ROOTS * has_roots for _ in range(chance.choice(LAYERS))]
    starts = list(itertools.accumulate([0, *sizes]))
    parents = further.history(starts, chance, chance.choice((0.1, 0.3, 0.6)))
    for root in chance.sample(range(len(parents)), ROOTS * has_roots):
        parents[root] = ()
    below = [proper_ancestors(parents, commit) for commit in range(len(parents))]
    levels, files = generations(parents, below), []
    times = [chance.choice(further.TIMES) for _ in parents]
    parts = [slice(*pair) for pair in zip(starts, starts[1:])]
    dates, done = further.settled(parents, [max(time, 1) for time in times]), chance.choice(DATES)
    are_right = done == "right" and not any(commit in said for commit, said in enumerate(below))
    if done == "one wrong":
        dates[chance.randrange(len(dates))] += 1
    without = parts if done == "none" else [chance.choice(parts)] if done == "one layer without" else []
    for part in parts:
        layer = further.Layer(part.start, times[part], parents[part], dates[part])
        chunks = {} if part in without else further.right_dates(layer, chance)
        files.append(further.file_of(kind, layer, levels[part], chunks, files, chance))
    trees.lay_out(info, trees.of_layers(kind, files))
    ids = b"".join(dict(contents(file, kind))[b"OIDL"] for file in files)
    size = ID_LENGTH[kind]
    ids = [ids[at : at + size].hex() for at in range(0, len(ids), size)]
    return History(parents, below, levels, dates if are_right else None, ids)


def proper_ancestors(parents, commit):
    """The commits to which a walk of at least one step leads from one."""
    found, ahead = set(), list(parents[commit])
    while ahead:
        parent = ahead.pop()
        if parent not in found:
            found.add(parent)
            ahead += parents[parent]
    return found


def generations(parents, below):
    """How many commits the longest walk from each one has, at most the cap, which is so where a walk leads into a cycle."""
    endless = [any(other in below[other] for other in below[commit]) for commit in range(len(parents))]
    levels = further.settled(parents, [1] * len(parents))
    return [GREATEST_GENERATION if is_endless else level for is_endless, level in zip(endless, levels)]


def question(bench, info, history, commits):
    """A complaint about the answer to a question about some commits of a history, or None; and the kind of the answer."""
    below = history.below
    reached = [below[commit] | {commit} for commit in commits]
    first, others = reached[0], set().union(*reached[1:])
    common = first & others
    bases = [base for base in common if not any(base in below[commit] for commit in common)]
    kind = ("one base", "more bases")[len(bases) > 1] if bases else "in common, and no base" if common else "nothing in common"
    if history.dates:
        kind += ", by dates"
    elif any(other in below[other] for commits in reached for other in commits):
        kind += ", at the cap"
    place = {commit: number for number, commit in enumerate(history.ids)}
    status, text = bench.run("merge-base", info, *[history.ids[commit] for commit in commits])
    counts = len(first - others), len(others - first)
    reached = [sum(1 << other for other in below[commit] | {commit}) for commit in range(len(below))]
    by_number = Visits(history.parents, history.levels, reached)
    visits = Visits(history.parents, history.dates, reached, cap=None) if history.dates else by_number
    bounds, named = visits.bounds(commits[0], commits[1:], len(bases)), [history.ids[base] for base in bases]
    return complaint_of(named, counts, bounds, Answer(status, text, b""), place), kind


def walks_complaint(bench, info, history, chance):
    """A complaint about what `ask` tells of walks between some pairs of commits of a history, or None."""
    pairs = [chance.choices(range(len(history.parents)), k=2) for _ in range(PAIRS)]
    words = ["%s %s" % tuple(history.ids[commit] for commit in pair) for pair in pairs]
    lines = ["walk %s\nis-ancestor %s\n" % (said, " ".join(reversed(said.split()))) for said in words]
    status, text = bench.run_on("".join(lines).encode(), "ask", info)
    answers, place = text.decode("latin-1").split("\n\n")[1:-1], {commit: number for number, commit in enumerate(history.ids)}
    if status != 0 or len(answers) != 2 * len(pairs):
        return "status %s and %r" % (status, text[-80:])
    for pair, walk, told in zip(pairs, answers[::2], answers[1::2]):
        steps = least_steps(history.parents, *pair)
        if told != ("no" if steps is None else "yes") or not is_walk(history.parents, pair, steps, walk, place):
            return "%s, %s steps: %r and %r" % (pair, steps, told, walk[:80])
    return None


def least_steps(parents, first, last):
    """How many steps a shortest walk from one commit to another has, or None where there is none."""
    steps, ahead = {first: 0}, [first]
    for commit in ahead:
        for parent in parents[commit]:
            if parent not in steps:
                steps[parent] = steps[commit] + 1
                ahead.append(parent)
    return steps.get(last)


def is_walk(parents, pair, steps, answer, place):
    """Whether an answer is a walk of so many steps between a pair of commits, or says that there is none."""
    if steps is None:
        return answer == "none"
    walk = [place.get(name) for name in answer.split("\n")]
    ends = [walk[0], walk[-1]]
    return ends == list(pair) and len(walk) == steps + 1 and all(parent in parents[commit] for commit, parent in zip(walk, walk[1:]))
