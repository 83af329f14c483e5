"""Checks `merge-base` and `merge-base-ids`, also with `--unchecked`: pairs of commits and larger sets, beside
`git merge-base --all` and the parents that Git lists.

Also beside `git rev-list --left-right --count`. Where some commits are older than their parents, Git may count too many,
since its search goes by times: some to which an excluded commit leads.
"""

import os
import random
import re
import shutil

from checks.runs import check_runs
from expected import judge
from expected.listing import corrected_dates, generations, places
from expected.visits import Visits
from histories import shapes

UNKNOWN = "1" * 40

ANSWER = re.compile(r"((?:base \d+ [0-9a-f]+\n)+|none\n)ahead (\d+) behind (\d+)\nvisits (\d+)\n")

LAYERS, LENGTH = 10, 3000
"""So many layers has the chain of a long history, and so many commits all of them."""

ROOTS = 0.1
"""So many of its topics in one have a root of their own."""

SIZES = ((2, 300), (3, 20), (4, 20), (5, 20))
"""How many commits of a long history are asked for at once, and how often. There are four such histories."""


def check_bases(histories, results, repository, name, walks):
    """What is said of some commits of a graph; and of ids that are not in it."""
    path, place, choice = repository.info_path(), walks.place, random.Random(25)
    commits = sorted(place)
    sets = [choice.choices(commits, k=size) for size, count in ((2, 150), (4, 50)) for _ in range(count)]
    check_sets(histories, results, repository, name, walks.words, {path: place}, sets)
    for number in (1, 2, 4):
        ids = [UNKNOWN if place + 1 == number else commits[place] for place in range(4)] + [UNKNOWN]
        runs = {"merge-base": histories.merge_base, "merge-base-ids": histories.merge_base_ids}
        runs["merge-base --unchecked"] = histories.merge_base_unchecked
        runs["merge-base-ids --unchecked"] = histories.merge_base_ids_unchecked
        for word, run in runs.items():
            unknown = judge.exactly(1, "unknown %d\n" % number, "", run(path, *ids))
            results.check("%s, %s, id %d of %s is not there" % (repository.object_format, word, number, name), unknown)


def check_kind(histories, results, new):
    """What is said of long histories, each in a single file and in a chain; where times are in disorder, in the second."""
    for name, disorder in (("topics", 0), ("topics in disorder", 0.02)):
        repository, ids, layers = new(name), [], []
        seed = "%s %s" % (repository.object_format, name)
        history = shapes.topics(LENGTH, seed, disorder, ROOTS)
        for start in range(0, LENGTH, LENGTH // LAYERS):
            ids = repository.add(history[: start + LENGTH // LAYERS], start)
            layers.append(ids[start:])
            repository.write_graph("--split=no-merge")
        chain = shutil.copytree(repository.chain_path(), repository.folder + ", chain")
        repository.write_graph()
        pools, choice = (ids, ids[-LENGTH // 4 :], ids[-100:]), random.Random(seed)
        sets = [choice.sample(pools[number % 3], size) for size, count in SIZES for number in range(count)]
        graphs = {repository.graph_path(): places([ids]), chain: places(layers)}
        found = check_sets(histories, results, repository, name, repository.words(), graphs, sets)
        left_out = sorted({0, 1, 2}.difference(count for count, _ in found))
        complaint = "none has %s bases" % left_out if left_out else None
        results.check("%s, merge-base, sets of %s with no base, with one, and with two" % (repository.object_format, name), complaint)
        alike = sum(is_alike for _, is_alike in found)
        complaint = None if alike > 0.9 * len(sets) else "in too few"
        results.check("%s, rev-list, counts of sets of %s, right in %d" % (repository.object_format, name, alike), complaint)


def check_sets(histories, results, repository, name, words, graphs, sets):
    """What is said of sets of commits in graphs of the same commits, by their paths, each with the places of its ids.

    Answers of each set how many bases it has, and whether Git counts what its own parents say.
    """
    found, (path, place) = [], next(iter(graphs.items()))
    in_order = all(words[parent].time <= said.time for said in words.values() for parent in said.parents)
    reached, number = all_reached(words), {commit: number for number, commit in enumerate(words)}
    parents = [[number[parent] for parent in said.parents] for said in words.values()]
    by_number = Visits(parents, list(generations(words).values()), list(reached.values()))
    by_date = Visits(parents, list(corrected_dates(words).values()), list(reached.values()), cap=None)
    visits = {path: by_date if has_dates(path) else by_number for path in graphs}
    asked_for_ids = histories.merge_base_ids, histories.merge_base_ids_unchecked

    def answer(ids):
        bases, (first, *rest) = repository.merge_bases(*ids), (number[commit] for commit in ids)
        told = []
        for graph, places_of in graphs.items():
            told.append((visits[graph].bounds(first, rest, len(bases)), histories.merge_base(graph, *ids), places_of))
            told.append((by_number.bounds(first, rest, len(bases)), histories.merge_base_unchecked(graph, *ids), places_of))
        alone = [run(path, *ids) for run in asked_for_ids]
        return bases, divergence(reached, *ids), repository.divergence(*ids), told, alone

    def complaint(answers):
        bases, listed, counted, told, alone = answers
        found.append((len(bases), listed == counted))
        if listed != counted if in_order else any(more > count for more, count in zip(listed, counted)):
            return "Git counts %s, and its own parents say %s" % (counted, listed)
        lines = "".join(base + "\n" for base in sorted(bases, key=place.get)) or "none\n"
        complaints = [complaint_of(bases, listed, *each) for each in told]
        complaints += [judge.exactly(0 if bases else 1, lines, "", ids) for ids in alone]
        return next(filter(None, complaints), None)

    runs = [(lambda ids=ids: answer(ids), complaint) for ids in sets]
    check_runs(results, "%s, merge-base, also unchecked, sets of commits of %s" % (repository.object_format, name), runs)
    return found


def has_dates(path):
    """Whether each file of the graph at a path has the chunk of corrected dates."""
    folders = [(os.path.dirname(path), [os.path.basename(path)])] if os.path.isfile(path) else []
    folders += [(folder, names) for folder, _, names in os.walk(path)]
    heads = []
    for folder, names in folders:
        for name in names:
            with open(os.path.join(folder, name), "rb") as file:
                heads.append(file.read(200))
    return all(b"GDA2" in head for head in heads if head.startswith(b"CGPH"))


def all_reached(words):
    """The commits to which each commit leads, itself among them, as the bits of a number."""
    found = {}
    for number, (commit, said) in enumerate(words.items()):
        found[commit] = 1 << number
        for parent in said.parents:
            found[commit] |= found[parent]
    return found


def divergence(reached, first, *others):
    """How many commits one commit leads to and none of the others does, and the other way round."""
    ahead, behind = reached[first], 0
    for other in others:
        behind |= reached[other]
    return bin(ahead & ~behind).count("1"), bin(behind & ~ahead).count("1")


def complaint_of(bases, counts, bounds, answer, place):
    """A complaint where the answer names other bases than Git, not in the order of positions, or counts otherwise; or where the
    number of visits is out of its bounds; or None."""
    match = ANSWER.fullmatch(answer.out.decode())
    if not match or answer.err or answer.status != (0 if bases else 1):
        return "status %s and %r, where Git says %s" % (answer.status, answer.out[:60], bases)
    lines = "".join("base %d %s\n" % line for line in sorted((place[base], base) for base in bases)) or "none\n"
    expected = (lines, *counts)
    told = (match.group(1), int(match.group(2)), int(match.group(3)))
    if told != expected:
        return "%s, where Git says %s" % (told, expected)
    least, most = bounds
    return None if least <= int(match.group(4)) <= most else "%s visits, not %d to %d" % (match.group(4), least, most)
