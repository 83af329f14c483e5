"""Checks `check` on small graphs of which the answers were worked out by hand: five commits in every order, and a few more."""

import itertools
import os
import random
import tempfile

from checks import many
from checks.runs import check_runs
from damage import further, trees
from damage.built import TOP_BIT
from damage.layer import big_endian
from expected import judge
from expected.listing import GREATEST_GENERATION

FIVE = {"A": (2000, "", 1), "B": (1000, "A", 2), "C": (1500, "B", 3), "D": (3000, "A", 2), "E": (2500, "CD", 4)}
"""The time of each commit, its parents, and its generation number."""

VERIFIED = "ok commits 5 longest 3\nparents 0 commits 1\nparents 1 commits 3\nparents 2 commits 1\n"

RIGHT = {"A": 0, "B": 1001, "C": 502, "D": 0, "E": 501}
"""The words of `GDA2` with which the dates are right."""

LATEST = 2**63 - 1

ROWS = (
    ({}, None, {}),
    ({"A": 5000}, None, {"A": 2000, "B": 7001, "D": 7001}),
    ({"B": 0}, None, {"B": 2001, "C": 1500}),
    ({"E": 0}, None, {"E": 3001}),
    ({"A": TOP_BIT}, None, "3 position %d"),
    ({"A": TOP_BIT}, bytes(8), {}),
    ({"A": TOP_BIT}, bytes(12), "2 layer 0"),
    ({"A": TOP_BIT + 1}, bytes(8), "3 position %d"),
    ({"A": TOP_BIT}, big_endian(LATEST - 2000, 8), {"A": 2000, "B": LATEST + 1, "D": LATEST + 1}),
    ({"A": TOP_BIT}, big_endian(LATEST - 1999, 8), "4 position %d"),
)
"""Words in place of the right ones, the bytes of `GDO2`, and what is expected of each commit whose date is wrong, of which the
first by position is named; or the refusal, with the position of A."""


def check_all(histories, results, folder):
    """The checks, whose files stand in a folder of their own."""
    orders = list(itertools.permutations(FIVE))
    complaints = many.in_processes(try_orders, [(histories.path, orders[start::12]) for start in range(12)])
    results.check("check, five commits in every order", next(filter(None, complaints), None))
    runs = [run(histories, os.path.join(folder, "dates %d" % number), *row) for number, row in enumerate(SMALL)]
    check_runs(results, "check, dates of small graphs", runs)


def try_orders(program, orders):
    """Tries all rows on the five commits in some orders, with both kinds of hash: a complaint of the first wrong answer."""
    with tempfile.TemporaryDirectory() as folder:
        bench = many.Bench(program, folder)
        for order, row, kind in itertools.product(orders, ROWS, ("sha1", "sha256")):
            words, overflow, answer = row
            bench.put(five(kind, order, words, overflow))
            place = {name: number for number, name in enumerate(order)}
            complaint = bench.complaint({told(answer, place)}, "check", bench.path)
            if complaint:
                return "%s, the order %s, %s: %s" % (kind, "".join(order), row, complaint)
    return None


def five(kind, order, words, overflow):
    """The file of the five commits in an order with such words and numbers."""
    place = {name: number for number, name in enumerate(order)}
    times, parents, generations = zip(*(FIVE[name] for name in order))
    layer = further.Layer(0, times, [tuple(place[parent] for parent in said) for said in parents], ())
    chunks = {b"GDA2": further.joined(({**RIGHT, **words}[name] for name in order), 4)}
    chunks.update({} if overflow is None else {b"GDO2": overflow})
    return further.file_of(kind, layer, generations, chunks, [], random.Random(5))


def told(answer, place):
    """What `check` says of the five commits at these positions."""
    if answer == {}:
        return VERIFIED + "dates commits 5\nfilters none\n"
    if isinstance(answer, str):
        return "refused dates %s\n" % (answer % place["A"] if "%d" in answer else answer)
    first = min(answer, key=place.get)
    return "refused dates 5 position %d expected %d\n" % (place[first], answer[first])


ROOT = ((0, ()),)
CHILD = ((7, (0,)),)
CYCLE = ((5, (1,)), (5, (0,)))
ONE, TWO = ("ok commits %d longest %d\nparents 0 commits 1\n" % counts for counts in ((1, 0), (2, 1)))
CHILD_OF_ONE = "parents 1 commits 1\n"

SMALL = (
    ([(ROOT, (1,))], ONE + "dates commits 1\nfilters none\n"),
    ([(ROOT, (0,))], "refused dates 5 position 0 expected 1\n"),
    ([(ROOT, (1,)), (CHILD, (0,))], TWO + CHILD_OF_ONE + "dates commits 2\nfilters none\n"),
    ([(ROOT, (0,)), (CHILD, ())], "refused dates 1 layer 1\n"),
    ([(ROOT, None), (CHILD, ())], TWO + CHILD_OF_ONE + "dates none\nfilters none\n"),
    ([(CYCLE, (0, 0))], "refused dates 5 position 0 expected 6\n"),
    ([(CYCLE, (1, 0))], "refused dates 5 position 1 expected 7\n"),
    ([(CYCLE, (1, 2))], "refused dates 5 position 0 expected 8\n"),
    ([(CYCLE, (2**31 - 1, 2**31 - 2))], "refused dates 5 position 1 expected %d\n" % (2**31 + 5)),
)
"""The layers of a graph, each with its commits' times and parents and its words of `GDA2`, and what `check` says."""


def run(histories, folder, layers, text):
    """The run of `check` on a graph, and the judge of the answer."""
    files, start = [], 0
    for commits, words in layers:
        times, parents = zip(*commits)
        generations = [GREATEST_GENERATION if commits is CYCLE else 1 + bool(said) for said in parents]
        chunks = {} if words is None else {b"GDA2": further.joined(words, 4)}
        files.append(further.file_of("sha1", further.Layer(start, times, parents, ()), generations, chunks, files, random.Random(5)))
        start += len(commits)
    tree = trees.chain([trees.Layer("", file).renamed("sha1") for file in files])
    trees.lay_out(folder, {trees.FILE: files[0]} if len(files) == 1 else tree)
    return lambda: histories.check(folder), lambda answer: judge.verdict(text, answer)
