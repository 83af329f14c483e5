"""Checks all commands on a file of 300,000 commits, and on the same file with a fault in its last tenth.

What an answer has to be is made from the plan of the file alone.
"""

import os
import resource
from functools import partial

from checks.base_checks import ANSWER as COMPARED
from checks.program import processor_seconds
from checks.runs import check_runs
from damage import large
from damage.large import BLOCK, FORK, KIND, LINE_END, MERGE, TOPIC, TOPIC_END, TREE, Large
from expected import judge
from expected.facts import summary
from expected.walks import ANSWER as WALKED

OTHERS = 100
"""So many others `merge-base` is asked for at once; the last of them alone decides the answer."""

OFTEN, MORE_OFTEN = 800, 64_000
"""How many lines of a chain file name one file."""

FEW = 8
"""The bytes of so many of the files have room in the memory that is given."""

MOST_SECONDS = 2.0
"""A chain of many lines takes a tenth of that."""

TOO_MANY_LAYERS = "refused verify 1\n"


def check_all(programs, results, folder):
    """The checks, whose files stand in a folder of their own."""
    plan, path = Large(), os.path.join(folder, "commit-graph")
    with open(path, "wb") as file:
        file.write(plan.content)
    check_runs(results, "a file of %d commits, each command" % plan.count, list(right_runs(programs, plan, path)))
    runs = [run for number, fault in enumerate(large.faults(plan)) for run in fault_runs(programs, plan, fault, path, number)]
    check_runs(results, "a file of %d commits, each fault in its last tenth" % plan.count, runs)
    check_named_often(programs, results, plan, os.path.join(folder, "often"))
    check_named_more_often(programs, results, os.path.join(folder, "more-often"))


def check_named_often(programs, results, plan, folder):
    """A chain file that names one large file on each line. Memory for a few such files is enough."""
    lay_out_named(folder, plan.content, OFTEN)
    few = {"preexec_fn": partial(resource.setrlimit, resource.RLIMIT_AS, (FEW * len(plan.content),) * 2)}
    program, histories = programs
    ids = plan.hex_of(1), plan.hex_of(0)
    for name, run in (
        ("verify", lambda: program.verify(folder, **few)),
        ("distinct", lambda: program.distinct(folder, **few)),
        ("check", lambda: histories.check(folder, **few)),
        ("is-ancestor", lambda: histories.is_ancestor(folder, *ids, **few)),
    ):
        title = "a file of %d commits that is %d layers, %s with little memory" % (plan.count, OFTEN, name)
        results.check(title, judge.exactly(1, TOO_MANY_LAYERS, "", run()))


def check_named_more_often(programs, results, folder):
    """A chain file of many lines that name one small file: the time grows with the lines, and no faster."""
    lay_out_named(folder, Large(BLOCK).content, MORE_OFTEN)
    for name, run in (("verify", programs[0].verify), ("check", programs[1].check)):
        before = processor_seconds()
        complaint = judge.exactly(1, TOO_MANY_LAYERS, "", run(folder))
        took = processor_seconds() - before
        title = "a file of %d commits that is %d layers, %s" % (BLOCK, MORE_OFTEN, name)
        results.check(title, complaint or (None if took < MOST_SECONDS else "%.1f seconds" % took))


def lay_out_named(folder, content, count):
    """Writes a chain folder with one file, which so many lines name."""
    os.mkdir(folder)
    for name, text in (("graph-a.graph", content), ("commit-graph-chain", b"a\n" * count)):
        with open(os.path.join(folder, name), "wb") as file:
            file.write(text)


def right_runs(programs, plan, path):
    """The runs of each command on the right file, and the judges of the answers."""
    program, histories = programs
    verified, late = summary([len(parents) for parents in plan.parents], plan.generations), plan.count - 5
    number = plan.numbers[late]
    found = "position %d generation %d time %d\n" % (late, plan.generations[number], plan.times[number])
    further = "dates commits %d\nfilters commits %d\n" % (plan.count, sum(size > 0 for size in plan.sizes))
    tip, root = plan.hex_of(plan.count - 1), plan.hex_of(0)
    walk = shortest_walk(plan)
    ids = "".join(plan.hex_of(number) + "\n" for number in walk)
    yield lambda: program.list(plan.content), lambda answer: judge.same(listing(plan), answer)
    yield lambda: program.verify(path), lambda answer: judge.verdict(verified, answer)
    yield lambda: program.distinct(path), lambda answer: judge.verdict(verified, answer)
    yield lambda: histories.check(path), lambda answer: judge.verdict(verified + further, answer)
    yield lambda: program.find(path, plan.id_at(late).hex()), lambda answer: judge.exactly(0, found, "", answer)
    yield lambda: program.find(path, plan.id_at(late + 0.5).hex()), lambda answer: judge.exactly(1, "none\n", "", answer)
    yield lambda: program.ancestor(path, tip, root), lambda answer: walk_complaint(plan, walk, answer)
    yield lambda: histories.walk(path, tip, root), lambda answer: judge.exactly(0, ids, "", answer)
    yield lambda: histories.is_ancestor(path, root, tip), lambda answer: judge.exactly(0, "yes\n", "", answer)
    yield lambda: histories.is_ancestor(path, tip, root), lambda answer: judge.exactly(1, "no\n", "", answer)
    yield lambda: histories.is_ancestor_unchecked(path, root, tip), lambda answer: judge.exactly(0, "yes\n", "", answer)
    yield lambda: histories.is_ancestor_unchecked(path, tip, root), lambda answer: judge.exactly(1, "no\n", "", answer)
    yield lambda: histories.walk_unchecked(path, tip, root), lambda answer: judge.exactly(0, ids, "", answer)
    first, others = asked(plan)
    hexes = [plan.hex_of(number) for number in others]
    for run in (histories.merge_base, histories.merge_base_unchecked):
        yield lambda run=run: run(path, plan.hex_of(first), *hexes), lambda answer: bases_complaint(plan, first, answer)


def fault_runs(programs, plan, fault, path, number):
    """The runs of each command that looks for a fault, and the judges of the answers."""
    damaged = "%s %d" % (path, number)
    with open(damaged, "wb") as file:
        file.write(fault.content)
    program, histories = programs
    ids = plan.hex_of(plan.count - 1), plan.hex_of(0)
    runs = [lambda: histories.check(damaged)]
    if fault.is_verified:
        runs += [lambda: program.verify(damaged), lambda: program.distinct(damaged), lambda: program.ancestor(damaged, *ids)]
        runs += [lambda run=run: run(damaged, *ids) for run in (histories.is_ancestor, histories.walk, histories.merge_base)]
    return [(run, lambda answer: judge.exactly(1, fault.line, "", answer)) for run in runs]


def listing(plan):
    """The text of `list`."""
    lines = ["layer %s bases 0 commits %d" % (KIND, plan.count)]
    for position, number in enumerate(plan.numbers):
        parents = ",".join(str(plan.positions[parent]) for parent in plan.parents[number]) or "-"
        said = (position, plan.id_at(position).hex(), TREE.hex(), plan.generations[number], plan.times[number], parents)
        lines.append("%d %s %s %d %d %s" % said)
    return "".join(line + "\n" for line in lines)


def shortest_walk(plan):
    """The one shortest walk from the last commit to the first: by the topic of each block, or by a third parent."""
    walk = []
    for first in range(plan.count - BLOCK, -1, -BLOCK):
        wide = len(plan.parents[first + MERGE]) > 2
        steps = (MERGE, 1, 0) if wide else (MERGE, TOPIC_END, TOPIC, FORK, 2, 1, 0)
        walk += [first + step for step in steps]
    return walk


def walk_complaint(plan, walk, answer):
    """A complaint where `ancestor` answers another walk, or a number of visits that is out of its bounds, or None."""
    match = WALKED.fullmatch(answer.out.decode())
    if answer.status != 0 or answer.err or not match:
        return "status %s and %r" % (answer.status, answer.out[:60])
    if [int(position) for position in (match.group(1) or "").split()] != [plan.positions[number] for number in walk]:
        return "another walk than that of %d commits" % len(walk)
    visits = int(match.group(2))
    return None if len(walk) - 1 <= visits <= plan.count else "%d visits" % visits


def asked(plan):
    """The end of a topic near the tip; and commits of many lower blocks, and last the end of the line beside the topic."""
    first = plan.count - BLOCK
    lower = [number * (first // OTHERS) + TOPIC_END for number in range(OTHERS - 1)]
    return first + TOPIC_END, lower + [first + LINE_END]


def bases_complaint(plan, first, answer):
    """A complaint where `merge-base` answers another base than the one on which the topic begins, or None."""
    match = COMPARED.fullmatch(answer.out.decode())
    if answer.status != 0 or answer.err or not match:
        return "status %s and %r" % (answer.status, answer.out[:60])
    base = first - TOPIC_END + FORK
    line = "base %d %s\n" % (plan.positions[base], plan.hex_of(base))
    ahead, behind = TOPIC_END - TOPIC + 1, LINE_END - FORK
    if match.groups()[:3] != (line, str(ahead), str(behind)):
        return "%s, expected %s" % (match.groups(), (line, ahead, behind))
    visits = int(match.group(4))
    return None if ahead + behind + 1 <= visits <= plan.count else "%d visits" % visits
