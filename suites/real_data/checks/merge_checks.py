"""Checks `merge`: of files and of chains the file is the one that Git writes of all commits from nothing, bit by bit; and each
refusal.

What is written passes `verify`, `check` and `git commit-graph verify`. Graphs at random, with cycles, without commits and with
shared lists of parents, are held beside a plain reading and writing.
"""

import os
import random
import re
import subprocess
import tempfile
from functools import partial

from checks import many
from checks.further_checks import add_changes, many_paths
from checks.object_checks import lay_chain
from checks.program import LINES
from checks.repeated_checks import LAYERS, PARENTS, Repeated
from checks.runs import check_runs
from checks.write_checks import CRISS_CROSS, is_file, lay_many
from damage import further, trees
from damage.layer import Outline, big_endian, sealed
from expected import judge, merged
from expected.objects import Graph
from histories import shapes
from histories.repository import ID_LENGTH, write_bytes

LATE = "times of every size"
"""The history with a time past 34 bits, of which Git writes a file that it refuses."""

HISTORIES = 2000
PART = 250
"""Histories that one process makes and tries before it takes the next."""

KINDS = {"a file", "a file with filters", "no commits", "a cycle", "a wrong graph"}
"""All that has to come up at random."""


def knows_merge(histories):
    """Whether the program has the command."""
    return b"merge PATH" in histories.run(stdin=subprocess.DEVNULL).err


def check_kind(programs, results, new):
    """The checks of one kind of hash; a new repository comes from a function of its name."""
    histories = programs[1]
    if not knows_merge(histories):
        print("left out, since the program has no such command: merge")
        return
    for name, history in {**shapes.ALL, "criss-cross": CRISS_CROSS}.items():
        if name != LATE:
            check_history(programs, results, new("merged, " + name), name, history)
    check_filters(histories, results, new("merged, filters"))
    check_log(programs, results, new("merged, filters of many paths"))
    check_mended(histories, results, new("merged, times past 34 bits"))
    check_many(histories, results, new("merged, many layers"))
    check_refused(programs, results, new("merged, refused"))


def check_history(programs, results, repository, name, history):
    """Files and chains of a history, with dates and without: each time it is the file that Git writes of all commits from nothing,
    with filters where all layers have them."""
    histories, kind, count = programs[1], repository.object_format, len(history)
    ids, layers = repository.add(history), {}
    for layer_count in sorted({1, min(2, count), min(10, count)}):
        for versions in ((2, 2), (1, 1), (1, 2), (2, 1)):
            flags = ["--changed-paths"] if versions == (2, 2) else []
            stops = [count * number // layer_count for number in range(1, layer_count + 1)]
            layers[layer_count, versions] = chain_of(repository, ids, stops, versions, flags)
    trees.lay_out(repository.info_path(), {})
    by_git = repository.new_graph()
    filtered = repository.new_graph("--changed-paths")
    for (layer_count, versions), chain in layers.items():
        lay_chain(repository, chain)
        title = "%s, %s, %d layers, dates of %d and %d, merged" % (kind, name, layer_count, *versions)
        by_now = filtered if versions == (2, 2) else by_git
        results.check(title, is_file(by_now, histories.merge(repository.info_path())))
    answer = histories.merge(repository.info_path())
    trees.lay_out(repository.info_path(), {trees.FILE: answer.out})
    path = repository.graph_path()
    results.check("%s, %s, merged once more" % (kind, name), is_file(by_git, histories.merge(path)))
    results.check("%s, %s, merged and found right" % (kind, name), found_right(programs, repository, path))


def chain_of(repository, ids, stops, versions, flags):
    """The layers that Git writes of commits up to each stop: the lowest with dates of the first version, where version 1 has
    none, and the others of the second."""
    trees.lay_out(repository.info_path(), {})
    for number, stop in enumerate(stops):
        repository.write_graph("--split=no-merge", *flags, generation_version=versions[number > 0], tips=ids[:stop])
    return [content for _, content in repository.chain()]


def found_right(programs, repository, path):
    """A complaint where `verify`, `check` or Git does not find the graph at a path right, or Git warns."""
    answers = [programs[0].verify(path), programs[1].check(path)]
    verdict = repository.git_verdict()
    if [answer.status for answer in answers] == [0, 0] and verdict == (0, False):
        return None
    return "%r, and Git says %s" % (answers, verdict)


def check_filters(histories, results, repository):
    """Chains whose layers have filters of the same settings, of others, damaged ones or none: the file has those of all layers, or
    none, and is the one that Git writes of all commits from nothing, with filters or without."""
    kind, ids, info = repository.object_format, repository.add(shapes.ticking(PARENTS)), repository.info_path()
    lower, upper = chain_of(repository, ids, [3, len(ids)], (2, 2), ["--changed-paths"])
    bare = chain_of(repository, ids, [3, len(ids)], (2, 2), [])
    trees.lay_out(info, {})
    plain, filtered = repository.new_graph(), repository.new_graph("--changed-paths")
    at = Outline(upper, kind).chunks["BDAT"].start
    more_bits = changed(upper, kind, at + 8, 11)
    in_file = Outline(filtered, kind).chunks["BDAT"].start
    for name, chain, expected in (
        ("filters in both layers", [lower, upper], filtered),
        ("more bits per entry in the upper layer", [lower, more_bits], changed(filtered, kind, in_file + 8, 11)),
        ("other settings in the upper layer", [lower, changed(upper, kind, at + 4, 6)], plain),
        ("another version in the upper layer", [lower, changed(upper, kind, at, 2)], plain),
        ("damaged filters in the upper layer", [lower, changed(upper, kind, at, 3)], plain),
        ("no filters in the lower layer", [bare[0], relaid(bare[0], upper, kind)], plain),
        ("no filters in the upper layer", [lower, relaid(lower, bare[1], kind)], plain),
    ):
        lay_chain(repository, chain)
        results.check("%s, %s, merged" % (kind, name), is_file(expected, histories.merge(info)))


def check_log(programs, results, repository):
    """Filters of many paths, of too many and of none, some of which were not computed: over the merged file `git log` names the
    commits of a path that it names without."""
    histories, kind, info = programs[1], repository.object_format, repository.info_path()
    changes = many_paths()
    ids = add_changes(repository, changes)
    paths = sorted({path for change in changes for path in change.paths[:2] + change.paths[-2:]})
    plain = [log_of(repository, path, "false") for path in paths]
    filtered = repository.new_graph("--changed-paths")
    for name, most in (("all of them computed", len(ids)), ("some of them computed", 2)):
        chain = chain_of(repository, ids, [4, len(ids)], (2, 2), ["--changed-paths", "--max-new-filters=%d" % most])
        lay_chain(repository, chain)
        title = "%s, filters of many paths, %s, merged" % (kind, name)
        answer = histories.merge(info)
        results.check(title, is_file(filtered if most == len(ids) else merged.file_of(chain), answer))
        trees.lay_out(info, {trees.FILE: answer.out})
        results.check(title + " and found right", found_right(programs, repository, repository.graph_path()))
        differ = [path for path, said in zip(paths, plain) if log_of(repository, path, "true") != said]
        results.check(title + ", git log", "of %s it says something else" % differ[:3] if differ else None)


def log_of(repository, path, graph):
    """The commits that Git says change a path: without commit-graphs or with."""
    return repository.git("-c", "core.commitGraph=" + graph, "log", "--all", "--format=%H", "--", os.fsdecode(path))


def changed(layer, kind, at, number):
    """The layer with another number of four bytes at a place."""
    return sealed(layer[:at] + big_endian(number, 4) + layer[at + 4 :], kind)


def relaid(lower, upper, kind):
    """The upper layer of a chain of two on top of another lower layer."""
    at, size = Outline(upper, kind).chunks["BASE"].start, ID_LENGTH[kind]
    return sealed(upper[:at] + lower[-size:] + upper[at + size :], kind)


def check_mended(histories, results, repository):
    """Of a time past 34 bits Git writes the low bits, and dates that `check` refuses: merged, the dates are right."""
    repository.add(shapes.ALL[LATE])
    layer, path = repository.new_graph(), repository.graph_path()
    title, refused = "%s, %s, " % (repository.object_format, LATE), histories.check(path)
    results.check(title + "refused for its dates", None if refused.out.startswith(b"refused dates 5") else "%r" % (refused,))
    answer = histories.merge(path)
    results.check(title + "merged", is_file(merged.file_of([layer]), answer))
    write_bytes(path, answer.out)
    mended = histories.check(path)
    results.check(title + "merged and found right", None if mended.status == 0 else "%r" % (mended,))


def check_many(histories, results, repository):
    """Chains of 255 and of 256 layers."""
    for count in (255, 256):
        lay_many(repository, count)
        chain = [content for _, content in repository.chain()]
        title = "%s, %d layers, merged" % (repository.object_format, count)
        results.check(title, is_file(merged.file_of(chain), histories.merge(repository.info_path())))


def check_refused(programs, results, repository):
    """Chains in which commits stand twice, and what opens no graph or a wrong one, in the words of `verify`."""
    program, histories = programs
    kind, ids = repository.object_format, repository.add(shapes.ticking(PARENTS))
    info, path, runs = repository.info_path(), repository.graph_path(), []
    layer = repository.new_graph()
    repeated = Repeated(repository, [[ids[commit] for commit in commits] for commits in LAYERS])
    for count in (2, 3):
        lay_chain(repository, repeated.files[:count])
        line = merged.refusal(Graph(repeated.files[:count]))
        assert line.startswith("refused write 5 ")
        results.check("%s, %d layers with commits twice, merged" % (kind, count), judge.verdict(line, histories.merge(info)))
    trees.lay_out(info, {})
    at = Outline(layer, kind).chunks["CDAT"].stop - 8
    wrong = {
        "nothing": None,
        "no file of this kind": b"x" + layer[1:],
        "a cut file": layer[:1000],
        "a changed byte": layer[:-1] + bytes([layer[-1] ^ 1]),
        "a generation number too high": sealed(layer[:at] + big_endian(2**40 - 1, 8) + layer[at + 8 :], kind),
    }
    for name, content in wrong.items():
        at_path = os.path.join(repository.folder, name)
        if content:
            write_bytes(at_path, content)
        line = program.verify(at_path).out.decode()
        assert line.startswith("refused ")
        runs.append((partial(histories.merge, at_path), partial(judge.verdict, line)))
    check_runs(results, "%s, wrong graphs, merged" % kind, runs)
    at_dates = Outline(layer, kind).chunks["GDA2"].start
    write_bytes(path, sealed(layer[:at_dates] + big_endian(5, 4) + layer[at_dates + 4 :], kind))
    results.check("%s, wrong dates, merged" % kind, is_file(layer, histories.merge(path)))


def check_all(histories, results):
    """The checks of some graphs at random, always the same ones."""
    if not knows_merge(histories):
        return
    parts = [(histories.path, start, min(PART, HISTORIES - start)) for start in range(0, HISTORIES, PART)]
    answers = many.in_processes(try_part, parts)
    complaints = [complaint for complaint, _, _ in answers if complaint]
    results.check("merge, %d graphs at random" % HISTORIES, complaints[0] if complaints else None)
    LINES.update(("merge", line) for _, _, lines in answers for line in lines)
    odd = sorted(KINDS.symmetric_difference(set().union(*(kinds for _, kinds, _ in answers))))
    results.check("merge, graphs at random, each kind of answer", "none or one has %s" % odd if odd else None)


def try_part(program, start, count):
    """Tries some graphs: a complaint or None, the kinds of answers that had to come, and the lines of refusals."""
    kinds, lines = set(), set()
    with tempfile.TemporaryDirectory() as folder:
        bench, info = many.Bench(program, folder), os.path.join(folder, "info")
        for number in range(start, start + count):
            graph = further.graph(random.Random("merged %d" % number))
            trees.lay_out(info, trees.of_layers(graph.kind, graph.layers))
            status, text = bench.run("merge", info)
            kind, complaint = tried(graph, status, text)
            kinds.add(kind)
            if complaint:
                return "graph %d, %s: %s" % (number, kind, complaint), kinds, lines
            if status == 1:
                lines.add(text.decode().rstrip("\n"))
    return None, kinds, lines


def tried(graph, status, text):
    """The kind of answer that a graph has to have, and a complaint or None."""
    if graph.verified.startswith("refused"):
        return "a wrong graph", other((1, graph.verified.encode()), (status, text))
    read = Graph(graph.layers)
    line = merged.refusal(read)
    if line is None:
        file = merged.file_of(graph.layers)
        kind = "a file with filters" if "BDAT" in Outline(file, graph.kind).chunks else "a file"
        return kind, other((0, file), (status, text))
    if not line.endswith("*\n"):
        return "no commits", other((1, line.encode()), (status, text))
    named = re.fullmatch(rb"refused write 8 commit (\d+)\n", text)
    right = status == 1 and named and int(named[1]) in merged.on_cycles(merged.parents_of(read))
    return "a cycle", None if right else "it is %r" % ((status, text[:60]),)


def other(expected, answer):
    """A complaint where an answer is not the one that is expected."""
    return None if answer == expected else "it is %r in place of %r" % ((answer[0], answer[1][:60]), expected[1][:60])
