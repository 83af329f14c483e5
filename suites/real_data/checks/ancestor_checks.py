"""Checks `ancestor`, and `is-ancestor` and `walk`: each pair of commits, in a file and in a chain, beside
`git merge-base --is-ancestor`; and `merge-base`, of some sets of them.

And the two cases in which the answers differ: an id in two layers, and commits whose parents Git replaces.
"""

import itertools
from functools import partial

from checks import base_checks
from checks.runs import check_runs
from damage import trees
from damage.layer import big_endian, contents, exact_fan, with_chunks
from expected import judge
from expected.walks import Walks
from histories import shapes

UNKNOWN = "1" * 40

LINE = 12
"""So many commits has a line of which each pair is asked for."""


def check_kind(programs, results, new):
    """The checks of walks to ancestors by both programs; a new repository comes from a function of its name."""
    check_line(programs, results, new("ancestors in a line"))
    check_file(programs, results, new("ancestors in a file"))
    check_chain(programs, results, new("ancestors in a chain"))
    check_id_in_two_layers(programs, results, new("ancestors by an id in two layers"))
    check_replaced_parents(programs, results, new("ancestors by replaced parents"))


def check_line(programs, results, repository):
    """All pairs of commits in a line, of which each search visits a certain number: those from the one to the other."""
    ids = repository.add(shapes.linear(LINE))
    repository.write_graph()
    place, path = sorted(ids).index, repository.graph_path()

    def complaint(later, earlier, answers):
        walk = [place(commit) for commit in ids[earlier : later + 1][::-1]]
        text = "walk %s\nvisits %d\n" % (" ".join(map(str, walk)), len(walk)) if walk else "none\nvisits 0\n"
        base, apart = min(later, earlier), abs(later - earlier)
        counts = max(later - earlier, 0), max(earlier - later, 0)
        bases = "base %d %s\nahead %d behind %d\nvisits %d\n" % (place(ids[base]), ids[base], *counts, apart + 1)
        complaints = [judge.exactly(0, bases, "", answer) for answer in answers[1:]]
        return judge.exactly(int(not walk), text, "", answers[0]) or next(filter(None, complaints), None)

    pairs = itertools.product(range(LINE), repeat=2)
    runs = [(lambda pair=pair: asked(programs, path, *(ids[it] for it in pair)), partial(complaint, *pair)) for pair in pairs]
    check_runs(results, "%s, ancestor and merge-base, each pair of a line, and their visits" % repository.object_format, runs)


def asked(programs, path, first, second):
    """The answers to `ancestor` and `merge-base` of two commits, the last one also with `--unchecked`."""
    program, histories = programs
    bases = histories.merge_base(path, first, second), histories.merge_base_unchecked(path, first, second)
    return program.ancestor(path, first, second), *bases


def check_file(programs, results, repository):
    """All pairs of commits of merges, in a single file; and ids that are not in it."""
    repository.add(shapes.diamonds(10))
    repository.write_graph()
    words = repository.words()
    check_pairs(programs, results, repository, "merges", Walks(words, [list(words)]))
    known, path = min(words), repository.graph_path()
    commands = {"ancestor": programs[0].ancestor, "is-ancestor": programs[1].is_ancestor, "walk": programs[1].walk}
    commands["is-ancestor --unchecked"] = programs[1].is_ancestor_unchecked
    commands["walk --unchecked"] = programs[1].walk_unchecked
    for name, pair, number in (("first", (UNKNOWN, known), 1), ("second", (known, UNKNOWN), 2), ("both", (UNKNOWN,) * 2, 1)):
        for command, run in commands.items():
            complaint = judge.exactly(1, "unknown %d\n" % number, "", run(path, *pair))
            results.check("%s, %s, an id that is not there: %s" % (repository.object_format, command, name), complaint)


def check_chain(programs, results, repository):
    """All pairs of commits of a tangled history, in a chain of three layers."""
    history, size = shapes.tangled(36, seed=8), 12
    ids = []
    for start in range(0, len(history), size):
        ids += repository.add(history[: start + size], start)[start:]
        repository.write_graph("--split=no-merge")
    layers = [ids[start : start + size] for start in range(0, len(ids), size)]
    check_pairs(programs, results, repository, "a tangled chain", Walks(repository.words(), layers))


def check_pairs(programs, results, repository, name, walks):
    """What is said of each pair of commits."""
    program, histories = programs
    path = repository.info_path()

    def answer(pair):
        questions = (histories.is_ancestor(path, *reversed(pair)), histories.walk(path, *pair))
        unchecked = (histories.is_ancestor_unchecked(path, *reversed(pair)), histories.walk_unchecked(path, *pair))
        return repository.reaches(*pair), program.ancestor(path, *pair), questions, unchecked

    def complaint(pair, answers):
        reached, ancestor, *asked = answers
        expected = (0, "yes\n", "") if reached else (1, "no\n", "")
        complaints = [judge.exactly(*expected, told) or walks.judge_ids(*pair, reached, walk) for told, walk in asked]
        return walks.judge(*pair, reached, ancestor) or next(filter(None, complaints), None)

    pairs = list(itertools.product(walks.words, repeat=2))
    runs = [(lambda pair=pair: answer(pair), lambda answers, pair=pair: complaint(pair, answers)) for pair in pairs]
    check_runs(results, "%s, ancestor, is-ancestor and walk, also unchecked, each pair of %s" % (repository.object_format, name), runs)
    base_checks.check_bases(histories, results, repository, name, walks)


def check_id_in_two_layers(programs, results, repository):
    """Three commits in a line, the second of them in both layers of a chain, and the third on its later position.

    `verify` and Git pass the chain. An id is looked up at its first position, to which no walk leads here.
    """
    program, histories = programs
    root, middle, tip = ids = repository.add(shapes.linear(3))
    trees.lay_out(repository.info_path(), with_middle_in_both(repository, ids))
    position = sorted([root, middle]).index(middle)
    later = 2 + sorted([middle, tip]).index(middle)
    title, path = "%s, an id in two layers" % repository.object_format, repository.info_path()
    passed = judge.verdict("ok commits 4 longest 2\nparents 0 commits 1\nparents 1 commits 3\n", program.verify(path))
    results.check(title + ", verified", passed)
    results.check(title + ", passed by Git", complaint_of((0, False), repository.git_verdict()))
    refused = judge.verdict("refused verify 11 position %d earlier %d\n" % (later, position), program.distinct(path))
    results.check(title + ", its ids distinct", refused)
    results.check(title + ", the tip reaches it, as Git says", complaint_of(True, repository.reaches(tip, middle)))
    nothing = judge.exactly(1, "none\nvisits 2\n", "", program.ancestor(path, tip, middle))
    results.check(title + ", no walk to its first position", nothing)
    told = judge.exactly(1, "no\n", "", histories.is_ancestor(path, middle, tip))
    results.check(title + ", told of its first position", told)
    walk = "walk %d %d %d\nvisits 3\n" % (5 - later, later, 1 - position)
    results.check(title + ", a walk by its later one", judge.exactly(0, walk, "", program.ancestor(path, tip, root)))
    ids = "%s\n%s\n%s\n" % (tip, middle, root)
    results.check(title + ", the ids on that walk", judge.exactly(0, ids, "", histories.walk(path, tip, root)))


def with_middle_in_both(repository, ids):
    """The tree of a chain of the first two commits in a line, and of the last two."""
    root, middle, tip = ids
    kind, size = repository.object_format, len(bytes.fromhex(root))
    for last in (middle, tip):
        repository.write_graph("--split=no-merge", tips=[last], generation_version=1)
    lower, upper = [trees.Layer(checksum, content) for checksum, content in repository.chain()]
    at = sorted([root, middle]).index(middle) * (size + 16)
    middle_record = dict(contents(lower.content, kind))[b"CDAT"][at : at + size + 16]
    chunks = dict(contents(upper.content, kind))
    on_middle = big_endian(2 + sorted([middle, tip]).index(middle), 4)
    tip_record = chunks[b"CDAT"][:size] + on_middle + chunks[b"CDAT"][size + 4 :]
    records = {middle: middle_record, tip: tip_record}
    both = [bytes.fromhex(commit) for commit in sorted(records)]
    chunks[b"OIDF"] = b"".join(big_endian(count, 4) for count in exact_fan(both))
    chunks[b"OIDL"], chunks[b"CDAT"] = b"".join(both), b"".join(records[commit.hex()] for commit in both)
    content = with_chunks(upper.content, kind, list(chunks.items()))
    return trees.chain([lower, trees.Layer("", content).renamed(kind)])


def check_replaced_parents(programs, results, repository):
    """A tip that `git replace --graft` takes off its parent, and puts on a root that is none of its ancestors.

    The commit-graph has the parents that stand in the commits, and so has Git where it replaces none.
    """
    program, histories = programs
    root, tip, other = repository.add(shapes.ticking([[], [0], []]))
    repository.write_graph()
    place, path = sorted([root, tip, other]).index, repository.graph_path()
    answers = {
        root: (0, "walk %d %d\nvisits 2\n" % (place(tip), place(root))),
        other: (1, "none\nvisits 2\n"),
    }
    for name, graft, reached in (("as it was made", [], root), ("replaced", [tip, other], other)):
        if graft:
            repository.git("replace", "--graft", *graft)
        for second, (status, text) in answers.items():
            title = "%s, a tip %s, ancestor %d" % (repository.object_format, name, place(second))
            results.check(title + ", as Git says", complaint_of(second == reached, repository.reaches(tip, second)))
            results.check(title, judge.exactly(status, text, "", program.ancestor(path, tip, second)))
            told = judge.exactly(status, "no\n" if status else "yes\n", "", histories.is_ancestor(path, second, tip))
            results.check(title + ", told", told)


def complaint_of(expected, seen):
    """A complaint where something else is seen than is expected, or None."""
    return None if seen == expected else "%s, expected %s" % (seen, expected)
