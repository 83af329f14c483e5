"""Checks what is said of a chain in which upper layers repeat commits of lower ones, beside Git and all walks that there are.

Git's format allows that, and `verify` passes it. An id is looked up at its first position, and a parent is named at the
position that it has in its child's own layer, if there is one. So some answers differ from Git's: which ones is
checked too, and what `git cgraph` says then. Last, a chain file with other line ends, which Git does not load.
"""

import os
from collections import deque
from functools import partial
from itertools import permutations

import refusals
from checks.cgraph_checks import Installed, Way
from checks.disk_checks import right_chain
from checks.runs import check_runs
from damage import trees
from damage.built import Commit, file_of
from expected import judge
from expected.listing import generations
from histories import shapes

PARENTS = [[], [], [0], [2], [3, 2], [3, 2], [1, 3], [2]]
"""The parents of some commits: two roots, a line on the first, two merges of the line's last two, and two more."""

LAYERS = ((0, 1, 2, 3), (2, 4, 5), (1, 3, 6, 7))
"""The commits of each layer; of those of the lowest the others have three again."""

ALIKE, NO_WALK, LONGER, MORE_WALKS = "as Git says", "no walk", "a longer walk", "a walk that Git does not know"
NO_BASE, MORE, OTHER = "no merge base", "a base too many", "another base"
KINDS = {
    "is-ancestor": {ALIKE, NO_WALK},
    "walk": {ALIKE, NO_WALK, LONGER},
    "merge-base": {ALIKE, NO_BASE, MORE, OTHER},
}
"""How the answers to each question compare with Git's; each kind has to come up."""


class Repeated:
    """A chain of commits, some of which stand in several layers: the id, parents and generation at each position."""

    def __init__(self, repository, layers):
        words, kind = repository.words(), repository.object_format
        levels, starts = generations(words), [0]
        self.ids, self.parents, self.files = [], [], []
        for layer in layers:
            self.ids += sorted(layer)
            starts.append(len(self.ids))
        for start, stop in zip(starts, starts[1:]):
            rows = []
            for commit in self.ids[start:stop]:
                own, lower = self.ids[start:stop], self.ids[:start]
                places = [start + own.index(it) if it in own else lower.index(it) for it in words[commit].parents]
                said = words[commit]
                rows.append(Commit(bytes.fromhex(commit), tuple(places), levels[commit], said.time, bytes.fromhex(said.tree)))
            self.parents += [row.parents for row in rows]
            size = len(rows[0].id)
            self.files.append(file_of(kind, rows, [file[-size:] for file in self.files]))
        self.tree = trees.of_layers(kind, self.files)
        self.steps = [self.steps_from(position) for position in range(len(self.ids))]

    def steps_from(self, position):
        """How many steps each position that one reaches is away from it."""
        found, queue = {position: 0}, deque([position])
        while queue:
            at = queue.popleft()
            for parent in self.parents[at]:
                if parent not in found:
                    found[parent] = found[at] + 1
                    queue.append(parent)
        return found

    def bases(self, first, second):
        """The positions that both of two reach and that none of these reaches but by no step."""
        common = set(self.steps[first]) & set(self.steps[second])
        return sorted(it for it in common if not any(it in self.steps[other] for other in common - {it}))

    def shortest(self, first, second):
        """How many steps an id is away from another, where a position may be any that has the parent's id; or None."""
        found, queue = {first: 0}, deque([first])
        while queue:
            commit = queue.popleft()
            for parent in self.parents[self.ids.index(commit)]:
                if self.ids[parent] not in found:
                    found[self.ids[parent]] = found[commit] + 1
                    queue.append(self.ids[parent])
        return found.get(second)

    def is_walk(self, ids, first, second):
        """Whether ids are those on a shortest walk from a position to another."""
        at = {first}
        for commit in ids[1:]:
            at = {parent for here in at for parent in self.parents[here] if self.ids[parent] == commit}
        is_walk = ids[:1] == [self.ids[first]] and second in at
        return is_walk and len(ids) == self.steps[first][second] + 1


def check_kind(programs, results, new):
    """The checks of a chain, which are the same for each kind of hash."""
    repository = new("commits in several layers")
    graph, ids = laid_out(repository)
    title, path = "%s, commits in several layers" % repository.object_format, repository.info_path()
    program, histories = programs
    verified, git = program.verify(path), repository.git_verdict()
    right = (verified.status, git.status) == (0, 0) and verified.out.startswith(b"ok commits %d " % len(graph.ids))
    results.check(title + ", verified, and passed by Git", None if right else "they are %r and %r" % (verified, git))
    twice = next(number for number, commit in enumerate(graph.ids) if commit in graph.ids[:number])
    line = "refused verify 11 position %d earlier %d\n" % (twice, graph.ids.index(graph.ids[twice]))
    results.check(title + ", one of them is named", judge.exactly(1, line, "", program.distinct(path)))
    for commit in ids:
        found = program.find(path, commit).out.split()[:2]
        complaint = None if found == [b"position", b"%d" % graph.ids.index(commit)] else "it is %r" % (found,)
        results.check("%s, found, commit %d" % (title, ids.index(commit)), complaint)
    kinds = {word: set() for word in KINDS}
    check_runs(results, title + ", questions", list(questions(histories, repository, graph, kinds)))
    results.check(title + ", which answers are Git's", None if kinds == KINDS else "they are %r" % kinds)
    check_hints(results, title, repository, graph)
    check_line_ends(program, results, new("a chain with other line ends"))


def check_hints(results, title, repository, graph):
    """Where no walk leads from a commit to another, and Git's answer is that one does, the other stands twice: that is the
    id which tables/refusals.tsv names beside the answer."""
    pairs = permutations(sorted(set(graph.ids)), 2)
    missed = [it for it in pairs if repository.reaches(*it) and kind_of_pair(graph, *it) == NO_WALK]
    for command, line, asked in (("is-ancestor", "no", (1, 0)), ("walk", "none", (0, 1))):
        advice = refusals.row_of(refusals.read_rows(), line, command).to_do
        named = [place for place, word in zip(asked, ("first", "second")) if "the %s id may stand" % word in advice]
        right = named and missed and all(graph.ids.count(pair[place]) > 1 for pair in missed for place in named)
        results.check("%s, the id that stands twice, %s" % (title, command), None if right else "the advice is %r" % advice)


def kind_of_pair(graph, first, second):
    """How the answer whether a commit leads to another compares with that of Git, which says yes."""
    return kind_of_walk(graph.ids.index(second) in graph.steps[graph.ids.index(first)], True)


def laid_out(repository):
    """The chain, once it stands in a new repository, and the ids of its commits."""
    ids = repository.add(shapes.ticking(PARENTS))
    graph = Repeated(repository, [[ids[place] for place in layer] for layer in LAYERS])
    trees.lay_out(repository.info_path(), graph.tree)
    return graph, ids


def questions(histories, repository, graph, kinds):
    """Each question about two of the commits, with the judge of its answer; how the answers compare with Git's is noted."""
    path = repository.info_path()
    for pair in permutations(sorted(set(graph.ids)), 2):
        first, second = map(graph.ids.index, pair)
        leads, reached = second in graph.steps[first], repository.reaches(*pair)
        found, bases = graph.bases(first, second), repository.merge_bases(*pair)
        shortest = graph.shortest(*pair)
        kinds["is-ancestor"].add(kind_of_walk(leads, reached))
        kinds["walk"].add(LONGER if leads and graph.steps[first][second] > shortest else kind_of_walk(leads, reached))
        kinds["merge-base"].add(kind_of_bases({graph.ids[base] for base in found}, set(bases)))
        told = (0, "yes\n", "") if leads else (1, "no\n", "")
        text = "".join("base %d %s\n" % (base, graph.ids[base]) for base in found) or "none\n"

        def walked(answer, places=(first, second), leads=leads):
            ids = answer.out.decode().split()
            right = answer.status == 0 and graph.is_walk(ids, *places) if leads else answer[:2] == (1, b"none\n")
            return None if right else "%r, from %s to %s" % (answer, *places)

        def based(answer, text=text):
            right = answer.out.decode().startswith(text + "ahead ")
            return None if right else "%r, expected %r" % (answer, text)

        yield lambda pair=pair: histories.is_ancestor(path, *reversed(pair)), partial(judge.exactly, *told)
        yield lambda pair=pair: histories.walk(path, *pair), walked
        yield lambda pair=pair: histories.merge_base(path, *pair), based


def kind_of_walk(leads, reached):
    """How an answer about a walk compares with Git's."""
    return ALIKE if leads == reached else NO_WALK if reached else MORE_WALKS


def kind_of_bases(found, bases):
    """How merge bases compare with Git's."""
    if found == bases:
        return ALIKE
    return NO_BASE if not found else MORE if found > bases else OTHER


def check_all(programs, results, folder, new):
    """What `git cgraph` says beside its answers of such a chain, and of Git's own chain of the same commits."""
    os.mkdir(os.path.join(folder, "told"))
    installed = Installed(os.path.join(folder, "told", "installed"), programs)
    repository = new("sha1", "told of commits in several layers")
    ids = laid_out(repository)[1]
    check_questions(installed, results, repository, ids, ("commits in several layers", "the answer may differ from Git's"))
    trees.lay_out(repository.info_path(), {})
    for stop in (4, 6, 8):
        repository.write_graph("--split=no-merge", tips=ids[:stop])
    check_questions(installed, results, repository, ids, ("Git's own chain", None))


def check_questions(installed, results, repository, ids, case):
    """Some questions of `git cgraph`, beside whose answers this has to be said, or nothing where a graph is Git's."""
    name, beside = case
    way, rows = Way(repository.folder), refusals.read_rows()
    for words, right, wrong in (
        (["is-ancestor", ids[1], ids[6]], (0, "yes\n"), (1, "no\n")),
        (["is-ancestor", ids[6], ids[1]], (1, "no\n"), (1, "no\n")),
        (["walk", ids[6], ids[3]], (0, "%s\n%s\n" % (ids[6], ids[3])), (1, "none\n")),
        (["merge-base", ids[1], ids[6]], (0, ids[1] + "\n"), (1, "none\n")),
        (["merge-base", ids[3], ids[6]], (0, ids[3] + "\n"), (0, ids[2] + "\n")),
        (["merge-base", ids[0], ids[1]], (1, "none\n"), (1, "none\n")),
    ):
        status, out = wrong if beside else right
        chains = os.path.join(os.path.realpath(repository.info_path()), "commit-graphs")
        known = refusals.Known("", "", ["rm -rf '%s'" % chains, "git commit-graph write --reachable --split"])
        err = refusals.written("git cgraph", refusals.sentences(rows, "", words[0], known, beside)) if beside else ""
        answer = installed.ask(way, *words)
        complaint = None if answer == (status, out, err) else "it is %r, expected %r" % (answer, (status, out, err))
        places = " ".join(str(ids.index(commit)) for commit in words[1:])
        results.check("git cgraph %s %s, of %s" % (words[0], places, name), complaint)


def check_line_ends(program, results, repository):
    """A chain file whose lines end with 0d 0a: its layers are opened, and Git warns and checks none of them."""
    right, verdicts, title = right_chain(repository), [], "%s, line ends 0d 0a" % repository.object_format
    damaged = trees.Layer(right.lines[-1].decode(), right.layers[-1].content[:-1] + b"\0")
    for name, layers, text in (
        ("a right chain", right.layers, right.texts[-1]),
        ("a damaged chain", [*right.layers[:-1], damaged], "refused verify 4 layer 2 fault 1\n"),
    ):
        trees.lay_out(repository.info_path(), {**trees.chain(layers), trees.CHAIN: b"".join(it + b"\r\n" for it in right.lines)})
        results.check("%s, %s" % (title, name), judge.verdict(text, program.verify(repository.info_path())))
        verdicts.append(repository.git_verdict())
    complaint = None if verdicts[0] == verdicts[1] and verdicts[0].warned else "it says %r" % verdicts
    results.check(title + ", Git warns of both alike", complaint)
