"""Checks the ways to name a graph: what `verify` and `find` say of files, folders and chains of layers."""

import os
import shutil
from functools import partial

from checks.runs import check_runs
from damage.layer import LEAST_SIZE
from expected import judge
from expected.facts import found, verified
from histories import shapes
from histories.repository import ID_LENGTH, Repository, read_bytes, write_bytes

NAME = "named größe.ñ, 名.graph"
"""The name of a folder with spaces, dots and letters beyond ASCII."""

NO_IDS = {
    **dict.fromkeys(["", "zz", "0" * 39, "0" * 41, "0" * 63, "0" * 65, "0" * 40 + "\n", "é" * 40], 1),
    **dict.fromkeys(["0" * 39 + "g", "G" + "0" * 63, "0x" + "0" * 38, " " + "0" * 39, "é" * 20, "é" * 32], 2),
}
"""Words that are no ids, and the number of the refusal: of their length, or of a digit."""


def check_kind(program, results, new, differences):
    """The checks of names of graphs; a new repository comes from a function of its name."""
    check_file(program, results, new(NAME))
    for name, history, size in (
        ("a chain of 3 layers", shapes.octopus(3, 4, 2)[:12], 4),
        ("a chain of 20 layers", shapes.tangled(40, seed=6), 2),
    ):
        check_chain(program, results, new("%s, %s" % (NAME, name)), (name, history, size), differences)
    check_alternate(program, results, new("alternate"), differences)


def check_file(program, results, repository):
    """A graph of a single file, by its path, by that of its folder, and by other names."""
    repository.add(shapes.octopus(3, 4, 2))
    words = repository.words()
    layer, info = repository.new_graph(), repository.info_path()
    beside = [os.path.join(repository.folder, name) for name in file_names(layer, repository)]
    for path in beside:
        write_bytes(path, layer)
    paths = [(path, None) for path in beside + [repository.graph_path()]]
    paths += [(name, info) for name in ("commit-graph", "./commit-graph", "../info//commit-graph")]
    paths += [(link_to(path, repository), None) for path in (repository.graph_path(), info)]
    title = "%s, a single file" % repository.object_format
    check_ways(program, results, title, paths + folder_names(info), (words, [list(words)]))
    check_other_ids(program, results, title, repository.graph_path(), (words, [list(words)]))
    check_names_of_layers(program, results, repository, layer)


def file_names(layer, repository):
    """Names of files that a layer can have."""
    checksum = layer[-ID_LENGTH[repository.object_format] :].hex()
    others = ["a file", "graph", "graph-", "graph-ab", "graph-.graph.", "Graph-ab.graph", ".graph", "graph.graph"]
    return others + ["graph-%s.graph" % checksum, "graph-%s.graph" % checksum.upper(), "größe ñ 名"]


def link_to(path, repository):
    """A symbolic link to a path, which is named as the path is."""
    link = os.path.join(repository.folder, "link to " + os.path.basename(path))
    os.symlink(path, link)
    return link


def folder_names(folder):
    """Ways to name a folder: the text, and the folder that it counts from."""
    name = os.path.basename(folder)
    plain = [(folder + more, None) for more in ("", "/", "//", "/.", "/./", "/../" + name)]
    return plain + [(text, folder) for text in (".", "./", "../" + name)] + [(name, os.path.dirname(folder))]


def check_names_of_layers(program, results, repository, layer):
    """Files that are named as layers of a chain, but not by their checksums: `verify` alone refuses them."""
    commit, line = min(found(repository.words(), [list(repository.words())]).items())
    for middle in ("", "ab", commit, commit.upper(), "0" * 40, "0" * 64, "graph-.graph"):
        path = os.path.join(repository.folder, "graph-%s.graph" % middle)
        write_bytes(path, layer)
        title = "%s, a file with %a in its name" % (repository.object_format, middle)
        results.check(title + ", verified", judge.verdict("refused verify 4 layer 0 fault 2\n", program.verify(path)))
        results.check(title + ", found", judge.same(line, program.find(path, commit)))


def check_chain(program, results, repository, case, differences):
    """A chain of layers, each written by Git after a batch of commits."""
    name, history, size = case
    ids = []
    for start in range(0, len(history), size):
        ids += repository.add(history[: start + size], start)[start:]
        repository.write_graph("--split=no-merge")
    layers = [ids[start : start + size] for start in range(0, len(ids), size)]
    words, graphs = repository.words(), os.path.join(repository.info_path(), "commit-graphs")
    title = "%s, %s" % (repository.object_format, name)
    complaint = None if len(repository.chain()) == len(layers) else "there are %d" % len(repository.chain())
    results.check(title + ", of %d layers" % len(layers), complaint)
    copy = shutil.copytree(graphs, os.path.join(repository.folder, "größe ñ.d"))
    for folder in (repository.info_path(), graphs, copy):
        check_ways(program, results, title, folder_names(folder), (words, layers))
    check_other_ids(program, results, title, graphs, (words, layers))
    differences.compare(name, program.verify(graphs), repository.git_verdict())
    check_files_of_chain(program, results, title, repository, layers)


def check_files_of_chain(program, results, title, repository, layers):
    """Each layer of a chain as a file: the lowest is right, a higher one lacks its bases, but has its commits."""
    words, graphs = repository.words(), os.path.join(repository.info_path(), "commit-graphs")
    lowest = {commit: said for commit, said in words.items() if commit in layers[0]}
    for number, (checksum, _) in enumerate(repository.chain()):
        path = os.path.join(graphs, "graph-%s.graph" % checksum)
        text = "refused verify 2 layer 0\n" if number else verified(lowest)
        name = "%s, the file of layer %d" % (title, number)
        results.check(name + ", verified", judge.verdict(text, program.verify(path)))
        check_found(program, results, name, (path, None), (words, [layers[number]]))
    path = os.path.join(graphs, "commit-graph-chain")
    text = "refused open 5 layer 0 file %d\n" % (1 if os.path.getsize(path) < LEAST_SIZE else 2)
    results.check("%s, the chain file, verified" % title, judge.verdict(text, program.verify(path)))


def check_ways(program, results, title, paths, graph):
    """What `verify` and `find` say of a graph by each of some names; it is Git's words and the layers' ids.

    By the first name each commit is looked up, by the others some are.
    """
    for number, (path, folder) in enumerate(paths):
        name = path if folder else os.path.basename(path) or path.rsplit("/", 2)[-2] + "/"
        place = "%s, as %a%s" % (title, name, " from a folder" if folder else "")
        results.check(place + ", verified", judge.same(verified(graph[0]), program.verify(path, cwd=folder)))
        check_found(program, results, place, (path, folder), graph, step=5 if number else 1)


def check_found(program, results, title, way, graph, step=1):
    """Each commit of a graph is found where it stands, or some of them are, in steps."""
    path, folder = way
    lines = list(found(*graph).items())[::step]
    runs = [(partial(program.find, path, commit, cwd=folder), partial(judge.same, line)) for commit, line in lines]
    check_runs(results, title + ", found", runs)


def check_other_ids(program, results, title, path, graph):
    """What is said of ids that are not in a graph, of ids in capitals, and of words that are no ids."""
    words, layers = graph
    commit, line = min(found(words, layers).items())
    answer = program.find(path, commit.upper())
    results.check(title + ", an id in capitals", judge.same(line, answer))
    none = partial(judge.exactly, 1, "none\n", "")
    check_runs(results, title + ", absent ids", [(partial(program.find, path, other), none) for other in absent(words)])
    nothing = os.path.join(path, "nothing")
    for word, number in NO_IDS.items():
        refused = partial(judge.exactly, 2, "refused id %d\n" % number, "")
        runs = [(partial(program.find, where, word), refused) for where in (path, nothing, "")]
        check_runs(results, "%s, %a is no id" % (title, word), runs)
    answer = program.find(nothing, commit)
    results.check(title + ", an id where nothing stands", judge.exactly(1, "refused open 1\n", "", answer))


def absent(words):
    """Ids that no commit has: next to those of commits, of trees, the least, the greatest, and of the other kind."""
    commits = sorted(words)
    near = [commit[:-1] + format(int(commit[-1], 16) ^ 1, "x") for commit in commits[:5]]
    far = [format(int(commit[0], 16) ^ 8, "x") + commit[1:] for commit in commits[-5:]]
    trees = [said.tree for said in words.values()][:5]
    size = len(commits[0])
    other_kind = [(commit + "0" * 24)[: 104 - size] for commit in commits[:5]] + ["0" * (104 - size)]
    return sorted(set(near + far + trees + ["0" * size, "f" * size]) - set(words)) + other_kind


def check_alternate(program, results, lower, differences):
    """A chain whose lower layer stands in an alternate: it does not open here, but does for Git."""
    ids = lower.add(shapes.linear(8))
    lower.write_graph("--split=no-merge", tips=ids[:5])
    upper = Repository(lower.folder + " above", lower.object_format)
    write_bytes(os.path.join(upper.info_path(), "alternates"), os.path.join(lower.folder, "objects").encode() + b"\n")
    upper.git("update-ref", "refs/heads/tip", ids[-1])
    upper.write_graph("--split=no-merge")
    graphs = os.path.join(upper.info_path(), "commit-graphs")
    lines = read_bytes(os.path.join(graphs, "commit-graph-chain")).split()
    title = "%s, a chain over an alternate" % lower.object_format
    results.check(title, None if len(lines) == 2 else "the chain has %d layers" % len(lines))
    for path in (upper.info_path(), graphs):
        answer = program.verify(path)
        results.check(title + ", verified", judge.verdict("refused open 2\n", answer))
        results.check(title + ", found", judge.exactly(1, "refused open 2\n", "", program.find(path, ids[-1])))
        differences.compare("a chain over an alternate", answer, upper.git_verdict())
