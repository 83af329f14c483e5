"""Checks folders in which something is wrong: each command of both programs refuses the whole of them."""

import os
from functools import partial

from checks import beside
from damage import trees
from damage.wrong_trees import NOT_OPENED, Right, all_wrong
from expected import judge
from expected.facts import verified
from histories import shapes
from histories.repository import ID_LENGTH, Repository, write_bytes

NOTHING_FOUND = "refused open 1\n"
LAYER_SIZE = 5
"""The number of commits in each layer of the chain that is damaged."""


def check_kind(programs, results, new, differences):
    """The checks of damaged folders; a new repository comes from a function of its name."""
    program = programs[0]
    repository = new("wrong folders")
    right = right_chain(repository)
    for case in all_wrong(right):
        check_tree(programs, results, repository, case, differences)
    trees.lay_out(repository.info_path(), right.tree)
    check_missing(program, results, repository)
    check_unreadable(program, results, repository, right)


def right_chain(repository):
    """A chain of three layers, and the layers of other chains to damage it with."""
    kind = repository.object_format
    other_kind = next(name for name in ID_LENGTH if name != kind)
    ids = repository.add(shapes.tangled(3 * LAYER_SIZE, seed=7))
    parts = [ids[:stop] for stop in range(LAYER_SIZE, len(ids) + 1, LAYER_SIZE)]
    layers = write_chain(repository, parts)
    strangers = []
    for object_format in (kind, other_kind):
        stranger = Repository("%s, %s" % (repository.folder, object_format), object_format)
        strangers += write_chain(stranger, [stranger.add(shapes.linear(4))])
    words = repository.words()
    texts = [verified({commit: words[commit] for commit in words if commit in tips}) for tips in parts]
    return Right(kind, layers, texts, strangers)


def write_chain(repository, tips):
    """The layers of a chain that Git writes, one after the other, of the commits that lead to tips."""
    for ids in tips:
        repository.write_graph("--split=no-merge", tips=ids)
    return [trees.Layer(checksum, content) for checksum, content in repository.chain()]


def check_tree(programs, results, repository, case, differences):
    """What is said of a folder `info`, and of its folder of layers where no file stands beside it."""
    program, histories = programs
    info = repository.info_path()
    trees.lay_out(info, case.tree)
    paths = [info] if trees.FILE in case.tree or not case.tree else [info, os.path.join(info, trees.GRAPHS)]
    answers = [program.verify(path) for path in paths]
    complaints = [judge.verdict(case.answer, answer) for answer in answers]
    if case.answer.startswith("refused open"):
        refusal = partial(judge.exactly, 1, case.answer, "")
        complaints += [refusal(program.find(path, "0" * 40)) for path in paths]
    title = "%s, %s, verified and found" % (repository.object_format, case.name)
    results.check(title, next(filter(None, complaints), None))
    complaints = [beside.complaint(program, path, answer) for path, answer in zip(paths, answers)]
    complaints += [beside.complaint_of_questions(histories, path, answer) for path, answer in zip(paths, answers)]
    title = "%s, %s, distinct, ancestor, is-ancestor and walk" % (repository.object_format, case.name)
    results.check(title, next(filter(None, complaints), None))
    differences.compare(case.listed_as or case.name, answers[0], repository.git_verdict())


def check_missing(program, results, repository):
    """Paths at which there is nothing, and folders and files that are no graph."""
    info = repository.info_path()
    write_bytes(os.path.join(info, "file"), b"no graph")
    os.mkdir(os.path.join(info, "folder"))
    os.symlink("nothing", os.path.join(info, "link"))
    nowhere = [os.devnull, "link", "nothing", "nothing/", "file/", "file/.", "file/commit-graph", "fil", "ﬁle"]
    wanted = {
        **dict.fromkeys(nowhere, NOTHING_FOUND),
        **dict.fromkeys(["folder", "folder/", "..", "../pack"], NOT_OPENED),
        "file": "refused open 5 layer 0 file 1\n",
    }
    for name, text in wanted.items():
        check_both(program, results, repository, os.path.join(info, name), name, text)
    check_both(program, results, repository, "", "", NOTHING_FOUND)


def check_unreadable(program, results, repository, right):
    """A file that must not be read is not opened. Left out where all may be read."""
    info = repository.info_path()
    file, layer = os.path.join(info, trees.FILE), os.path.join(info, right.layers[1].path())
    write_bytes(file, right.layers[0].content)
    for path in (file, layer):
        os.chmod(path, 0)
    if not os.access(file, os.R_OK):
        for path in (file, layer, info, os.path.dirname(layer)):
            check_both(program, results, repository, path, "one that must not be read: " + path, NOT_OPENED)


def check_both(program, results, repository, path, name, text):
    """One line is all that both commands say of a path."""
    right = partial(judge.exactly, 1, text, "")
    complaint = right(program.verify(path)) or right(program.find(path, "0" * 40))
    results.check("%s, the path %a, verified and found" % (repository.object_format, name), complaint)
