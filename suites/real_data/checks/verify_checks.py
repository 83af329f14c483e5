"""Checks `verify` on single files: whole ones that Git wrote, and damaged ones beside Git's verdict."""

import os
import resource
import tempfile
from functools import partial

from checks import beside
from checks.runs import check_runs
from damage import forms, mutations, wrong_commits, wrong_layout
from damage.layer import sealed
from damage.original import Original
from damage.wrong import CHECKSUM
from expected import judge
from expected.facts import found, verified
from expected.listing import listing
from histories import shapes
from histories.repository import write_bytes

MOST_FINDS = 60
"""Of a file with more commits, some alone are looked up."""


def check_kind(programs, results, new, differences):
    """The checks of single files; a new repository comes from a function of its name."""
    program = programs[0]
    for name, history in shapes.ALL.items():
        check_history(program, results, new("verified " + name), name, history, differences)
    repository = new("wrong")
    repository.add(shapes.octopus(3, 4, 2))
    check_wrong(programs, results, repository, differences)
    check_beside_dates(programs, results, repository, differences)
    check_forms(programs, results, repository, differences)
    check_bytes(program, results, repository)
    check_chance(program, results, repository)
    check_small_stack(program, results, repository)


def check_history(program, results, repository, name, history, differences):
    """What is counted in a history, beside each kind of further chunks, and where its commits stand."""
    repository.add(history)
    kind, path, words = repository.object_format, repository.graph_path(), repository.words()
    for version in (1, 2):
        for flags in ([], ["--changed-paths"]):
            repository.new_graph(*flags, generation_version=version)
            answer = program.verify(path)
            title = [kind, name, "generation version %d" % version, *flags, "verified"]
            results.check(", ".join(title), judge.same(verified(words), answer))
            differences.compare(name, answer, repository.git_verdict())
    lines = list(found(words, [list(words)]).items())
    some = lines[:: 1 + len(lines) // MOST_FINDS]
    runs = [(partial(program.find, path, commit), partial(judge.same, line)) for commit, line in some]
    check_runs(results, "%s, %s, found" % (kind, name), runs)


def check_wrong(programs, results, repository, differences):
    """What is found wrong in files with one thing wrong, whose checksums are right or are not."""
    kind, file = repository.object_format, original(repository, generation_version=1)
    for name, edited, text in wrong_layout.all_wrong(file) + wrong_commits.all_wrong(file):
        check_verdict(programs, results, repository, differences, (name, sealed(edited, kind), text))
        answer = verify_bytes(programs[0], repository.graph_path(), edited)
        unsealed_text = text if text.startswith("refused open") else CHECKSUM
        results.check("%s, %s, not sealed" % (kind, name), judge.verdict(unsealed_text, answer))


def original(repository, generation_version):
    """The file that Git writes of all commits of a repository, to be damaged."""
    layer, words = repository.new_graph(generation_version=generation_version), repository.words()
    text = listing(repository.object_format, words, [list(words)], [])
    return Original(layer, repository.object_format, text)


def check_beside_dates(programs, results, repository, differences):
    """Files with wrong generations beside right corrected dates."""
    for name, edited, text in wrong_commits.beside_dates(original(repository, generation_version=2)):
        case = (name, sealed(edited, repository.object_format), text)
        check_verdict(programs, results, repository, differences, case)


def check_forms(programs, results, repository, differences):
    """Right files in forms that Git does not write, wrong trailers, and wrong chunks that are ignored."""
    kind, text = repository.object_format, verified(repository.words())
    plain = repository.new_graph(generation_version=1)
    full = repository.new_graph("--changed-paths", generation_version=2)
    for files, answer in (
        (forms.right(plain, kind), text),
        (forms.wrong_trailers(plain, kind), CHECKSUM),
        (forms.wrong_chunks_aside(full, kind), text),
    ):
        for name, layer in files:
            check_verdict(programs, results, repository, differences, (name, layer, answer))


def check_verdict(programs, results, repository, differences, case):
    """The answer to a file, beside Git's verdict on it; a case is its name, its bytes and the answer."""
    name, layer, text = case
    (program, histories), path = programs, repository.graph_path()
    answer = verify_bytes(program, path, layer)
    results.check("%s, %s, verified" % (repository.object_format, name), judge.verdict(text, answer))
    complaint = beside.complaint(program, path, answer) or beside.complaint_of_questions(histories, path, answer)
    results.check("%s, %s, distinct, ancestor, is-ancestor, walk, merge-base and check" % (repository.object_format, name), complaint)
    differences.compare(name, answer, repository.git_verdict())


def check_bytes(program, results, repository):
    """No byte of a file can be another: the file is refused then, mostly by its checksum."""
    kind, layer = repository.object_format, repository.new_graph()
    name = "%s, a file with a byte's lowest bit changed, verified" % kind
    check_family(program, results, name, forms.some_bytes(layer, kind))


def check_chance(program, results, repository):
    """Files changed at random and then sealed: there is always a whole answer."""
    kind, layer = repository.object_format, repository.new_graph(generation_version=1)
    right = partial(judge.in_form_of_check, len(repository.words()))
    families = {
        "some random bytes": mutations.scribbles(layer, 200, seed=8),
        "offsets in other places": mutations.shuffled_tables(layer, kind, 200, seed=9),
    }
    for name, family in families.items():
        files = [(sealed(edited, kind), right) for edited, _ in family]
        check_family(program, results, "%s, a file with %s, sealed and verified" % (kind, name), files)


def check_small_stack(program, results, repository):
    """Each command ends as usual where its stack may have no more than 48 KiB."""
    words, small = repository.words(), {"preexec_fn": limit_stack}
    layer, path = repository.new_graph(), repository.graph_path()
    commit, line = min(found(words, [list(words)]).items())
    text = listing(repository.object_format, words, [list(words)], [])
    for command, answer, right in (
        ("list", program.run("list", input=layer, **small), text),
        ("verify", program.verify(path, **small), verified(words)),
        ("distinct", program.distinct(path, **small), verified(words)),
        ("find", program.find(path, commit, **small), line),
    ):
        results.check("%s, %s with a small stack" % (repository.object_format, command), judge.same(right, answer))


def limit_stack():
    """Limits the stack of this process to 48 KiB."""
    resource.setrlimit(resource.RLIMIT_STACK, (48 * 1024, 48 * 1024))


def check_family(program, results, name, family):
    """One check of all runs of a family of damaged files, each with the judge of the answer."""
    with tempfile.TemporaryDirectory() as folder:
        runs = [
            (partial(verify_bytes, program, os.path.join(folder, str(number)), layer), right)
            for number, (layer, right) in enumerate(family)
        ]
        check_runs(results, name, runs)


def verify_bytes(program, path, layer):
    """The answer to these bytes, in a new file at a path."""
    write_bytes(path, layer)
    return program.verify(path)
