"""Checks `write`: files and layers of real histories, bit by bit those that Git writes, and each refusal.

What is written passes `verify`, `distinct`, `check`, `objects` and `git commit-graph verify`. Git 2.39 reads the time of some odd
commits otherwise: these are held against their commits by `objects` alone.
"""

import hashlib
import os
import random
import subprocess
from functools import partial

from checks.object_checks import Roots, batch, lay_chain
from checks.runs import check_runs
from damage.built import Commit, file_of
from damage.layer import Outline, big_endian, sealed
from damage.odd_commits import AUTHOR, ODD, unreadable
from expected import judge
from expected.objects import DIGITS, Graph
from histories import shapes
from histories.repository import ID_LENGTH, read_bytes, write_bytes

LATE = "times of every size"
"""The history with a time past 34 bits, of which Git writes a file that it refuses."""

NULL = {kind: b"0" * digits for kind, digits in DIGITS.items()}

STEPS = ((60_000, 2), (90_000, 2), (100_000, 2))
"""So many commits of a long history the layers of its chain have, with those below, and the version of their dates."""

DISORDER = 0.05
"""Of so many of its commits in one the time lies in the past."""

EVERY = 20
"""One in so many of its commits writes a file."""

CRISS_CROSS = shapes.ticking([[], [0], [0], [1, 2], [2, 1], [3, 4], [4, 3], [5, 6]])


def knows_write(histories):
    """Whether the program has the command."""
    return b"write [PATH]" in histories.run(stdin=subprocess.DEVNULL).err


def check_kind(programs, results, new):
    """The checks of one kind of hash; a new repository comes from a function of its name."""
    histories = programs[1]
    if not knows_write(histories):
        print("left out, since the program has no such command: write")
        return
    for name, history in {**shapes.ALL, "criss-cross": CRISS_CROSS}.items():
        repository = new("written, " + name)
        repository.add(history)
        check_history(programs, results, repository, name)
    for version in (2, 1):
        repository = new("written, a chain with dates of %d" % version)
        ids = repository.add(shapes.tangled(60, seed=3))
        check_chain(programs, results, repository, "a chain", ids, ((20, version), (21, 2), (50, 2), (60, 2)))
    check_odd(histories, results, new("written, odd commits"))
    check_refused(histories, results, new("written, refused"))
    check_below(histories, results, new("written, refused below"))
    check_cut(histories, results, new("written, cut"))


def check_all(programs, results, new):
    """A long history of either kind of hash, in a file and in a chain."""
    if not knows_write(programs[1]):
        return
    for kind in ID_LENGTH:
        repository = new(kind, "written, a long history")
        ids = repository.add(long_history(kind), every=EVERY)
        check_history(programs, results, repository, "a long history")
        layer = read_bytes(repository.graph_path())
        lists = {"GDA2", "GDO2", "EDGE"}.difference(Outline(layer, kind).chunks)
        results.check("%s, a long history, offsets past 31 bits and extra edges" % kind, "no %s" % lists if lists else None)
        os.remove(repository.graph_path())
        check_chain(programs, results, repository, "a chain of a long history", ids, STEPS)


def long_history(seed):
    """Topics that the main line merges, one or several at once, lines that merge each other, and roots apart. Some times lie in the
    past, some are 0, and one is the latest of which there is a record, so that the dates of all after it lie far past their times.
    """
    history = shapes.topics(STEPS[-1][0], seed, DISORDER)
    for place in range(999, len(history), 1000):
        history[place] = history[place]._replace(time=0)
    late = next(place for place in range(STEPS[0][0], len(history)) if len(history[place].parents) > 2)
    history[late] = history[late]._replace(time=2**34 - 1)
    return history


def check_history(programs, results, repository, name):
    """A file of all commits, in the orders of Git, of ids and of chance: it is Git's, and both find it right."""
    histories = programs[1]
    title = "%s, %s, written" % (repository.object_format, name)
    newest = repository.git("rev-list", "--all").decode().split()
    if name == LATE:
        late = next(at for at, commit in enumerate(newest) if repository.words()[commit].time >= 2**34)
        answer = histories.write(batch(repository, newest))
        results.check(title, judge.verdict("refused write 4 commit %d\n" % late, answer))
        return
    by_git, path = repository.new_graph(), repository.graph_path()
    shuffled = random.Random(1).sample(newest, len(newest))
    orders = {"as Git lists them": newest, "by their ids": sorted(newest), "shuffled": shuffled}
    for order, ids in orders.items():
        results.check("%s, %s" % (title, order), is_file(by_git, histories.write(batch(repository, ids))))
    write_bytes(path, histories.write(batch(repository, newest)).out)
    results.check(title + ", and found right", found_right(programs, repository, path))


def is_file(content, answer):
    """A complaint where an answer is not this file."""
    if (answer.status, answer.out, answer.err) == (0, content, b""):
        return None
    place = next((at for at, pair in enumerate(zip(answer.out, content)) if pair[0] != pair[1]), None)
    told = (answer.status, len(answer.out), len(content), place, answer.out[:40], answer.err[:80])
    return "status %s, %d bytes and Git's %d, the first other one at %s: %r %r" % told


def found_right(programs, repository, path):
    """A complaint where one of our checks or Git does not find the graph at a path right, `objects` beside its commits."""
    program, histories = programs
    commits = batch(repository, histories.ids(path).out.decode().split())
    answers = [program.verify(path), program.distinct(path), histories.check(path), histories.objects(path, commits)]
    verdict = repository.git_verdict()
    if not any(answer.status for answer in answers) and verdict.status == 0:
        return None
    return "%r, and Git says %s" % (answers, verdict)


def check_chain(programs, results, repository, name, ids, steps):
    """Each layer of a chain, on top of those below: it is the one that Git writes, also where the lowest has no dates. A step says
    how many of the commits there are then, and which version of dates the layer has that is written then.
    """
    histories = programs[1]
    for count, version in steps:
        repository.write_graph("--split=no-merge", generation_version=version, tips=ids[:count])
    layers, start = [content for _, content in repository.chain()], 0
    title = "%s, %s, dates of %d" % (repository.object_format, name, steps[0][1])
    for number, (layer, (count, version)) in enumerate(zip(layers, steps)):
        path = []
        if number:
            lay_chain(repository, layers[:number])
            path = [repository.info_path()]
        stream, start = batch(repository, ids[start:count]), count
        if version == 2:
            results.check("%s, layer %d, written" % (title, number), is_file(layer, histories.write(stream, *path)))
    lay_chain(repository, layers)
    other = None if len(layers) == len(steps) else "Git made %d layers" % len(layers)
    results.check(title + ", written and found right", other or found_right(programs, repository, repository.info_path()))


def check_odd(histories, results, repository):
    """Commits that Git's own commands do not make: what is written of them is what they say, as a newer Git reads it."""
    roots = Roots(repository)
    odd = {roots.put(it.rest): it for it in ODD}
    held = [commit for commit in odd if odd[commit].times[0] < 2**34]
    stream, path = batch(repository, held), repository.graph_path()
    answer = histories.write(stream)
    write_bytes(path, answer.out)
    graph = Graph([answer.out])
    wrong = [odd[commit].name for commit, record in zip(graph.ids, graph.records) if record[2] != odd[commit].times[0]]
    compared = judge.same("ok commits %d\n" % len(held), histories.objects(path, batch(repository, sorted(held))))
    results.check("%s, odd commits, written" % repository.object_format, "another time of " + wrong[0] if wrong else compared)


def own(kind, contents):
    """The digits of the id of a commit."""
    return hashlib.new(kind, b"commit %d\0" % len(contents) + contents).hexdigest().encode()


def entry(kind, contents, digits=None):
    """The entry of a commit in a stream, with its own id or with other digits."""
    return b"%s commit %d\n%s\n" % (digits or own(kind, contents), len(contents), contents)


def check_refused(histories, results, repository):
    """Each refusal of a stream and of its commits, at the first commit and after others."""
    kind = repository.object_format
    ids = repository.add(CRISS_CROSS)
    first, tree = batch(repository, ids[:1]), repository.words()[ids[0]].tree.encode()
    rest = AUTHOR + b"committer C <c@x> %d +0000\n\nmessage\n"
    body = b"tree %s\n" % tree + rest % 9
    orphan = b"tree %s\nparent %s\n" % (tree, b"1" * DIGITS[kind]) + rest % 9
    blob = repository.git("hash-object", "-w", "--stdin", stdin=b"content").decode().strip()
    wrong = {
        "an object that is gone": (NULL[kind] + b" missing\n", "stream 3 entry %d"),
        "a name that is none": (b"main missing\n", "stream 2 entry %d"),
        "a blob": (batch(repository, [blob]), "stream 4 entry %d"),
        "other contents": (entry(kind, body, NULL[kind]), "stream 5 entry %d"),
        "another message": (first.replace(b"commit 0", b"commit 1"), "stream 5 entry %d"),
        "capital digits": (entry(kind, body, own(kind, body).upper()), "stream 2 entry %d"),
        "no line feed behind it": (entry(kind, body)[:-1] + b"\r", "stream 2 entry %d"),
        "an entry that ends": (entry(kind, body)[:-1], "stream 1 entry %d"),
        "a null tree": (entry(kind, b"tree %s\n" % NULL[kind] + rest % 9), "write 3 commit %d"),
        "a time past 34 bits": (entry(kind, b"tree %s\n" % tree + rest % 2**34), "write 4 commit %d"),
        "a parent that is not there": (entry(kind, orphan), "write 7 commit %d index 0"),
        "a second parent that is not there": (batch(repository, ids[3:4]), "write 7 commit %d index %d"),
    }
    for name, contents in unreadable(tree).items():
        wrong[name] = (entry(kind, contents), "stream 6 entry %d")
    runs = []
    for name, (stream, line) in wrong.items():
        for before, count in ((b"", 0), (first, 1), (first + batch(repository, ids[1:2]), 2)):
            numbers = (count, int(count == 2))[: line.count("%d")]
            text = "refused %s\n" % (line % numbers)
            runs.append((partial(histories.write, before + stream), partial(judge.verdict, text)))
    foreign = entry({"sha1": "sha256", "sha256": "sha1"}[kind], body)
    runs.append((partial(histories.write, first + foreign), partial(judge.verdict, "refused stream 2 entry 1\n")))
    runs.append((partial(histories.write, first * 2), partial(judge.verdict, "refused write 5 commit 1 earlier 0\n")))
    runs.append((partial(histories.write, b""), partial(judge.verdict, "refused write 9\n")))
    check_runs(results, "%s, refused streams, written" % kind, runs)


def check_below(histories, results, repository):
    """What is refused on top of a graph: commits of it, wrong graphs, wrong dates, and more layers than a file can name."""
    kind = repository.object_format
    ids = repository.add(shapes.diamonds(3))
    stream, path = batch(repository, ids), repository.graph_path()
    layer, words = repository.new_graph(), repository.words()
    place = sorted(ids).index(ids[4])

    def refused(name, line, answer):
        results.check("%s, %s, written" % (kind, name), judge.verdict("refused %s\n" % line, answer))

    refused("a commit of the graph", "write 6 commit 0 position %d" % place, histories.write(batch(repository, ids[4:]), path))
    refused("no commit", "write 9", histories.write(b"", path))
    refused("on no graph", "open 1", histories.write(stream, path + " that is none"))
    write_bytes(path, layer[:-1] + bytes([layer[-1] ^ 1]))
    refused("on a wrong graph", "verify 4 layer 0 fault 1", histories.write(stream, path))
    at = Outline(layer, kind).chunks["GDA2"].start
    write_bytes(path, sealed(layer[:at] + big_endian(5, 4) + layer[at + 4 :], kind))
    other = Roots(repository).put(AUTHOR + b"committer C <c@x> 9 +0000\n\nmessage\n")
    line = "dates 5 position 0 expected %d" % words[min(ids)].time
    refused("on wrong dates", line, histories.write(batch(repository, [other]), path))
    lay_many(repository, 256)
    refused("on 256 layers", "write 10 limit 3", histories.write(stream, repository.info_path()))
    lay_many(repository, 255)
    answer = histories.write(stream, repository.info_path())
    results.check("%s, on 255 layers, written" % kind, None if answer.status == 0 else "it is %r" % (answer,))


def lay_many(repository, count):
    """A chain of so many layers of one commit."""
    kind, layers = repository.object_format, []
    size = ID_LENGTH[kind]
    for number in range(count):
        commit = Commit(bytes([1, number]) * (size // 2), (), 1)
        layers.append(file_of(kind, [commit], [layer[-size:] for layer in layers]))
    lay_chain(repository, layers)


def check_cut(histories, results, repository):
    """A stream that is cut at each byte: where an entry ends the commits before are written, and else it is refused."""
    ids = repository.add(CRISS_CROSS)
    ends, stream = [0], b""
    for commit in ids:
        stream += batch(repository, [commit])
        ends.append(len(stream))
    runs = []
    for at in range(len(stream)):
        whole = sum(end <= at for end in ends) - 1
        text = "refused stream 1 entry %d\n" % whole if at not in ends else "refused write 9\n" if at == 0 else None
        if text is None:
            repository.write_graph(tips=ids[:whole])
            content = read_bytes(repository.graph_path())
            os.remove(repository.graph_path())
            runs.append((partial(histories.write, stream[:at]), partial(is_file, content)))
        else:
            runs.append((partial(histories.write, stream[:at]), partial(judge.verdict, text)))
    check_runs(results, "%s, a stream that is cut, written" % repository.object_format, runs)
