"""Checks `ids` and `objects`: graphs beside their commits, as Git writes those, and beside a slow reading of both.

Where `git commit-graph verify` refuses a graph for the sake of a commit, `objects` refuses it too.
"""

import os
import shutil
import socket
import subprocess
import zlib
from functools import partial

from checks.cgraph_checks import Installed, Way
from checks.disk_checks import right_chain
from checks.runs import check_runs
from checks.verify_checks import original
from damage import trees, wrong_commits, wrong_layout, wrong_trees
from damage.built import Commit, file_of
from damage.layer import big_endian, sealed
from damage.odd_commits import ODD, unreadable
from damage.original import Original
from expected import judge
from expected.differences import HIDDEN, LISTED, MISSES
from expected.listing import listing
from expected.objects import DIGITS, Graph, compared, has_two_times, listed
from histories import shapes
from histories.repository import read_bytes, write_bytes
from wrappers.clone import run

STRANGE = (0, 0x09, 0x0A, 0x20, 0x30, 0x39, 0x41, 0x67, 0xFF)
"""Bytes that may mean something else in the line of an entry."""

PIECE = 128 * 1024
"""So many bytes a read of a stream asks for."""

FIXTURES = "/usr/share/doc/libgit2-fixtures/examples"
"""Where Debian has the repositories by which libgit2 is tested."""

PERSON = ("-c", "user.name=A", "-c", "user.email=a@example.com")
PLAIN = ("-c", "core.commitGraph=false", "--no-replace-objects")


def knows_objects(histories):
    """Whether the program has the commands."""
    return b"objects PATH" in histories.run(stdin=subprocess.DEVNULL).err


def check_kind(histories, results, new):
    """The checks of one kind of hash; a new repository comes from a function of its name."""
    if not knows_objects(histories):
        print("left out, since the program has no such command: objects")
        return
    for name, history in shapes.ALL.items():
        check_history(histories, results, new("compared, " + name), name, history)
    check_chain(histories, results, new("compared, a chain"))
    check_wrong(histories, results, new("compared, wrong"))
    check_trees(histories, results, new("compared, wrong folders"))
    check_streams(histories, results, new("compared, streams"))
    check_odd(histories, results, new("compared, odd commits"))


def batch(repository, ids):
    """What Git writes of objects."""
    return repository.git(*PLAIN, "cat-file", "--batch", "--buffer", stdin="".join(commit + "\n" for commit in ids).encode())


def answered(histories, path, layers, stream, part=()):
    """A complaint where `objects` does not answer as the slow reading."""
    return judge.verdict(compared(Graph(layers), stream, part), histories.objects(path, stream, *part))


def check_history(histories, results, repository, name, history):
    """A right graph: all ids, all commits, each part of them, and parts that it lacks."""
    repository.add(history)
    layer, path = repository.new_graph(), repository.graph_path()
    ids, title = sorted(repository.words()), "%s, %s" % (repository.object_format, name)
    results.check(title + ", ids", judge.same("".join(commit + "\n" for commit in ids), histories.ids(path)))
    stream, count = batch(repository, ids), len(ids)
    # Git keeps the low bits alone of a time past 34 bits, and refuses its own file.
    right = "ok commits %d\n" % count if name != "times of every size" else None
    answer = histories.objects(path, stream)
    results.check(title + ", objects", judge.verdict(right or compared(Graph([layer]), stream), answer))
    if right is None:
        agrees = answer.status == 1 and repository.git_verdict().status
        results.check(title + ", objects refuses it as Git does", None if agrees else "it does not")
        return
    if len(stream) <= PIECE:
        results.check(title + ", objects in one message", judge.verdict(right, in_one_message(histories, path, stream)))
    half, runs, after = count // 2, [], count + 1
    for part in ((0, half), (half, count), (0, 0), (count, count), (0, count), (0, after), (half + 1, half), (after, after)):
        text = listed([layer], part)
        runs.append((partial(histories.ids, path, *part), partial(judge.exactly, int(text.startswith("refused")), text, "")))
        some = batch(repository, ids[part[0] : part[1]])
        runs.append((partial(histories.objects, path, some, *part), partial(judge.verdict, compared(Graph([layer]), some, part))))
    check_runs(results, title + ", ids and objects of a part", runs)


def in_one_message(histories, path, stream):
    """The answer to a stream that comes in one message. What a read does not take of it is lost."""
    writer, reader = socket.socketpair(socket.AF_UNIX, socket.SOCK_SEQPACKET)
    with reader:
        with writer:
            writer.send(stream)
        return histories.run("objects", path, stdin=reader)


def check_chain(histories, results, repository):
    """A chain, and one in which a commit stands in two layers."""
    history, ids = shapes.diamonds(4), []
    for stop in (4, 9, len(history)):
        ids += repository.add(history[:stop], len(ids))[len(ids) :]
        repository.write_graph("--split=no-merge")
    layers = [content for _, content in repository.chain()]
    check_layers(histories, results, repository, "a chain of three layers", layers)
    twice, kind = Graph(layers[:1]), repository.object_format
    # The second layer has the commits of the first one once more, with the parents in it.
    again = file_of(kind, commits_of(repository, twice, len(twice.ids)), [layers[0][-DIGITS[kind] // 2 :]])
    lay_chain(repository, [layers[0], again])
    check_layers(histories, results, repository, "ids in two layers", [layers[0], again])


def lay_chain(repository, layers):
    """Makes a chain of some layers."""
    size = DIGITS[repository.object_format] // 2
    trees.lay_out(repository.info_path(), trees.chain([trees.Layer(layer[-size:].hex(), layer) for layer in layers]))


def commits_of(repository, graph, more):
    """The commits of a graph as those of a file above so many others."""
    words, generations = repository.words(), {}

    def generation(commit):
        if commit not in generations:
            generations[commit] = 1 + max(map(generation, words[commit].parents), default=0)
        return generations[commit]

    place = {commit: more + at for at, commit in enumerate(graph.ids)}
    def of_file(commit):
        tree, parents, time = words[commit].tree, words[commit].parents, words[commit].time
        places = tuple(place[parent] for parent in parents)
        return Commit(bytes.fromhex(commit), places, generation(commit), time, bytes.fromhex(tree))

    return [of_file(commit) for commit in graph.ids]


def check_layers(histories, results, repository, name, layers):
    """Layers that are right: all ids, in the order of positions, and all commits."""
    path, ids = repository.info_path(), Graph(layers).ids
    title = "%s, %s" % (repository.object_format, name)
    results.check(title + ", ids", judge.same("".join(commit + "\n" for commit in ids), histories.ids(path)))
    stream = batch(repository, ids)
    results.check(title + ", objects", judge.same("ok commits %d\n" % len(ids), histories.objects(path, stream)))


def check_wrong(histories, results, repository):
    """Files with one thing wrong, beside their commits and Git's verdict."""
    repository.add(shapes.octopus(3, 4, 2))
    kind, file, path = repository.object_format, original(repository, generation_version=1), repository.graph_path()
    for name, edited, text in wrong_layout.all_wrong(file) + wrong_commits.all_wrong(file):
        content = sealed(edited, kind)
        write_bytes(path, content)
        title, verdict = "%s, %s, compared" % (kind, name), repository.git_verdict()
        if text.startswith("refused"):
            answer = histories.objects(path, b"")
            results.check(title, judge.verdict(text, answer))
            continue
        stream = batch(repository, Graph([content]).ids)
        answer = histories.objects(path, stream)
        complaint = judge.verdict(compared(Graph([content]), stream), answer)
        agrees = (answer.status == 0) == (verdict.status == 0)
        results.check(title, complaint or (None if agrees else "status %s, and Git says %s" % (answer.status, verdict)))


def check_trees(histories, results, repository):
    """Folders with something wrong that `verify` passes, beside Git's verdict. But for a file beside the chain that does not
    open, both refuse the same.
    """
    path = repository.info_path()
    for case in wrong_trees.all_wrong(right_chain(repository)):
        if not case.answer.startswith("ok"):
            continue
        trees.lay_out(path, case.tree)
        answer = histories.objects(path, batch(repository, histories.ids(path).out.decode().split()))
        agrees = (answer.status == 0) == (repository.git_verdict().status == 0) or LISTED.get(case.name) == (MISSES, HIDDEN)
        title = "%s, %s, compared" % (repository.object_format, case.name)
        results.check(title, None if agrees and not answer.err else "status %s and %r" % (answer.status, answer.out))


def check_streams(histories, results, repository):
    """A stream that is cut at each byte of its first entries, that has a byte more, and in which each byte is another."""
    repository.add(shapes.diamonds(1))
    layer, path = repository.new_graph(), repository.graph_path()
    ids = Graph([layer]).ids
    stream, first = batch(repository, ids), batch(repository, ids[:2])
    some = ids[1:] + ids[:1], ids[:1] + ids, ids[:-1]
    streams = [stream[:at] for at in range(len(first) + 1)] + [stream + b"\n", b""] + [batch(repository, order) for order in some]
    blob = repository.git("hash-object", "-w", "--stdin", stdin=b"content").decode().strip()
    missing = ids[0].encode() + b" missing\n"
    streams += [missing, missing + stream[len(batch(repository, ids[:1])) :], batch(repository, [blob]) + stream]
    types = (b"tree", b"blob", b"tag", b"commits", b"COMMIT", b"")
    streams += [stream.replace(b" commit ", b" %s " % other, 1) for other in types]
    streams += [stream.replace(ids[0].encode(), ids[0].upper().encode(), 1), stream.replace(b" commit ", b" commit 0", 1)]
    streams += [stream.replace(b"\n", end, 1) for end in (b"\r\n", b"", b" \n")]
    heads = {at for start in (0, len(batch(repository, ids[:1]))) for at in range(start, stream.index(b"\n", start) + 1)}
    for at in range(len(first)):
        changed = {*STRANGE, stream[at] ^ 1} if at in heads else {0x0A, stream[at] ^ 1}
        streams += [stream[:at] + bytes([byte]) + stream[at + 1 :] for byte in sorted(changed - {stream[at]})]
    graph = Graph([layer])
    runs = [(partial(histories.objects, path, other), partial(judge.verdict, compared(graph, other))) for other in streams]
    check_runs(results, "%s, streams that are cut or changed" % repository.object_format, runs)


def put_object(repository, contents, kind="commit"):
    """The id of an object of these bytes, whatever they are."""
    return repository.git("hash-object", "-t", kind, "-w", "--stdin", "--literally", stdin=contents).decode().strip()


class Roots:
    """Commits without parents, of one tree, and the graphs that say a time of each."""

    def __init__(self, repository):
        self.repository, self.kind = repository, repository.object_format
        self.tree = repository.git("hash-object", "-t", "tree", "-w", "--stdin").decode().strip()

    def put(self, rest):
        """The id of a commit of the tree, with these bytes after its line."""
        return put_object(self.repository, b"tree %s\n" % self.tree.encode() + rest)

    def commit(self, commit, time, parents=(), generation=1):
        """A commit as a file has it."""
        return Commit(bytes.fromhex(commit), parents, generation, time, bytes.fromhex(self.tree))

    def graph(self, name, times):
        """The path of a graph of some commits, given with the time of each."""
        path = os.path.join(self.repository.folder, "graph of " + name)
        write_bytes(path, file_of(self.kind, [self.commit(commit, times[commit]) for commit in sorted(times)]))
        return path


def check_odd(histories, results, repository):
    """Commits that Git's own commands do not make: their times, by both readings, and bytes that are those of no commit."""
    roots = Roots(repository)
    odd = {roots.put(it.rest): it for it in ODD}
    check_readings(histories, results, roots, odd)
    held = [commit for commit in sorted(odd) if odd[commit].times[0] < 2**34]
    check_times(histories, results, roots, {commit: odd[commit] for commit in held})
    check_by_git(histories, results, repository, odd)
    check_parents(histories, results, roots)
    runs = []
    for name, contents in unreadable(roots.tree.encode()).items():
        commit = put_object(repository, contents)
        run_of = partial(histories.objects, roots.graph(name, {commit: 0}), batch(repository, [commit]))
        runs.append((run_of, partial(judge.verdict, "refused objects 7 position 0\n")))
    check_runs(results, "%s, bytes that are no commit" % roots.kind, runs)
    check_cut_line(histories, results, roots)


def check_cut_line(histories, results, roots):
    """A commit that ends within the line of a parent: Git skips that line, and passes the graph that it writes."""
    commit = put_object(roots.repository, unreadable(roots.tree.encode())["a parent without a line end"])
    roots.repository.write_graph(tips=[commit])
    answer = histories.objects(roots.repository.graph_path(), batch(roots.repository, [commit]))
    complaint = judge.verdict("refused objects 7 position 0\n", answer)
    if roots.repository.git_verdict().status != 0:
        complaint = "Git refuses it too"
    results.check("%s, a commit that ends within the line of a parent, beside Git" % roots.kind, complaint)


def check_readings(histories, results, roots, odd):
    """All odd commits with the times that a newer Git reads, and with those of an older one: but for those that no record holds,
    they are right.
    """
    ids = sorted(odd)
    for name, which in (("newer", 0), ("older", -1)):
        late = next(at for at, commit in enumerate(ids) if odd[commit].times[which] >= 2**34)
        path = roots.graph(name, {commit: it.times[which] % 2**34 for commit, it in odd.items()})
        answer = histories.objects(path, batch(roots.repository, ids))
        title = "%s, odd commits, as a %s Git reads their times" % (roots.kind, name)
        results.check(title, judge.verdict("refused objects 10 position %d\n" % late, answer))


def check_times(histories, results, roots, odd):
    """Each odd commit with its times, and with others."""
    runs = []
    for commit, it in odd.items():
        stream = batch(roots.repository, [commit])
        for time in {0, 1, 5, 7, 2**34 - 5, *it.times, it.times[0] + 1}:
            path = roots.graph("%s at %d" % (it.name, time), {commit: time})
            text = "ok commits 1\n" if time in it.times else "refused objects 10 position 0\n"
            runs.append((partial(histories.objects, path, stream), partial(judge.verdict, text)))
    check_runs(results, "%s, odd commits, with right times and others" % roots.kind, runs)


def check_by_git(histories, results, repository, odd):
    """The graph that the installed Git writes of odd commits: it has the low bits of their times, and is right where records hold
    these.
    """
    title = "%s, odd commits, in the graph that Git writes" % repository.object_format
    which = 0 if git_release() >= (2, 41) else -1
    times = {commit: it.times[which] for commit, it in odd.items()}
    repository.write_graph(tips=sorted(odd))
    graph = Graph([read_bytes(repository.graph_path())])
    wrong = [odd[commit].name for commit, record in zip(graph.ids, graph.records) if record[2] != times[commit] % 2**34]
    other = None if graph.ids == sorted(odd) else "other commits"
    results.check(title + ", the times", "another time of " + wrong[0] if wrong else other)
    held = [commit for commit in sorted(odd) if times[commit] < 2**34]
    os.remove(repository.graph_path())
    repository.write_graph(tips=held)
    answer = histories.objects(repository.graph_path(), batch(repository, held))
    results.check(title, judge.same("ok commits %d\n" % len(held), answer))


def git_release():
    """The first two numbers of the installed Git's release."""
    release = subprocess.check_output(["git", "--version"], text=True)
    return tuple(int(number) for number in release.split()[2].split(".")[:2])


def check_parents(histories, results, roots):
    """A merge of 40 commits or fewer, with ids in capitals, with a parent twice, and with one that Git does not read."""
    rest = b"author A <a@x> 1 +0000\ncommitter C <c@x> 9 +0000\n"
    forty = [roots.put(rest + b"\nroot %d\n" % number) for number in range(40)]
    for name, parents, lines, more in (
        ("a merge of 40 commits", forty, parent_lines(forty), b""),
        ("ids in capitals", forty[:2], parent_lines(parent.upper() for parent in forty[:2]), b""),
        ("a parent twice", forty[:1] * 2, parent_lines(forty[:1] * 2), b""),
        ("a parent below the committer", forty[:1], parent_lines(forty[:1]), parent_lines(forty[1:2])),
    ):
        merge = roots.put(lines + rest + more + b"\nmessage\n")
        for title, known in (
            (name, parents),
            (name + ", the last one left out", parents[:-1]),
            (name + ", one more", [*parents, forty[5]]),
            (name + ", in the other order", parents[::-1]),
        ):
            complaint = judge_merge(histories, roots, (merge, parents, known), forty)
            results.check("%s, %s" % (roots.kind, title), complaint)


def parent_lines(parents):
    """The lines of some parents."""
    return b"".join(b"parent %s\n" % parent.encode() for parent in parents)


def judge_merge(histories, roots, case, others):
    """A complaint about the answer to a graph of a merge and of others. A case is the merge, its parents and those that it has in
    the graph.
    """
    merge, parents, known = case
    order = sorted([*others, merge])
    places = tuple(order.index(parent) for parent in known)
    commits = [roots.commit(it, 9, places, 1 + bool(places)) if it == merge else roots.commit(it, 9) for it in order]
    path = os.path.join(roots.repository.folder, "graph of a merge")
    write_bytes(path, file_of(roots.kind, commits))
    differing = next((at for at in range(len(parents) + 1) if known[at : at + 1] != parents[at : at + 1]), None)
    text = "ok commits %d\n" % len(order)
    if differing is not None:
        text = "refused objects 9 position %d index %d\n" % (order.index(merge), differing)
    return judge.verdict(text, histories.objects(path, batch(roots.repository, order)))


def check_fixtures(histories, results, folder):
    """The repositories by which libgit2 is tested, if they are here: their commit-graphs, and those that Git writes of them.

    In one of them libgit2 wrote a time that Git reads only from 2.41 on.
    """
    if not os.path.isdir(FIXTURES):
        print("left out, since there are no %s: ids and objects of them" % FIXTURES)
        return
    complaints, count = [], 0
    for number, place in enumerate(sorted(path for path, folders, _ in os.walk(FIXTURES) if {"objects", "refs"} <= set(folders))):
        copy = os.path.join(folder, str(number))
        shutil.copytree(place, copy, ignore_dangling_symlinks=True)
        path = os.path.join(copy, "objects/info/commit-graph")
        for is_new in (False, True):
            if is_new and git_there(copy, "commit-graph", "write", "--reachable").returncode != 0 or not os.path.exists(path):
                continue
            stream = git_there(copy, *PLAIN, "cat-file", "--batch", "--buffer", stdin=histories.ids(path).out).stdout
            answer, verdict = histories.objects(path, stream), git_there(copy, "commit-graph", "verify").returncode
            graph = Graph([read_bytes(path)])
            agrees = bool(answer.status) == bool(verdict) or answer.status == 0 and has_two_times(graph.kind, stream)
            complaint = judge.verdict(compared(graph, stream), answer) or (None if agrees else "Git says %d" % verdict)
            complaints += ["%s: %s" % (place, complaint)] if complaint else []
            count += 1
    complaints += [] if count else ["there are none"]
    results.check("%d commit-graphs of the repositories of libgit2" % count, complaints[0] if complaints else None)


def git_there(folder, *words, stdin=b""):
    """A run of Git in a repository that others made."""
    surroundings = {"PATH": os.environ["PATH"], "HOME": folder, "GIT_DIR": folder, "GIT_CONFIG_NOSYSTEM": "1", "LC_ALL": "C"}
    return subprocess.run(["git", *words], env=surroundings, input=stdin, capture_output=True, check=False)


def check_all(programs, results, folder, new):
    """What `git cgraph verify --objects` says of right repositories, and of those with something wrong."""
    if not knows_objects(programs[1]):
        return
    check_fixtures(programs[1], results, os.path.join(folder, "fixtures"))
    installed = Installed(os.path.join(folder, "installed"), programs)
    for kind in DIGITS:
        repository = new(kind, "told of commits")
        ids = repository.add(shapes.octopus(3, 4, 2))
        repository.git("symbolic-ref", "HEAD", "refs/heads/tip-%d" % (len(ids) - 1))
        repository.write_graph()
        ask = partial(installed.ask, Way(repository.folder), "verify", "--objects")
        verified = installed.ask(Way(repository.folder), "verify").out
        right = (0, verified + "objects commits %d\n" % len(ids), "")
        for words in ([], ["--jobs", "3"], ["-j", "99"]):
            title = " ".join(["git cgraph verify --objects,", *words, kind])
            results.check(title, differs_from(right, ask(*words)))
        other = repository.git(*PERSON, "commit-tree", ids[1] + "^{tree}", "-m", "in its place").decode().strip()
        repository.git("replace", ids[1], other)
        results.check("git cgraph verify --objects, a replaced commit, %s" % kind, differs_from(right, ask()))
        repository.git("replace", "-d", ids[1])
        check_mended(installed, results, repository)
        check_other_bytes(installed, results, new(kind, "told of commits, other bytes"))
        check_packed(installed, results, repository, ids)
        check_foreign(installed, results, repository, new(kind, "told of commits, of another repository"))


def check_other_bytes(installed, results, repository):
    """A commit with another message than the one of which its id is: Git's own check of the commit-graph passes it."""
    tree = repository.git("hash-object", "-t", "tree", "-w", "--stdin").decode().strip()
    contents = b"tree %s\nauthor A <a@x> 1 +0000\ncommitter A <a@x> 1 +0000\n\nmessage\n" % tree.encode()
    commit = put_object(repository, contents)
    repository.git("update-ref", "refs/heads/main", commit)
    repository.write_graph()
    path = os.path.join(repository.folder, "objects", commit[:2], commit[2:])
    write_bytes(path, zlib.compress(b"commit %d\0" % len(contents) + contents.replace(b"message", b"another")))
    answer, verdict = installed.ask(Way(repository.folder), "verify", "--objects"), repository.git_verdict()
    right = answer[:2] == (1, "refused objects 6 position 0\n") and "'%s'" % os.path.realpath(path) in answer.err
    complaint = None if right and verdict.status == 0 else "it is %r, and Git says %s" % (answer, verdict)
    results.check("git cgraph verify --objects, other bytes than those of an id, %s" % repository.object_format, complaint)


def check_packed(installed, results, repository, ids):
    """A pack in which a commit is damaged."""
    repository.git("repack", "-adfq")
    folder = os.path.join(repository.folder, "objects", "pack")
    pack = next(os.path.join(folder, name) for name in os.listdir(folder) if name.endswith(".pack"))
    content, told = read_bytes(pack), repository.git("verify-pack", "-v", pack[:-5] + ".idx").decode()
    commit, position = ids[2], sorted(ids).index(ids[2])
    size, at = next(map(int, row[3:5]) for row in map(str.split, told.split("\n")) if row[:2] == [commit, "commit"])
    for name, place in (("at its end", at + size - 3), ("in its middle", at + size // 2)):
        write_bytes(pack, content[:place] + bytes([content[place] ^ 0x10]) + content[place + 1 :])
        answer = installed.ask(Way(repository.folder), "verify", "--objects", "-j2")
        lines = ["refused objects %d position %d\n" % (number, position) for number in (1, 4, 6)]
        right = answer.status == 1 and answer.out in lines and commit in answer.err
        right = right and answer.err.endswith("\n    git fsck\n")
        title = "git cgraph verify --objects, a commit damaged %s, %s" % (name, repository.object_format)
        results.check(title, None if right else "it is %r" % (answer,))
    write_bytes(pack, content)


def check_foreign(installed, results, repository, other):
    """The graph of another repository: it passes `verify`, and no commit of it is there."""
    other.add(shapes.linear(5))
    write_bytes(repository.graph_path(), other.new_graph())
    answers = [installed.ask(Way(repository.folder), "verify", *words).status for words in ([], ["--objects"])]
    git = repository.git_verdict().status
    right = answers == [0, 1] and git
    title = "git cgraph verify --objects, another repository's graph, %s" % repository.object_format
    results.check(title, None if right else "%s, %s" % (answers, git))
    check_cure(installed, results, repository, title)


def check_cure(installed, results, repository, title):
    """By the commands that the sentences end with, the commit-graph becomes that of the commits."""
    way = Way(repository.folder)
    answer = installed.ask(way, "verify", "--objects")
    cure = "".join(line + "\n" for line in answer.err.splitlines() if line.startswith("    "))
    cured = run(["sh", "-e", "-c", cure], installed.variables, cwd=way.folder)
    verdicts = installed.ask(way, "verify", "--objects").status, repository.git_verdict().status
    right = answer.status == 1 and cure and cured.status == 0 and verdicts == (0, 0)
    results.check("the cure of " + title, None if right else "%r gives %r, and then %s" % (answer, cured, verdicts))


def differs_from(right, answer):
    """A complaint where an answer is another one."""
    return None if answer == right else "it is %r" % (answer,)


def check_mended(installed, results, repository):
    """Files and a chain that `verify` passes and that are not those of the commits, and their cures."""
    kind, file = repository.object_format, original(repository, generation_version=2)
    wrongs = [wrong for wrong in wrong_commits.all_wrong(file) + wrong_layout.all_wrong(file) if wrong.answer.startswith("ok")]
    for name, edited, _ in wrongs:
        write_bytes(repository.graph_path(), sealed(edited, kind))
        if repository.git_verdict().status:
            check_cure(installed, results, repository, "%s, %s" % (kind, name))
    os.remove(repository.graph_path())
    repository.write_graph("--split")
    [(_, layer)] = repository.chain()
    text = listing(kind, repository.words(), [sorted(repository.words())], [])
    chained = Original(layer, kind, text)
    other = sealed(chained.with_date(4, big_endian(chained.number_at(chained.fields(4) + 8, 8) ^ 1, 8)), kind)
    lay_chain(repository, [other])
    check_cure(installed, results, repository, "%s, a layer with another time" % kind)
