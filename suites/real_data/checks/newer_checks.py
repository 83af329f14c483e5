"""Checks questions about commits of a graph, or of none, and of newer ones, which are asked for: `is-ancestor`, `walk`, `merge-base` and
`merge-base-ids` with `--newer`, and with `--unchecked` too, beside Git, which hands the commits over; over streams that are not what
Git writes; and over a graph that is wrong, or changes meanwhile.
"""

import contextlib
import hashlib
import os
import random
import select
import shutil
import subprocess
import threading

from checks.base_checks import all_reached, divergence
from checks.program import LINES, SECONDS, Answer
from checks.runs import check_runs
from expected import judge
from expected.listing import places
from histories import shapes

COUNT, COVERED, ROOTS = 400, (200, 390, 400), 0.05
"""So many commits has the history, so many of the first of them each graph, and so many of its topics have a root of their own."""

PAIRS, GROUPS = 40, 10
"""So many pairs of commits, and so many sets of three and of five, each graph is asked about."""

AHEAD = 64
"""So many commits may be asked for before their entries are read."""

WORDS = ("is-ancestor", "walk", "merge-base", "merge-base-ids")

CHECKED, TRUSTED = ("--newer",), ("--unchecked", "--newer")
"""The words behind that of the command, by which the graph is checked or not."""


def check_kind(histories, results, new):
    """The checks of ids of one kind."""
    repository = new("newer")
    history = shapes.topics(COUNT, "%s newer" % repository.object_format, roots=ROOTS)
    ids, graphs, before = [], {None: []}, 0
    for covered in COVERED:
        ids = repository.add(history[:covered], before)
        repository.write_graph()
        path = shutil.copy(repository.graph_path(), os.path.join(repository.folder, "graph of %d" % covered))
        graphs[path], before = ids, covered
    said = repository.words()
    title = "%s, %%s, " % repository.object_format
    chance, reached = random.Random(31), Reached(said)
    pairs = [chance.sample(ids[-200:], 2) for _ in range(PAIRS)]
    groups = pairs + [chance.sample(ids[-100:], size) for size in (3, 5) for _ in range(GROUPS)]
    for options in (CHECKED, TRUSTED):
        for word in WORDS:
            runs = [
                (lambda begin=(word, *options), path=path, asked=asked: ring(histories, repository, begin, path, asked), judge_of)
                for path, known in graphs.items()
                for asked in (groups if word.startswith("merge") else pairs)
                for judge_of in [Judge(repository, reached, word, known, asked)]
            ]
            check_runs(results, title % " ".join((word, *options)) + "beside Git", runs)
        short = {path: known for path, known in graphs.items() if len(known) != COUNT}
        check_streams(histories, results, repository, title, reached, options, short)
        check_objects(histories, results, repository, title, options, ids)
        check_ahead(histories, results, title, options, ids)
    check_wrong(histories, results, repository, title, ids)
    check_changing(histories, results, repository, title, ids)


class Reached:
    """Which commits each of a history leads to, by the parents that Git lists."""

    def __init__(self, said):
        self.said, self.bits = said, all_reached(said)
        self.number = {commit: number for number, commit in enumerate(said)}

    def all(self, ids):
        """All commits to which some lead, themselves among them."""
        bits = 0
        for commit in ids:
            bits |= self.bits[commit]
        return {commit for commit, number in self.number.items() if bits >> number & 1}

    def steps(self, first, second):
        """How many steps along parents the shortest walk from one commit to another has, or None."""
        found, steps = {first}, 0
        while found and second not in found:
            found, steps = {parent for commit in found for parent in self.said[commit].parents}, steps + 1
        return steps if found else None


class Judge:
    """Says what is wrong with the answer of a word about some commits over a graph of those that are known."""

    def __init__(self, repository, reached, word, known, asked):
        self.repository, self.reached, self.word, self.known, self.asked = repository, reached, word, known, asked

    def __call__(self, told):
        answer, requests = told
        lacking = self.reached.all(self.asked).difference(self.known)
        if sorted(requests) != sorted(lacking):
            return "%d commits are asked for, and %d are lacking" % (len(requests), len(lacking))
        return getattr(self, self.word.replace("-", "_"))(answer, answer.out.decode().splitlines())

    def is_ancestor(self, answer, _):
        """Whether the first commit is an ancestor of the second."""
        first, second = self.asked
        is_yes = self.repository.reaches(second, first)
        return judge.exactly(0 if is_yes else 1, "yes\n" if is_yes else "no\n", "", answer)

    def walk(self, answer, lines):
        """A shortest walk along parents, or that there is none."""
        (first, second), said = self.asked, self.reached.said
        steps = self.reached.steps(first, second)
        if steps is None:
            return judge.exactly(1, "none\n", "", answer)
        is_walk = lines and (lines[0], lines[-1]) == (first, second) and all(to in said[at].parents for at, to in zip(lines, lines[1:]))
        right = is_walk and len(lines) == steps + 1 and answer.status == 0 and not answer.err
        return None if right else "it is %r, where a walk of %d steps leads there" % (answer, steps)

    def merge_base_ids(self, answer, lines):
        """The merge bases: those of the graph by their positions, and then the newer ones."""
        bases, at = self.repository.merge_bases(*self.asked), places([self.known])
        below = sorted((base for base in bases if base in at), key=at.get)
        right = lines[: len(below)] == below and sorted(lines) == sorted(bases) if bases else lines == ["none"]
        right = right and answer.status == (0 if bases else 1) and not answer.err
        return None if right else "it is %r, where Git says %r" % (answer, bases)

    def merge_base(self, answer, lines):
        """The same, with the positions, and with how many commits are ahead, behind and visited."""
        *bases, counts, visits = lines
        at, named = places([self.known]), [line.split() for line in bases if line != "none"]
        for _, position, base in named:
            if at.get(base, int(position)) != int(position) or base not in at and int(position) < len(at):
                return "the position of %s is %s" % (base, position)
        if counts != "ahead %d behind %d" % divergence(self.reached.bits, *self.asked) or not visits.startswith("visits "):
            return "it is %r" % (answer,)
        ids = "".join("%s\n" % base for *_, base in named) or "none\n"
        return self.merge_base_ids(answer._replace(out=ids.encode()), ids.splitlines())


def ring(histories, repository, begin, path, ids, when_asked=None):
    """The answer of a command, of which these words are the first, for which Git hands over the commits that it asks for, and the ids of
    these. Before Git is asked for the first of them, this is done."""
    git = subprocess.Popen(("git", "cat-file", "--batch"), env=repository.surroundings, stdin=subprocess.PIPE, stdout=subprocess.PIPE)
    command = (histories.path, *begin, *([path] if path else []), *ids)
    tool = subprocess.Popen(command, env={}, stdin=git.stdout, stdout=subprocess.PIPE, stderr=subprocess.PIPE)
    git.stdout.close()
    guard, requests = threading.Timer(SECONDS, tool.kill), []
    guard.start()
    for line in iter(tool.stdout.readline, b"\n"):
        if not line:
            break
        if when_asked and not requests:
            when_asked()
        requests.append(line.decode().rstrip("\n"))
        # Where an answer was told already, Git may have ended, since nobody reads what was asked for ahead.
        with contextlib.suppress(BrokenPipeError):
            git.stdin.write(line)
            git.stdin.flush()
    with contextlib.suppress(BrokenPipeError):
        git.stdin.close()
    out, err = tool.stdout.read(), tool.stderr.read()
    status = tool.wait()
    guard.cancel()
    git.wait()
    if status != 0 and out:
        LINES.add((begin[0], out.decode().splitlines()[0]))
    return Answer(status, out, err), requests


def over(histories, begin, path, ids, stream):
    """The requests and the answer of a command, of which these words are the first, over a stream that is there already."""
    answer = histories.run(*begin, *([path] if path else []), *ids, input=stream)
    asked, _, rest = (b"\n" + answer.out).partition(b"\n\n")
    return answer._replace(out=rest), asked.decode().split("\n")[1:]


def check_streams(histories, results, repository, title, reached, options, graphs):
    """Streams that are those of Git, and others: what is told of the first entry that is not right."""
    said, begin = reached.said, ("is-ancestor", *options)
    for path, known in graphs.items():
        tip = max(said, key=lambda commit: (len(reached.all([commit]).difference(known)), commit))
        ids = [tip, said[tip].parents[0]]
        _, requests = ring(histories, repository, begin, path, ids)
        entries = [entry_of(repository, commit) for commit in requests]
        runs = []
        for entry, stream, line in streams(requests, entries, ids):
            right = Refused(requests, entry, line)
            runs.append((lambda path=path, ids=ids, stream=stream: over(histories, begin, path, ids, stream), right))
        check_runs(results, title % " ".join(begin) + "streams over %d commits" % len(known), runs)


class Refused:
    """Says what is wrong where a stream is right up to one entry, and a line has to tell of that one."""

    def __init__(self, requests, entry, line):
        self.requests, self.entry, self.line = requests, entry, line

    def __call__(self, told):
        answer, asked = told
        if asked != self.requests[: len(asked)] or len(asked) <= min(self.entry, len(self.requests) - 1):
            return "it asks for %r" % (asked,)
        return judge.exactly(1, self.line + "\n", "", answer)


def streams(requests, entries, ids):
    """Streams of the entries, in which one is not right: its number, the stream, and the line that tells of it."""
    yield len(entries), b"".join(entries), "no"
    yield len(entries), b"".join(entries) + b"more", "no"
    for number in sorted({0, 1, 2, len(entries) // 2, len(entries) - 1}.intersection(range(len(entries)))):
        entry, commit = entries[number], requests[number]
        head, contents = entry.split(b"\n", 1)
        before, after = b"".join(entries[:number]), b"".join(entries[number + 1 :])
        for size in (0, 1, len(head), len(head) + 1, len(entry) // 2, len(entry) - 1):
            yield number, before + entry[:size], "refused newer 1 id " + commit
        missing = "unknown %d" % (ids.index(commit) + 1) if commit in ids else "refused newer 4 id " + commit
        for reason, other in (
            *((2, part + after) for part in (b"\n", b"no entry\n", head + b" \n" + contents, head.replace(b" ", b"  ", 1) + b"\n" + contents)),
            *((2, entry[:-1] + byte + after) for byte in (b" ", b"\0")),
            (3, (entries[number + 1] if number + 1 < len(entries) else entries[0]) + entry + after),
            (5, head.replace(b"commit", b"tree") + b"\n" + contents + after),
            (6, head + b"\n" + contents.replace(b"author", b"auteur", 1) + after),
            (6, head + b"\n" + contents[:-2] + bytes([contents[-2] ^ 1]) + contents[-1:] + after),
        ):
            yield number, before + other, "refused newer %d id %s" % (reason, commit)
        yield number, before + commit.encode() + b" missing\n" + after, missing


def entry_of(repository, commit):
    """What Git writes for an id."""
    return repository.git("cat-file", "--batch", stdin=commit.encode() + b"\n")


def check_objects(histories, results, repository, title, options, ids):
    """Ids of no commit, and texts that are none; graphs that are not there; and an input that cannot be read."""
    head, whole, begin = ids[-1], os.path.join(repository.folder, "graph of %d" % COUNT), ("is-ancestor", *options)
    tag = b"object %s\ntype commit\ntag t\ntagger T <t@example.com> 0 +0000\n\nt\n" % head.encode()
    tag = repository.git("hash-object", "-w", "-t", "tag", "--stdin", stdin=tag).decode().strip()
    other = repository.git("hash-object", "-w", "-t", "commit", "--literally", "--stdin", stdin=b"no commit\n").decode().strip()
    none, path = "1" * len(head), os.path.join(repository.folder, "no graph")
    for asked, place, line, status in (
        ([tag, head], None, "refused newer 5 id " + tag, 1),
        ([head, tag], whole, "refused newer 5 id " + tag, 1),
        ([other, head], None, "refused newer 7 id " + other, 1),
        ([none, head], None, "unknown 1", 1),
        ([head, none], None, "unknown 2", 1),
        ([head, none], whole, "unknown 2", 1),
        ([head, head], None, "yes", 0),
        ([head.upper(), head], whole, "yes", 0),
        ([head, "x" * len(head)], whole, "refused id 2", 2),
        ([head, head[1:]], None, "refused id 1", 2),
        ([head, head], path, "refused open 1", 1),
        ([head, head], os.path.join(repository.folder, "marks"), "refused open 5 layer 0 file 2", 1),
    ):
        answer, _ = ring(histories, repository, begin, place, asked)
        results.check(title % " ".join(begin) + line, judge.exactly(status, line + "\n", "", answer))
    unread = os.open(repository.folder, os.O_RDONLY)
    answer = histories.run(*begin, head, head, stdin=unread)
    os.close(unread)
    results.check(title % " ".join(begin) + "no read succeeds", judge.exactly(1, head + "\n\nrefused read 2\n", "", answer))


def check_wrong(histories, results, repository, title, ids):
    """A graph that is wrong where that does not show: it is refused where it is checked, and else trusted."""
    path = os.path.join(repository.folder, "graph whose checksum is wrong")
    with open(os.path.join(repository.folder, "graph of %d" % COVERED[0]), "rb") as file:
        content = file.read()
    with open(path, "wb") as file:
        file.write(content[:-1] + bytes([content[-1] ^ 1]))
    for options, line, status in ((CHECKED, "refused verify 4 layer 0 fault 1", 1), (TRUSTED, "yes", 0)):
        answer, _ = ring(histories, repository, ("is-ancestor", *options), path, [ids[-1], ids[-1]])
        results.check(title % " ".join(("is-ancestor", *options)) + "a wrong checksum", judge.exactly(status, line + "\n", "", answer))


def check_changing(histories, results, repository, title, ids):
    """A trusted graph whose file is written over, once the first commit was asked for. Its records lie far behind its ids, so that they
    are read later, and no longer stand there then. (A file that takes the place of another one is not seen: what was opened is read on.)
    """
    path, begin = os.path.join(repository.folder, "graph that changes"), ("walk", *TRUSTED)
    with open(os.path.join(repository.folder, "graph of %d" % COVERED[0]), "rb") as file:
        content = file.read()
    spread, content = (with_padding(content, repository.object_format, size) for size in (1 << 20, 1 << 10))
    for what, now, line in (("a right one", content, "refused newer 10"), ("half of one", content[: len(content) // 2], "refused open 5 layer 0 file ")):
        put(path, spread)
        answer, asked = ring(histories, repository, begin, path, [ids[-1], ids[0]], lambda now=now: put(path, now))
        told = answer.out.decode()
        right = asked and answer.status == 1 and told.startswith(line) and told.count("\n") == 1 and not answer.err
        results.check(title % " ".join(begin) + "the graph becomes " + what, None if right else "it is %r" % (answer,))


def with_padding(content, kind, size):
    """A graph of one file with a chunk of so many bytes in front of the records of its commits."""
    entries = [(content[at : at + 4], int.from_bytes(content[at + 4 : at + 12], "big")) for at in range(8, 8 + 12 * (content[6] + 1), 12)]
    place = [name for name, _ in entries].index(b"CDAT")
    begun = entries[place][1]
    moved = [(name, offset + 12 + size * (at >= place)) for at, (name, offset) in enumerate(entries)]
    table = b"".join(name + offset.to_bytes(8, "big") for name, offset in [*moved[:place], (b"PADD", begun + 12), *moved[place:]])
    head = content[:6] + bytes([content[6] + 1]) + content[7:8] + table
    body = head + content[8 + 12 * len(entries) : begun] + bytes(size) + content[begun : entries[-1][1]]
    return body + hashlib.new(kind, body).digest()


def put(path, content):
    """Writes a file, over what stands in it."""
    with open(path, "wb") as file:
        file.write(content)


def check_ahead(histories, results, title, options, ids):
    """No more commits are asked for ahead than both pipes have room for."""
    begin = ("merge-base-ids", *options)
    command = (histories.path, *begin, *ids[:100])
    tool = subprocess.Popen(command, env={}, stdin=subprocess.PIPE, stdout=subprocess.PIPE)
    asked = [tool.stdout.readline().decode().strip() for _ in range(AHEAD)]
    more, _, _ = select.select([tool.stdout], [], [], 0.3)
    complaint = None if asked == ids[:AHEAD] and not more else "it asks for %d and %s" % (len(set(asked)), "more" if more else "no more")
    results.check(title % " ".join(begin) + "64 commits are asked for ahead", complaint)
    tool.stdin.close()
    out = tool.stdout.read().decode()
    tool.wait()
    results.check(title % " ".join(begin) + "the input ends at once", None if out == "\nrefused newer 1 id %s\n" % ids[0] else "it is %r" % out)
