"""Checks the tables of cases: what the programs answer to a command line in a folder of small files, to the letter.

Beside its plain run, each case is run with output that takes so many bytes, for each number that is too few; with input that
comes byte by byte; and with input whose reading fails. Of some tables there are the plain runs alone. Last, long answers, which are
written through a buffer, and graphs of every size up to ten and of more commits than are looked at in one go.
"""

import os
import pty
import re
import resource
import signal
import socket
import threading
import tty
from functools import partial

from checks import question_checks, word_checks
from checks.program import SECONDS, AnyProgram
from checks.runs import check_runs
from damage import built, examples
from damage.layer import big_endian
from expected import cases, facts, judge
from histories.repository import write_bytes

TABLES = {
    "graphtool.txt": examples.graphtool,
    "graphs.txt": examples.graphs,
    "list.txt": examples.listed,
    "files.txt": examples.layers,
    "histories.txt": examples.histories,
    "check.txt": examples.checked,
    "filters.txt": examples.filtered,
    "show.txt": examples.shown,
    "objects.txt": examples.compared,
    "historytool.txt": examples.worded,
}
"""The tables, each with the files in whose folder it is run."""

PLAIN = ("graphs.txt", "files.txt")
"""Tables of which each answer is like one of another table: only the plain runs are made."""

TEXTS = {
    "graphtool": (word_checks.USAGE, word_checks.FAILED_WRITE),
    "historytool": (question_checks.USAGE, question_checks.FAILED_WRITE),
}
"""What each program writes on standard error where its words are no command, and where its answer could not be written."""

BY_LINES = ("verify", "distinct", "find", "ancestor", "objects")
"""Commands that write each line by itself."""

SOME = 20
"""A read fails after so many bytes, and twice as many, and so on; and after none, and after all."""

LONG = 2000
"""So many commits have a long answer."""

COMPLETE = range(1, 11)
"""The sizes of graphs in which each commit has all before it as its parents."""

JOINED = 600
"""So many commits are more than a check takes in one go."""


def check_all(programs, asker, results, folder):
    """The checks of all tables, and of long answers."""
    paths = {"graphtool": programs[0].path, "historytool": programs[1].path, "test_calls": asker.path}
    for name, files in TABLES.items():
        check_table(results, name, Place(os.path.join(folder, name), files(), paths))
    sizes = {path: len(content) for path, content in examples.listed().items() if path in examples.SIZES}
    results.check("list.txt, the sizes of its files", None if sizes == examples.SIZES else "they are %r" % sizes)
    check_long(results, Place(os.path.join(folder, "long"), long_files(), paths))
    check_joined(results, Place(os.path.join(folder, "joined"), joined_files(), paths))


class Place:
    """A folder in which programs are run."""

    def __init__(self, folder, tree, paths):
        self.folder, self.tree = folder, tree
        self.programs = {name: AnyProgram(path) for name, path in paths.items()}
        self.given, self.out = folder + ", given", folder + ", out"
        os.makedirs(folder)
        examples.lay_out(folder, tree)

    def content(self, case):
        """What standard input gets."""
        return b"".join(self.tree[name] for name in case.given or () if name != ".")

    def run(self, case, **streams):
        """The answer to a case."""
        streams = {"cwd": self.folder, **({} if "stdin" in streams else {"input": self.content(case)}), **streams}
        return self.programs[case.program].run(*case.words, **streams)

    def plain(self, case):
        """The answer, where standard input is a file, or a folder."""
        if case.given == ["."]:
            with Opened(self.folder, os.O_RDONLY) as given:
                return self.run(case, stdin=given)
        write_bytes(self.given, self.content(case))
        with Opened(self.given, os.O_RDONLY) as given:
            return self.run(case, stdin=given)

    def in_messages(self, case):
        """What is written, each write by itself."""
        reader, writer = socket.socketpair(socket.AF_UNIX, socket.SOCK_SEQPACKET)
        found, thread = [], threading.Thread(target=lambda: found.extend(iter(lambda: reader.recv(2**20), b"")))
        thread.start()
        with writer:
            self.run(case, stdout=writer)
        thread.join()
        reader.close()
        return found

    def byte_by_byte(self, case):
        """The answer, where each read of standard input gives one byte."""
        reader, writer = socket.socketpair(socket.AF_UNIX, socket.SOCK_SEQPACKET)
        thread = threading.Thread(target=feed, args=(writer, self.content(case)))
        thread.start()
        with reader:
            answer = self.run(case, stdin=reader)
        thread.join()
        return answer

    def failing(self, case, count):
        """The answer, where reading standard input fails after so many bytes: it is a terminal that is closed."""
        master, slave = pty.openpty()
        tty.setraw(slave)
        os.write(slave, self.content(case)[:count])
        os.close(slave)
        answer = self.run(case, stdin=master)
        os.close(master)
        return answer

    def bounded(self, case, most):
        """The status, and what stands in a file for the output that takes no more than so many bytes, and on standard error. The
        signal that a longer file brings is ignored, as Python has it."""
        write_bytes(self.given, self.content(case))
        path, limits = self.programs[case.program].path, resource.getrlimit(resource.RLIMIT_FSIZE)
        reader, writer = os.pipe()
        with Opened(self.given, os.O_RDONLY) as given, Opened(self.out, os.O_RDWR | os.O_CREAT | os.O_TRUNC) as out:
            actions = [(os.POSIX_SPAWN_DUP2, stream, place) for place, stream in enumerate((given, out, writer))]
            here = os.open(os.curdir, os.O_RDONLY)
            os.chdir(self.folder)
            resource.setrlimit(resource.RLIMIT_FSIZE, (most, limits[1]))
            try:
                child = os.posix_spawn(path, (path, *case.words), {}, file_actions=actions)
            finally:
                resource.setrlimit(resource.RLIMIT_FSIZE, limits)
                os.fchdir(here)
                os.close(here)
                os.close(writer)
            timer = threading.Timer(SECONDS, os.kill, (child, signal.SIGKILL))
            timer.start()
            with os.fdopen(reader, "rb") as errors:
                err = errors.read()
            ended = os.waitpid(child, 0)[1]
            timer.cancel()
            status = os.WEXITSTATUS(ended) if os.WIFEXITED(ended) else None
            return status, os.pread(out, 2**20, 0).decode(), err.decode()


class Opened:
    """A file that is open for a while."""

    def __init__(self, path, flags):
        self.file = os.open(path, flags, 0o644)

    def __enter__(self):
        return self.file

    def __exit__(self, *_):
        os.close(self.file)


def feed(writer, content):
    """Writes each byte by itself, as long as it is read."""
    with writer:
        try:
            for byte in content:
                writer.send(bytes([byte]))
        except ConnectionError:
            pass


def check_table(results, name, place):
    """The checks of one table: one of each kind for each line of the table that has a command."""
    found = {}
    for case in cases.read(name):
        found.setdefault(case.text, []).append(case)
    for text, several in found.items():
        for kind, judged in list(KINDS.items())[: 1 if name in PLAIN else None]:
            complaints = [judged(place, case) for case in several]
            if complaints.count(LEFT_OUT) < len(complaints):
                wrong = [it for it in complaints if it not in (None, LEFT_OUT)]
                results.check("%s, %s%s" % (name, text, kind), wrong[0] if wrong else None)


LEFT_OUT = "left out"
"""In the place of a complaint about a check that a case has not."""


def wrong_answer(place, case):
    """A complaint where the plain answer is another one."""
    err = TEXTS[case.program][0] if case.has_usage else ""
    return judge.exactly(case.status, case.out, err, place.plain(case))


def wrong_writes(place, case):
    """A complaint where a line is not written at once."""
    if not case.out or case.given == ["."] or case.words[0] not in BY_LINES:
        return LEFT_OUT
    found = place.in_messages(case)
    return None if found == case.out.encode().splitlines(keepends=True) else "they are %r" % found


def wrong_reads(place, case):
    """A complaint where the answer is another one if each read of standard input gives one byte."""
    if not place.content(case):
        return LEFT_OUT
    return judge.exactly(case.status, case.out, "", place.byte_by_byte(case))


def wrong_failed_reads(place, case):
    """A complaint where a failed read is not told. It is tried where a command reads all of its input."""
    content = place.content(case)
    if case.program not in TEXTS or not content or case.status:
        return LEFT_OUT
    for count in (*range(0, len(content), SOME), len(content)):
        told = told_before(case, content[:count]) + "refused read 2\n"
        complaint = judge.exactly(1, told, "", place.failing(case, count))
        if complaint:
            return "after %d bytes: %s" % (count, complaint)
    return None


def told_before(case, content):
    """What is told before a read of standard input fails after these bytes: by `ask` how many commits there are, and the answer to
    each whole line, up to an empty line each."""
    if case.words[0] != "ask":
        return ""
    return "".join(re.findall(r"(?s).+?\n\n", case.out)[: 1 + content.count(b"\n")])


def wrong_failed_writes(place, case):
    """A complaint where a failed write is not told on standard error, or what was written before it is not the front of the answer.
    A failed write to standard error ends with the same status."""
    if case.program not in TEXTS or case.given == ["."]:
        return LEFT_OUT
    if case.has_usage:
        return judge.exactly(2, "", "", place.run(case, preexec_fn=lambda: os.close(2)))
    for count in range(len(case.out)):
        answer = place.bounded(case, count)
        if answer != (2, case.out[:count], TEXTS[case.program][1]):
            return "after %d bytes: %r" % (count, answer)
    return None


KINDS = {
    "": wrong_answer,
    ", each line is written at once": wrong_writes,
    ", read byte by byte": wrong_reads,
    ", reads that fail": wrong_failed_reads,
    ", writes that fail": wrong_failed_writes,
}
"""The kinds of checks."""


def long_files():
    """Commits in a line; as many without parents; and a commit with one parent over and over."""
    return {
        "line": examples.in_a_line(LONG),
        "roots": examples.in_a_line(LONG, joined=False),
        "parents": examples.file((0x11, (0,) * 40_002, 1)),
    }


def check_long(results, place):
    """Long answers take two writes of a buffer, or one and that of a line, either of which may fail."""
    ids = [(big_endian(number, 4) + bytes(16)).hex() for number in range(1, LONG + 1)]
    ends = ids[-1], ids[0]
    listed = "layer sha1 bases 0 commits 1\n0 %s %s 1 7 %s\n" % ("1" * 40, "9" * 40, ",".join(["0"] * 40_002))
    numbers = " ".join(str(place) for place in range(LONG - 1, -1, -1))
    for program, words, given, text, size in (
        ("historytool", ["walk", "line", *ends], None, "".join(name + "\n" for name in reversed(ids)), 82_000),
        ("graphtool", ["ancestor", "line", *ends], None, "walk %s\nvisits %d\n" % (numbers, LONG), 8_907),
        ("historytool", ["ids", "roots"], None, "".join(name + "\n" for name in ids), 82_000),
        ("graphtool", ["list"], ["parents"], listed, 29 + 88 + 80_003 + 1),
    ):
        title, case = "%s %s, a long answer" % (program, words[0]), cases.Case("", program, words, given, 0, text, False)
        results.check(title, wrong_answer(place, case) or (None if len(text) == size else "it has %d bytes" % len(text)))
        found = place.in_messages(case)
        right = len(found) == 2 and b"".join(found) == text.encode()
        results.check(title + ", in two writes", None if right else "of %r bytes" % list(map(len, found)))
        counts = [0, len(found[0])] if found else []
        wrong = [it for it in counts if place.bounded(case, it) != (2, text[:it], TEXTS[program][1])]
        results.check(title + ", writes that fail", "after %d bytes" % wrong[0] if wrong else None)


def joined_files():
    """Right graphs: complete ones, in one layer and in one for each commit; and of many commits with up to three parents, in one layer
    and in three."""
    tree = {}
    for size in COMPLETE:
        rows = [complete(place) for place in range(size)]
        tree["complete-%d" % size] = examples.file(*rows)
        tree.update(examples.chain("complete-%d-in-layers" % size, *[[row] for row in rows]))
    commits = [joined(place) for place in range(JOINED)]
    files = []
    for start, stop in ((0, 300), (300, 590), (590, JOINED)):
        files.append(built.file_of("sha1", commits[start:stop], [below[-20:] for below in files]))
    return {**tree, "joined": built.file_of("sha1", commits), **examples.chain_of("joined-in-layers", files)}


def complete(place):
    """The row of a commit with all before it as its parents."""
    return 0x11 * (place + 1), tuple(range(place)), place + 1


def joined(place):
    """A commit on the one before, on the one at half of its place, and at a multiple of three also on the one at a third of it."""
    parents = (place - 1, place // 2, place // 3)[: 2 + (place % 3 == 0)] if place else ()
    return built.Commit(big_endian(6_000_000 * (place + 1), 4) + bytes(16), parents, place + 1)


def check_joined(results, place):
    """What `verify` counts there; where `find` finds each of many commits, and none beyond; and what `list` tells of them."""
    graphtool = place.programs["graphtool"]
    for size in COMPLETE:
        text = facts.summary(list(range(size)), list(range(1, size + 1)))
        for name in ("complete-%d" % size, "complete-%d-in-layers" % size):
            answer = graphtool.run("verify", name, cwd=place.folder)
            results.check("graphtool verify, %s" % name, judge.verdict(text, answer))
    commits = [joined(at) for at in range(JOINED)]
    text = "ok commits 600 longest 599\nparents 0 commits 1\nparents 2 commits 400\nparents 3 commits 199\n"
    for name in ("joined", "joined-in-layers"):
        results.check("graphtool verify, %s" % name, judge.verdict(text, graphtool.run("verify", name, cwd=place.folder)))
        runs = []
        for at, commit in enumerate([*commits, joined(JOINED)]):
            told = (0, "position %d generation %d time 7\n" % (at, at + 1)) if at < JOINED else (1, "none\n")
            run = partial(graphtool.run, "find", name, commit.id.hex(), cwd=place.folder)
            runs.append((run, partial(judge.exactly, *told, "")))
        check_runs(results, "graphtool find, %s" % name, runs)
    lines = ["layer sha1 bases 0 commits %d" % JOINED]
    for at, commit in enumerate(commits):
        parents = ",".join(map(str, commit.parents)) or "-"
        lines.append("%d %s %s %d 7 %s" % (at, commit.id.hex(), "9" * 40, at + 1, parents))
    answer = graphtool.run("list", input=place.tree["joined"])
    results.check("graphtool list, joined", judge.same("".join(line + "\n" for line in lines), answer))
