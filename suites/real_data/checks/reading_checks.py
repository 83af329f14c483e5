"""Checks what the programs answer where reads of files give few bytes, fail or end early, by reading.c, and how many reads there are;
and where a file takes the place of one that is read by parts.
"""

import os
import shutil
import subprocess
from functools import partial

from checks.ask_checks import Asking
from checks.program import SECONDS, Answer
from checks.runs import check_runs
from damage import built, trees
from damage.layer import big_endian
from histories.repository import read_bytes, write_bytes

LIBRARY = os.path.join(os.path.dirname(os.path.dirname(os.path.abspath(__file__))), "reading.c")

COUNT = 3000
"""So many commits are in a file, which is read whole in more than two pieces."""

PIECE = 65_536
"""So many bytes a read of a whole file asks for."""

LOWER = 1000
"""So many of them are in the lower layer of a chain."""

FEW = (1, 7, 4095)
"""So many bytes a read gives at most."""

FAILED = Answer(1, b"refused open 3\n", b"")

CUT = 30
"""So many bytes a file is cut by, which are its checksum and the end of its last record."""


class Reader:
    """The programs in a folder, with a library between them and the system."""

    def __init__(self, programs, folder):
        self.paths = {"graphtool": programs[0].path, "historytool": programs[1].path}
        self.folder, self.library = folder, os.path.join(folder, "reading.so")
        subprocess.check_call(["cc", "-shared", "-fPIC", "-O1", LIBRARY, "-o", self.library])

    def run(self, name, line, **given):
        """The answer to a command line, `FILE <` before it where it reads one, and how many reads of files there were. What is given
        are the variables of the library, without the READ_ before their names.
        """
        before, is_read, words = line.rpartition("< ")
        count = os.path.join(self.folder, "count %s %s" % (line.replace("/", " "), sorted(given.items())))
        variables = {"READ_" + key.upper(): str(value) for key, value in given.items()}
        stdin = os.path.join(self.folder, before.strip()) if is_read else os.devnull
        with open(stdin, "rb") as file:
            run = subprocess.run(
                [self.paths[name], *words.split()],
                cwd=self.folder,
                env={"LD_PRELOAD": self.library, "READ_COUNT": count, **variables},
                stdin=file,
                capture_output=True,
                timeout=SECONDS,
                check=False,
            )
        return Answer(run.returncode, run.stdout, run.stderr), int(read_bytes(count))


def check_all(programs, results, folder):
    """The checks, whose files stand in a folder of their own."""
    check_replaced(programs[1], results, folder)
    if not shutil.which("cc"):
        print("left out, since there is no cc: files of which reads give few bytes or fail")
        return
    reader = Reader(programs, folder)
    commits = [commit(number) for number in range(COUNT)]
    whole, lower = built.file_of("sha1", commits), built.file_of("sha1", commits[:LOWER])
    layers = [lower, built.file_of("sha1", commits[LOWER:], [lower[-20:]])]
    write_bytes(os.path.join(folder, "file"), whole)
    os.mkdir(os.path.join(folder, "chain"))
    trees.lay_out(os.path.join(folder, "chain"), trees.of_layers("sha1", layers))
    write_bytes(os.path.join(folder, "asked"), b"reload\nfind %s\n" % commits[-1].id.hex().encode())
    pieces = [sum(-(-len(content) // PIECE) + 1 for content in contents) for contents in ([whole], [*layers, b"chain"])]
    for path, reads in zip(("file", "chain"), pieces):
        for name, line, count in commands(path, commits[0].id.hex(), commits[-1].id.hex(), reads):
            check_command(reader, results, name, line, count)
    check_asked(reader, results, pieces)
    check_lengths(reader, results, whole, commits[-1].id.hex())


def commit(number):
    """A commit on the one before."""
    return built.Commit(big_endian((number + 1) * 1_000_000, 4) + bytes(16), (number - 1,) if number else (), number + 1)


def commands(path, first, last, reads):
    """Commands about a graph, and how many reads of files there are: as many as read it whole, or where it is read by parts and it is
    known how many these are, one for each; else None. Of a file they are its head, the ids that begin alike, and the record; of a chain
    also its file, twice, and the head and the ids of each layer.
    """
    yield "graphtool", "verify %s" % path, reads
    yield "graphtool", "distinct %s" % path, reads
    yield "graphtool", "ancestor %s %s %s" % (path, last, first), reads
    yield "graphtool", "find %s %s" % (path, last), 3 if path == "file" else None
    yield "historytool", "is-ancestor --unchecked %s %s %s" % (path, first, last), None
    yield "historytool", "walk --unchecked %s %s %s" % (path, last, first), None


def check_command(reader, results, name, line, count):
    """A command whose reads give few bytes, and fail in turn."""
    plain, reads = reader.run(name, line)
    right = plain.status == 0 and not plain.err and count in (None, reads)
    title = "%s %s, " % (name, " ".join(line.split()[:2]))
    results.check(title + "%d reads of files" % reads, None if right else "there are to be %s, and it is %r" % (count, plain))
    runs = [(partial(reader.run, name, line, most=most), partial(is_answer, plain, None)) for most in FEW]
    check_runs(results, title + "reads of few bytes", runs)
    places = sorted({*range(min(reads, 40)), *range(max(0, reads - 10), reads)})
    runs = [(partial(reader.run, name, line, fails=at), partial(is_answer, FAILED, at + 1)) for at in places]
    runs.append((partial(reader.run, name, line, fails=reads), partial(is_answer, plain, reads)))
    check_runs(results, title + "reads that fail", runs)


def is_answer(wanted, count, ended):
    """A complaint where a run has another answer, or more reads than so many, if that is said."""
    answer, reads = ended
    if answer != wanted:
        return "it is %r, expected %r" % (answer, wanted)
    return None if count is None or reads == count else "there are %d reads" % reads


def check_asked(reader, results, pieces):
    """Questions over a graph that is opened anew, whose file is compared then with what was read before."""
    for path, reads in zip(("file", "chain"), pieces):
        line = "asked < ask %s" % path
        plain, count = reader.run("historytool", line)
        opened, _, found = plain.out.partition(b"\n\n")
        told = opened + b"\n\n"
        right = plain.status == 0 and plain.out.startswith(2 * told)
        results.check("historytool ask %s, opened anew" % path, None if right and count > reads else "it is %r" % (plain,))
        runs = [(partial(reader.run, "historytool", line, most=most), partial(is_answer, plain, None)) for most in FEW]
        for at in range(count):
            wanted = FAILED if at < reads else Answer(0, told + b"refused open 3\n\n" + found[len(told) :], b"")
            runs.append((partial(reader.run, "historytool", line, fails=at), partial(is_answer, wanted, None)))
        check_runs(results, "historytool ask %s, reads of few bytes and such that fail" % path, runs)


def check_lengths(reader, results, whole, last):
    """Files that are longer than the system says, or shorter: where the parts that are asked for are not there, all is read."""
    line = "find file " + last
    plain, _ = reader.run("graphtool", line)
    for more in (-CUT, -1, 1, 5000):
        answer, _ = reader.run("graphtool", line, more=more)
        results.check("graphtool find, a file of %+d bytes" % more, None if answer == plain else "it is %r" % (answer,))
    write_bytes(os.path.join(reader.folder, "file"), whole[:-CUT])
    plain, _ = reader.run("graphtool", line)
    answer, _ = reader.run("graphtool", line, more=CUT)
    right = answer == plain and plain.out.startswith(b"refused open 5 layer 0 file ")
    results.check("graphtool find, a file that ends early", None if right else "it is %r, and %r" % (answer, plain))


def check_replaced(histories, results, folder):
    """A file is read on where another one takes its place, until it is opened anew."""
    path, other = os.path.join(folder, "replaced"), os.path.join(folder, "other")
    commits = [commit(number) for number in range(COUNT)]
    write_bytes(path, built.file_of("sha1", commits))
    write_bytes(other, built.file_of("sha1", [commits[0], commits[-1]._replace(parents=(0,), generation=2)]))
    question = "find " + commits[-1].id.hex()
    with Asking([histories.path, "ask", "--unchecked", path]) as run:
        told = [run.answer()]
        os.rename(other, path)
        told += [run.ask(question), run.ask("reload"), run.ask(question), run.end()]
    found = "position %d generation %d time 7\n\n"
    right = ["ok commits %d\n\n" % COUNT, found % (COUNT - 1, COUNT), "ok commits 2\n\n", found % (1, 2), 0]
    results.check("a file in the place of one that is read by parts", None if told == right else "it tells %r" % told)
