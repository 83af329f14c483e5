"""Checks the words of a command, and the streams that it is given."""

import os
import resource
import tempfile
from functools import partial

from checks.list_checks import check_family
from damage import mutations
from expected import judge

USAGE = "usage: graphtool list | verify PATH | find PATH HEX | ancestor PATH HEX HEX | distinct PATH\n"
"""What the program writes on standard error where its words are no command."""

FAILED_WRITE = "graphtool: the answer could not be written\n"
"""What the program writes on standard error where its answer could not be written."""

ID = "0" * 40
OTHER_WORDS = [
    *([], [""], ["bogus"], ["--help"], ["help"], ["."], [".", "verify"], ["", "list"]),
    *(["list", "."], ["list", ""], ["list", "list"], ["LIST"], ["lis"], ["lists"], [b"li\xffst"]),
    *(["verify"], ["verify", ".", "."], ["verify", b"\xff"], ["VERIFY", "."], ["check", "."], ["verify ", "."]),
    *(["find"], ["find", "."], ["find", ".", ID, ""], ["Find", ".", ID], ["lookup", ".", ID], ["verify", ".", ID]),
    *(["ancestor", ".", ID], ["ancestor", ".", ID, ID, ID], ["find", ".", ID, ID], ["ancestors", ".", ID, ID]),
    *(["distinct"], ["distinct", ".", "."], ["distinct", b"\xff"], ["Distinct", "."]),
    *(["find", b"\xff", ID], ["find", ".", b"\xff" * 40], [".", "find", ID], [".", ID, "find"]),
]
"""Words that are no command: too few, too many, others, or no text."""

MEGABYTE = 2**20
BAD_DEVICE = "/proc/self/mem"
"""On some machines a file that opens, and whose first byte cannot be read."""


def check_all(program, results):
    """The checks of words and streams."""
    check_usage(program, results)
    check_streams(program, results)
    check_paths_beyond(program, results)
    check_family(program, results, "random bytes", mutations.noise(300, seed=2))


def check_usage(program, results):
    """Other words than a command end with the usage text and status 2."""
    for words in OTHER_WORDS:
        complaint = judge.exactly(2, "", USAGE, program.run(*words, input=b""))
        results.check("usage after the words %r" % words, complaint)
    complaint = judge.exactly(2, "refused id 1\n", "", program.find(ID, "."))
    results.check("find, its path and its id exchanged", complaint)
    complaint = judge.exactly(2, "refused id 1\n", "", program.ancestor(ID, ".", ID))
    results.check("ancestor, its path and its first id exchanged", complaint)


def check_streams(program, results):
    """Input that is empty, cannot be read or is larger than the memory, and output that cannot be written."""
    results.check("no input", judge.exactly(1, "refused file 1\n", "", program.list(b"")))
    with tempfile.TemporaryFile() as zeros:
        zeros.truncate(256 * MEGABYTE)
        answer = program.run("list", stdin=zeros, preexec_fn=partial(limit_memory, 64 * MEGABYTE))
        results.check("input larger than the memory", judge.exactly(1, "refused read 3\n", "", answer))
    folder = os.open(os.curdir, os.O_RDONLY)
    results.check("a folder as input", judge.exactly(1, "refused read 2\n", "", program.run("list", stdin=folder)))
    os.close(folder)
    check_full(results, "list", partial(program.run, "list", input=b""))


def check_paths_beyond(program, results):
    """Files that cannot be read or are larger than the memory, and output that cannot be written."""
    commands = {"verify": program.verify, "distinct": program.distinct, "find": partial(program.find, commit=ID)}
    for command, run in commands.items():
        with tempfile.TemporaryDirectory() as folder:
            path = os.path.join(folder, "commit-graph")
            with open(path, "wb") as zeros:
                zeros.truncate(256 * MEGABYTE)
            for name, where in (("a file", path), ("the file of a folder", folder)):
                answer = run(where, preexec_fn=partial(limit_memory, 64 * MEGABYTE))
                title = "%s, %s larger than the memory" % (command, name)
                results.check(title, judge.exactly(1, "refused open 7\n", "", answer))
            check_full(results, command, partial(run, os.path.join(folder, "nothing")))
        if fails_to_read(BAD_DEVICE):
            answer = run(BAD_DEVICE)
            results.check("%s, a file whose read fails" % command, judge.exactly(1, "refused open 3\n", "", answer))


def fails_to_read(path):
    """Whether a file opens, and its first byte cannot be read."""
    try:
        file = open(path, "rb", buffering=0)
    except OSError:
        return False
    with file:
        try:
            file.read(1)
        except OSError:
            return True
    return False


def check_full(results, command, run):
    """The answer of a run whose output cannot be written."""
    answer = run(preexec_fn=partial(os.close, 1))
    results.check("%s, output that is closed" % command, judge.exactly(2, "", FAILED_WRITE, answer))
    answer = run(preexec_fn=partial(os.closerange, 1, 3))
    results.check("%s, output and errors that are closed" % command, judge.exactly(2, "", "", answer))
    if os.path.exists("/dev/full"):
        with open("/dev/full", "wb") as full:
            answer = run(stdout=full)
        results.check("%s, output to a full device" % command, judge.exactly(2, "", FAILED_WRITE, answer))


def limit_memory(size):
    """Limits the memory of this process to a number of bytes."""
    resource.setrlimit(resource.RLIMIT_AS, (size, size))
