"""Checks what the program says where its surroundings are hostile: streams, paths, chain files, memory."""

import os
import resource
import subprocess
import tempfile
import threading
from functools import partial

from checks.program import processor_seconds
from checks.runs import check_runs
from checks.word_checks import FAILED_WRITE, USAGE
from damage import built
from expected import judge, reading
from histories.repository import write_bytes

NOTHING_FOUND = "refused open 1\n"
NOT_OPENED = "refused open 2\n"
SOON = 2
"""A small input is answered within so many seconds of processor."""

MANY_LINES = 100_000
COMMITS = 100_000
NOBODY = 65534
"""A user who may read no file of another's."""

LIMITS = 24
"""So many limits of memory are tried, each greater than the one before by the same factor."""

MOST_MEMORY = 2**26
PAGE = 4096


def check_all(program, results):
    """The checks of hostile surroundings."""
    with tempfile.TemporaryDirectory() as folder:
        os.chmod(folder, 0o755)
        graph = os.path.join(folder, "commit-graph")
        write_bytes(graph, built.diamond())
        commands = {"list": ("list",), "verify": ("verify", graph), "find": ("find", graph, "11" * 20)}
        for name, words in commands.items():
            check_no_reader(program, results, name, words, graph)
        check_input(program, results)
        check_odd_paths(program, results, folder)
        check_pipe(program, results, folder)
        check_permission(program, results, folder)
        check_chain_files(program, results, folder)
        check_memory(program, results, os.path.join(folder, "large"))


def check_soon(results, name, right, run):
    """A check of a run that has to end soon."""
    started = processor_seconds()
    complaint = right(run())
    seconds = processor_seconds() - started
    results.check(name, complaint or ("it took %.1f s of processor" % seconds if seconds > SOON else None))


def check_no_reader(program, results, name, words, graph):
    """Output into a pipe whose reader has gone is a failed write, whether or not a signal comes with it."""
    right = partial(judge.exactly, 2, "", FAILED_WRITE)
    for title, restore in (("", False), (", no signal held back", True)):
        reader, writer = os.pipe()
        os.close(reader)
        with open(graph, "rb") as stdin:
            run = partial(program.run, *words, stdin=stdin, stdout=writer, restore_signals=restore)
            check_soon(results, "%s, a pipe whose reader has gone%s" % (name, title), right, run)
        os.close(writer)


def check_input(program, results):
    """Standard input that is closed, and a pipe that is cut at each of many places."""
    right = partial(judge.exactly, 1, "refused read 2\n", "")
    closed = partial(program.run, "list", preexec_fn=partial(os.close, 0))
    check_soon(results, "list, input that is closed", right, closed)
    content = built.octopus()
    places = [*range(0, len(content), 50), len(content)]
    lists = partial(program.run, "list")
    runs = [(partial(in_pieces, lists, content[:stop]), partial(judged_by_reading, content[:stop])) for stop in places]
    check_runs(results, "list, a pipe that is cut", runs)


def in_pieces(run, content, size=97):
    """The answer of a run to bytes that come through a pipe in pieces of so many."""
    reader, writer = os.pipe()
    feeder = threading.Thread(target=feed, args=(writer, content, size))
    feeder.start()
    answer = run(stdin=reader)
    os.close(reader)
    feeder.join()
    return answer


def feed(writer, content, size):
    """Writes bytes into a pipe in pieces of so many, and closes it."""
    with open(writer, "wb", buffering=0) as pipe:
        for start in range(0, len(content), size):
            pipe.write(content[start : start + size])


def judged_by_reading(content, answer):
    """The answer to `list` is that of the slow reading."""
    text = reading.listed(content)
    return judge.exactly(0 if text.startswith("layer ") else 1, text, "", answer)


def check_odd_paths(program, results, folder):
    """Paths at which there is neither a file nor a folder, and such as no file can have."""
    fifo, loop = os.path.join(folder, "fifo"), os.path.join(folder, "loop")
    os.mkfifo(fifo)
    os.symlink("loop", loop)
    keeper = os.open(fifo, os.O_RDWR)
    os.write(keeper, built.diamond())
    paths = {
        "a pipe with a writer": fifo,
        "a link to itself": loop,
        "a path beyond such a link": os.path.join(loop, "commit-graph"),
        "a path of 5,000 bytes": os.path.join(folder, "a" * 4999),
        "a path of 5,000 bytes, of folders": os.path.join(folder, "./" * 2500),
    }
    for name, path in paths.items():
        check_path(program, results, name, path, NOTHING_FOUND)
    os.close(keeper)


def check_pipe(program, results, folder):
    """A pipe in the place of the file in an info folder is read to its end."""
    info = os.path.join(folder, "pipe")
    pipe = os.path.join(info, "commit-graph")
    os.mkdir(info)
    os.mkfifo(pipe)
    threading.Thread(target=fill, args=(pipe, built.diamond()), daemon=True).start()
    right = partial(judge.verdict, reading.verified(built.diamond()))
    check_soon(results, "verify, a pipe in an info folder", right, partial(program.verify, info))


def fill(pipe, content):
    """Writes bytes into a pipe, as soon as somebody reads it."""
    with open(pipe, "wb") as file:
        file.write(content)


def check_path(program, results, name, path, text, **streams):
    """What `verify` and `find` say of a path, soon."""
    right = partial(judge.verdict, text)
    check_soon(results, "verify, " + name, right, partial(program.verify, path, **streams))
    check_soon(results, "find, " + name, right, partial(program.find, path, "ee" * 20, **streams))


def check_permission(program, results, folder):
    """A folder that must not be read. Where all may be read, the program is run as nobody, if that may be."""
    closed = os.path.join(folder, "closed")
    os.mkdir(closed)
    write_bytes(os.path.join(closed, "commit-graph"), built.diamond())
    os.chmod(closed, 0)
    streams = {"preexec_fn": partial(os.setuid, NOBODY)} if os.geteuid() == 0 else {}
    if may_run(program, streams):
        check_path(program, results, "a folder that must not be read", closed, NOT_OPENED, **streams)
        within = os.path.join(closed, "commit-graph")
        check_path(program, results, "a file in a folder that must not be read", within, NOTHING_FOUND, **streams)
    os.chmod(closed, 0o755)


def may_run(program, streams):
    """Whether the program can be run so."""
    try:
        return program.run("help", stdin=subprocess.DEVNULL, **streams).status == 2
    except (OSError, subprocess.SubprocessError):
        return False


def check_chain_files(program, results, folder):
    """Chain files of very many lines, and lines that lead elsewhere or hold no name."""
    content = built.file_of("sha1", [])
    name = content[-20:].hex()
    write_bytes(os.path.join(folder, "outside.graph"), content)
    cases = {
        "100,000 lines that name nothing": (b"missing\n" * MANY_LINES, NOT_OPENED),
        "100,000 empty lines": (b"\n" * MANY_LINES, NOT_OPENED),
        "100,000 lines, the last of which is no text": (b"missing\n" * MANY_LINES + b"\xff\n", NOT_OPENED),
        "a line that leads up": (b"x/../../outside\n", NOT_OPENED),
        "a line with ../": (b"../outside\n", NOT_OPENED),
        "a line with a NUL": (b"a\0b\n", NOT_OPENED),
        "a NUL after a right line": (name.encode() + b"\n\0\n", NOT_OPENED),
        "a line of 100,000 bytes": (b"a" * MANY_LINES, NOT_OPENED),
        "300 lines that name one layer": ((name + "\n").encode() * 300, "refused verify 1\n"),
    }
    for title, (lines, text) in cases.items():
        with tempfile.TemporaryDirectory(dir=folder) as graphs:
            write_bytes(os.path.join(graphs, "graph-%s.graph" % name), content)
            write_bytes(os.path.join(graphs, "commit-graph-chain"), lines)
            right = partial(judge.verdict, text)
            check_soon(results, "verify, a chain file of " + title, right, partial(program.verify, graphs))


def check_memory(program, results, path):
    """Each command on a graph of 100,000 commits, in each amount of memory from the least that starts it: its
    answer, or the stated line for want of memory. Where there is none for the words, they are no command."""
    content = built.line("sha1", COMMITS)
    write_bytes(path, content)
    root, child = content[1080:1100], content[1100:1120]
    found = next(iter(reading.found(content, root)))
    opens, walks = "refused open 7\n", ("ancestor", path, root.hex(), child.hex())
    commands = {
        "list": (("list",), 0, reading.listed(content), ("refused read 3\n", "refused file 20\n")),
        "verify": (("verify", path), 0, reading.verified(content), (opens, "refused verify 10\n")),
        "find": (("find", path, root.hex()), 0, found, (opens,)),
        "ancestor": (walks, 1, "none\nvisits 0\n", (opens, "refused verify 10\n", "refused walk\n")),
    }
    least = least_memory(program)
    factor = (MOST_MEMORY / least) ** (1 / LIMITS)
    for name, (words, status, text, wants) in commands.items():
        answers = [limited(program, words, path, int(least * factor**step)) for step in range(LIMITS + 1)]
        right = [(status, text), *((1, line) for line in wants)]
        wrong = [answer for answer in answers if not is_allowed(answer, right)]
        complaint = "status %s, %r, %r" % (wrong[0].status, wrong[0].out[:60], wrong[0].err[:60]) if wrong else None
        enough = judge.exactly(status, text, "", answers[-1]) or complaint
        results.check("%s, 100,000 commits in %d to %d KiB" % (name, least >> 10, MOST_MEMORY >> 10), enough)


def limited(program, words, path, size):
    """The answer to some words, with a file as input and so many bytes of memory."""
    limit = partial(resource.setrlimit, resource.RLIMIT_AS, (size, size))
    with open(path, "rb") as stdin:
        return program.run(*words, stdin=stdin, preexec_fn=limit)


def is_allowed(answer, right):
    """Whether an answer is one of these, each a status and a text, or says that the words are no command."""
    if (answer.status, answer.out, answer.err) == (2, b"", USAGE.encode()):
        return True
    return not answer.err and (answer.status, answer.out.decode()) in right


def least_memory(program):
    """The least memory in which the program starts, in whole pages."""
    low, high = PAGE, MOST_MEMORY
    while high - low > PAGE:
        middle = (low + high) // 2 // PAGE * PAGE
        started = limited(program, (), os.devnull, middle).status == 2
        low, high = (low, middle) if started else (middle, high)
    return high
