"""Many runs of the program on small files, in several processes, as many a second as there can be.

Each process has one file on which the program runs, one for what the program writes, and starts it by
`posix_spawn`, which costs less than a fork of all of Python.
"""

import hashlib
import multiprocessing
import os
import signal
import tempfile
from typing import NamedTuple

from expected import further, reading

SECONDS = 60
"""A run that takes longer hangs."""

MOST_ANSWER = 2**24
"""No answer to a small file is longer than so many bytes."""


class Odd(NamedTuple):
    """A run that did not answer as it has to: the words, the file, and what is odd about it."""

    words: tuple
    content: bytes
    complaint: str


class Hung(Exception):
    """A run did not end in time."""


class Bench:
    """Runs of the program at a path, on one file in a folder of its own, that of a single commit-graph. A second program
    may be there for `check`.
    """

    def __init__(self, program, folder, histories=None):
        self.program = program
        self.histories = histories or program
        self.path = os.path.join(folder, "commit-graph")
        self.file = os.open(self.path, os.O_RDWR | os.O_CREAT | os.O_TRUNC)
        self.out = os.open(os.path.join(folder, "out"), os.O_RDWR | os.O_CREAT | os.O_TRUNC)
        self.given = os.open(os.path.join(folder, "given"), os.O_RDWR | os.O_CREAT | os.O_TRUNC)
        self.actions = [(os.POSIX_SPAWN_DUP2, self.file, 0)]
        self.actions += [(os.POSIX_SPAWN_DUP2, self.out, stream) for stream in (1, 2)]
        signal.signal(signal.SIGALRM, self.hang)

    @staticmethod
    def hang(*_):
        """Ends the wait for a run that hangs."""
        raise Hung

    def put(self, content):
        """Makes these bytes the file's."""
        os.ftruncate(self.file, 0)
        os.pwrite(self.file, content, 0)

    def run_on(self, given, *words):
        """The same as of `run`, where standard input has these bytes."""
        os.ftruncate(self.given, 0)
        os.pwrite(self.given, given, 0)
        os.lseek(self.given, 0, os.SEEK_SET)
        return self.run(*words, actions=[(os.POSIX_SPAWN_DUP2, self.given, 0), *self.actions[1:]])

    def run(self, *words, actions=None):
        """The status, negative for a signal and None where it hangs, and all that is written. Standard input is the file."""
        os.lseek(self.file, 0, os.SEEK_SET)
        os.ftruncate(self.out, 0)
        os.lseek(self.out, 0, os.SEEK_SET)
        program = self.histories if words[0] == "check" else self.program
        child = os.posix_spawn(program, (program, *words), {}, file_actions=actions or self.actions)
        signal.setitimer(signal.ITIMER_REAL, SECONDS)
        try:
            ended = os.waitpid(child, 0)[1]
            status = os.WEXITSTATUS(ended) if os.WIFEXITED(ended) else -os.WTERMSIG(ended)
        except Hung:
            os.kill(child, signal.SIGKILL)
            os.waitpid(child, 0)
            status = None
        signal.setitimer(signal.ITIMER_REAL, 0)
        return status, os.pread(self.out, MOST_ANSWER, 0)

    def complaint(self, wanted, *words):
        """None where the program answers one of the wanted texts, with the status that goes with it."""
        status, text = self.run(*words)
        if status is not None and text.decode("latin-1") in wanted and status == status_of(text):
            return None
        return "status %s and %r, expected %r" % (status, text[:80], min(wanted)[:80])

    def odd_run(self, content, commands, commit=b""):
        """The first of some commands on a file that answers otherwise than the slow reading, or None."""
        self.put(content)
        for command in commands:
            words, wanted = {
                "list": lambda: ((), {reading.listed(content)}),
                "verify": lambda: ((self.path,), {reading.verified(content)}),
                "check": lambda: ((self.path,), {further.checked_file(content)}),
                "find": lambda: ((self.path, commit.hex()), reading.found(content, commit)),
            }[command]()
            complaint = self.complaint(wanted, command, *words)
            if complaint:
                return Odd((command, *words), content, complaint)
        return None


def status_of(text):
    """The status that goes with an answer, by its first line."""
    if text.startswith(b"refused id"):
        return 2
    return 0 if text.startswith((b"layer ", b"ok ", b"position ", b"yes\n")) else 1


def in_processes(task, parts):
    """What a task gives for each part, each part in a process of its own, as many at once as processors."""
    with multiprocessing.Pool(min(len(parts), os.cpu_count() or 1)) as pool:
        return pool.starmap(task, parts)


def first_odd(program, cases, histories=None):
    """The number of cases, and the first run that is odd, or None. A case is a file, some commands, and an
    id to be found."""
    with tempfile.TemporaryDirectory() as folder:
        bench, count = Bench(program, folder, histories), 0
        for case in cases:
            count += 1
            odd = bench.odd_run(*case)
            if odd:
                return count, odd
        return count, None


def sealed(content):
    """The file with a right trailer for the kind of hash that its byte 5 says, if it is long enough."""
    size, kind = (32, "sha256") if content[5:6] == b"\x02" else (20, "sha1")
    if len(content) < size:
        return content
    return content[:-size] + hashlib.new(kind, content[:-size]).digest()
