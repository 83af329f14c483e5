"""Runs of the programs under test."""

import resource
import subprocess
from typing import NamedTuple, Optional

SECONDS = 120
"""A run that takes longer is taken to hang."""

MOST_HANGS = 3
"""After so many runs that hang, the program is not run any more."""


class Answer(NamedTuple):
    """How a run ended: its exit status, None where it did not end, and what it wrote."""

    status: Optional[int]
    out: bytes
    err: bytes


HUNG = Answer(None, b"", b"")

LINES = set()
"""The first line of each answer but those with status 0, after the word that was asked with."""


def processor_seconds():
    """The seconds of processor that all runs so far have taken, however busy the machine is."""
    used = resource.getrusage(resource.RUSAGE_CHILDREN)
    return used.ru_utime + used.ru_stime


class AnyProgram:
    """A program in the file at a path."""

    def __init__(self, path):
        self.path = path
        self.hangs = 0

    def run(self, *words, **streams):
        """The answer to some words; the streams are those of subprocess.run."""
        if self.hangs >= MOST_HANGS:
            return HUNG
        streams = {"stdout": subprocess.PIPE, "stderr": subprocess.PIPE, **streams}
        try:
            run = subprocess.run((self.path,) + words, env={}, timeout=SECONDS, check=False, **streams)
        except subprocess.TimeoutExpired:
            self.hangs += 1
            return HUNG
        if run.returncode != 0 and run.stdout and words:
            # With `--newer`, and of `paths`, the answer stands behind the ids that are asked for, and an empty line.
            asks = "--newer" in words or words[0] == "paths"
            told = (b"\n" + run.stdout).partition(b"\n\n")[2] if asks else b""
            # A graph that `show` refuses is shown before the refusal, and `ask` answers until a read fails.
            LINES.add((words[0], (told or run.stdout).splitlines()[-1 if words[0] in ("show", "ask") else 0].decode()))
        return Answer(run.returncode, run.stdout or b"", run.stderr)


class Program(AnyProgram):
    """The program `graphtool`."""

    def list(self, layer):
        """The answer to `list` with these bytes on standard input."""
        return self.run("list", input=layer)

    def verify(self, path, **streams):
        """The answer to `verify` of a path."""
        return self.run("verify", path, stdin=subprocess.DEVNULL, **streams)

    def distinct(self, path, **streams):
        """The answer to `distinct` of a path."""
        return self.run("distinct", path, stdin=subprocess.DEVNULL, **streams)

    def find(self, path, commit, **streams):
        """The answer to `find` of an id at a path."""
        return self.run("find", path, commit, stdin=subprocess.DEVNULL, **streams)

    def ancestor(self, path, first, second, **streams):
        """The answer to `ancestor` of two ids at a path."""
        return self.run("ancestor", path, first, second, stdin=subprocess.DEVNULL, **streams)


class HistoryProgram(AnyProgram):
    """The program `historytool`."""

    def is_ancestor(self, path, first, second, **streams):
        """The answer to `is-ancestor` of two ids at a path."""
        return self.run("is-ancestor", path, first, second, stdin=subprocess.DEVNULL, **streams)

    def is_ancestor_unchecked(self, path, first, second, **streams):
        """The answer to `is-ancestor --unchecked` of two ids at a path."""
        return self.run("is-ancestor", "--unchecked", path, first, second, stdin=subprocess.DEVNULL, **streams)

    def walk(self, path, first, second, **streams):
        """The answer to `walk` of two ids at a path."""
        return self.run("walk", path, first, second, stdin=subprocess.DEVNULL, **streams)

    def walk_unchecked(self, path, first, second, **streams):
        """The answer to `walk --unchecked` of two ids at a path."""
        return self.run("walk", "--unchecked", path, first, second, stdin=subprocess.DEVNULL, **streams)

    def merge_base(self, path, first, *others, **streams):
        """The answer to `merge-base` of two ids or more at a path."""
        return self.run("merge-base", path, first, *others, stdin=subprocess.DEVNULL, **streams)

    def merge_base_unchecked(self, path, first, *others, **streams):
        """The answer to `merge-base --unchecked` of two ids or more at a path."""
        return self.run("merge-base", "--unchecked", path, first, *others, stdin=subprocess.DEVNULL, **streams)

    def merge_base_ids(self, path, first, *others, **streams):
        """The answer to `merge-base-ids` of two ids or more at a path."""
        return self.run("merge-base-ids", path, first, *others, stdin=subprocess.DEVNULL, **streams)

    def merge_base_ids_unchecked(self, path, first, *others, **streams):
        """The answer to `merge-base-ids --unchecked` of two ids or more at a path."""
        return self.run("merge-base-ids", "--unchecked", path, first, *others, stdin=subprocess.DEVNULL, **streams)

    def check(self, path, **streams):
        """The answer to `check` of a path."""
        return self.run("check", path, stdin=subprocess.DEVNULL, **streams)

    def show(self, path, **streams):
        """The answer to `show` of a path."""
        return self.run("show", path, stdin=subprocess.DEVNULL, **streams)

    def ids(self, path, *part, **streams):
        """The answer to `ids` of a path, or of a part of its positions."""
        return self.run("ids", path, *map(str, part), stdin=subprocess.DEVNULL, **streams)

    def objects(self, path, stream, *part):
        """The answer to `objects` of a path, or of a part of its positions, to the bytes of a stream."""
        return self.run("objects", path, *map(str, part), input=stream)

    def write(self, stream, *path, **streams):
        """The answer to `write` of the bytes of a stream, on top of the graph at a path, or of none."""
        return self.run("write", *path, input=stream, **streams)

    def merge(self, path, **streams):
        """The answer to `merge` of a path."""
        return self.run("merge", path, stdin=subprocess.DEVNULL, **streams)


class FilterProgram(AnyProgram):
    """The program of the crate `test_calls`."""

    def ask(self, layers, paths):
        """The answer about paths to files of layers, the lowest first."""
        return self.run("filters", *layers, input=b"".join(path.hex().encode() + b"\n" for path in paths))
