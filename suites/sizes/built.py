"""The programs and the library that are asked."""

import os
import subprocess

from sizes import table
from sizes.library import TOP
from wrappers.table import commands

NAMES = "graphtool", "historytool", "test_calls"


def read(words, known):
    """The paths and the names that the words of a command line give. Where there are paths, they come first, and the first is `-` or has
    a slash. Answers None where some are missing, or a name is none of those that are known."""
    count = len(NAMES) + 1 if words and (words[0] == "-" or "/" in words[0]) else 0
    given, names = words[:count], words[count:]
    return (given, names) if len(given) == count and known.issuperset(names) else None


def paths():
    """The paths of the programs and of the shared library, which are proved and built first where a source is newer."""
    archive = path_of("library")
    return [*(path_of("program", name) for name in NAMES), os.path.join(os.path.dirname(archive), "libcommitgraph.so")]


def path_of(script, *words):
    """The path that a script prints."""
    return subprocess.check_output([os.path.join(TOP, "building", script), *words], text=True).strip()


def by_command(found):
    """The path of the program of each command, and of the one that makes calls of Rust."""
    programs = dict(zip(NAMES, map(os.path.abspath, found)))
    return {**{command.word: programs[command.program] for command in commands()}, table.RUST: programs["test_calls"]}
