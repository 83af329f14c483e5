"""Tables of cases, each of which says what programs write for some command lines, and with which status they end.

A case is one command line or more, each with a `$` before it, what is written, and the status in brackets. After the status stands
`usage` where standard error has to have the program's usage text, and nothing else may be written there. A `#` begins a comment.

In a command line, `A|B` stands for A and for B, and `[A]` for A and for nothing: it is run with each of these. `<` comes before the
files that standard input gets, one after another; without it the input is empty. It is a folder where `.` is given, so reading it
fails. Everywhere, `D*N` stands for N times D, as `1*40` for an id of 40 digits 1, and in a command line `D*N*M` for M such words.
"""

import itertools
import os
import re
import shlex
from typing import List, NamedTuple, Optional

FOLDER = os.path.join(os.path.dirname(os.path.dirname(os.path.abspath(__file__))), "tables")
ENDED = re.compile(r"\[(\d)(, usage)?\]")
TIMES = re.compile(r"\b(\w+)\*(\d+)\b")
SO_MANY = re.compile(r"(.+\*\d+)\*(\d+)")


class Case(NamedTuple):
    """A command line and what it has to give: its text, the program, its words, the names of what standard input gets, or None, the
    status, the output, and whether standard error has the usage text."""

    text: str
    program: str
    words: List[str]
    given: Optional[List[str]]
    status: int
    out: str
    has_usage: bool


def read(name):
    """The cases of a table."""
    with open(os.path.join(FOLDER, name), encoding="utf-8") as file:
        lines = iter(file.read().split("\n"))
    found = []
    for line in lines:
        if line.startswith("$ "):
            found += cases_from(line, lines)
        elif line and not line.startswith("#"):
            raise ValueError("%s: %r is in no case" % (name, line))
    return found


def cases_from(line, lines):
    """The cases of the command line that a line has, and of those in the lines after it, up to the status."""
    commands, out = [], ""
    while line.startswith("$ "):
        commands.append(line[2:])
        line = next(lines)
    while not ENDED.fullmatch(line):
        out += TIMES.sub(repeated, line) + "\n"
        line = next(lines)
    status, usage = ENDED.fullmatch(line).groups()
    return [Case(*told, int(status), out, bool(usage)) for command in commands for told in command_lines(command)]


def command_lines(text):
    """The command lines for which a text stands, each with the program, its words, and the names of its input."""
    for words in itertools.product(*map(choices, shlex.split(text))):
        program, *words = [word for several in words for word in several]
        given = words[words.index("<") + 1 :] if "<" in words else None
        yield text, program, words[: words.index("<")] if "<" in words else words, given


def choices(word):
    """The lists of words of which one stands in the place of a word."""
    if word.startswith("["):
        return [word[1:-1]], []
    if SO_MANY.fullmatch(word):
        one, count = SO_MANY.fullmatch(word).groups()
        return ([TIMES.sub(repeated, one)] * int(count),)
    return [[TIMES.sub(repeated, one)] for one in word.split("|")]


def repeated(match):
    """A text as often as it is asked for."""
    return match.group(1) * int(match.group(2))
