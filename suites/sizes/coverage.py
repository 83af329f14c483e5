"""Which commands, questions and calls there are. A table that lacks one is refused."""

import os
import re

from sizes import library, table
from wrappers.table import commands

QUESTIONS = os.path.join("crates", "question_lines", "src", "question.rt")
WORD = re.compile(r'word == b"([a-z-]+)"')


def all_names():
    """The names that the rows of a table have to have: of the commands, of those with `--unchecked`, with `--newer` and with both, and with
    `--exact`, of the questions, and of the calls that the header declares."""
    for command in commands():
        if command.word == "ask":
            yield from ("ask " + word for word in questions())
            continue
        yield command.word
        if command.may_be_unchecked():
            yield command.word + " --unchecked"
        if command.reads == "limited":
            yield command.word + " --exact"
        if command.reads == "newer":
            yield from (command.word + option for option in (" --newer", " --unchecked --newer"))
    yield from library.names()


def questions():
    """The words with which questions begin."""
    with open(os.path.join(library.TOP, QUESTIONS), encoding="utf-8") as file:
        return WORD.findall(file.read())


def complaints(rows):
    """What is wrong with the names of the rows of a table: one is missing, or is that of nothing."""
    named, known = {table.base(row.name) for row in rows}, list(all_names())
    yield from ("no row asks %s" % name for name in known if name not in named)
    yield from ("a row asks %s, which there is not" % name for name in sorted(named.difference(known)))


def check(results, title, rows):
    """Counts a check of the names of a table's rows."""
    found = list(complaints(rows))
    results.check(title, "; ".join(found) if found else None)
