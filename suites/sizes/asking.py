"""Runs of the programs and calls of the library on one shape, each beside what its row says."""

import os
import subprocess

from sizes import answers, exports, table
from sizes.library import Library

SECONDS = 300
"""A run that takes longer hangs."""


def run(words, given=os.devnull, folder=None):
    """The status of a program, None where it hangs, and what it writes, also to standard error. It runs in a folder where that is told."""
    with open(given, "rb") as source:
        try:
            ended = subprocess.run(words, stdin=source, capture_output=True, cwd=folder, env={}, timeout=SECONDS, check=False)
        except subprocess.TimeoutExpired:
            return None, b""
    return ended.returncode, ended.stdout + ended.stderr


def text_of(row, shape):
    """The bytes that a row wants as the answer."""
    answer = row.answer(shape)
    if isinstance(answer, bytes):
        return answer
    return (answer if isinstance(answer, str) else "".join(answer)).encode()


def words_of(programs, row, shape):
    """The words of a row's command, with the path of its program."""
    name, *unchecked = table.base(row.name).split(" ")
    return [programs[name], name, *unchecked, *row.ask(shape)]


def ask_command(programs, row, shape):
    """A complaint about the answer of a command, or None."""
    wanted = text_of(row, shape)
    told = run(words_of(programs, row, shape), row.given(shape) if row.given else os.devnull)
    return answers.complaint(wanted, answers.status(wanted), told)


def ask_rust(programs, row, shape):
    """A complaint about what a call of Rust answers, or None."""
    told = run([programs[table.RUST], row.name], folder=row.ask(shape))
    return answers.complaint(text_of(row, shape), 0, told)


def line_of(row, shape):
    """The line of a question."""
    return " ".join([table.base(row.name)[len("ask ") :], *row.ask(shape)])


def ask_questions(program, rows, shape, flags):
    """For each question a complaint or None: all are asked in one run, and then once more."""
    path, times = os.path.join(shape.folder, "questions"), 2
    with open(path, "w", encoding="ascii") as file:
        file.writelines(line_of(row, shape) + "\n" for _ in range(times) for row in rows)
    status, told = run([program, "ask", *flags, shape.path], path)
    head, *texts = told.split(b"\n\n")
    right = [text_of(row, shape) for row in rows]
    texts = [text + b"\n" for text in texts[: times * len(rows)]] + [b""] * (times * len(rows) - len(texts))
    yield "ask", answers.complaint(table.counted(shape).encode(), 0, (status, head + b"\n"))
    for place, row in enumerate(rows):
        seen = [answers.complaint(right[place], 0, (0, texts[place + turn * len(rows)])) for turn in range(times)]
        yield row.name, next(filter(None, seen), None)


def ask_call(row, asked):
    """A complaint about what a call answers, or None."""
    try:
        seen, right = row.ask(asked)
    except exports.NotOpened as error:
        return str(error)
    if seen == right:
        return None
    return "it answers %s, and not %s" % (excerpt(seen), excerpt(right))


def excerpt(value):
    """The beginning of what a value looks like."""
    text = repr(value)
    return text if len(text) < 200 else text[:200] + ".."


class Rows:
    """The rows of the table, or those of some names, that are asked of the programs of the commands and of the library."""

    def __init__(self, programs, library, large, names):
        self.programs, self.library, self.large = programs, library, large
        self.names = {row.name for row in table.ROWS}.intersection(names) or {row.name for row in table.ROWS}

    def of(self, rows, shape):
        """Those of some rows that are asked of a shape."""
        for row in rows:
            if row.name in self.names and (shape.name in row.shapes or self.large):
                yield row

    def ask(self, results, shape):
        """Asks all that are for a shape."""
        for row in self.of(table.COMMANDS, shape):
            results.check("%s: %s" % (shape.title(), row.name), ask_command(self.programs, row, shape))
        questions = list(self.of(table.QUESTIONS, shape))
        for flags in ([], ["--unchecked"]) if questions else ():
            for name, complaint in ask_questions(self.programs["ask"], questions, shape, flags):
                results.check(" ".join(["%s: %s" % (shape.title(), name), *flags]), complaint)
        for row in self.of(table.RUST_CALLS, shape):
            results.check("%s: %s" % (shape.title(), row.name), ask_rust(self.programs, row, shape))
        self.ask_calls(results, list(self.of(table.CALLS, shape)), shape)

    def ask_calls(self, results, rows, shape):
        """Makes the calls of some rows."""
        try:
            asked = exports.Asked(Library(self.library), shape) if rows else None
        except exports.NotOpened as error:
            results.check("%s: the library opens it" % shape.title(), str(error))
            return
        for row in rows:
            results.check("%s: %s" % (shape.title(), row.name), ask_call(row, asked))
        if asked:
            asked.close()
